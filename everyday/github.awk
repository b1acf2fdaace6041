# The form of annotations on GitHub, which are lines.

function begin_form() { return }

function tell_line(line) {
    print printable(line)
    match(line, / file=[^,]*/)
    count_finding(unpercented(substr(line, RSTART + 6, RLENGTH - 6)))
}

function tell_sum(line) { return }

function tell_part(line) { return }

function end_form() { return }

# A line with its control characters as \x and two digits, so that none is a command to a terminal.
function printable(line,    shown) {
    while (match(line, /[\001-\037\177]/)) {
        shown = shown substr(line, 1, RSTART - 1)
        shown = shown sprintf("\\x%02x", code_of(substr(line, RSTART, 1)))
        line = substr(line, RSTART + 1)
    }
    return shown line
}
