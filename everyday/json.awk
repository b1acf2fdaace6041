# The form of JSON: an object for each finding, one a line.

function begin_form() { return }

function tell_line(line,    file) {
    print line
    match(line, /^\{"file":"([^"\\]|\\.)*"/)
    count_finding(unescaped(substr(line, 10, RLENGTH - 10)))
}

# What a string of JSON says.
function unescaped(text,    next_byte, shown) {
    while (match(text, /\\./)) {
        next_byte = substr(text, RSTART + 1, 1)
        shown = shown substr(text, 1, RSTART - 1)
        if (next_byte == "u") {
            shown = shown byte_at(substr(text, RSTART + 4, 2))
            RLENGTH = 6
        } else shown = shown next_byte
        text = substr(text, RSTART + RLENGTH)
    }
    return shown text
}

function tell_sum(line) { return }

function tell_part(line) { return }

function end_form() { return }
