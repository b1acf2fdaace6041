# The form of a report: lines by three, what is found or a note, the line where that is, and the
# marks under it. They may have colours.

function begin_form() { return }

function tell_line(line) {
    print line
    if (below) {
        below--
        return
    }
    below = 2
    gsub(/\033\[[0-9;]*m/, "", line)
    if (match(line, /:[0-9]+:[0-9]+: [EW][0-9][0-9] [^:]*$/))
        count_finding(substr(line, 1, RSTART - 1))
}

function tell_sum(line) {
    if (!quiet) print line
}

# What broke off is shown as far as it came.
function tell_part(line) {
    print line
}

function end_form() { return }
