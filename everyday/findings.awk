# Tells what the program answered of each source, a finding a line, in the form of a terminal, which
# editors read: FILE:LINE: CODE TEXT, and the numbers of a file. A line of its input that begins
# with a byte 1 is no answer (sources.awk).
# The rows of a listing (list.awk, dot.awk, table.awk) have tell_row.

/^\001begin / { begin_source($2); is_answered = is_starved = is_told = 0; next }
/^\001end / { end_answer($2); next }
is_answered && $0 == "refused memory" { is_starved = 1; say("check: out of memory"); next }
is_answered { tell_row($0); next }
/^errors [0-9]+ warnings [0-9]+$/ { is_answered = 1; warnings = $4; tell_sum($0); next }
match($0, /: [EW][0-9][0-9] [^:]*$/) {
    take_finding(substr($0, 1, RSTART - 1), substr($0, RSTART + 2))
    next
}
{ take_fault($0) }

function end_answer(status) {
    if (status < 2 && !is_answered) {
        say("check: the program gave no answer for " names[source])
        status = 2
    } else if (status > 1 && files > 1 && !is_told)
        say("check: " names[source] " could not be checked")
    end_source(status > 1 || is_starved ? 2 : status)
}

# Tells a finding. One that has no file is at the text's first byte, or in a text without markers.
function take_finding(place, finding,    at, file) {
    findings++
    at = match(place, /[0-9]+$/)
    file = substr(place, 1, at - 2)
    if (file in is_of_system) {
        headers++
        header = file
    }
    if (at > 1) file = unprinted(file)
    else file = before == "lines" && first_file != "" ? first_file : names[source]
    put(file ":" substr(place, at) ": " finding)
}

function begin_form() { return }

function tell_sum(sum) {
    if (!quiet) put(sum)
}

# A picture has standard output for itself.
function put(line) {
    if (rows == "dot") say(line)
    else print line
}

function end_form() { return }

# Says why there is no answer; the name of what is too large is said too, if that is no device.
function take_fault(line,    name, is_named) {
    name = names[source]
    is_named = before || name == texts[source] || name == "<stdin>"
    is_told = line == "snl_cli: source too large" && is_named
    if (is_told)
        line = "check: " name " is over " limit " bytes" (before ? " after the preprocessor" : "")
    say(line)
}
