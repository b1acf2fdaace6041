# Reads what the program tells in one of the forms that it makes, and counts by the last line of
# each text, NAME: errors E warnings W. Before these lines come the numbers of the sources that are
# reported on; after them an empty line, what the program said of a fault, and its status.
# A form (report.awk, json.awk ..) has begin_form, tell_line, tell_sum, tell_part and end_form, and
# calls count_finding.

/^\001/ && is_held { is_held = 0; tell_part(held) }
/^\001send / { sent[++sends] = $2; if (sends == 1) begin_source($2); next }
/^\001fault / { faults++; say(substr($0, 8)); next }
/^\001end / { end_report($2); next }
# A line is told where the next one is there: what broke off has no empty line after it.
is_held { take(held) }
{ is_held = $0 != ""; held = $0 }

function take(line) {
    if (match(line, /: errors [0-9]+ warnings [0-9]+$/)) take_sum(line, substr(line, RSTART + 2))
    else tell_line(line)
}

# Counts a finding in a file, and those that are in a header of the system.
function count_finding(file) {
    findings++
    if (file in is_of_system) {
        headers++
        header = printed(file)
    }
}

function take_sum(line, sum,    word) {
    split(sum, word, " ")
    tell_sum(line)
    warnings = word[4]
    end_source(word[2] > 0)
    if (++answered < sends) begin_source(sent[answered + 1])
}

# Tells for which sources the program gave no answer.
function end_report(status,    i) {
    for (i = answered + 1; i <= sends; i++) {
        if (status < 2) say("check: the program gave no answer for " names[sent[i]])
        else if (files > 1 || !faults) say("check: " names[sent[i]] " could not be checked")
        missed++
    }
    if (status > 1 && answered == sends) missed++
}

# A name in which the bytes of a set are written as % and two digits, without that.
function unpercented(name,    shown) {
    while (match(name, /%[0-9A-F][0-9A-F]/)) {
        shown = shown substr(name, 1, RSTART - 1)
        shown = shown byte_at(tolower(substr(name, RSTART + 1, 2)))
        name = substr(name, RSTART + RLENGTH)
    }
    return shown name
}

# The byte with a number of two hexadecimal digits.
function byte_at(digits) {
    return sprintf("%c", 16 * digit(substr(digits, 1, 1)) + digit(substr(digits, 2, 1)))
}
