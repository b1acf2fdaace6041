# The listing as a table: names in place of numbers, and a line for each state, with where it leads
# to and what wakes it up.

function tell_row(row,    word) {
    split(row, word, " ")
    if (row ~ /^  /) take_of_state(word)
    else if (word[1] == "state") take_state(word, row)
    else {
        end_set()
        if (word[1] == "flag") print "flag " (meaning["f" word[2]] = named(word[3], word[4]))
        else if (word[1] == "channel") tell_channel(word, row)
        else if (word[1] == "ss") begin_set(word, row)
        else if (row != "end") print row
    }
}

# A name with its scope, where that is not the program.
function named(name, scope) {
    return (scope == "program" ? "" : scope ".") name
}

# Of a channel, what comes after its name in quotes may have the number of an event flag.
function tell_channel(word, row,    count, i, setting, shown) {
    meaning["c" word[2]] = named(word[3], word[4])
    match(row, /"[^"]*$/)
    shown = substr(row, 1, RSTART)
    count = split(substr(row, RSTART + 1), setting, " ")
    for (i = 1; i <= count; i++) {
        if (setting[i] ~ /^syncq?$/ && setting[i + 1] != "-")
            setting[i + 1] = meaning["f" setting[i + 1]]
        shown = shown " " setting[i]
    }
    sub(/^.[^"]* "/, "\"", shown)
    print "channel " meaning["c" word[2]] " " shown
}

function begin_set(word, row) {
    print "\nss " word[2] " line " place_of(word, row)
    take_row("state", "line", "mark", "leads to", "wakes on")
}

# The number of a line, after the name of its file where the listing names one.
function place_of(word, row,    at) {
    at = index(row, " in \"")
    if (!at) return word[4]
    row = substr(row, at + 5)
    sub(/"[^"]*$/, "", row)
    return unprinted(row) ":" word[4]
}

function take_row(state, line, mark, targets, wake) {
    states++
    cell[states, 1] = state
    cell[states, 2] = line
    cell[states, 3] = mark
    cell[states, 4] = targets
    cell[states, 5] = wake
}

function take_state(word, row,    mark) {
    mark = row
    sub(/^.* /, "", mark)
    take_row(word[2], place_of(word, row), mark, "", "")
}

# Adds what a line says of the state before it: an option, a target, or what wakes it up.
function take_of_state(word,    i) {
    if (word[1] == "option") cell[states, 1] = cell[states, 1] " " word[2]
    else if (word[1] == "when") add(4, word[3] (4 in word ? " ?" : ""))
    else if (word[1] == "goto") add(4, "goto " word[2] (3 in word ? " ?" : ""))
    else for (i = 2; i in word; i++) add(5, word[i] == "-" ? "-" : meaning[word[i]])
}

function add(column, text) {
    cell[states, column] = cell[states, column] (cell[states, column] == "" ? "" : ", ") text
}

# Prints the rows of a state set, each column as wide as its widest cell.
function end_set(    column, i, row, width) {
    for (i = 1; i <= states; i++)
        for (column = 1; column < 5; column++)
            if (length(cell[i, column]) > width[column]) width[column] = length(cell[i, column])
    for (i = 1; i <= states; i++) {
        row = " "
        for (column = 1; column < 5; column++)
            row = row sprintf(" %-" width[column] "s ", cell[i, column])
        row = row " " cell[i, 5]
        sub(/ +$/, "", row)
        print row
    }
    states = 0
    split("", cell)
}
