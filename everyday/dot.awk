# A graph of the state machines for Graphviz, made of a listing. The name of a node is the number of
# its state set, a mark, and the name of a state: "." for a state, "#" and a number for one of a
# name that was there before, "?" for a target that is no state, a blank for the program's end.

function tell_row(row,    word) {
    split(row, word, " ")
    if (word[1] == "program")
        print "digraph " quoted(word[2]) " {\n    node [shape=box, style=rounded];"
    else if (word[1] == "ss") begin_set(word[2])
    else if (word[1] == "state") tell_state(word[2], row)
    else if (word[1] == "when") tell_edge(word[3], word[4], "label=" quoted(word[2]))
    else if (word[1] == "goto") tell_edge(word[2], word[3], "style=dashed")
    else if (row == "end") end_graph()
}

function begin_set(name) {
    end_set()
    set_number++
    states = 0
    print "    subgraph " quoted("cluster " set_number) " {\n        label=" quoted(name) ";"
}

function end_set() {
    if (set_number) print "    }"
}

function end_graph() {
    end_set()
    print "}"
    set_number = 0
}

# The first state is bold. A state that no walk reaches is grey; one that is faulty, or has the name
# of an earlier one, is red.
function tell_state(name, row,    looks, mark) {
    mark = row
    sub(/^.* /, "", mark)
    states++
    node = quoted(set_number "" (mark == "repeated" ? "#" states : ".") name)
    looks = "label=" quoted(name)
    if (states == 1) looks = looks ", style=\"rounded,bold\""
    if (mark == "unreached") looks = looks ", style=\"rounded,filled\", fillcolor=lightgrey"
    if (mark == "faulty" || mark == "repeated") looks = looks ", color=red"
    print "        " node " [" looks "];"
}

# An edge from the state at hand, to the end of the program or to a target. One that is no state is
# dashed and red.
function tell_edge(target, is_unknown, looks,    to) {
    to = quoted(set_number "" (is_unknown ? "?" : ".") target)
    if (target == "exit") {
        to = quoted(set_number " exit")
        print "        " to " [label=\"exit\", shape=plaintext];"
    } else if (is_unknown) {
        print "        " to " [label=" quoted(target " ?") ", style=dashed, color=red];"
    }
    print "        " node " -> " to " [" looks "];"
}

function quoted(text) {
    gsub(/["\\]/, "\\\\&", text)
    return "\"" text "\""
}
