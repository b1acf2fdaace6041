# Prints the row of a code, in the tables of docs/LANGUAGE.md whose first column has codes.

/^#/ { title = $0; sub(/^#+ */, "", title) }
!/^\|/ { columns = 0; next }
{
    sub(/^\| */, "")
    sub(/ *\|$/, "")
    count = split($0, cell, / *\| */)
}
!columns { columns = split($0, heading, / *\| */); next }
heading[1] == "Code" && cell[1] == code {
    found = 1
    print code " (" title ")"
    for (i = 2; i <= count; i++) print "    " heading[i] ": " cell[i]
}

END { exit !found }
