# The listing as it is.

function tell_row(row) {
    print row
}
