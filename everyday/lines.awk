# Prints a text that went through the preprocessor, with the line said again after each C block and
# without the lines within C blocks. Names in line markers are given their bytes above 126 again.

# The bytes of a line marker whose name has escapes in octal, as the preprocessor writes them.
function with_bytes(marker,    shown, digits) {
    while (match(marker, /\\(\\|"|[0-7][0-7][0-7])/)) {
        digits = substr(marker, RSTART + 1, RLENGTH - 1)
        shown = shown substr(marker, 1, RSTART - 1)
        shown = shown "" (digits >= "177" && digits ~ /^[1-3]/ ? byte_of(digits) : "\\" digits)
        marker = substr(marker, RSTART + RLENGTH)
    }
    return shown marker
}

function byte_of(octal) {
    return sprintf("%c", substr(octal, 1, 1) * 64 + substr(octal, 2, 1) * 8 + substr(octal, 3, 1))
}

/^[ \t]*#.*\\[0-7]/ && (within == "" || within == "{") { $0 = with_bytes($0) }
{ line = read_line($0) }
!inside { print line }
