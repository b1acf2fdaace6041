# Reads a text line by line, cut into pieces as the front end cuts it, and keeps count of its lines
# by the line markers, those between %{ and }% included. A call of read_line sets
#   within: what the next line begins in: "" (nothing), a quote, "*" (a comment) or "{" (C code)
#   number, file, flags: the number of the line, the last name of a file, in its quotes, and what
#     was after that name
#   directive: what begins with # outside of strings, comments and C code, up to the line's end
#   inside: whether the whole line is between %{ and }%
#   said_inside: how many such lines are line markers

# Takes number and name from a line marker, and tells whether it is one.
function set_line(marker,    digits, rest) {
    if (!match(marker, /^#[ \t]*(line[ \t]+)?[0-9]+/)) return 0
    digits = substr(marker, 1, RLENGTH)
    rest = substr(marker, RLENGTH + 1)
    sub(/^[^0-9]*/, "", digits)
    if (length(digits) > 10 || digits + 0 > 2147483647 || rest !~ /^([ \t\r\v\f]|$)/) return 0
    number = digits - 1
    if (match(rest, /^[ \t]+"([^"\\]|\\.)*"/)) {
        file = substr(rest, 1, RLENGTH)
        flags = substr(rest, RLENGTH + 1)
        sub(/^[ \t]+/, "", file)
    }
    return 1
}

# Goes on after a byte, and tells whether it took the next one (if that is given) too.
function step(byte, next_byte) {
    if (within == "" && (byte next_byte == "/*" || byte next_byte == "%{")) within = next_byte
    else if (within == "*" && byte next_byte == "*/") within = ""
    else if (within == "{" && byte next_byte == "}%") within = ""
    else if (within ~ /["']/ && byte == "\\") return next_byte != ""
    else {
        if (within == "" && byte ~ /["']/) within = byte
        else if (within == byte && byte ~ /["']/) within = ""
        return 0
    }
    return 1
}

# Reads a line, and returns it. After C code that began in an earlier line, it says the line again.
function read_line(line,    again, byte, count, escaped, i, next_byte, piece, place, said) {
    number++
    directive = ""
    inside = within == "{" && index(line, "}%") == 0
    if (inside && match(line, /^[ \t]*#/)) said_inside += set_line(substr(line, RLENGTH))
    if (inside || within == "" && line !~ /["'\/%#]/) return line
    # Parted before each byte that may begin or end something: a line has no line ends of its own.
    piece[0] = line
    gsub(/["'\/%#\\*{}]/, "\n&", piece[0])
    count = split(piece[0], piece, "\n")
    place = length(piece[1])
    again = within == "{"
    for (i = 2; i <= count; i++) {
        byte = substr(piece[i], 1, 1)
        next_byte = piece[i] == byte && i < count ? substr(piece[i + 1], 1, 1) : ""
        if (within == "" && (byte == "#" || byte next_byte ~ /^(\/\/|%%)$/)) {
            if (byte == "#") directive = substr(line, place + 1)
            break
        }
        escaped = within ~ /["']/ && piece[i] == "\\" && i == count
        if (step(byte, next_byte)) place += length(piece[i++])
        if (again && within == "") {
            said = substr(line, 1, place + 1) "\n# " number " " file "\n" substr(line, place + 2)
            again = 0
        }
        place += length(piece[i])
    }
    if (within ~ /["']/ && !escaped) within = ""
    if (directive != "") set_line(directive)
    return said == "" ? line : said
}
