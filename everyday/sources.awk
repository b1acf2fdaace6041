# Keeps count of the sources, and gives hints on their texts. Its words are the names to show, then
# as many texts. A line of its input that begins with a byte 1 is no answer: it says which source
# comes now, with which status the program ended, or why a source is not checked. What reads the
# answers (findings.awk, reporter.awk) calls begin_source and end_source, and has begin_form and
# end_form.
# Settings: command, before (cpp, lines or nothing), quiet, strict, limit, and missed: how many
# sources were not there to be checked.

BEGIN {
    sources = (ARGC - 1) / 2
    for (i = 1; i <= sources; i++) {
        names[i] = ARGV[i]
        texts[i] = ARGV[sources + i]
    }
    ARGC = 1
    files = sources + missed
    begin_form()
}

/^\001miss / { missed++; say("check: " substr($0, 7)); next }

END {
    end_form()
    if (files > 1 && !quiet) say("check: " (faulty + 0) " of " files " files had errors" \
        (strict ? " or warnings" : "") (missed ? ", " missed " could not be checked" : ""))
    exit missed ? 2 : faulty ? 1 : 0
}

# Says a line on standard error, after all that was printed before it.
function say(line) {
    fflush()
    print line > "/dev/stderr"
}

function begin_source(place) {
    source = place
    warnings = findings = headers = 0
    study(texts[source])
}

# Counts a source that was answered with this status: 0 without errors, 1 with some, 2 not at all.
function end_source(status) {
    if (status > 1) missed++
    else if (status == 1 || strict && warnings) faulty++
    if (!quiet) give_hints()
}

function give_hints() {
    if (before != "cpp" && first_directive != "")
        say("check: " names[source] " has lines for the preprocessor, as " first_directive \
            ": " command " --cpp runs it")
    if (!before && findings && said_inside)
        say("check: " names[source] " has line markers in C code, and lines after it are wrong: " \
            command " --lines mends that")
    if (headers) say("check: " headers " findings are in headers of the system, as " header \
        ": a header for C code alone is included by %%#include")
}

# Reads a text for its files: the one that it begins with, those of the system, and those whose
# names have backslashes; and for its first line that is meant for the preprocessor.
function study(text,    line, lines, name, size) {
    split("", is_of_system)
    split("", has_backslash)
    first_file = first_directive = within = ""
    said_inside = 0
    while (size <= limit && (getline line < text) > 0) {
        size += length(line) + 1
        lines++
        file = flags = ""
        read_line(line)
        sub(/\r$/, "", directive)
        if (first_directive == "" && directive ~ /^#[ \t]*(define|include)([^A-Za-z0-9_]|$)/)
            first_directive = printed(substr(directive, 1, 60))
        if (file == "") continue
        name = printed(substr(file, 2, length(file) - 2))
        if (lines == 1) first_file = unprinted(name)
        if (index(file, "\\")) has_backslash[name]
        if (flags " " ~ / 3 /) {
            is_of_system[name]
            is_of_system[substr(file, 2, length(file) - 2)]
        }
    }
    close(text)
}

# A name as the program prints it.
function printed(name,    byte, i, shown) {
    if (name !~ /[^ -~]/) return name
    for (i = 1; i <= length(name); i++) {
        byte = substr(name, i, 1)
        shown = shown "" (byte ~ /[ -~]/ ? byte : sprintf("\\x%02x", code_of(byte)))
    }
    return shown
}

# A printed name with its bytes above 126 again; but one that has backslashes itself stays.
function unprinted(name,    high, low, shown) {
    if (name in has_backslash) return name
    while (match(name, /\\x(7f|[89a-f][0-9a-f])/)) {
        high = digit(substr(name, RSTART + 2, 1))
        low = digit(substr(name, RSTART + 3, 1))
        shown = shown substr(name, 1, RSTART - 1) sprintf("%c", 16 * high + low)
        name = substr(name, RSTART + RLENGTH)
    }
    return shown name
}

function digit(letter) {
    return index("123456789abcdef", letter)
}

# The number of a byte.
function code_of(byte,    i) {
    if (!(byte in codes)) for (i = 1; i < 256; i++) codes[sprintf("%c", i)] = i
    return codes[byte]
}
