# Has one process tell what is found in all texts, in the form that is asked for. ./check reads this
# for each form but lines. What the program reads is for each text a line with the lengths of name
# and text, the name, and the text.

# A text of at most so many bytes is read by the shell, which starts no process for it.
small=65536

# Whether a report is to have colours. Emacs reads the output of a compilation as it is.
has_colors() {
    case $color in
        always) return 0 ;;
        never) return 1 ;;
    esac
    [ -t 1 ] && [ -z "${NO_COLOR-}${INSIDE_EMACS-}" ] && [ "${TERM:-dumb}" != dumb ]
}

arguments=("$form")
[ "$form" != report ] || ! has_colors || arguments+=(color)

report_all() {
    local number sent=() named=() bodies=() sizes=()
    for number in "${!names[@]}"; do
        [ "${texts[number]}" = "${files[number]}" ] || make_text "$number" || continue
        take_text "$number" && name_text "$number" && sent+=("$number") \
            && mark send $((number + 1))
    done
    [ "${#sent[@]}" = 0 ] || run_program
}

# Has the program report on what is sent to it. What it says of a fault is told among the reports,
# so not where nobody reads these any more. A line that broke off ends before that.
run_program() {
    local chosen=${GLIBC_TUNABLES-$tunables} input faults line status
    exec {faults}<> <(:)
    exec {input}> >(GLIBC_TUNABLES=$chosen exec "$program" "${arguments[@]}" 2>&"$faults")
    # The program may end before it has read all.
    trap '' PIPE
    send >&"$input"
    trap 'exit 2' PIPE
    exec {input}>&-
    wait $!
    status=$?
    end_line
    while read -t 0 -u "$faults" && IFS= read -r -t 1 -u "$faults" line; do
        mark fault "$line"
    done
    mark end "$status"
}

end_line() {
    echo
} 2> /dev/null

# Takes in a text, by its number: a small one as it is, and another one in a copy, which stays as it
# is while it is sent. A byte 0 is nothing that the shell can hold.
take_text() {
    local LC_ALL=C text body=''
    { exec {text}< "${texts[$1]}"; } 2> /dev/null \
        || { unable "${names[$1]} cannot be read" && return 1; }
    if IFS= read -r -d '' -n $((small + 1)) -u "$text" body; then
        exec {text}<&-
        copy_text "$1"
    else
        exec {text}<&-
        bodies[$1]=$body sizes[$1]=${#body}
    fi
}

# Takes in a copy of a text, if that has not too many bytes.
copy_text() {
    local copied=${texts[$1]}
    [ -n "${room-}" ] || . "$parts/texts.sh"
    if [[ $copied != "$room"/* ]]; then
        copied=$room/copy$1
        copy "${texts[$1]}" $((limit + 1)) > "$copied" \
            || { unable "${names[$1]} cannot be read" && return 1; }
    fi
    texts[$1]=$copied
    sizes[$1]=$(stat -c %s "$copied")
    [ "${sizes[$1]}" -le "$limit" ] && return
    unable "${names[$1]} is over $limit bytes${before:+ after the preprocessor}"
    return 1
}

# Names a text. With --lines what is found at its first byte has the name that its first line gives
# to the source; but a report ends with the name of the text.
name_text() {
    local LC_ALL=C first=''
    local marker='^#[[:blank:]]*(line[[:blank:]]+)?[0-9]+[[:blank:]]+"(([^"\\]|\\.)+)"'
    named[$1]=${names[$1]}
    [ "$before" = lines ] && [ "$form" != report ] || return 0
    IFS= read -r first < "${texts[$1]}"
    [[ ! $first =~ $marker ]] || named[$1]=${BASH_REMATCH[2]}
} 2> /dev/null

# Writes all that the program reads.
send() {
    local LC_ALL=C number
    for number in "${sent[@]}"; do
        printf 'text %d %d\n%s' "${#named[number]}" "${sizes[number]}" "${named[number]}"
        if [ -n "${bodies[number]+small}" ]; then
            printf %s "${bodies[number]}"
        else
            cat "${texts[number]}"
        fi || return
    done
} 2> /dev/null
