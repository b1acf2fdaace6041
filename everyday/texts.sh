# Makes texts that are no plain files: of standard input and pipes, and what the preprocessor
# leaves. ./check reads this where it needs it.

room=$(mktemp -d) || exit 2
trap 'rm -rf "${room:-}" "${apart:-}"' EXIT
read -ra preprocessor <<< "${CPP:-cpp}"
[ "$before" != cpp ] || command -v "${preprocessor[0]-}" > /dev/null \
    || fail "there is no preprocessor ${preprocessor[*]-}: \$CPP names one"

# Makes the text of a source, by its number.
make_text() {
    local file=${files[$1]} text=${texts[$1]} why="${names[$1]} cannot be read"
    case $before in
        cpp)
            why="the preprocessor failed on ${names[$1]}"
            preprocess "$file" > "$text.made" \
                && why="the preprocessor gave nothing for ${names[$1]}" && [ -s "$text.made" ] \
                && say_lines "$text"
            ;;
        lines) copy "$file" 67108864 > "$text.made" && say_lines "$text" ;;
        *) copy "$file" $((limit + 1)) > "$text" ;;
    esac || { unable "$why" && return 1; }
}

# Runs the preprocessor on a file.
preprocess() {
    local file=$1
    [[ $file != -?* ]] || file=./$file
    "${preprocessor[@]}" "${flags[@]}" "$file"
}

# Says the lines of a text again where its C code has line markers.
say_lines() {
    LC_ALL=C awk -f "$parts/pieces.awk" -f "$parts/lines.awk" < "$1.made" > "$1"
}

# Copies the bytes of a file or of standard input, up to so many: it may have no end.
copy() {
    if [ "$1" = - ]; then head -c "$2"; else head -c "$2" < "$1"; fi
} 2> /dev/null
