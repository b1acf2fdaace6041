# Completes the words of snl-check in bash.

_snl_check() {
    local word=$2 before=$3 choices='' home
    # In --format=json the = is a word by itself.
    [ "$word" != = ] || word=''
    [ "$before" != = ] || before=${COMP_WORDS[COMP_CWORD - 2]}
    case $before in
        --format) choices='github json report sarif text' ;;
        --color) choices='auto always never' ;;
        --explain | [EW][0-9][0-9])
            # The codes are those that the page on the language explains.
            home=$(readlink -f "$(type -P snl-check)")
            choices=$(grep -oE '\b[EW][0-9]{2}\b' "${home%/*}/docs/LANGUAGE.md" | sort -u)
            ;;
        -I)
            mapfile -t COMPREPLY < <(compgen -d -- "$word")
            return
            ;;
    esac
    if [ -z "$choices" ] && [[ $word = -* ]]; then
        choices='--cpp -I -D --lines --list --table --dot --report --plain --format= --color='
        choices+=' --strict --quiet --explain --version --build --help --'
    fi
    if [ -n "$choices" ]; then
        mapfile -t COMPREPLY < <(compgen -W "$choices" -- "$word")
        [[ ${COMPREPLY[*]-} != *= ]] || compopt -o nospace 2> /dev/null
    else
        mapfile -t COMPREPLY < <(compgen -d -- "$word" && compgen -f -X '!*.@(st|stt)' -- "$word")
        compopt -o filenames 2> /dev/null
    fi
}
complete -F _snl_check snl-check
