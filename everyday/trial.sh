# What builds or unpacks a program runs it once: with these words (trial_words), and on an input at
# whose end it has status 0. crates.sh and release.sh read this.

trial_words=()
[ "$target" != snl_reporter ] || trial_words=(report)

trial() {
    local text='program p ss a { state i { when () { } state i } }' body
    case $target in
        snl_cli) printf 'edit 0 0 %d\n%s\n' "${#text}" "$text" ;;
        snl_reporter) printf 'text 1 %d\np%s' "${#text}" "$text" ;;
        snl_lsp)
            for body in '{"id":1,"method":"initialize"}' '{"id":2,"method":"shutdown"}' \
                '{"method":"exit"}'; do
                printf 'Content-Length: %d\r\n\r\n%s' "${#body}" "$body"
            done
            ;;
    esac
}
