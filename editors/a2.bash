# Completion of commands, options and files for a2 and a2lab, for bash: . editors/a2.bash
# The table `words` beside this file lists them; an installed file contains the table.
_a2_words="$(<"${BASH_SOURCE[0]%/*}/words")"

_a2() {
    local typed="${COMP_WORDS[COMP_CWORD]}" before="${COMP_WORDS[COMP_CWORD - 1]}" place=$((COMP_CWORD - 2))
    local program word what words='' options='' endings=()
    COMPREPLY=()
    while read -r program word what _; do
        [[ "$program" == "${1##*/}" ]] || continue
        if [[ "$word" == - ]]; then
            place=$((COMP_CWORD - 1))
        elif ((COMP_CWORD == 1)); then
            [[ " $words " == *" $word "* ]] || words+=" $word"
            continue
        fi
        [[ "$word" == - || "$word" == "${COMP_WORDS[1]}" ]] || continue
        # (a value can be anything)
        [[ "$what" != "$before"=* ]] || return 0
        case "$what" in
            -*) options+=" ${what%=*}" ;;
            *) IFS=, read -ra endings <<<"$what" ;;
        esac
    done <<<"$_a2_words"
    if [[ "$words" || "$typed" == -* ]]; then
        mapfile -t COMPREPLY < <(compgen -W "$words$options" -- "$typed")
    elif [[ "$before" != = ]] && ((${#endings[@]} > 0)); then
        ((place < ${#endings[@]})) || place=-1
        mapfile -t COMPREPLY < <(compgen -f -X "!*${endings[place]}" -- "$typed"; compgen -d -S / -- "$typed")
        [[ "${COMPREPLY[0]:-}" != */ ]] || compopt -o nospace
    fi
}

while read -r _a2_program _; do
    [[ "$_a2_program" == [!a-z]* || ! "$_a2_program" ]] || complete -o filenames -F _a2 "$_a2_program"
done <<<"$_a2_words"
unset _a2_program
