# Completion of the words of sja in bash. A package has it as /usr/share/bash-completion/completions/sja; else
# `. completions/sja.bash`. checks/pages compares it with what the program's help names.

# _sja: of the words typed so far, which may come next; behind < or >, and behind run, check and their like, the names
# of files
_sja() {
    local current=${COMP_WORDS[COMP_CWORD]} before=${COMP_WORDS[COMP_CWORD - 1]}
    local at command= place=0
    COMPREPLY=()
    case $before in
    '<' | '>' | '>>')
        compopt -o filenames 2>/dev/null
        mapfile -t COMPREPLY < <(compgen -f -- "$current")
        return
        ;;
    esac
    for ((at = 1; at < COMP_CWORD; at++)); do
        case ${COMP_WORDS[at]} in
        '<' | '>' | '>>') at=$((at + 1)) ;;
        -*) ;;
        *) if [ -n "$command" ]; then place=$((place + 1)); else command=${COMP_WORDS[at]}; fi ;;
        esac
    done
    mapfile -t COMPREPLY < <(compgen -W "$(_sja_words "$command" "$place")" -- "$current")
    case $command in
    run | wave | trace | frames | picture | candump | check | sweep | registers | plan)
        compopt -o filenames 2>/dev/null
        [[ $current == -* ]] || mapfile -t -O "${#COMPREPLY[@]}" COMPREPLY < <(compgen -f -- "$current")
        ;;
    esac
}

# _sja_words COMMAND PLACE: the words that may stand behind this command and so many arguments
_sja_words() {
    local commands="encode decode filter arbitrate message run wave trace frames picture candump check sweep registers plan live help"
    case $1 in
    '') echo "$commands -h --help -V --version" ;;
    encode | decode | arbitrate | message | registers | plan | live) echo "-h --help" ;;
    run) echo "--threads --jobs --expect -h --help" ;;
    wave) echo "--threads --jobs -h --help" ;;
    frames) echo "--bits --threads --jobs -h --help" ;;
    trace) echo "--threads -h --help" ;;
    check) echo "--jobs --strict -h --help" ;;
    picture) echo "--svg --threads --yes -h --help" ;;
    candump) echo "--errors --threads --jobs -h --help" ;;
    sweep) echo "--only --from --to --pairs --changed --twice --lost --stuck --rows --yes --jobs --plan -h --help" ;;
    filter) if [ "$2" = 0 ]; then echo "single dual -h --help"; else echo "-h --help"; fi ;;
    help) if [ "$2" = 0 ]; then echo "$commands"; fi ;;
    esac
}

complete -F _sja sja
