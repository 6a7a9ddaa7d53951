# Completion for bash: the subcommands of hart, and the options of each, and those of hart-ask. tools/manual.sh checks it against --help.
_hart() {
    local words
    case $COMP_CWORD:${COMP_WORDS[1]} in
    1:*) words='answer dump explain serve master sim request encode help --help --version' ;;
    *:help) words='answer dump explain serve master sim request encode help' ;;
    *:answer | *:serve | *:sim) words='--image --help' ;;
    *:explain) words='--raw --json --help' ;;
    *:master) words='--who --retries --limit --preambles --help' ;;
    *:encode | *:request) words='--preambles --help' ;;
    *) words='--help' ;;
    esac
    mapfile -t COMPREPLY < <(compgen -W "$words" -- "${COMP_WORDS[COMP_CWORD]}")
}
complete -F _hart hart

# Completion of hart-ask: its options, and ports.
_hart_ask() {
    local words='--tag --master --raw --json --retries --limit --silence --hart --help'
    case ${COMP_WORDS[COMP_CWORD]} in
    /*) mapfile -t COMPREPLY < <(compgen -f -- "${COMP_WORDS[COMP_CWORD]}") ;;
    *) mapfile -t COMPREPLY < <(compgen -W "$words" -- "${COMP_WORDS[COMP_CWORD]}") ;;
    esac
}
complete -F _hart_ask hart-ask
