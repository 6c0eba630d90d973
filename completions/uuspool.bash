# What bash offers behind `uuspool`: subcommands, and the options of each.
# shellcheck shell=bash

_uuspool() {
    local word=${COMP_WORDS[COMP_CWORD]} before=${COMP_WORDS[COMP_CWORD - 1]} subcommand='' at words
    local subcommands='load drop send request exec mail list show kill regrade rejuvenate due when
        queues status systems failed done forget pack unpack settle answer map neighbours name route routes batch init site vacuum renumber help'
    for ((at = 1; at < COMP_CWORD; at++)); do
        case ${COMP_WORDS[at]} in
        -c | --at | --as) ((at++)) ;;
        -*) ;;
        *) subcommand=${COMP_WORDS[at]} && break ;;
        esac
    done
    case $subcommand:$before in
    :-c)
        compopt -o filenames # (readline quotes these, because anybody may have made them)
        mapfile -t COMPREPLY < <(compgen -f -- "$word")
        return
        ;;
    :--at | :--as | *:-g | *:--once | *:--spool | *:--after | *:--most | *:-s | *:-u) return ;;
    esac
    case $subcommand in
    '') words="-c --at --as -h --help -V --version $subcommands" ;;
    send | request | exec | mail) words='-g --once -h --help' ;;
    list) words='-s -u -h --help' ;;
    when) words='-a -s -h --help' ;;
    due | queues | systems) words='-s -h --help' ;;
    pack | answer) words='-g --spool --after --most --no-jobs -h --help' ;;
    settle) words='--spool -h --help' ;;
    route | routes) words='--cost -h --help' ;;
    help) words=$subcommands ;;
    batch | init | site | vacuum | renumber) words='' ;;
    *) words='-h --help' ;;
    esac
    mapfile -t COMPREPLY < <(compgen -W "$words" -- "$word")
}

complete -F _uuspool uuspool
