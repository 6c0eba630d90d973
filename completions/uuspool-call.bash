# What bash offers behind uuspool-call and the other commands of calls and deliveries.
# shellcheck shell=bash

# Names of files (-f) or folders (-d), which readline quotes, because anybody may have made them.
_uuspool_paths() {
    compopt -o filenames
    mapfile -t -O ${#COMPREPLY[@]} COMPREPLY < <(compgen "$1" -- "$2")
}

_uuspool_call() {
    local word=${COMP_WORDS[COMP_CWORD]} before=${COMP_WORDS[COMP_CWORD - 1]} command=${COMP_WORDS[0]##*/}
    local words='' options='' entries="${UUSPOOL_ETC:-/etc/uuspool}/calls"
    case $command in
    uuspool-call) options='-n -p -g --dry-run' ;;
    uuspool-night) options='-w -p' ;;
    uuspool-expire) options='-w' ;;
    uuspool-move) options='-k' ;;
    uuspool-refuse) options='-q' ;;
    uuspool-sys) options='-n' ;;
    uuspool-setup) options='--from-taylor -k --no-call' ;;
    uuspool-backup) options='-k' ;;
    uuspool-restore) options='-n' ;;
    uuspool-check) options='--metrics --monitor -s -w -c -W -C -r -m' ;;
    uuspool-log | uulog) options='-s -u -f -F -n' ;;
    esac
    COMPREPLY=()
    case $command:$before in
    uuspool-call:-g | uuspool-night:-p | uuspool-expire:-w | uuspool-log:-[un] | uulog:-[un] | uuspool-backup:-k | uuspool-restore:-n | uuspool-check:-[wcWCrm]) return ;;
    uuspool-log:-s | uulog:-s | uuspool-check:-s | uuspool-check:--metrics) ;;
    *) mapfile -t COMPREPLY < <(compgen -W "$options" -- "$word") ;;
    esac
    case $command:$COMP_CWORD:$before in
    uuspool-setup:2:--from-taylor) words='-k uucico taylor' ;;
    uuspool-setup:2:*) words='ssh folder command uucico taylor key seal' ;;
    uuspool-hold:2:*) words='off' ;;
    uuspool-setup:*:folder | uuspool-backup:* | uuspool-restore:*) _uuspool_paths -d "$word" ;;
    uuspool-setup:*:command | uuspool-sys:* | uuspool-postfix:* | uuspool-check:*:--metrics) _uuspool_paths -f "$word" ;;
    # The neighbours that there is a way to call.
    uuspool-call:* | uuspool-move:* | uuspool-hold:1:* | uuspool-setup:1:* | uuspool-answer:* | *log:*:-s | uuspool-check:*:-s)
        mapfile -t -O ${#COMPREPLY[@]} COMPREPLY < <(cd -- "$entries" 2>/dev/null && compgen -f -- "$word")
        ;;
    esac
    [ -z "$words" ] || mapfile -t COMPREPLY < <(compgen -W "$words" -- "$word")
}

complete -F _uuspool_call uuspool-call uuspool-night uuspool-answer uuspool-hold uuspool-deliver \
    uuspool-refuse uuspool-expire uuspool-move uuspool-setup uuspool-check uuspool-sys uuspool-postfix uuspool-backup uuspool-restore \
    uuspool-log uulog
