# shellcheck shell=sh
# What uux, uucp, uustat, uuname and uulog share: reading options, asking the spool, and the statuses,
# which are those of sysexits. Words come from strangers. Each is passed on as one word, after `=`
# or `--`, and no shell reads it again.

set -uf
# Whoever uses a stream that was closed gets an error, and no other file has its number. (What is said on a closed standard error is lost.)
true 9>&2 || exec 2>/dev/null
true 2>/dev/null 9<&0 || exec 0>/dev/null
true 2>/dev/null 9>&1 || exec 1</dev/null
bin=/usr/local/bin
front=${0##*/}
usage=64   # the words are wrong
refused=69 # the spool refuses it, or has no form for it
later=75   # try again
export LC_ALL=C
# By a small limit of a file's size (ulimit -f) a write fails, and ends nothing that has queued a job.
trap '' XFSZ
stops='HUP INT QUIT ALRM TERM USR1 USR2 VTALRM PROF XCPU' # what ends a shell that can still tidy up

# A local user may not enter the spool's folder, so he asks by sudo, which says who he is. Whatever else the owner runs may
# take a folder, a terminal, an open file or keys from what sudo begins, so that gets none of the user's: in a session of its own
# sudo finds no terminal. Lines of root run as the folder's owner (see below).
spool=$bin/uuspool member='' by_sudo='' as_owner='' common=/var/spool/uuspool site='' why_not=''
most_printed=16777216 too_much=141 # the bytes that are kept of what the owner's line prints, if root asks, and its status beyond
has_input=''                       # whether the line reads standard input
is_kept=''                         # whether $input is a file without a name
only_members='members of the group uuspool may do this, from their next login on'
newline='
'
if [ -z "${UUSPOOL_DIR-}" ] && [ -d "$common" ] && ! [ -O "$common" ] && ! [ -O uuspool.toml ] && ! [ -O / ]; then
    its_owner=$(stat -L -c %U "$common")
    member=yes spool=ask_by_sudo by_sudo="env -C / $lib/without-keys setsid -w sudo -n -u $its_owner -- $lib/for-user"
    [ "$its_owner" != root ] || spool=ask_nobody
fi

# If not all pieces of a file are queued, none of them stays. Each names $its_pieces. If a shell can't go on, for
# example because it can't fork, it ends with a status of its own, also in here, unless `command` runs what can't.
its_pieces='' stopped=''
end() {
    status=$?
    # shellcheck disable=SC2086 # (several words)
    trap '' $stops PIPE
    has_input=''
    [ -z "$its_pieces" ] || command eval remove_pieces || printf '%s\n' "$front: some pieces may wait for $system: uustat -k removes them" >&2
    case $status in 0 | "$usage" | "$refused" | "$later") ;; *) exit "$later" ;; esac
}
trap end EXIT

# What queued a piece may have been killed before it said the number, so the list is searched. (If the program refuses
# these words, it took no piece. That the end is seen says that awk read all.)
remove_pieces() {
    run_line list -s"$system"
    case $how in answered) ;; refuses | misread) return 0 ;; *) return 1 ;; esac
    left=0
    numbers=$(printf '%s\nend\n' "$said" | awk -v file="$its_pieces" '
        $8 == "exec" && $9 == "uuspool-piece" && $10 == file { print $1 }
        { last = $0 }
        END { exit (last != "end") }') || return
    for number in $numbers; do
        run_line --as="$user" kill "$number"
        [ "$how" = answered ] || left=1
    done
    return "$left"
}

fail() {
    plainly "$front: $2" >&2
    exit "$1"
}

# Prints a text. The spool's user may have chosen a part of it, and no terminal obeys that.
plainly() { printf '%s\n' "$1" | tr -c "$readable" '?'; }
readable=' -~\t\n'

# Calls `option NAME VALUE` of the script for each option of the words: `-g` or `--grade`. $valued has the names
# with a value. $used is then the number of words that were options.
read_options() {
    total=$#
    while [ $# -gt 0 ]; do
        word=$1
        case $word in
        --) shift && break ;;
        -h | --help) sed -n '2,/^[^#]/s/^# \{0,1\}//p' "$0" && exit ;; # (the comment at the head of the script)
        --*=?*) name=${word%%=*} value=${word#*=} ;;
        - | --*) name=$word value='' ;;
        -*) value=${word#-?} name=${word%"$value"} ;;
        *) break ;;
        esac
        shift
        case " $valued " in
        *" $name "*)
            # If a value is empty, its option may come right before the `-` that means standard input.
            if [ -z "$value" ] && [ "${1-}" != - ]; then
                [ $# -gt 0 ] || fail "$usage" "$name wants a value"
                value=$1
                shift
            fi
            ;;
        *)
            case $word in --*=* | -?-*) unknown "$word" ;; esac
            # What is behind a letter are more letters.
            [ -z "$value" ] || set -- "-$value" "$@"
            ;;
        esac
        option "$name" "$value"
    done
    used=$((total - $#))
}

unknown() { fail "$usage" "no option $1: see $front --help"; }

# Runs a line of the program. $said is what it printed, with what it said besides unless it answered, and $how says how it ended: it
# answered, refuses, or misread words or settings. Nobody knows it if $how is nothing: then sudo, setsid or a shell that can't fork may have
# ended with a status that the program has, too. So whoever ran the program writes its status behind the output, and what it says
# has to be there. Nothing begins after the program's end, so that nothing can fail then.
# A key of the terminal ends nothing that queues a piece. What sudo warns of is no part of an answer.
run_line() {
    said=$(
        # shellcheck disable=SC2086
        [ -z "$its_pieces" ] || trap '' $stops
        exec 3>&1
        errors=$({ $spool "$@" 3>&-; printf '\n=%s' "$?" >&2; } 2>&1 >&3)
        ended=${errors##*"$newline="} errors=${errors%"$newline="*}
        case $ended in *[!0-9]*) ended='' ;; esac
        [ "$ended" = 0 ] || printf %s "$errors"
        printf '\n=%s\n' "$ended"
        [ "$ended" != 0 ] || [ -z "$errors" ] || plainly "${errors%"$newline"}" >&2
    )
    case $said in *"$newline="*) ended=${said##*"$newline="} said=${said%"$newline="*} ;; *) ended='' ;; esac
    said=${said%"$newline"} how=''
    case $ended:$newline$said in
    0:*) how=answered ;;
    1:*"$newline"refused\ * | 1:*"$newline"'no route'*) how=refuses ;;
    2:*"$newline"uuspool:\ * | 2:*"$newline"error:\ *) how=misread ;;
    esac
}

# Asks the spool. If the request fails, it prints the error and ends with a status of sysexits. Faulty settings are the site's fault, so a
# message waits until they are corrected. They fail a question with right words, too. So is a clock beyond what the program knows.
ask() {
    run_line "$@"
    status=$later
    case $how:$ended:$newline$said in
    answered:*) return ;;
    refuses:*) status=$refused ;;
    misread:*"$newline"'uuspool: time: MomentRange'*) ;;
    misread:*) if $spool name >/dev/null 2>&1; then status=$usage; fi ;;
    :"$too_much":*) said="uuspool printed more than $((most_printed >> 20)) MiB, or was ended: ask as the owner of the spool" ;;
    :1:*) if is_kept_out; then status=$refused; fi ;;
    esac
    plainly "${said:-uuspool ended with status ${ended:-unknown}, and said nothing}" >&2
    [ "$how:$status" != ":$refused" ] || fail "$status" "$only_members"
    exit "$status"
}

# Whether sudo says that the user may not do this, and not, for example, that it can't fork.
is_kept_out() {
    case $member:$said in
    yes:*'is required'* | yes:*'not allowed'* | yes:*'may not run'* | yes:*'not in the sudoers'*) ;;
    *) return 1 ;;
    esac
}

# Prints an answer.
print() {
    ask "$@"
    [ -z "$said" ] || plainly "$said" || fail "$later" 'cannot write'
}

# Runs a line by sudo, with no input but that of a job.
ask_by_sudo() {
    if [ -n "$has_input" ]; then $by_sudo "$@"; else $by_sudo "$@" </dev/null; fi
}

# A spool that root just put there without its owner is no reason to return the mail of a mailer, which isn't its owner then.
ask_nobody() {
    printf '%s\n' "uuspool: $common belongs to root: chown -R gives it to the user of the spool" >&2
    return "$later"
}

# Prints what a member's line prints, each line as it comes, and ends as that does. (sudo's own status is 1.)
pass_on() {
    {
        ended=$({
            {
                { $spool "$@" 3>&- 4>&- 5>&-; echo "$?" >&4; } 2>&3 | stdbuf -oL tr -c "$readable" '?' >&5
            } 3>&1 | stdbuf -oL tr -c "$readable" '?' >&2
        } 4>&1)
    } 5>&1
    [ "$ended" != 1 ] || fail "$refused" "$only_members, and only if enough processes can begin (ulimit -u)"
    exit "${ended:-$later}"
}

# Asks which site this is. $site is then what `uuspool site` printed, or else $why_not says why it printed nothing. If it
# was killed, as by a limit, nobody knows whether there is a site.
ask_site() {
    [ -z "$site" ] || return 0
    site=$("$bin/uuspool" site 2>&1) && return
    ended=$? why_not=$site site=''
    case $ended in
    2 | 5) ;; # (its settings are wrong, or can't be read)
    *) why_not="uuspool: nobody knows which site this is, because \`uuspool site\` ended with status $ended: try again, without a limit (ulimit -a)" ;;
    esac
    return "$ended"
}

# What `uuspool site` says after a word, for example `folder`. Anybody may ask this, because it opens no spool.
site_says() {
    ask_site || fail "$later" "${why_not#uuspool: }"
    while IFS= read -r its_line; do
        case $its_line in "$1 "*) printf '%s\n' "${its_line#"$1 "}" ;; esac
    done <<END
$site
END
}

# Lines of root run as the user to whom the spool's folder belongs, because files of root would lock that
# user out. They count as root's. Nothing in the working directory counts then. If nobody knows whose the folder is, no
# line runs: as root it would work wherever the settings lead by then. It is asked once, because the owner may put another folder there.
act_as_owner() {
    spool=no_site
    ask_site || return 0
    settings=$(site_says settings) && folder=$(site_says folder) || exit
    why_not="uuspool: $folder, the folder of the spool, is not there"
    [ -d "$folder" ] || return 0
    expect_one_owner
    spool=$bin/uuspool
    [ "$owner" != root ] || return 0
    [ "$settings" = /etc/uuspool/uuspool.toml ] || export UUSPOOL_DIR="${settings%/*}"
    as_owner="$lib/as-owner -m $most_printed $owner" spool=ask_as_owner
}

# Runs a line as the owner, with no input but that of a job. Whatever else the owner runs may write into its pipe, so as-owner ends what
# prints more than is kept, with the status $too_much. (A process here that copied it might not begin, though the line is carried out.)
ask_as_owner() { "$lib/as-owner" ${has_input:+-i} -m "$most_printed" "$owner" "$bin/uuspool" "$@"; }

# What stands for the program then.
no_site() {
    plainly "$why_not" >&2
    return 5
}

# Settings that a user may write lead root to no site of somebody else.
expect_one_owner() {
    owner=$(stat -L -c %U -- "$folder") && writers=$(stat -c %U -- "$settings" && stat -L -c %U -- "$settings" "${settings%/*}") || exit
    for writer in $writers; do
        case $writer in root | "$owner") continue ;; esac
        fail "$later" "$writer may write $settings, but $folder, which it names, is not of $writer: correct it"
    done
}

# queue KIND WORD..: queues a job of $user for $system. $number is then its number.
queue() {
    kind=$1
    shift
    has_input=yes
    ask --as="$user" "$kind" -g "$grade" -- "$system" "$@"
    has_input=''
    number=${said#job } number=${number%%[!0-9]*}
}

# Prints the number of a job that waits, if it is asked for. If nobody takes it, the job waits all the same: by another status than 0 it
# would be queued again.
print_number() {
    [ -n "$numbers" ] || return 0
    trap '' PIPE
    printf '%s\n' "$number" 2>/dev/null || plainly "$front: job $number waits, but its number cannot be written" >&2
    trap - PIPE
}

# queue_file KIND WORD..: queues the file $input, which messages call $its_name, as a job of this kind. It goes
# in pieces if it is larger than a job, or if a piece has to say $wishes.
queue_file() {
    look_at_pieces
    if [ -c "$input" ]; then keep_typed <"$input" || fail "$later" "$its_name: cannot read"; fi
    size=$(stat -L -c %s -- "$input") || fail "$later" "$its_name: cannot read"
    if [ "$size" -gt "$most" ] || [ -n "$wishes" ]; then
        # shellcheck disable=SC2086 # (no wish has a blank in it)
        queue_pieces "$@" $wishes
    elif [ -n "$is_kept" ]; then
        queue "$@" <"$input" || fail "$later" "$its_name: cannot read"
    else
        # (Whatever else the owner runs may keep open what this gives away. So that is no file of a user's, who may write into it later.)
        at=0 piece=$((size > 0 ? size : 1))
        read_piece
        queue "$@" <&4
    fi
    print_number
}

# Finds how many bytes a job for the system may have, and how many a piece has. If its entry names those of
# a piece, no larger job goes whole.
look_at_pieces() {
    most=1048576 piece=1000000 entry=${UUSPOOL_ETC:-/etc/uuspool}/calls/$system
    [ -f "$entry" ] && [ -r "$entry" ] && ! [ -x "$entry" ] || return 0
    named=$(awk -F '[=#]' '
        $1 ~ /^[ \t]*"?piece"?[ \t]*$/ { gsub(/[ \t_]/, "", $2); if ($2 ~ /^[0-9]+$/ && $2 + 0 >= 1000 && $2 + 0 <= 1048576) named = $2 }
        END { print named }' "$entry") || fail "$later" "$entry cannot be read"
    [ -z "$named" ] || most=$named piece=$named
}

# Each piece says which file it belongs to, by sum, size, length of a piece and a mark of its own, where it
# begins, and what is to be done with the whole. The number of the first is that of the file. (Of a file that grows goes what it had.)
queue_pieces() {
    [ "$size" -le "$most" ] || expect_room "$@"
    # shellcheck disable=SC2086
    trap 'stopped=yes' $stops
    sum=$(head -c "$size" <"$input" | sha256sum) && read -r mark </proc/sys/kernel/random/uuid || fail "$later" "$its_name: cannot read"
    its_pieces=${sum%% *}.$size.$piece.$mark at=0 first=''
    while [ "$at" -eq 0 ] || [ "$at" -lt "$size" ]; do
        [ -z "$stopped" ] || exit "$later" # (A stop that comes with the last piece changes nothing.)
        read_piece
        queue exec uuspool-piece "$its_pieces" "$at" "$@" <&4
        first=${first:-$number} at=$((at + piece))
    done
    number=$first its_pieces=''
    # shellcheck disable=SC2086
    trap - $stops
}

# expect_room WORD..: all pieces with these words need room in the spool, of which a twentieth stays for other jobs. If only some
# fitted, they would keep those out. (A job that waits takes about 400 bytes besides its own.)
expect_room() {
    limit=$(site_says limit) || exit
    [ -n "$limit" ] || return 0
    ask queues
    waiting=$(printf '%s\n' "$said" | awk '{ bytes += $3 + 400 * $2 } END { printf "%.0f", bytes }') || exit
    count_room "$*"
    allowed=$((limit - limit / 20)) room=$((limit - limit / 20 - waiting))
    [ "$room" -gt 0 ] || room=0
    its_need="$its_name has $size bytes and needs $needed of the spool, which"
    [ "$needed" -le "$allowed" ] || fail "$refused" "$its_need takes $allowed of a file at most: its limit is $limit"
    [ "$needed" -le "$room" ] ||
        fail "$later" "$its_need has room for $room: queue it once calls made room, or with a larger limit in the settings"
}

# count_room WORDS: $needed is how many bytes of the spool's file all pieces need. The bytes of a piece and its words, with the about 250
# bytes of its number, name and place, are a row each, and two rows larger than half a page of 4,096 bytes share none.
count_room() {
    pieces=$((size / piece)) rest=$((size % piece))
    count_row "$((250 + ${#1}))"
    needed=$((row * (pieces + (rest > 0))))
    count_row "$piece"
    needed=$((needed + row * pieces))
    count_row "$rest"
    [ "$rest" -eq 0 ] || needed=$((needed + row))
}

# count_row BYTES: $row is how many bytes of the spool's file a row of so many needs.
count_row() {
    if [ "$1" -le 2030 ]; then row=$((4096 / (4076 / ($1 + 8)) + 1)); else row=$(($1 + $1 / 1000 + 2048)); fi
}

# Reads a piece into a file without a name, which is descriptor 4. A piece is queued only if it is whole.
read_piece() {
    wanted=$((size - at))
    [ "$wanted" -le "$piece" ] || wanted=$piece
    make_file
    dd if="$input" bs="$piece" skip="$((at / piece))" count="$wanted" iflag=fullblock,count_bytes status=none >&3 &&
        [ "$(stat -L -c %s /dev/fd/3)" = "$wanted" ] ||
        fail "$later" "$its_name: a piece of it cannot be read whole, because it became shorter or ${TMPDIR:-/tmp} is full: queue it again"
}

# Keeps standard input in a file without a name, which is $input then.
keep_input() {
    make_file
    cat >&3 || fail "$later" "$its_name cannot be read, or ${TMPDIR:-/tmp} is full"
    exec 3>&- 6<&4
    input=/dev/fd/6 is_kept=yes
}

# What is typed is queued once it is whole, so that a key ends it.
keep_typed() { ! [ -t 0 ] || keep_input; }

# Makes a file without a name. It is written by descriptor 3, and read by 4.
make_file() {
    made=$(mktemp) && command exec 3>"$made" 4<"$made" && rm -f -- "$made" ||
        fail "$later" "$its_name needs room below ${TMPDIR:-/tmp}, where no file can be made"
}

if [ -O / ]; then act_as_owner; fi
