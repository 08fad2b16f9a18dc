# shellcheck shell=sh
# What the start scripts say of an input that a program has read: of a text that mesh_check found nothing wrong in, and of
# a line that was refused. tools/start.sh reads this file where it is needed. It defines functions, and does nothing by
# itself.

: "${program:?}" "${called:?}" "${crate:?}"
: "${line=}" # what mesh_check wrote

# The text of a line without bytes that a terminal heeds, and cut off.
plain() {
    LC_ALL=C tr -c '\40-\176\n' '?' | cut -c 1-160
}

# --- The last line of a text.

# Where the input is a pipe, starts `feeder`, which hands it on to the program by descriptor 9, and to `tailer`, which
# keeps its last line to be read by descriptor 8. All are pipes and files that have no name any more. Fails where the
# input is no pipe, or they can't be made.
feed() {
    [ -p /dev/fd/3 ] || return 1
    pipes=$(mktemp -d 2>/dev/null) || return 1
    if mkfifo "$pipes/copy" "$pipes/input" 2>/dev/null && : >"$pipes/last"; then
        # shellcheck disable=SC2094 # what is written is read when the program has ended
        exec 6<>"$pipes/copy" 7>"$pipes/last" 8<"$pipes/last" 9<>"$pipes/input"
        rm -rf "$pipes"
        tail -n 1 </dev/fd/6 >&7 3<&- 4>&- 5<&- 6>&- 7>&- 8<&- 9>&- &
        tailer=$!
        tee /dev/fd/6 <&3 >/dev/fd/9 2>/dev/null 3<&- 4>&- 5<&- 7>&- 8<&- 9>&- &
        feeder=$!
        exec 7>&-
        return
    fi
    rm -rf "$pipes"
    return 1
}

# Says of a text in which nothing is wrong what may be wrong all the same: it has no table, it ends with a refusal, or it
# is no whole text. `line` is what was written of it.
tell_text() {
    if [ -n "$feeder" ]; then
        wait "$tailer"
        last=$(plain <&8)
    elif [ -f /dev/stdin ]; then
        last=$(tail -n 1 </dev/stdin | plain)
    else
        last=''
    fi
    case $line in
    'yes nodes 0 '*)
        echo "$called: no table was shown: the text has no line show ADDR (mesh run writes one for each line show)"
        ;;
    esac
    case $last in
    'done '* | '') ;;
    'bad line '* | 'full line '*) echo "$called: the text ends with a refusal, \"$last\": only tables above it were looked at" ;;
    *) echo "$called: the text has no last line of a run, such as done: it is a schedule, a part of a text, or of other routers" ;;
    esac
}

# --- A refused line.

# How a line with this first word is written.
form_of() {
    case $1 in
    node) echo "node ADDR, or node ADDR sn NUM" ;;
    link | cut | send | ask | route) echo "$1 ADDR ADDR" ;;
    data) echo "data ADDR ADDR TEXT" ;;
    turn | show) echo "$1 ADDR" ;;
    deliver | copy | lose | auto | pass) echo "$1 NUM" ;;
    place | move) echo "$1 ADDR X Y" ;;
    may) echo "may LINE, with a link, cut or data line" ;;
    flight) echo "flight" ;;
    *) return 1 ;;
    esac
}

# What helps with a line $1 that is refused because of $2.
hint() {
    case $2 in
    'wrong number of words') form=$(form_of "${1%% *}") && echo ": it is written $form, with one space between words" ;;
    'no command'*) echo ": mesh(5) lists the commands, and mesh lint FILE what editors leave in a file" ;;
    'no address'*) echo ": an address is written as 10.0.0.1" ;;
    'no number'*) echo ": a number has no sign and no leading zero, and is within the bounds that mesh(5) gives" ;;
    'no node yet') echo ": node lines come first" ;;
    esac
}

# Says which line of the file that is the input was refused, with its text, why, and what helps. The program runs once
# more for that, since what it wrote is gone. Fails where that can't be known.
tell_refused() {
    case $crate in mesh_cli | mesh_watch | mesh_channel | mesh_explore | mesh_places | mesh_why) ;; *) return 1 ;; esac
    [ -f /dev/stdin ] || return 1
    said=$("$program" "$@" </dev/stdin 2>/dev/null | tail -n 1)
    case $said in 'bad line '*': '*) ;; *) return 1 ;; esac
    number=${said#bad line } why=${said#bad line *: }
    number=${number%%:*}
    refused=$(sed -n "${number}p;${number}q" </dev/stdin | plain)
    echo "$called: status 3: line $number: $refused: $why$(hint "$refused" "$why")" >&2
}
