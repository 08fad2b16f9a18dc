# shellcheck shell=sh
# What ./build and the start scripts share. Whoever reads this file has set `top`, the folder of the
# repository or of the installed copy. It defines functions, and does nothing by itself.

: "${top:?}"

# The kit that the proofs were last made with, and the sum of its logic: another kit with the same sum, the
# word behind `logic` of `rt version`, proves the same.
# shellcheck disable=SC2034 # ./build reads them
kit=rattle-kit-13f logic=dac8208d650f15bf

# --- Which program is made of the files as they stand now.
#
# Beside a program P stand P.sum, the checksum of all that it was made of, and P.seen, an empty file
# that is older than the last comparison. A start compares contents only where a file's status has
# changed since P.seen: that time is the file system's own, and nobody can set it. So a file that is
# dated in the future or was only touched costs one comparison, and an edit is never missed.

# The repository's crates that the crate $1 is built of, each after those below it, itself last.
crates_of() {
    awk -v crate="$1" '
        function visit(name, words, count, i) {
            if (!(name in needs) || seen[name]++) return
            count = split(needs[name], words, " ")
            for (i = 1; i <= count; i++) visit(words[i])
            print name
        }
        { sub(/#.*/, ""); at = index($0, ":"); if (!at) next
          split(substr($0, 1, at - 1), head, " "); needs[head[1]] = substr($0, at + 1) }
        END { visit(crate) }' "$top/crates.txt"
}

# The checksum of the sources of the crate $1 and of those below it.
sum_of_sources() {
    (
        cd "$top" || exit 1
        # shellcheck disable=SC2046 # each is a word
        set -- crates.txt HANDLES $(crates_of "$1" | while read -r it; do
            for part in src specs proofs; do
                [ ! -d "crates/$it/$part" ] || echo "crates/$it/$part"
            done
        done)
        # In a folder of links to a checkout too.
        find -H "$@" -type f -print0 | LC_ALL=C sort -z | xargs -0 sha256sum | sha256sum
    )
}

# The checksum of those sources, $1, and of the program $2 that was made of them.
sum_with_program() {
    { echo "$1" && sha256sum <"$2"; } | sha256sum
}

# Whether no source and not the program $1 has changed its status since the last comparison.
is_untouched() {
    [ -e "$1.seen" ] && [ -z "$(cd "$top" && find -H crates.txt HANDLES crates/*/src crates/*/specs \
        crates/*/proofs "$1" -cnewer "$1.seen" -print -quit 2>&1)" ]
}

# Whether the program $2 of the crate $1 is there and made of the sources as they stand. In a folder
# that can't be written the contents are compared at each call.
is_current() {
    [ -x "$2" ] && [ -r "$2.sum" ] || return 1
    ! is_untouched "$2" || return 0
    mark=$2.mark.$$
    (: >"$mark") 2>/dev/null || mark=
    read -r kept <"$2.sum"
    if [ "$(sum_with_program "$(sum_of_sources "$1")" "$2")" != "$kept" ]; then
        [ -z "$mark" ] || rm -f "$mark"
        return 1
    fi
    [ -z "$mark" ] || mv -f "$mark" "$2.seen"
}

# --- Starting a program.

# Which version and which commit this is, and of which kit. The commit git knows in a clone, and an installed copy
# has it in a file.
version() {
    read -r number <"$top/VERSION"
    if [ -e "$top/.git" ] && command -v git >/dev/null; then
        commit=$(git -C "$top" describe --always --dirty 2>/dev/null)
    elif [ -r "$top/COMMIT" ]; then
        read -r commit <"$top/COMMIT"
    fi
    echo "$called $number of commit ${commit:-unknown}, for $kit"
}

# How a program is proved, and what that takes: a check of a crate takes about a minute of four processors.
proving() {
    case $1 in mesh_cli) by=./build ;; *) by="./build $1" ;; esac
    echo "$by proves it, in about $(crates_of "$1" | wc -l) minutes on four processors, the first time"
}

# A program that starts with a closed stream would get a socket or a file in its place. `reads` is empty where
# the call reads nothing.
look_at_streams() {
    { true 3>&2; } || exec 2>/dev/null
    if ! { true 3<&0; } 2>/dev/null; then
        [ -z "$reads" ] || end_with 5 "standard input is closed"
        exec </dev/null
    fi
    { true 3>&1; } 2>/dev/null || end_with 6 "standard output is closed"
}

end_with() {
    echo "$called: status $1: $2" >&2
    exit "$1"
}

# Writes what it reads to standard output: status 6 and a word where that fails, 141 where the reader has gone.
written() {
    cat 2>/dev/null
    wrote=$?
    case $wrote in
    0 | 141) return "$wrote" ;;
    *) end_with 6 "$(meaning_of 6)" ;;
    esac
}

# Whether standard output is a pipe whose reader has gone: `tail -f` ends then at once, and writes nothing.
is_broken_pipe() {
    [ -p /dev/stdout ] || return 1
    timeout 0.2 tail -f /dev/null 2>/dev/null
    case $? in 1 | 141) ;; *) return 1 ;; esac
}

# What a status other than 0 of the program of this crate means (docs/FORMATS.md).
meaning_of() {
    case ${crate-}:$1 in *:3 | *:4 | mesh_explore:9 | mesh_explore:1[01]) set -- "$1${writes:+:$writes}" ;; esac
    case ${crate-}:$1 in
    *:2) echo "the words are of no form; see $called --help" ;;
    mesh_check:3) echo "a line was refused; the line that is written says which" ;;
    mesh_capture:3) echo "a line was refused; the capture is that of the lines above it" ;;
    *:3)
        echo "a line was refused; the last line of the text says which, and why;" \
            "mesh lint FILE knows what editors leave in a file, as CRLF and double spaces"
        ;;
    *:4) echo "a counter is at its field's greatest value; the last line of the text says which" ;;
    *:3:*) echo "a line was refused; in place of $writes stands the line that says which, and why" ;;
    *:4:*) echo "a counter is at its field's greatest value; in place of $writes stands the line that says which" ;;
    *:5) echo "the input could not be read" ;;
    *:6) echo "the output could not be written to its end" ;;
    *:7) echo "there was not enough memory" ;;
    mesh_node:8) echo "the port could not be opened, or a datagram could not be received or sent" ;;
    mesh_check:9) echo "the tables are not sound; the line names the first next hop that is no better" ;;
    mesh_state:9) echo "the input begins with no checkpoint from which a run can go on; the line above says why" ;;
    mesh_explore:9) echo "the search stopped at so many worlds, and kinds of ends may be missing; --worlds N lets it go on" ;;
    mesh_explore:9:*) echo "the search stopped at so many worlds with fewer kinds of ends; --worlds N lets it go on" ;;
    mesh_explore:10:*) echo "there are fewer kinds of ends; without --end they are listed" ;;
    mesh_explore:11:*) echo "no schedule was found that leads to this end, which should not be: please report it" ;;
    mesh_state:10) echo "the checkpoint would be longer than 268435456 bytes" ;;
    *:132) echo "signal 4 ended it$(as_unproved)" ;;
    *:129 | *:13? | *:14? | *:15?) echo "a signal ended it (number $(($1 - 128)))" ;;
    *) echo "no status of this program" ;;
    esac
}

# What that signal is to a program that tools/unproved made.
as_unproved() {
    case $program in *.unproved) echo ": an index, an unwrap or a prove! failed, which a proof would exclude" ;; esac
}

# Says in one line what the status means, but where the text or a line of the program itself says so and nobody
# looks, and where the reader of the text has gone, as `head` does.
tell_status() {
    case $status in
    0) return ;;
    3 | 4) [ -n "$writes" ] || [ -t 2 ] || return 0 ;;
    9 | 10) [ -t 2 ] || [ "$crate${writes:+:}" = mesh_explore: ] || return 0 ;;
    6) ! is_broken_pipe || return 0 ;;
    esac
    if [ "$status" = 3 ] && [ -t 2 ] && . "$top/tools/input.sh" && tell_refused "$@"; then return; fi
    echo "$called: status $status: $(meaning_of "$status")" >&2
}

# The one line of mesh_check is held until it ends, in a file that has no name any more, so that nothing is
# left of it however the script ends. Where no file can be made the line is written and not looked at.
hold_line() {
    held=$(mktemp 2>/dev/null) || return 1
    # shellcheck disable=SC2094 # what is written is read when the program has ended
    exec 4>"$held" 5<"$held"
    rm -f "$held"
}

write_line() {
    line=$(cat <&5)
    [ -z "$line" ] || printf '%s\n' "$line" | cat 2>/dev/null || status=6
    case $status:${MESH_QUIET-} in
    0:) tell_text >&2 ;;
    *) [ -z "$feeder" ] || kill "$feeder" "$tailer" 2>/dev/null ;;
    esac
}

# Tells each second how long the program has run, and in how much memory. What is written next stands in its place.
tell_progress() {
    seconds=0
    while sleep 1 && [ -r "/proc/$child/status" ]; do
        seconds=$((seconds + 1))
        awk -v seconds="$seconds" '/^VmRSS:/ { printf "%d s, %d MB \r", seconds, $2 / 1024 }' "/proc/$child/status" >&2
    done
}

# Waits for the child, and sets `status` to its own. A signal, which ends a wait early, ends the child, and then
# `caught` names it. The shell's own word about a child that a signal ended is none for a user.
await() {
    caught=
    for signal in HUP INT QUIT TERM; do
        # shellcheck disable=SC2064 # child and signal are meant as they are now
        trap "caught=$signal; kill -s TERM $child 2>/dev/null" "$signal"
    done
    wait "$child" 2>/dev/null
    status=$?
    while kill -s 0 "$child" 2>/dev/null; do
        wait "$child" 2>/dev/null
        status=$?
    done
}

# Ends this script by the signal that has ended its child, if one has.
pass_on() {
    [ -n "$caught" ] || return 0
    [ -z "${scratch-}" ] || rm -rf "$scratch"
    trap - "$caught"
    kill -s "$caught" $$
}

# Runs a command, and sets `status` to its own. A signal that ends this script ends the command too, and at once.
run_to_end() {
    # A command in the background would read from /dev/null.
    exec 3<&0
    "$@" <&3 3<&- &
    child=$!
    exec 3<&-
    await
    pass_on
}

# Runs the program, and tells what a status other than 0 means. A signal that ends this script ends the
# program too.
run_and_tell() {
    # A program in the background would read from /dev/null.
    exec 3<&0
    holds='' feeder=''
    if [ "$crate" = mesh_check ] && hold_line; then holds=1; else exec 4>&1 5</dev/null; fi
    # shellcheck source=tools/input.sh
    if [ -n "$holds" ] && . "$top/tools/input.sh" && feed; then
        "$program" "$@" </dev/fd/9 3<&- >&4 4>&- 5<&- 6>&- 8<&- 9>&- &
    else
        "$program" "$@" <&3 3<&- >&4 4>&- 5<&- &
    fi
    child=$!
    exec 3<&- 4>&- 6>&- 9>&-
    teller=
    if [ -n "$searches" ] && [ -t 2 ]; then
        tell_progress &
        teller=$!
    fi
    await
    [ -z "$teller" ] || kill "$teller" 2>/dev/null
    pass_on
    [ -z "$holds" ] || write_line
    tell_status "$@"
    exit "$status"
}

# Sets `program` to that of the crate $1. Where none is made of the files as they stand it is made first, without
# a proof. In an installed or unpacked copy the program lies ready, in the folder programs.
find_program() {
    program=$top/programs/$1
    [ ! -x "$program" ] || return 0
    if [ -x "$program.unproved" ]; then
        program=$program.unproved
        tell_unproved "$1" "see MANIFEST"
        return
    fi
    program=$top/crates/$1/out/$1
    ! is_current "$1" "$program" || return 0
    program=$program.unproved
    is_current "$1" "$program" || make_program "$1" || exit
    tell_unproved "$1" "$(proving "$1")"
}

# Makes the program of the crate $1, and says before it what that takes.
make_program() {
    [ -n "${MESH_QUIET-}" ] || ! command -v rt >/dev/null ||
        echo "$called: the first start makes its program, in about a minute; ./build --unproved makes those of all" \
            "commands at once, in about two minutes on four processors" >&2
    "$top/build" --unproved "$1" </dev/null >&2
}

# Says that the program of the crate $1 is not proved, and then $2: at a terminal, and once a day. A file beside the
# program, or in a folder of the user's, remembers it.
tell_unproved() {
    if [ -n "${MESH_QUIET-}" ] || [ ! -t 2 ]; then return; fi
    for folder in "${program%/*}" "${XDG_CACHE_HOME:-${HOME-}/.cache}/mesh"; do
        [ -z "$(find "$folder/$1.told" -mtime -1 2>/dev/null)" ] || return 0
        (mkdir -p "$folder" && : >"$folder/$1.told") 2>/dev/null || continue
        echo "$called: this program is not proved here; $2 (told once a day; MESH_QUIET=1: never)" >&2
        return
    done
}

# start CRATE WORD..: starts the program of the crate with these words.
start() {
    crate=$1
    shift
    look_at_streams
    find_program "$crate"
    run_and_tell "$@"
}

# main CRATE WORD..: what a start script does; `usage` and `look_at_words` are its own.
main() {
    crate=$1
    shift
    case ${1-} in
    --help | -h) forms | written ;;
    --version) version | written ;;
    *)
        look_at_words "$@"
        start "$crate" "$@"
        ;;
    esac
}

# --- Words. A start script sets `call`, how it is called, `options`, what may stand first, in order, `operands`,
# the names of the words behind that, `reads`, what it reads, `writes`, what it writes where that is no text,
# `runs`, its variant where it takes none, and `searches` where it may take long without a word.

# The name of the script, or the command of `mesh` that starts it.
called=${MESH_CALLED_AS:-${0##*/}}
unset MESH_CALLED_AS
call=$called options='' operands='' reads='' writes='' runs='' searches=''
variants='base number error reply'

# The forms of the words, as `usage` has them, with the name that was called.
forms() {
    case $called in
    "${0##*/}") usage ;;
    *) usage | sed "s/${0##*/}\([^(]\)/$called\1/g; s/${0##*/}\$/$called/" ;;
    esac
}

# Says in one line what is wrong with the words, and then the forms.
refuse() {
    case $1 in "$call "*) echo "$1" ;; *) echo "$call: $1" ;; esac >&2
    forms >&2
    exit 2
}

# The words as a choice: a, b or c.
either() {
    said=$1
    shift
    while [ $# -gt 1 ]; do
        said="$said, $1"
        shift
    done
    echo "$said${1+ or $1}"
}

# need_command COMMANDS WORD..: refuses a first word that is none of the commands.
need_command() {
    # shellcheck disable=SC2086 # each is a word
    choice=$(either $1)
    for it in $1; do
        [ "${2-}" != "$it" ] || return 0
    done
    [ -n "${2-}" ] || refuse "a command is missing: $choice"
    for it in $options; do
        [ "$2" != "$it" ] || refuse "$it comes after the command, which is $choice"
    done
    case $2 in -?*) refuse_option "$2" ;; esac
    [ -z "$reads" ] || [ ! -f "$2" ] || call="$call ${choice%%[, ]*}" refuse_file "$2"
    refuse "there is no command $2: it is $choice"
}

# Refuses a word that names a file, or stands where a file might be named.
refuse_file() {
    [ "$1" != - ] || refuse "$call reads $reads from standard input without the word -"
    refuse "$call reads $reads from standard input: $call${operands:+ $operands} < $1"
}

# Looks at the options that stand first, and sets `taken` to the number of their words. Refuses each later one.
look_at_options() {
    taken=0 found='' behind=${operands%% *}
    for it in $options; do
        [ "${1-}" = "$it" ] || continue
        found="$found $it" behind=$it
        if [ "$it" = --variant ]; then
            need_variant "${2-}"
            shift
            taken=$((taken + 1))
        fi
        shift
        taken=$((taken + 1))
    done
    for it; do
        case $it in -?*) refuse_option "$it" ;; esac
    done
}

need_variant() {
    for it in $variants; do
        [ "$1" != "$it" ] || return 0
    done
    # shellcheck disable=SC2086 # each is a word
    choice=$(either $variants)
    [ -n "$1" ] || refuse "the NAME of --variant is missing: $choice"
    refuse "there is no variant $1: it is $choice"
}

# Says of an option that it is out of its place, or that there is none of its name.
refuse_option() {
    for it in $options; do
        [ "${1%%=*}" = "$it" ] || continue
        [ "$1" = "$it" ] || refuse "$1 is two words: $it ${1#*=}"
        case " $found " in *" $it "*) refuse "$it stands twice" ;; esac
        [ "$it" != --variant ] || it="$it NAME"
        refuse "$it comes before $behind"
    done
    # shellcheck disable=SC2086 # each is a word
    case $1 in
    --variant | --variant=*) refuse "$call has no --variant${runs:+: it runs $runs}" ;;
    *) refuse "$call has no option $1${options:+: it has $(either $options)}" ;;
    esac
}

# no_more WORD..: refuses words that are left.
no_more() {
    [ $# -gt 0 ] || return 0
    [ -z "$reads" ] || refuse_file "$1"
    refuse "$1 is a word too many"
}

# What is wrong with a number in range all the same.
as_written() {
    case $1 in 0[0-9]*) echo ' without leading zeros' ;; esac
}

# need_number NAME FROM TO [WORD]
need_number() {
    [ $# -gt 3 ] || refuse "$1 is missing, a number from $2 to $3"
    ! is_number "$4" "$2" "$3" || return 0
    [ -z "$reads" ] || [ ! -f "$4" ] || refuse_file "$4"
    refuse "$1 is a number from $2 to $3$(as_written "$4"), and not $4"
}

# need_seed [WORD]
need_seed() {
    [ $# -gt 0 ] || refuse "SEED is missing, a number below 2^64"
    is_seed "$1" || refuse "SEED is a number below 2^64$(as_written "$1"), and not $1"
}

# need_address NAME [WORD]
need_address() {
    [ $# -gt 1 ] || refuse "$1 is missing, an address as 10.0.0.1"
    ! is_address "$2" || return 0
    [ ! -f "$2" ] || refuse_file "$2"
    refuse "$1 is an address as 10.0.0.1, and not $2"
}

# Whether $1 is an address; the program decides again for itself.
is_address() {
    case $1 in *.*.*.*.* | *[!0-9.]*) return 1 ;; *.*.*.*) ;; *) return 1 ;; esac
    rest=$1.
    while [ -n "$rest" ]; do
        is_number "${rest%%.*}" 0 255 || return 1
        rest=${rest#*.}
    done
}

# Whether $1 is a number from $2 to $3: decimal digits without a leading zero, or 0.
is_number() {
    case $1 in
    '' | *[!0-9]* | 0?* | ???????????????????*) return 1 ;; # 19 digits are more than any bound here
    esac
    [ "$1" -ge "$2" ] && [ "$1" -le "$3" ]
}

# Whether $1 is a number below 2^64. With 20 digits, it is compared by its halves.
is_seed() {
    case $1 in
    *[!0-9]*) return 1 ;;
    ????????????????????)
        high=${1%??????????} low=${1#??????????}
        case $high in 0*) return 1 ;; esac
        [ "$high" -lt 1844674407 ] || { [ "$high" -eq 1844674407 ] && [ "$low" -le 3709551615 ]; }
        ;;
    ???????????????????) case $1 in 0*) return 1 ;; esac ;;
    *) is_number "$1" 0 999999999999999999 ;;
    esac
}
