# What `eel` adds on a terminal, or where EEL_EXPLAIN is 1: how long a run has taken, which word of a command doesn't fit,
# which file it is that can't be read or written, and why one is refused.

# Runs the program, and has its status in `status`, and its line in `told` where it isn't of a run.
run_watched() {
    told=
    if [ "$1" = run ]; then
        run_timed "$@"
    else
        { told=$("$program" "$@" 2>&1 >&3 3>&-); } 3>&1
        status=$?
        [ -z "$told" ] || printf '%s\n' "$told" >&2
    fi
}

# Runs `run`: on a terminal it is told each ten seconds, and later each minute, how long it has taken.
run_timed() {
    watcher=
    if [ -t 2 ]; then
        tell_times </dev/null >/dev/null 3>&- &
        watcher=$!
    fi
    trap '[ -z "$watcher" ] || kill $watcher 2>/dev/null; tell_interrupt "$@"; exit 130' INT
    "$program" "$@"
    status=$?
    trap - INT
    [ -z "$watcher" ] || kill "$watcher" 2>/dev/null
}

tell_times() {
    wait=10
    while sleep $wait && kill -0 $$ 2>/dev/null; do
        seconds=$(seconds_of_run)
        [ "$seconds" -lt 5 ] || echo "eel: the run has taken $seconds s so far" >&2
        [ "$seconds" -lt 60 ] || wait=60
    done
}

# The processor's seconds that the program below this shell has taken: few, while it still reads its input. Of this shell's
# children it is the one that has taken most, whatever its name. Behind the name stand its state and its parent.
seconds_of_run() {
    cat /proc/[0-9]*/stat 2>/dev/null | awk -v parent=$$ -v ticks="$(getconf CLK_TCK)" '
        sub(/^.*\) /, "") && $2 == parent && $12 + $13 > most { most = $12 + $13 }
        END { print int(most / ticks) }'
}

tell_interrupt() {
    for word; do
        case $word in
        --) break ;;
        -d) echo "eel: interrupted: no dump was written. profile.py keeps counts of a run that is interrupted" >&2 && return ;;
        esac
    done
}

is_number() {
    case $1 in '' | *[!0-9]*) return 1 ;; esac
}

# Which of the words of `run` behind its file doesn't fit.
misfit_of_run() {
    limit= dump=
    while [ $# -gt 0 ]; do
        case $1 in
        --) echo "there are more than 1000 arguments, or 65536 bytes of them" && return ;;
        -n)
            [ -z "$limit" ] || { echo "\`-n\` stands there twice" && return; }
            limit=$2
            is_number "$2" || { echo "\`-n\` wants a number of steps${2:+, and \`$2\` is none}" && return; }
            [ ${#2} -lt 20 ] || awk -v n="$2" 'BEGIN { exit length(n) > 20 || n "" > "18446744073709551615" }' ||
                { echo "\`$2\` is more than 2^64 - 1 steps, or more than 20 digits" && return; }
            ;;
        -d)
            [ -z "$dump" ] || { echo "\`-d\` stands there twice" && return; }
            [ $# -ge 2 ] || { echo "\`-d\` wants the name of a file" && return; }
            dump=given
            ;;
        *) echo "\`$1\` is no option: the program's own arguments stand behind \`--\`" && return ;;
        esac
        shift $(($# < 2 ? 1 : 2))
    done
}

# Which word of a command doesn't fit, where it isn't that of `run`: $1 words are wanted, $2 at most.
misfit() {
    least=$1 most=$2 command=$3
    shift 2
    if [ $# -lt "$least" ]; then
        echo "$((least - $#)) more word$([ $((least - $#)) -eq 1 ] || echo s) wanted"
    elif [ $# -gt "$most" ]; then
        shift "$most"
        echo "\`$1\` is one word too many"
    else
        case $command in
        edit) [ "$4" != trace ] || echo "\`$5\` is no number from 1 to 16" ;;
        demo) echo "\`$2\` must be a number below 2^32, and \`$3\` one from 1 to 100000" ;;
        esac
    fi
}

# The lines for words that are no command: the grammar of the command that was meant, and what doesn't fit.
explain_words() {
    case $1 in
    edit | restore | run | counts | visits | trace | show | list | words | demo) ;;
    *)
        [ $# -eq 0 ] || echo "eel: there is no command \`$1\`"
        echo "eel: \`eel --help\` says the commands"
        return
        ;;
    esac
    case $1 in
    run) if [ $# -lt 2 ]; then told='the name of a file is wanted'; else told=$(shift 2; misfit_of_run "$@"); fi ;;
    edit)
        case $4 in
        plain | every) told=$(misfit 4 4 "$@") ;;
        profile) told=$(misfit 4 5 "$@") ;;
        script | trace) told=$(misfit 5 5 "$@") ;;
        '') told=$(misfit 4 5 "$@") ;;
        *) told="\`$4\` is none of plain, profile, every, trace and script" ;;
        esac
        ;;
    show | list) told=$(misfit 2 2 "$@") ;;
    *) told=$(misfit 3 3 "$@") ;;
    esac
    [ -z "$told" ] || echo "eel: $told"
    show_help | grep "^    eel $1 " | cut -c 1-48 | sed 's/ *$//'
}

explain_input() {
    if [ -d "$1" ]; then echo "eel: $1 is a folder"
    elif [ ! -e "$1" ]; then echo "eel: $1 isn't there"
    elif [ ! -r "$1" ]; then echo "eel: $1 may not be read"
    fi
}

explain_output() {
    case $1 in */*) parent=${1%/*} ;; *) parent=. ;; esac
    if [ -d "$1" ]; then echo "eel: $1 is a folder"
    elif [ ! -d "${parent:-/}" ]; then echo "eel: there is no folder $parent"
    elif [ ! -w "${parent:-/}" ]; then echo "eel: $parent may not be written"
    else explain_room "${parent:-/}"
    fi
}

explain_room() {
    [ "$(df -Pk "$1" 2>/dev/null | awk 'NR == 2 { print ($4 < 1024) }')" != 1 ] || echo "eel: the disk of $1 is full"
}

# The lines for a file that is missing or a device that failed, in the order in which files are read and written.
explain_device() {
    case $1 in
    edit) told=$(explain_input "$2"; [ -z "$5" ] || [ "$4" = trace ] || explain_input "$5"; explain_output "$3") ;;
    counts | visits | trace) told=$(explain_input "$2"; explain_input "$3") ;;
    words | restore) told=$(explain_input "$2"; explain_output "$3") ;;
    run)
        told=$(explain_input "$2"
            shift 2
            while [ $# -gt 0 ] && [ "$1" != -- ]; do
                [ "$1" != -d ] || explain_output "$2"
                shift
            done)
        ;;
    *) told=$(explain_input "$2") ;;
    esac
    # 3 is the standard output.
    if [ -z "$told" ] && [ -f /dev/fd/3 ]; then told=$(explain_room "$(dirname "$(readlink -f /dev/fd/3)")"); fi
    [ -z "$told" ] || printf '%s\n' "$told" | head -1
}

# The line for a file that isn't for SPARC: the processor that its header names.
explain_machine() {
    case $(od -A n -t u1 -j 5 -N 1 "$1" | tr -d ' ') in 1) order='$1 + 256 * $2' ;; *) order='256 * $1 + $2' ;; esac
    case $(od -A n -t u1 -j 18 -N 2 "$1" | awk "{ print $order }") in
    3) processor='Intel 386' ;;
    8) processor=MIPS ;;
    20 | 21) processor=PowerPC ;;
    22) processor=S/390 ;;
    40) processor=ARM ;;
    62) processor=x86-64 ;;
    183) processor=AArch64 ;;
    243) processor=RISC-V ;;
    *) return 1 ;;
    esac
    echo "eel: it is for another processor, $processor; build it for SPARC V8"
}

# The line for `file fault CODE` of a file, from what `eel --faults` says.
explain_fault() {
    case $2 in 3 | 4 | 7) explain_machine "$1" && return ;; esac
    show_faults | awk -v code="$2" '
        { number = substr($0, 1, 4) }
        number ~ /[0-9]/ { on = number + 0 == code }
        on && NF { left = left " " substr($0, 5, 57); right = right " " substr($0, 62) }
        END { gsub(/ +/, " ", left); gsub(/ +/, " ", right); sub(/ $/, "", left); print "eel: it" left ";" right }'
}

# What `run` said, by a call of no steps: its error stream has the program's bytes, too.
refusal_of_run() {
    file=$2 dump=
    shift 2
    while [ $# -gt 0 ] && [ "$1" != -- ]; do
        [ "$1" != -d ] || dump=$2
        shift
    done
    "$program" run "$file" -n 0 ${dump:+-d "$dump"} 2>&1 >/dev/null </dev/null
}

# The lines for a file that is refused for its contents.
explain_contents() {
    [ "$1" != run ] || told=$(refusal_of_run "$@")
    cause=${told#eel: }
    name=${cause%: *}
    case $cause in
    *": file fault "*) explain_fault "$name" "${cause##* }" ;;
    *": no notes") [ "$1" != run ] || wants='`run -d`'
        echo "eel: $name was not written by \`eel edit\`; ${wants:-\`$1\`} wants such a one" ;;
    *": no profile") echo "eel: $name was written otherwise: \`counts\` wants \`eel edit IN OUT profile\`, or \`every\`" ;;
    *": not every word") echo "eel: $name was written otherwise: \`visits\` wants \`eel edit IN OUT every\`" ;;
    *": no trace") echo "eel: $name was written otherwise: \`trace\` wants \`eel edit IN OUT trace K\`" ;;
    *": bad dump at "*) echo "eel: $name is none of the files that \`eel run WRITTEN -d DUMP\` writes" ;;
    *": dump version "* | *": made for "* | *" cells, "*) echo "eel: $name is the dump of another file's run" ;;
    *" between places") echo "eel: the run stood in new code: run it some steps further, with another -n" ;;
    *": edge") echo "eel: \`eel show\` prints the edges of the program" ;;
    esac
}

explain() {
    case $status in
    64) explain_words "$@" ;;
    65) explain_contents "$@" ;;
    74) explain_device "$@" ;;
    esac
}
