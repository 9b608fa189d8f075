# Read by the scripts that run a proved program on a sample or on a user's file.
. "$(dirname "${BASH_SOURCE[0]}")/../host/settings.bash"
me=samples/$(basename "$0")

# stop STATUS SENTENCE: ends the script.
stop() {
    echo "$me: $2" >&2
    exit "$1"
}

# need_input NAME: ends the script where that is no file that can be read; `-` is standard input.
need_input() {
    local file=$1 name=$1
    if [ "$1" = - ]; then
        file=/dev/stdin name="standard input"
    fi
    if [ ! -e "$file" ]; then stop 2 "$name: there is no such file."; fi
    if [ -d "$file" ]; then stop 2 "$name: this is a folder, and a file is needed."; fi
    if [ ! -r "$file" ]; then stop 2 "$name: it can't be read."; fi
}

# end_notice: takes back a notice that has not been given.
notice=
end_notice() {
    if [ -n "$notice" ]; then
        kill "$notice" 2>/dev/null || true
        notice=
    fi
}

# prove PROGRAM TIME: proves the program. Where that is not done at once, it says so, and how long it takes on two cores.
prove() {
    {
        sleep 3 >/dev/null 2>&1
        echo "$me: the $1 is proved first, which takes $2 on two cores; later runs take a second." >&2
    } &
    notice=$!
    if ! make_program "$1" >"$said" 2>&1; then
        cat "$said" >&2
        stop 1 "the $1 is not proved, and so is not run."
    fi
    end_notice
}

# run_proved PROGRAM TIME TORN INPUT [ARGUMENTS..]: proves the program, and runs it on the input; `-` is standard input. The script ends
# with 141 where nobody reads on, and with 1 where the lines can't be written, where the program says something on standard error, and
# where its last line is TORN, which stands for an input that ends inside a record.
run_proved() {
    local program=$1 time=$2 torn=$3 input=$4 ended
    shift 4
    need_rt "$me"
    said=$(mktemp)
    trap 'end_notice; rm -f "$said"' EXIT
    prove "$program" "$time"
    if [ "$input" = - ]; then input=/dev/stdin; fi
    set +e
    "$root/target/bin/$program" "$@" <"$input" 2>"$said" |
        awk -v torn="$torn" '{ print; last = $0 } END { if (last == torn) exit 3 }'
    ended=("${PIPESTATUS[@]}")
    set -e
    case ${ended[1]} in
    0 | 3) ;;
    141) exit 141 ;;
    *) stop 1 "the lines can't be written." ;;
    esac
    if [ -s "$said" ]; then
        cat "$said" >&2
        exit 1
    fi
    case ${ended[1]}:${ended[0]} in
    0:0) ;;
    3:*) stop 1 "the input ends inside a record." ;;
    *) stop 1 "the $program ended with status ${ended[0]}." ;;
    esac
}
