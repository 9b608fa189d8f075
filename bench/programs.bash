# Read by bench/list and bench/replay, which time a proved program and the same over the original Rust.
. "$(dirname "${BASH_SOURCE[0]}")/../host/settings.bash"
need_original
built=$root/target/bench
original=$CARGO_TARGET_DIR/release
mkdir -p "$built"

# build_proved PROGRAM: makes $built/PROGRAM, the proved program.
build_proved() {
    make_program "$1"
    cp "$root/target/bin/$1" "$built"
}

# build_original: makes the programs over the original Rust, in the folder that `original` names.
build_original() {
    cargo build --quiet --release --manifest-path "$root/bench/programs/Cargo.toml"
}

# How often a command is run for one figure.
times=1

# piped INPUT OUTPUT COMMAND..: `cat INPUT | COMMAND >OUTPUT`, so many times.
piped() {
    local input=$1 output=$2 i
    shift 2
    for ((i = 0; i < times; i++)); do
        cat "$input" | "$@" >"$output"
    done
}

# seconds INPUT OUTPUT COMMAND..: the shortest of five such figures.
seconds() {
    local TIMEFORMAT=%R
    for _ in 1 2 3 4 5; do
        { time piped "$@"; } 2>&1
    done | sort -n | head -n 1
}

# row NAME RECORDS INPUT OUTPUT COMMAND..: a row of a table. Sets `rate` to the records a second.
row() {
    local name=$1 records=$2 took
    shift 2
    took=$(seconds "$@")
    rate=$(awk -v n="$records" -v s="$took" 'BEGIN { printf "%d", n / s }')
    echo "| $name | $took | $rate |"
}
