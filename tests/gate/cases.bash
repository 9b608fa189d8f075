# Read by the tests of the gate's scripts: a room for the small trees, and what a case is.
ci=$(cd "$(dirname "${BASH_SOURCE[0]}")/../../.ci" && pwd)
room=$(mktemp -d)
trap 'rm -rf "$room"' EXIT
cases=0 wrong=0

# complain TEXT: a case went wrong; with what the script said.
complain() {
    wrong=$((wrong + 1))
    echo "gate's tests: $1; it said:"
    sed 's/^/    /' "$room/said"
}

# passes CASE COMMAND..: the command must end well.
passes() {
    local case=$1
    shift
    cases=$((cases + 1))
    "$@" >"$room/said" 2>&1 || complain "$case must pass, and fails"
}

# fails CASE WORDS COMMAND..: the command must fail, and say these words.
fails() {
    local case=$1 words=$2
    shift 2
    cases=$((cases + 1))
    if "$@" >"$room/said" 2>&1; then
        complain "$case must fail, and passes"
    elif ! grep -qF -- "$words" "$room/said"; then
        complain "$case fails, but not with the words '$words'"
    fi
}

# has_said CASE PATTERN: the last command must have said a line of the pattern.
has_said() {
    cases=$((cases + 1))
    grep -q -- "$2" "$room/said" || complain "$1: no line is '$2'"
}

# finish NAME: says how the cases went, and ends.
finish() {
    echo "$1: $cases cases, $wrong wrong"
    [ "$wrong" -eq 0 ] || exit 1
    exit 0
}
