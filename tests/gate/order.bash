# The gate's order, and what it prints last: .ci/run as it is, among stand-ins for the toolchain and for its parts.
gate=$room/gate

# stand_in PATH TEXT: a script of the tree, or the command rt.
stand_in() {
    mkdir -p "$(dirname "$1")"
    printf '#!/usr/bin/env bash\n%s\n' "$2" >"$1"
    chmod +x "$1"
}

# What rt ci says above its last line, where all is well.
well='rt: ok; handles allowed: none; must-fail edits: 2 refused; every proof and must-fail edit was done in this run'

# parts LAST STATUS [SAID]: a tree with the gate in it, all of whose parts pass, but that rt ci ends with this line and this status, and
# says this above it.
parts() {
    local part
    rm -rf "$gate"
    mkdir -p "$gate/host" "$gate/original/ultragfx/src/hle"
    touch "$gate/original/ultragfx/src/hle/tmem.rs"
    cp "$ci/../host/settings.bash" "$gate/host"
    for part in .ci/columns .ci/names .ci/contracts .ci/edits .ci/refused tests/gate/run; do
        stand_in "$gate/$part" "echo 'part: $part'"
    done
    stand_in "$gate/.ci/host" '
        echo "part: .ci/host"
        case $TULONKASA_ARCHIVE:$TULONKASA_SHARED in */other.*) exit 1 ;; esac'
    cp "$ci/run" "$gate/.ci/run"
    stand_in "$gate/bin/rt" "
        echo \"part: rt \$*\"
        if [ \"\$1\" = ci ]; then echo '${3:-$well}'; echo; echo '$1'; exit $2; fi"
}

# run_gate [ORIGINAL]: runs it, with another archive named from outside.
run_gate() {
    (cd "$gate" && PATH=$gate/bin:$PATH TULONKASA_ARCHIVE=/other.a TULONKASA_SHARED=/other.so \
        TULONKASA_ORACLE_SOURCE=$gate/${1:-original} bash .ci/run)
}

# printed CASE FILTER EXPECTED: what the filter makes of what was printed.
printed() {
    cases=$((cases + 1))
    [ "$(eval "$2" <"$room/printed")" = "$3" ] || {
        cp "$room/printed" "$room/said"
        complain "the gate: $1"
    }
}

# not_passed CASE WORDS: the gate must fail, say the words, and not end with the line of success.
not_passed() {
    fails "the gate: $1" "$2" run_gate
    cp "$room/said" "$room/printed"
    printed "$1: the last line is not that of success" 'tail -n 1 | grep -c ", 0 failed$"' 0
}

order() {
    local part words
    parts '3 passed, 0 failed' 0
    passes "the gate: all parts pass" run_gate
    cp "$room/said" "$room/printed"
    printed "the order of the parts" "sed -n 's/^part: //p' | paste -sd ," \
        '.ci/columns,tests/gate/run,.ci/names,.ci/contracts,rt ci,.ci/edits,.ci/refused,.ci/host'
    printed "its last line" 'tail -n 1' '3 passed, 0 failed'
    printed "the total above it" "tail -n 2 | head -n 1 | sed 's/[0-9][0-9]*/N/'" 'gate: all took N s'
    printed "the line is printed once" 'grep -c passed' 1
    passes "the gate: without the original" run_gate nowhere
    cp "$room/said" "$room/printed"
    printed "what was left out, above the last line" "tail -n 3 | sed 's/took [0-9]*/took N/' | paste -sd /" \
        "gate: all took N s/gate: the original's source is not here, so the comparison with it was left out/3 passed, 0 failed"

    parts '2 passed, 1 failed' 1
    not_passed "rt ci fails" '2 passed, 1 failed'
    parts '3 passed, 0 failed' 1
    not_passed "rt ci ends badly after a good line" '3 passed, 0 failed'
    parts 'rt: stopped' 0
    not_passed "rt ci ends without its line" 'rt: stopped'
    parts '3 passed, 0 failed' 0 'rt: done'
    not_passed "rt ci does not say that all is well" 'gate: rt ci did not pass: it does not say'
    parts '3 passed, 0 failed' 0 "${well/2 refused/1 refused, 1 bad}"
    not_passed "rt ci counts a bad edit" 'gate: rt ci did not pass: must-fail edits are bad'
    parts '3 passed, 0 failed' 0 "${well/2 refused/0 refused, 12 bad}"
    not_passed "rt ci counts many bad edits" 'gate: rt ci did not pass: must-fail edits are bad'
    for words in 'BAD EDIT: an edit' 'NOT TRIED: its check was killed'; do
        parts '3 passed, 0 failed' 0 "rt: must-fail small/first.edit: $words"$'\n'"$well"
        not_passed "rt ci says ${words%%:*}" 'gate: rt ci did not pass: must-fail edits were not tried'
    done
    for part in .ci/columns .ci/names .ci/contracts .ci/edits .ci/refused .ci/host tests/gate/run; do
        parts '3 passed, 0 failed' 0
        stand_in "$gate/$part" "echo 'part fails'; exit 1"
        not_passed "$part fails" 'part fails'
    done
}

order
