# The tries of the must-fail edits: .ci/edits over the right tree, with a stand-in for the toolchain, which refuses `twice` where its
# code is another, and then does not look at `sum`.
hand=$room/hand

# toolchain [STATUS]: the stand-in. It notes where it was asked; with a status it ends with that, and judges nothing.
toolchain() {
    mkdir -p "$hand"
    rm -f "$room/asked"
    cat >"$hand/rt" <<END
#!/usr/bin/env bash
if [ "\$1" = version ]; then echo kit; exit; fi
echo "\$PWD " >>"$room/asked"
if [ -n "$1" ]; then echo "rt: stopped"; exit $1; fi
if grep -q 'n + n' src/sums.rt; then
    grep -q 'self.low + self.high' src/sums.rt && exit
    echo 'fn small::sums::Pair::sum: no proof: expected answers in ./proofs/a; \`search\` did not prove \`returns\`'
else
    echo './proofs/sums/twice/Answers.antt:3:5: error: \`returns\`: \`search\`: no proof of \`a\`'
    echo 'fn small::sums::Pair::sum: no proof: it calls \`small::sums::twice\`, which is not proved'
fi
exit 1
END
    chmod +x "$hand/rt"
}

# try_edits [ARGUMENTS..]: tries the edits of the crate `small`.
try_edits() {
    PATH=$hand:$PATH XDG_CACHE_HOME=$room/cache "$ci/edits" --root "$tree" "$@" small
}

# asked NUMBER CASE: so many checks were made since the last time.
asked() {
    cases=$((cases + 1))
    touch "$room/asked"
    cp "$room/asked" "$room/said"
    [ "$(wc -l <"$room/asked")" -eq "$1" ] || complain "edits: $2: $(wc -l <"$room/asked") checks, and not $1"
    rm "$room/asked"
}

tries() {
    local log=$tree/target/must-fail/small/first/.log
    right
    rm -r "$tree/target"
    toolchain ''
    passes "edits: they can be tried" try_edits
    cp "$room/asked" "$room/where"
    # the crate as it stands, and for each of two edits all changes and then the one that was not looked at
    asked 5 "all changes, and those that were not refused"
    passes "edits: the crate is checked here, its edits in a copy elsewhere" \
        test "$(grep -c "^$tree/crates/small " "$room/where")" = 1
    passes "edits: the first log names its changes" grep -qx '== with sum_of_low, twice_once' "$log"
    passes "edits: and then those that were left" grep -qx '== with sum_of_low' "$log"
    passes "edits: the crate is as it was" diff -r "$room/right/crates" "$tree/crates"
    passes "edits: each is refused" judge small
    rm -r "$tree/target"
    passes "edits: again" try_edits
    asked 0 "nothing has changed"
    passes "edits: each is refused by the kept log" judge small
    sed -i 's/^rules:$/rules:\nother: rules/' "$tree/crates.txt"
    passes "edits: another crate is listed" try_edits
    asked 0 "another crate is listed"
    passes "edits: anew" try_edits --anew
    asked 5 "all of it anew"
    sed -i 's/^new: n$/new: n + 1/' "$tree/crates/small/must-fail/first.edit"
    passes "edits: an edit has changed" try_edits
    asked 3 "the edit that has changed"
    echo '-- more' >>"$tree/crates/rules/specs/Sums.antt"
    passes "edits: a crate below has changed" try_edits
    asked 5 "a crate below has changed"

    sed -i 's/^old: n + n/old: n + m/' "$tree/crates/small/must-fail/first.edit"
    passes "edits: a change that cannot be made" try_edits
    fails "edits: it is told" "twice_once cannot be made: 'n + m' stands in src/sums.rt 0 times, and not once" judge small
    right
    sed -i 's/n + n/2 * n/' "$sums"
    fails "edits: a crate that is not proved" "edits: small is not proved as it stands" try_edits
    right
    mkdir -p "$room/cache/tulonkasa-edits"
    touch -d '40 days ago' "$room/cache/tulonkasa-edits/old.log"
    touch -d '20 days ago' "$room/cache/tulonkasa-edits/young.log"
    passes "edits: with old logs" try_edits
    passes "edits: what no run took for a month goes" test ! -e "$room/cache/tulonkasa-edits/old.log"
    passes "edits: what one took stays" test -e "$room/cache/tulonkasa-edits/young.log"
    toolchain 2
    fails "edits: a check that judges nothing" "rt check ended with status 2" try_edits --anew
    toolchain ''
    fails "edits: no such crate" "crates.txt lists no crate smal" try_edits smal
}

tries
