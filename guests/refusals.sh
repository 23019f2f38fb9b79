#!/usr/bin/env bash
# Rehearses an update that leads and is finished once for each growth of that rehearsal, and refuses that growth. Each run has to end with
# status 0 or 9, and with a log in which each entry may come. It builds the program of guests/refusals.txt in a folder of its own, by
# `rt try`, without proofs; that takes some minutes. Its last line says how many growths there are and how the runs ended; its status is
# 0 where each ended so.
set -eu
here=$(cd "$(dirname "$0")" && pwd)
work=$(mktemp -d)
trap 'rm -rf "$work"' EXIT
# Which growth of the whole program is refused, and how many are made right before the rehearsal at most: so many that the first refusal
# comes behind the rehearsal, and the last one before it. The answers show whether that is so.
refused=900
most=500

# A crate of its own, on the libraries that the program mv stands on.
cp "$here/../crates.txt" "$work"
tar -C "$here/.." --exclude=out --exclude=proofs --exclude=must-fail --exclude=data -cf - crates |
    tar -C "$work" -xf -
sed -n 's/^mv_live [^:]*:/refusals:/p' "$here/../crates.txt" >>"$work/crates.txt"
mkdir -p "$work/crates/refusals/src" "$work/cases"
cp "$here/refusals.txt" "$work/crates/refusals/src/main.rt"

# A case for each number of growths that are made right before the rehearsal: the more, the earlier in it the refusal comes.
for growths in $(seq -w 0 "$most"); do
    : >"$work/cases/$growths"
    echo "$growths" >"$work/cases/$growths.args"
done
cd "$work/crates/refusals"
# The interpreter of `rt try` can't run a program that is given words, so it needn't begin.
if ! rt try --steps 1 --fail-alloc "$refused" --cases "$work/cases" >"$work/told" 2>"$work/errors"; then
    tail -n 5 "$work/errors" >&2
    exit 1
fi
grep -v '^== ' "$work/told" >"$work/answers"
tail -n 1 "$work/errors"

if grep -vnE '^(before|behind 0 17 legal|within [09] [0-9]+ legal)$' "$work/answers"; then
    echo "these runs ended otherwise" >&2
    exit 1
fi
# The refusals reach from one behind the rehearsal to one before it, so no growth of it was left out.
if [ "$(head -n 1 "$work/answers")" != "behind 0 17 legal" ] || [ "$(tail -n 1 "$work/answers")" != before ]; then
    echo "not every growth was refused" >&2
    exit 1
fi
count() {
    grep -cE "$1" "$work/answers" || true
}
echo "growths $(count '^within'): status 9 $(count '^within 9'), status 0 $(count '^within 0')," \
    "of these with all 17 entries $(count '^within 0 17 ')"
