#!/usr/bin/env bash
# Makes what the test program `trials` is run on, and what it must write, from the vectors.
#   tests/make_trials.sh            writes crates/trials/stdin and crates/trials/stdout
#   tests/make_trials.sh --check    compares them, and ends with 1 where they differ
set -u
cd "$(dirname "$0")/.." || exit 2
work=$(mktemp -d) || exit 2
trap 'rm -rf "$work"' EXIT
cat vectors/by-hand.txt vectors/settings.txt vectors/places.txt vectors/checks.txt vectors/cabinets.txt vectors/orders.txt vectors/streams.txt |
    grep -v -e '^#' -e '^$' >"$work/all" || exit 2
sed 's/ = .*//; s/ =$//' "$work/all" >"$work/stdin"
sed 's/^[^=]*= \{0,1\}//' "$work/all" >"$work/stdout"
if [ "${1:-}" = --check ]; then
    for name in stdin stdout; do
        if ! cmp -s "$work/$name" "crates/trials/$name"; then
            echo "make_trials.sh: crates/trials/$name is not made from the vectors: run tests/make_trials.sh" >&2
            exit 1
        fi
    done
    exit 0
fi
cp "$work/stdin" "$work/stdout" crates/trials/
wc -l <"$work/stdin"
