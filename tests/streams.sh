#!/usr/bin/env bash
# Compares the record program with the second program on random streams of order records.
#   tests/streams.sh SECOND [STREAMS] [ORDERS] [FIRST_SEED]
# SECOND is the compiled second program. Each stream is fed as one file and in random pieces; every
# 20th stream is also fed one byte at a time (its first 4096 bytes). Ends with 1 at the first difference.
set -u
if [ $# -lt 1 ]; then sed -n 2,5p "$0" >&2; exit 2; fi
streams=${2:-200}
orders=${3:-200}
first=${4:-1}
. "$(dirname "$0")/feeding.sh"

single=0
for ((seed = first; seed < first + streams; seed++)); do
    stream "$seed"
    if [ $(((seed - first) % 20)) -eq 0 ]; then
        head -c 4096 "$work/stream" >"$work/front"
        fed "$work/front" 1 "$seed" "its first 4096 bytes fed one byte at a time"
        single=$((single + 1))
    fi
done
report
echo "all: $streams streams, $((streams * orders)) orders agreed, seeds $first to $((first + streams - 1)); each also in random pieces, $single also one byte at a time"
