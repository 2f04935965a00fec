#!/usr/bin/env bash
# Compares the record program with the second program on random streams of order records.
#   tests/streams_by_kind.sh SECOND [ORDERS_A_KIND] [ORDERS] [FIRST_SEED]
# SECOND is the compiled second program. Streams of ORDERS orders are made, seed after seed, until each of
# the eight kinds has had ORDERS_A_KIND of them. Each stream is fed as one file, in random pieces, and one
# byte at a time. Ends with 1 at the first difference.
set -u
if [ $# -lt 1 ]; then sed -n 2,6p "$0" >&2; exit 2; fi
wanted=${2:-5000}
orders=${3:-250}
first=${4:-1}
. "$(dirname "$0")/feeding.sh"

# Whether a kind has had too few orders.
lacking() {
    for kind in 1 2 3 4 17 18 19 20; do
        if [ $((${kinds[$kind]:-0} * orders)) -lt "$wanted" ]; then return 0; fi
    done
    return 1
}

streams=0
while lacking; do
    seed=$((first + streams))
    stream "$seed"
    fed "$work/stream" 1 "$seed" "fed one byte at a time"
    streams=$((streams + 1))
done
report
echo "all: $streams streams, $((streams * orders)) orders agreed, seeds $first to $((first + streams - 1)); each as a file, in random pieces and one byte at a time"
