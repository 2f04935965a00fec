#!/usr/bin/env bash
# Compares the record program with the second program on damaged streams of order records.
#   tests/damaged.sh SECOND [STREAMS] [FIRST_SEED]
# SECOND is the compiled second program. A stream is a valid commission and then valid marks with random
# bodies; most streams are then damaged: bits flipped, bytes cut out or put in, the end cut off.
# Ends with 1 at the first difference.
set -u
if [ $# -lt 1 ]; then sed -n 2,6p "$0" >&2; exit 2; fi
second=$(cd "$(dirname "$1")" && pwd)/$(basename "$1")
streams=${2:-2000}
first=${3:-1}
cd "$(dirname "$0")/.." || exit 2
program=crates/wimbleyam/out/wimbleyam
for needed in "$second" "$program"; do
    if [ ! -x "$needed" ]; then echo "damaged.sh: $needed is missing" >&2; exit 2; fi
done
exec python3 - "$second" "$program" "$streams" "$first" <<'END'
import random
import subprocess
import sys
import tempfile
from collections import Counter

second, program, streams, first = sys.argv[1], sys.argv[2], int(sys.argv[3]), int(sys.argv[4])


def stream(seed):
    r = random.Random(seed)
    kind = r.choice([1, 2, 3, 4, 17, 18, 19, 20])
    n = r.randint(2, 8) if kind % 16 < 3 else r.choice([2, 4, 8, 16])
    out = bytearray(b"CM" + bytes([kind, n]))

    def value(below):
        return r.randrange(256) if r.random() < 0.15 else r.randrange(below)

    for _ in range(r.randint(1, 40)):
        mark = r.choice([b"PL", b"PT", b"PT", b"DR", b"HO", b"HO", b"RE", b"RO", b"VF"])
        out += mark
        if mark == b"PL":
            body = list(range(n))
            r.shuffle(body)
            body = [255 if r.random() < 0.3 else x for x in body]
            for _ in range(r.choice([0, 0, 1, n])):
                body[r.randrange(n)] = r.randrange(256)
        elif mark == b"VF":
            body = [r.randrange(256) for _ in range(11 * n)]
        else:
            size = {b"PT": 2, b"DR": 1, b"HO": 2, b"RE": 1, b"RO": 0}[mark]
            body = [value(n) for _ in range(size)]
            if mark == b"HO" and r.random() < 0.7:
                body[1] = r.randrange(3)
        out += bytes(body)
    damage = r.choice(["none", "bits", "bits", "hole", "more", "end", "end", "all"])
    if damage in ("bits", "all"):
        for _ in range(r.randint(1, 4)):
            out[r.randrange(len(out))] ^= 1 << r.randrange(8)
    if damage in ("hole", "all"):
        at = r.randrange(len(out))
        del out[at:at + r.randint(1, 12)]
    if damage in ("more", "all"):
        at = r.randrange(len(out) + 1)
        out[at:at] = bytes(r.randrange(256) for _ in range(r.randint(1, 4)))
    if damage in ("end", "all"):
        del out[r.randrange(len(out) + 1):]
    return bytes(out)


def last(answers):
    if answers[-5:-3] == b"NO" and answers[-3] in (1, 12, 13):
        return f"stopped by {answers[-3]}"
    return "read to the end" if answers else "empty"


ends = Counter()
for seed in range(first, first + streams):
    given = stream(seed)
    expected = subprocess.run([second, "records"], input=given, stdout=subprocess.PIPE, check=True).stdout
    got = subprocess.run([program], input=given, stdout=subprocess.PIPE)
    if got.stdout != expected or got.returncode != 0:
        with tempfile.NamedTemporaryFile(prefix="damaged-differ-", delete=False) as kept:
            kept.write(given)
        print(f"seed {seed}: the two programs differ; the stream is kept in {kept.name}")
        sys.exit(1)
    ends[last(expected)] += 1
print(f"{streams} damaged streams agreed, seeds {first} to {first + streams - 1}: "
      + ", ".join(f"{n} {how}" for how, n in sorted(ends.items())))
END
