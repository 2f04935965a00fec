#!/usr/bin/env python3
"""Counts how many orders a second the record program answers, beside the second program, on the same streams.

    (cd crates/wimbleyam && rt run </dev/null) && rustc --edition 2021 -O tests/second/second.rs -o target/second
    tests/bench/throughput.py crates/wimbleyam/out/wimbleyam target/second [ORDERS] [SEED]

A stream commissions a KLW card of 8 lines or a Beneš card of 16, and then mixes all orders: a quarter plans,
the rest patches, drops, holds, releases, ring-outs and voice frames, refused ones among them. Each program
reads the stream from a file and writes its answers to a file; both must write the same bytes. Each figure is
the best of three runs, with the start of the process in it."""
import random
import subprocess
import sys
import tempfile
import time

CARDS = {"KLW, 8 lines": (1, 8, 7, 8), "Beneš, 16 lines": (3, 16, 56, 2)}


def stream(kind, lines, cells, positions, orders, rng):
    out = bytearray(b"CM" + bytes([kind, lines]))
    for _ in range(orders):
        share = rng.random()
        if share < 0.25:
            plan = rng.sample(range(lines), lines)
            out += b"PL" + bytes(255 if rng.random() < 0.2 else o for o in plan)
        elif share < 0.45:
            out += b"PT" + bytes([rng.randrange(lines), rng.randrange(lines)])
        elif share < 0.6:
            out += b"DR" + bytes([rng.randrange(lines)])
        elif share < 0.7:
            out += b"HO" + bytes([rng.randrange(cells), rng.randrange(positions)])
        elif share < 0.8:
            out += b"RE" + bytes([rng.randrange(cells)])
        elif share < 0.9:
            out += b"RO"
        else:
            out += b"VF" + bytes(rng.randrange(256) for _ in range(11 * lines))
    return bytes(out)


def timed(command, path):
    best, answers = None, None
    for _ in range(3):
        with open(path, "rb") as given, tempfile.TemporaryFile() as came:
            start = time.perf_counter()
            subprocess.run(command, stdin=given, stdout=came, check=True)
            took = time.perf_counter() - start
            came.seek(0)
            answers = came.read()
        best = took if best is None else min(best, took)
    return best, answers


def main():
    program, second = sys.argv[1], sys.argv[2]
    orders = int(sys.argv[3]) if len(sys.argv) > 3 else 100000
    rng = random.Random(int(sys.argv[4]) if len(sys.argv) > 4 else 1)
    for name, card in CARDS.items():
        with tempfile.NamedTemporaryFile() as given:
            given.write(stream(*card, orders, rng))
            given.flush()
            ours, answers = timed([program], given.name)
            theirs, expected = timed([second, "records"], given.name)
        if answers != expected:
            sys.exit(f"{name}: the two programs differ")
        print(f"{name}: {orders} orders: {round(orders / ours):,} a second, the second program {round(orders / theirs):,}")


main()
