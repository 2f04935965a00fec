#!/usr/bin/env python3
"""Times settling on a Beneš card of 16 lines: the proved program, the same search in plain Rust and the looping
algorithm, on the same cases, one after the other.

    (cd crates/bench && rt run </dev/null) && rustc --edition 2021 -O tests/bench/plain.rs -o target/plain
    tests/bench/measure.py crates/bench/out/bench target/plain [PLANS] [SEED]

Full plans: random ones without holds. Refusals: random full plans with all eight innermost cells held, those that no
setting fits. Longest refusal: the pair 0 to 0 alone with all innermost cells held at 1, so that every first column is
tried at every level. Each figure is the least of five runs, in nanoseconds a settling, and the mean over the plans."""
import random
import subprocess
import sys


def run(command, case):
    took, done = subprocess.run(command, input=case, stdout=subprocess.PIPE, check=True).stdout.split()
    return int(took), int(done)


def case(plan, holds, rounds):
    return bytes([3, 16]) + bytes(plan) + bytes(holds) + rounds.to_bytes(4, "big")


def innermost():
    def cells(level):
        return 1 if level == 0 else 2 * (2 << (level - 1)) + 2 * cells(level - 1)

    def walk(level, at):
        if level == 0:
            return [at]
        half = 2 << (level - 1)
        a = at + 2 * half
        return walk(level - 1, a) + walk(level - 1, a + cells(level - 1))

    return walk(3, 0)


def least(command, plan, holds, rounds):
    return min(run(command, case(plan, holds, rounds))[0] for _ in range(5)) / rounds


def main():
    bench, plain = sys.argv[1], sys.argv[2]
    plans = int(sys.argv[3]) if len(sys.argv) > 3 else 40
    rng = random.Random(int(sys.argv[4]) if len(sys.argv) > 4 else 1)
    ways = {"proved": [bench], "plain": [plain, "search"], "looping": [plain, "looping"]}
    totals = {way: 0.0 for way in ways}
    for _ in range(plans):
        plan = rng.sample(range(16), 16)
        for way, command in ways.items():
            totals[way] += least(command, plan, [255] * 56, 20000)
    print("full plans without holds:", {way: round(t / plans) for way, t in totals.items()})
    totals = {"proved": 0.0, "plain": 0.0}
    worst = {"proved": 0.0, "plain": 0.0}
    found = 0
    while found < plans:
        plan = rng.sample(range(16), 16)
        holds = [255] * 56
        for cell in innermost():
            holds[cell] = rng.randrange(2)
        if run(ways["plain"], case(plan, holds, 1))[1] == 1:
            continue
        found += 1
        for way in totals:
            t = least(ways[way], plan, holds, 100)
            totals[way] += t
            worst[way] = max(worst[way], t)
    print("refusals, mean:", {way: round(t / plans) for way, t in totals.items()})
    print("refusals, worst of these:", {way: round(t) for way, t in worst.items()})
    holds = [255] * 56
    for cell in innermost():
        holds[cell] = 1
    plan = [0] + [255] * 15
    assert run(ways["plain"], case(plan, holds, 1))[1] == 0 and run(ways["proved"], case(plan, holds, 1))[1] == 0
    print("longest refusal:", {way: round(least(ways[way], plan, holds, 50)) for way in totals})


main()
