#!/usr/bin/env python3
"""Writes random cases of wimbleyam_check with the answers of the second program.

    tests/c/make_cases.py SECOND COUNT [SEED]

SECOND is the compiled second program (tests/second). Two cases of three are lines of its own generator; the
others are such lines changed once or twice here, so that fitting sheets that are not first, outputs used
twice and two faults at once are common too. Every answer is the second program's. No case comes twice.
"""
import random
import subprocess
import sys

NONE = 255


def drop_pairs(r, card, plan, holds, sheet):
    for i in range(len(plan)):
        if r.random() < 0.5:
            plan[i] = NONE


def drop_holds(r, card, plan, holds, sheet):
    for c in range(len(holds)):
        if r.random() < 0.8:
            holds[c] = NONE


def output_twice(r, card, plan, holds, sheet):
    busy = [i for i in range(len(plan)) if plan[i] != NONE]
    if busy and len(plan) > 1:
        plan[r.randrange(len(plan))] = plan[r.choice(busy)]


def no_output(r, card, plan, holds, sheet):
    if plan:
        plan[r.randrange(len(plan))] = r.choice([len(plan), len(plan) + 1, 16, 254])


def one_hold(r, card, plan, holds, sheet):
    if holds:
        holds[r.randrange(len(holds))] = r.randrange(4)


def one_position(r, card, plan, holds, sheet):
    if sheet:
        sheet[r.randrange(len(sheet))] = r.randrange(4)


def length(r, card, plan, holds, sheet):
    part = r.choice([plan, holds, sheet])
    if part and r.random() < 0.5:
        part.pop()
    else:
        part.append(r.choice([0, NONE]))


def other_card(r, card, plan, holds, sheet):
    card[r.randrange(2)] = r.randrange(25)


CHANGES = [drop_pairs, drop_pairs, drop_pairs, drop_holds, output_twice, output_twice, no_output, one_hold, one_position, length, other_card]


def run(second, arguments, text=""):
    return subprocess.run([second, *arguments], input=text, capture_output=True, text=True, check=True).stdout.splitlines()


def changed(r, line):
    parts = [[int(w) for w in part.split()] for part in line.split("/")]
    for _ in range(r.choice([1, 1, 2])):
        r.choice(CHANGES)(r, *parts)
    return " / ".join(" ".join(str(v) for v in part) for part in parts)


def main():
    second, count = sys.argv[1], int(sys.argv[2])
    seed = int(sys.argv[3]) if len(sys.argv) > 3 else 1
    r = random.Random(seed)
    lines = {}
    round_ = 0
    while len(lines) < count:
        for i, line in enumerate(run(second, ["gen-check", str(seed * 1000 + round_), str(count)])):
            lines.setdefault(line if i % 3 else changed(r, line))
        round_ += 1
    lines = list(lines)[:count]
    for line, answer in zip(lines, run(second, ["check"], "".join(l + "\n" for l in lines)), strict=True):
        print(f"check {line} = {answer}")


if __name__ == "__main__":
    main()
