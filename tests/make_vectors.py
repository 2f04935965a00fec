#!/usr/bin/env python3
"""Makes the vectors of random cases, with the answers of the second program.

    tests/make_vectors.py SECOND [SEED] [OUT]

SECOND is the compiled second program (tests/second), OUT the folder to write into (vectors). Written are
settings.txt, places.txt, checks.txt, cabinets.txt, orders.txt and streams.txt; by-hand.txt is written by hand, and only
compared: each of its lines that the second program can answer must have that answer. No answer comes from
the product. docs/RULES.md has the forms of the lines.
"""
import os
import sys
from collections import Counter

from make_tables import order_cases, place_cases, run, settle_cases


def check_cases(second, seed):
    """At least 500 different checks."""
    count = 600
    while True:
        lines = list(dict.fromkeys(run(second, "gen-check", seed, count).decode().splitlines()))
        if len(lines) >= 500:
            break
        count += 100
    return [(f"check {line}", answer) for line, answer in zip(lines, checked(second, lines))]


def checked(second, lines):
    answers = run(second, "check", given=("\n".join(lines) + "\n").encode()).decode().splitlines()
    assert len(answers) == len(lines)
    return answers


# A cabinet that takes the plan and the holds as orders answers as the call for C does, but for 8 and 11, which
# the order Hold answers with its own layer and place, and for a hold list of a wrong length, which no order has.
NOT_BY_ORDERS = {(8, 3), (11, 3), (14, 3)}


def cabinet_cases(checks):
    """The checks again, of a cabinet that takes the plan and the holds as orders."""
    cases = []
    for case, answer in checks:
        code = int(answer)
        number, layer, place = code >> 16, code >> 8 & 255, code & 255
        if (number, layer) not in NOT_BY_ORDERS:
            cases.append((case.replace("check", "cabinet", 1), f"NO {number} {layer} {place}" if number else answer))
    return cases


def streamed(second, given):
    return run(second, "records", given=given)


def stream_cases(second, seed, count=40):
    """Streams of records with voice frames and stray ends, whole and cut off."""
    cases = []
    for i in range(count):
        stream = run(second, "gen", seed * 2000 + i, 16)
        if i % 4 == 3:
            stream = stream[: len(stream) * (i + 1) // (count + 1)]
        cases.append((f"stream {stream.hex(' ').upper()}", streamed(second, stream).hex(" ").upper()))
    return cases


def read_file(path):
    with open(path) as lines:
        return [tuple(line.rstrip("\n").split(" = ", 1)) for line in lines if line.strip() and not line.startswith("#")]


def compare_by_hand(second, cases):
    """Compares the lines that the second program can answer; says how many."""
    compared = 0
    for case, answer in cases:
        word, _, rest = case.partition(" ")
        if word == "check":
            came = checked(second, [rest])[0]
        elif word == "stream":
            came = streamed(second, bytes.fromhex(rest)).hex(" ").upper()
        else:
            continue
        if came != answer:
            sys.exit(f"by hand: {case} = {answer}, but the second program answers {came}")
        compared += 1
    return compared


def main():
    if len(sys.argv) not in (2, 3, 4):
        sys.exit(__doc__)
    second = sys.argv[1]
    seed = int(sys.argv[2]) if len(sys.argv) > 2 else 7
    out = sys.argv[3] if len(sys.argv) > 3 else os.path.join(os.path.dirname(__file__), "..", "vectors")
    by_hand = read_file(os.path.join(os.path.dirname(__file__), "..", "vectors", "by-hand.txt"))
    print(f"by-hand.txt: {len(by_hand)} lines, {compare_by_hand(second, by_hand)} of them compared with the second program")
    checks = check_cases(second, seed)
    made = {
        "settings.txt": ("First settings", settle_cases(second, seed, 2000, 2300)),
        "places.txt": ("Places", place_cases(second, seed, 30)),
        "checks.txt": ("Checks of sheets", checks),
        "cabinets.txt": ("Checks of sheets by a cabinet", cabinet_cases(checks)),
        "orders.txt": ("Runs of orders", order_cases(second, seed)),
        "streams.txt": ("Streams of records", stream_cases(second, seed)),
    }
    for name, (title, cases) in made.items():
        with open(os.path.join(out, name), "w") as lines:
            lines.write(f"# {title}: random cases of seed {seed}, with the answers of the second program.\n")
            lines.writelines(f"{case} = {answer}\n" for case, answer in cases)
        kinds = Counter(int(case.split()[1]) for case, _ in cases) if name != "streams.txt" else {}
        refused = sum(answer.startswith("NO ") or (name == "checks.txt" and int(answer) > 1) for _, answer in cases)
        print(f"{name}: {len(cases)} lines, {refused} refused; " + ", ".join(f"kind {k} {kinds[k]}" for k in sorted(kinds)))


main()
