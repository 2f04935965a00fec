#!/usr/bin/env python3
"""Writes the table of cases for the test program `tables`, and the table of expected answers.

    tests/make_tables.py SECOND OUT_STDIN OUT_STDOUT [SEED]

SECOND is the compiled second program (tests/second). The expected answers of the random cases come from
it; those of the list BY_HAND were written by hand from docs/RULES.md. No answer comes from the product.

Forms of a line, and of its answer ('NO number layer place' for a refusal):
    settle K N / plan / holds / B      the setting, with a buffer of B entries
    place K N / setting / input s      the place of the input after s columns
    positions K N / cell               the position count of the cell
    carry K N / A B                    how many outputs a carry of A payloads into B outputs fills
    orders K N / ORDER / ORDER ..      for each order 'moved n', 'rang x0 x1 ..' or the refusal, joined by ' / '
"""
import subprocess
import sys
from collections import Counter

HALVING = (3, 4, 19, 20)
KINDS = (1, 2, 3, 4, 17, 18, 19, 20)
ORDERS = 24
MARKS = {b"PL": "plan", b"PT": "patch", b"DR": "drop", b"HO": "hold", b"RE": "release", b"RO": "ring", b"VF": "carry"}


def none(count):
    return " ".join(["255"] * count)


PLAN6 = "2 4 1 5 0 3"
UPTO16 = " ".join(str(i) for i in range(16))

# (line, answer), written by hand from docs/RULES.md.
BY_HAND = [
    # Settling: 14, a plan of another length.
    (f"settle 3 4 / 2 1 0 / {none(6)} / 6", "NO 14 3 0"),
    (f"settle 3 4 / 4 3 2 1 0 / {none(6)} / 6", "NO 14 3 0"),
    (f"settle 4 8 / {UPTO16} / {none(12)} / 12", "NO 14 3 0"),
    ("settle 18 3 / 1 0 / 255 255 / 2", "NO 14 3 0"),
    # Settling: 14, a hold list too short or too long.
    (f"settle 3 4 / 3 2 1 0 / {none(5)} / 6", "NO 14 3 0"),
    (f"settle 3 4 / 3 2 1 0 / {none(7)} / 6", "NO 14 3 0"),
    (f"settle 1 6 / {PLAN6} / {none(6)} / 5", "NO 14 3 0"),
    # Settling: 14, a buffer too short or too long.
    (f"settle 3 4 / 3 2 1 0 / {none(6)} / 5", "NO 14 3 0"),
    (f"settle 3 4 / 3 2 1 0 / {none(6)} / 7", "NO 14 3 0"),
    (f"settle 17 6 / {PLAN6} / {none(5)} / 4", "NO 14 3 0"),
    (f"settle 20 4 / 0 2 255 255 / {none(4)} / 0", "NO 14 3 0"),
    (f"settle 19 16 / {none(16)} / {none(56)} / 57", "NO 14 3 0"),
    # Settling: 8, the lowest of the bad holds.
    ("settle 3 4 / 3 2 1 0 / 255 2 255 255 7 255 / 6", "NO 8 3 1"),
    ("settle 3 4 / 3 2 1 0 / 255 255 255 255 255 254 / 6", "NO 8 3 5"),
    (f"settle 1 6 / {PLAN6} / 6 255 255 255 255 / 5", "NO 8 3 0"),
    (f"settle 1 6 / {PLAN6} / 5 255 255 255 2 / 5", "NO 8 3 4"),
    (f"settle 2 6 / {PLAN6} / 255 5 255 3 255 / 5", "NO 8 3 1"),
    ("settle 18 3 / 2 1 0 / 255 2 / 2", "NO 8 3 1"),
    # Settling: 14 before 8, 8 before 11, and 11.
    ("settle 3 4 / 3 2 1 0 / 2 255 255 255 255 255 / 5", "NO 14 3 0"),
    ("settle 3 4 / 2 1 0 / 2 255 255 255 255 255 / 6", "NO 14 3 0"),
    ("settle 1 3 / 1 255 255 / 9 / 2", "NO 14 3 0"),
    ("settle 3 4 / 3 2 1 0 / 0 255 255 0 255 2 / 6", "NO 8 3 5"),
    ("settle 4 4 / 0 1 255 255 / 255 255 255 2 / 4", "NO 8 3 3"),
    ("settle 3 4 / 3 2 1 0 / 0 255 255 0 255 255 / 6", "NO 11 3 0"),
    ("settle 4 4 / 0 1 255 255 / 255 255 255 255 / 4", "NO 11 3 0"),
    # Making the plan: 14, 3 and 5, the lowest input first.
    (f"settle 3 4 / 0 / {none(6)} / 6", "NO 14 2 0"),
    (f"settle 1 8 / {UPTO16} 255 / {none(7)} / 7", "NO 14 2 0"),
    (f"settle 3 4 / 0 1 1 2 / {none(6)} / 6", "NO 5 2 2"),
    (f"settle 3 4 / 2 2 9 1 / {none(6)} / 6", "NO 5 2 1"),
    (f"settle 3 4 / 0 4 1 1 / {none(6)} / 6", "NO 3 2 1"),
    (f"settle 3 4 / 254 255 255 255 / {none(6)} / 6", "NO 3 2 0"),
    (f"settle 3 4 / 3 2 1 / {none(6)} / 6", "NO 3 2 0"),
    ("settle 17 3 / 1 1 1 / 255 255 / 2", "NO 5 2 1"),
    # Settling: worked settings.
    (f"settle 2 6 / {PLAN6} / {none(5)} / 5", "4 1 0 1 0"),
    (f"settle 1 6 / {PLAN6} / {none(5)} / 5", "4 1 0 2 1"),
    (f"settle 17 6 / {PLAN6} / {none(5)} / 5", "4 2 0 1 1"),
    (f"settle 3 4 / 3 2 1 0 / {none(6)} / 6", "0 0 1 1 1 1"),
    ("settle 3 4 / 3 2 1 0 / 255 255 255 0 255 255 / 6", "1 0 1 0 1 1"),
    (f"settle 3 4 / 0 2 1 3 / {none(6)} / 6", "0 1 0 1 0 1"),
    ("settle 3 4 / 0 2 1 3 / 255 255 255 255 1 255 / 6", "1 0 1 0 1 0"),
    ("settle 3 4 / 0 2 1 3 / 255 255 255 255 1 1 / 6", "NO 11 3 0"),
    (f"settle 4 4 / 0 2 255 255 / {none(4)} / 4", "0 0 0 0"),
    (f"settle 4 4 / 3 255 255 255 / {none(4)} / 4", "1 0 0 1"),
    (f"settle 4 4 / 0 255 255 255 / {none(4)} / 4", "0 0 0 0"),
    # The column sheet: worked places.
    ("place 2 6 / 4 1 0 1 0 / 0 2", "1"),
    ("place 2 6 / 4 1 0 1 0 / 0 5", "2"),
    ("place 3 4 / 0 0 1 1 1 1 / 0 2", "1"),
    ("place 3 4 / 0 0 1 1 1 1 / 0 3", "3"),
    ("place 19 4 / 0 0 1 1 1 1 / 0 0", "0"),
    ("place 19 4 / 0 0 1 1 1 1 / 0 1", "2"),
    ("place 19 4 / 0 0 1 1 1 1 / 0 2", "3"),
    # The column sheet: 14.
    ("place 3 4 / 0 0 1 1 1 / 0 0", "NO 14 3 0"),
    ("place 3 4 / 0 0 1 1 1 1 0 / 0 0", "NO 14 3 0"),
    ("place 1 6 / 4 1 0 2 / 0 0", "NO 14 3 0"),
    ("place 20 2 / 0 0 / 0 0", "NO 14 3 0"),
    # The column sheet: 15, the lowest of the bad positions.
    ("place 3 4 / 0 2 0 0 3 0 / 0 0", "NO 15 3 1"),
    ("place 1 6 / 5 4 3 3 2 / 0 0", "NO 15 3 3"),
    ("place 18 6 / 6 5 0 0 0 / 0 0", "NO 15 3 0"),
    ("place 4 4 / 0 0 0 255 / 0 0", "NO 15 3 3"),
    # The column sheet: 2.
    ("place 3 4 / 0 0 1 1 1 1 / 4 0", "NO 2 3 4"),
    ("place 3 4 / 0 0 1 1 1 1 / 255 3", "NO 2 3 255"),
    ("place 17 6 / 4 1 0 2 1 / 6 5", "NO 2 3 6"),
    # The column sheet: 18, the count asked as place.
    ("place 3 4 / 0 0 1 1 1 1 / 0 4", "NO 18 3 4"),
    ("place 19 4 / 0 0 1 1 1 1 / 3 255", "NO 18 3 255"),
    ("place 4 4 / 0 0 0 0 / 1 3", "NO 18 3 3"),
    ("place 1 6 / 4 1 0 2 1 / 0 6", "NO 18 3 6"),
    # The column sheet: two faults at once.
    ("place 3 4 / 2 0 0 / 0 0", "NO 14 3 0"),
    ("place 3 4 / 0 0 0 / 4 0", "NO 14 3 0"),
    ("place 3 4 / 0 0 0 / 0 4", "NO 14 3 0"),
    ("place 3 4 / 0 0 0 0 0 2 / 4 0", "NO 15 3 5"),
    ("place 3 4 / 0 0 0 0 0 2 / 0 4", "NO 15 3 5"),
    ("place 3 4 / 0 0 1 1 1 1 / 9 200", "NO 2 3 9"),
    # A carry of so many payloads into so many outputs, and 14.
    ("carry 1 6 / 6 6", "6"),
    ("carry 1 6 / 5 6", "NO 14 2 0"),
    ("carry 1 6 / 6 7", "NO 14 2 0"),
    ("carry 19 16 / 0 0", "NO 14 2 0"),
    # The positions of a cell, and 7.
    ("positions 1 6 / 0", "6"),
    ("positions 1 6 / 4", "2"),
    ("positions 18 8 / 3", "5"),
    ("positions 3 16 / 55", "2"),
    ("positions 20 16 / 31", "2"),
    ("positions 1 6 / 5", "NO 7 3 5"),
    ("positions 18 2 / 1", "NO 7 3 1"),
    ("positions 3 4 / 6", "NO 7 3 6"),
    ("positions 3 16 / 56", "NO 7 3 56"),
    ("positions 4 8 / 12", "NO 7 3 12"),
    ("positions 20 16 / 32", "NO 7 3 32"),
    ("positions 19 8 / 255", "NO 7 3 255"),
    # Unknown kinds and line counts: 1.
    ("settle 1 1 / 255 255 / 255 / 1", "NO 1 3 1"),
    (f"settle 1 9 / {none(9)} / {none(8)} / 8", "NO 1 3 9"),
    (f"settle 3 6 / {none(6)} / {none(12)} / 12", "NO 1 3 6"),
    (f"settle 5 4 / {none(4)} / {none(5)} / 5", "NO 1 3 4"),
    ("place 1 1 / 0 / 0 0", "NO 1 3 1"),
    ("place 2 9 / 0 0 0 0 0 0 0 0 / 0 0", "NO 1 3 9"),
    ("place 21 4 / 0 0 0 0 0 / 0 0", "NO 1 3 4"),
    ("positions 0 4 / 0", "NO 1 3 4"),
    ("positions 5 8 / 0", "NO 1 3 8"),
    ("positions 16 4 / 0", "NO 1 3 4"),
    ("positions 21 16 / 0", "NO 1 3 16"),
    ("positions 33 4 / 0", "NO 1 3 4"),
    ("positions 255 2 / 0", "NO 1 3 2"),
    ("positions 17 9 / 0", "NO 1 3 9"),
    ("positions 19 6 / 0", "NO 1 3 6"),
    ("positions 4 1 / 0", "NO 1 3 1"),
    ("positions 3 32 / 0", "NO 1 3 32"),
    ("positions 2 0 / 0", "NO 1 3 0"),
    # Orders: each refusal that an order can give.
    ("orders 3 4 / patch 4 0 / drop 4 / ring", "NO 2 2 4 / NO 2 2 4 / rang 255 255 255 255"),
    ("orders 3 4 / plan 0 4 1 2 / patch 2 4 / patch 3 255", "NO 3 2 1 / NO 3 2 2 / NO 3 2 3"),
    ("orders 3 4 / patch 0 0 / patch 0 1 / ring", "moved 0 / NO 4 2 0 / rang 0 255 255 255"),
    ("orders 3 4 / plan 1 1 255 255 / patch 0 0 / patch 1 0", "NO 5 2 1 / moved 0 / NO 5 2 1"),
    ("orders 3 4 / drop 2", "NO 6 2 2"),
    ("orders 3 4 / hold 6 0 / release 6", "NO 7 2 6 / NO 7 2 6"),
    ("orders 1 6 / hold 4 2 / hold 0 255 / hold 0 6", "NO 8 2 4 / NO 8 2 0 / NO 8 2 0"),
    ("orders 3 4 / hold 4 1 / hold 4 1 / hold 4 0", "moved 1 / NO 9 2 4 / NO 9 2 4"),
    ("orders 3 4 / release 5 / hold 5 0 / release 5 / release 5", "NO 10 2 5 / moved 0 / moved 0 / NO 10 2 5"),
    ("orders 4 4 / plan 0 1 255 255 / patch 0 0 / patch 1 1 / ring", "NO 11 3 0 / moved 0 / NO 11 3 1 / rang 0 255 255 255"),
    ("orders 3 4 / plan 0 2 1 3 / hold 4 1 / hold 5 1 / ring", "moved 3 / moved 6 / NO 11 3 5 / rang 0 2 1 3"),
    ("orders 3 4 / plan 0 1 2 / plan 0 1 2 3 4", "NO 14 2 0 / NO 14 2 0"),
    # Orders: two faults at once.
    ("orders 3 4 / patch 4 4", "NO 2 2 4"),
    ("orders 3 4 / patch 0 0 / patch 0 4 / patch 0 0", "moved 0 / NO 3 2 0 / NO 4 2 0"),
    ("orders 3 4 / hold 6 9 / hold 1 0 / hold 1 2", "NO 7 2 6 / moved 0 / NO 8 2 1"),
    # Orders: worked streams.
    ("orders 3 4 / plan 3 2 1 0 / hold 3 0 / hold 0 0 / ring", "moved 4 / moved 2 / NO 11 3 0 / rang 3 2 1 0"),
    (f"orders 1 6 / plan {PLAN6} / ring", "moved 4 / rang 4 2 0 5 1 3"),
    ("orders 1 3 / hold 0 1 / patch 0 0 / patch 0 1 / drop 0 / release 0", "moved 1 / NO 11 3 0 / moved 1 / moved 1 / moved 1"),
]


def cells(kind, lines):
    if kind % 16 in (1, 2):
        return lines - 1
    beside = {3: {2: 1, 4: 6, 8: 20, 16: 56}, 4: {2: 1, 4: 4, 8: 12, 16: 32}}
    return beside[kind % 16][lines]


def run(second, *args, given=b""):
    return subprocess.run([second, *map(str, args)], input=given, stdout=subprocess.PIPE, check=True).stdout


def words(numbers):
    return " ".join(map(str, numbers))


def settle_cases(second, seed, least=900, count=1100):
    """At least so many different lines, 500 of them of kinds 3 and 4, every kind among them."""
    while True:
        lines = list(dict.fromkeys(run(second, "gen-settle", seed, count).decode().splitlines()))
        kinds = Counter(int(line.split()[0]) for line in lines)
        if len(lines) >= least and kinds[3] + kinds[4] >= 500 and all(kinds[k] for k in KINDS):
            break
        count += 100
    answers = run(second, "settle", given=("\n".join(lines) + "\n").encode()).decode().splitlines()
    assert len(answers) == len(lines)
    cases = []
    for line, answer in zip(lines, answers):
        front, held = line.split("/")
        kind, n, *plan = map(int, front.split())
        m = cells(kind, n)
        holds = [255] * m
        for hold in held.split():
            c, q = map(int, hold.split(":"))
            holds[c] = q
        assert len(plan) == n
        assert answer.startswith("NO ") or len(answer.split()) == m
        cases.append((f"settle {kind} {n} / {words(plan)} / {words(holds)} / {m}", answer))
    return cases


def place_cases(second, seed, each=12):
    """Different places of every kind and line count, made from so many each."""
    found = {}
    for kind in KINDS:
        for n in (2, 4, 8, 16) if kind in HALVING else range(2, 9):
            text = run(second, "places", kind, n, seed * 1000 + kind * 20 + n, each).decode()
            for line in text.splitlines():
                question, answer = line.split(" = ")
                front, asked = question.split(" / ")
                numbers = front.split()
                assert len(numbers) == 2 + cells(kind, n)
                found[f"place {kind} {n} / {words(numbers[2:])} / {asked}"] = answer
    return list(found.items())


def records(stream):
    """The whole records of a stream: mark and body each, up to its stray end and without its voice frames."""
    n = stream[3]
    length = {b"PL": n, b"PT": 2, b"DR": 1, b"HO": 2, b"RE": 1, b"RO": 0, b"VF": 11 * n}
    at, found = 4, []
    while stream[at:at + 2] in MARKS and at + 2 + length[stream[at:at + 2]] <= len(stream):
        mark, end = stream[at:at + 2], at + 2 + length[stream[at:at + 2]]
        if mark != b"VF":
            found.append((mark, stream[at + 2:end]))
        at = end
    return found


def order_cases(second, seed, count=60):
    cases = []
    for i in range(count):
        stream = run(second, "gen", seed * 1000 + i, ORDERS)
        kind, n = stream[2], stream[3]
        m = cells(kind, n)
        orders = records(stream)
        assert 0 < len(orders) <= ORDERS
        given = stream[:4] + b"".join(mark + body for mark, body in orders)
        came = run(second, "records", given=given)
        assert came[:3 + m] == b"OK" + bytes(1 + m)
        at, answers = 3 + m, []
        for _ in orders:
            mark = came[at:at + 2]
            if mark == b"OK":
                answers.append(f"moved {came[at + 2]}")
                at += 3 + m
            elif mark == b"RA":
                answers.append(f"rang {words(came[at + 2:at + 2 + n])}")
                at += 2 + n
            else:
                assert mark == b"NO"
                answers.append(f"NO {words(came[at + 2:at + 5])}")
                at += 5
        assert at == len(came)
        asked = [" ".join([MARKS[mark], *map(str, body)]) for mark, body in orders]
        cases.append((f"orders {kind} {n} / " + " / ".join(asked), " / ".join(answers)))
    return cases


def main():
    if len(sys.argv) not in (4, 5):
        sys.exit(__doc__)
    second, out_stdin, out_stdout = sys.argv[1:4]
    seed = int(sys.argv[4]) if len(sys.argv) == 5 else 7
    settle, place, orders = settle_cases(second, seed), place_cases(second, seed), order_cases(second, seed)
    assert len(place) >= 400
    cases = BY_HAND + settle + place + orders
    with open(out_stdin, "w") as out:
        out.writelines(line + "\n" for line, _ in cases)
    with open(out_stdout, "w") as out:
        out.writelines(answer + "\n" for _, answer in cases)
    halving = sum(int(line.split()[1]) in HALVING for line, _ in settle)
    refused = sum(answer.startswith("NO ") for _, answer in settle)
    print(f"{len(cases)} lines: {len(BY_HAND)} by hand, {len(settle)} settle ({halving} of halving cards, "
          f"{refused} refused), {len(place)} place, {len(orders)} orders "
          f"({sum(line.count('/') for line, _ in orders)} orders in all)")
    for name, part in (("settle", settle), ("place", place), ("orders", orders)):
        kinds = Counter(int(line.split()[1]) for line, _ in part)
        print(f"  {name}: " + ", ".join(f"kind {k} {kinds[k]}" for k in KINDS))


if __name__ == "__main__":
    main()
