#!/usr/bin/env python3
"""Runs the `check` lines of tables for the C calls (tests/c) through the program `sheet`, as text.

    tests/sheets.py SHEET TABLE..

SHEET is the program (crates/sheet/out/sheet). Each case is written in one of several layouts, some with comments;
its answer has to be the line that docs/RULES.md gives for the number in the table.
"""
import re
import subprocess
import sys

VERDICTS = {0: "the sheet fits and comes first", 1: "the sheet fits, but another setting comes first"}
CAUSES = {
    1: "kind or line count unknown",
    3: "no such output",
    5: "output busy",
    8: "no such position",
    11: "no setting fits",
    14: "wrong length",
    15: "position out of range",
    16: "held cell differs",
    17: "pair not carried",
}
LAYOUTS = [
    "kind {0}\nlines {1}\nplan {2}\nholds {3}\nsheet {4}\n",
    "kind {0} lines {1} plan {2} holds {3} sheet {4}",
    "# a request\nkind {0} # kind\n\n  lines\t{1}\r\nplan {2}#plan 9\nholds {3}\n# sheet 1\nsheet {4} # end",
    "kind 00{0} lines 0{1}\n\n\nplan\n{2}\nholds\n{3}\nsheet\n{4}\n\n",
]


def line_of(answer):
    number = re.match(r"\s*NO (\d+) (\d+) (\d+)", answer)
    code = sum(int(n) * f for n, f in zip(number.groups(), (65536, 256, 1))) if number else int(answer)
    if code in VERDICTS:
        return VERDICTS[code]
    number, layer, place = code >> 16, code >> 8 & 255, code & 255
    return f"refused: {CAUSES[number]} (number {number}, layer {layer}, place {place})"


def main():
    program, tables = sys.argv[1], sys.argv[2:]
    cases = wrong = 0
    for table in tables:
        for line in open(table):
            if not line.startswith("check "):
                continue
            call, answer = line[6:].split(" = ")
            card, *lists = call.split("/")
            lists = [part.replace("255", "-") if cases % 2 else part for part in lists]
            text = LAYOUTS[cases % len(LAYOUTS)].format(*card.split(), *(" ".join(part.split()) for part in lists))
            run = subprocess.run([program], input=text, capture_output=True, text=True)
            if run.returncode != 0 or run.stdout != line_of(answer) + "\n":
                wrong += 1
                print(f"wrong: {line.strip()}: {run.stdout.strip()}{run.stderr.strip()}")
            cases += 1
    print(f"sheet: {cases} cases, {wrong} wrong")
    return 1 if wrong or not cases else 0


if __name__ == "__main__":
    sys.exit(main())
