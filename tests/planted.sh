#!/usr/bin/env bash
# Plants bugs, one at a time, in a copy of the repository, and says what catches each.
#   tests/planted.sh [--new] [CRATE..]     the bugs of these crates; with no name, of every crate
# A crate's bugs are the edits in tests/planted/CRATE and in crates/CRATE/must-fail. An edit that the prover
# refuses is caught by it. For one that is still proved, the programs are built and run with the edit, and it
# is caught by a test where one of them fails. What is left survived, and the script ends with 1.
# Each bug costs a check of its crate; two run at a time. It is no part of the gate. With --new the edits in
# must-fail, which the gate tries too, are left out.
set -u
cd "$(dirname "$0")/.." || exit 2
work=$(mktemp -d) || exit 2
trap 'rm -rf "$work"' EXIT
copy=$work/copy
mkdir "$copy" && cp -R crates crates.txt "$copy/" || exit 2
rm -rf "$copy"/crates/*/must-fail
new=
if [ "${1:-}" = --new ]; then new=1 && shift; fi
if [ $# -eq 0 ]; then
    set -- $(cd crates && ls)
fi

# Builds and runs the programs with the edit in place, and says whether one fails.
tested() { # CRATE EDIT
    local at=$work/tested
    rm -rf "$at" && mkdir "$at" && cp -R "$copy/crates" "$copy/crates.txt" "$at/"
    rm -rf "$at"/crates/*/must-fail
    python3 - "$at/crates/$1" "$2" <<'END' || return 2
import sys
crate, edit = sys.argv[1:]
said = {}
for line in open(edit):
    word, _, rest = line.rstrip("\n").partition(": ")
    said[word] = rest
    if word == "new":
        path = f"{crate}/{said['file']}"
        text = open(path).read()
        assert text.count(said["old"]) == 1
        open(path, "w").write(text.replace(said["old"], rest))
END
    (cd "$at" && rt ci) >"$work/tested.log" 2>&1
}

survived=0
for crate in "$@"; do
    mkdir -p "$copy/crates/$crate/must-fail"
    for edit in "tests/planted/$crate"/*.edit "crates/$crate/must-fail"/*.edit; do
        case $new$edit in 1crates/*) continue ;; esac
        [ -f "$edit" ] && cp "$edit" "$copy/crates/$crate/must-fail/"
    done
    if [ -n "$(ls "$copy/crates/$crate/must-fail")" ]; then
        (cd "$copy" && rt must-fail "$crate") >"$work/log" 2>&1
        for edit in "$copy/crates/$crate/must-fail"/*.edit; do
            label=$(basename "$edit" .edit)
            line=$(grep -F "must-fail $crate/$label.edit:" "$work/log" | head -n 1)
            case $line in
            *'refused, as it must be'*)
                echo "$crate $label: refused by the prover: ${line#*as it must be: }" ;;
            *'NOT REFUSED'*)
                if tested "$crate" "$edit"; then
                    echo "$crate $label: SURVIVED"
                    survived=1
                else
                    echo "$crate $label: caught by a test"
                fi ;;
            *)
                echo "$crate $label: BAD EDIT: $line"
                survived=1 ;;
            esac
        done
    fi
    rm -rf "$copy/crates/$crate/must-fail"
done
exit $survived
