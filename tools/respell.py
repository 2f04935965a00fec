#!/usr/bin/env python3
"""Brings this repository's own names in specs, proofs and clauses to one spelling.

usage: python3 tools/respell.py            at the top of the repository, once

Types, facts and modules are in upper camel case (Plan-pairs, Settled-anew: PlanPairs, SettledAnew); functions,
fields, constructors and lemmas in snake case (pairs-size: pairs_size). Names that the prover makes, names of the
library and local variables stay as they are. Ends with 1, before any file is changed, where two names fall together.
"""
import os
import re
import sys

WORD = re.compile(r"[^\s(){}\[\],;.«»\"@|]+")
MADE = re.compile(r"^(goal|need|given)\.")
KEPT_WORDS = {"data", "record", "in", "as", "open", "use", "let", "do", "where", "module", "elim", "package", "deriving"}


def sources():
    for top, dirs, files in os.walk("crates"):
        dirs[:] = sorted(d for d in dirs if d != "out")
        for f in sorted(files):
            if f.endswith((".antt", ".rt")):
                yield os.path.join(top, f)


def code(line):
    """The line without its comment."""
    at = re.search(r"(^|\s)--(\s|$)", line)
    return line if not at else line[: at.start()]


def signatures(text):
    """Each declared name with what follows it up to the next blank or declaring line."""
    lines = [code(x) for x in text.split("\n")]
    for i, line in enumerate(lines):
        m = re.match(r"^\s*((?:(?:pub|abbrev|unfoldable)\s+)*)(record|data)\s+(\S+)", line)
        if m:
            yield m.group(3), "Type 0"
            continue
        m = re.match(r"^\s*(?:(?:pub|abbrev|unfoldable)\s+)*([^\s(){}\[\]=:;,.λ]+)\s+:\s+(.*)$", line)
        if m and m.group(1) not in ("let", "_"):
            yield m.group(1), m.group(2)


def spelled(name, kind):
    if name[0].isupper():
        if re.search(r"Type 0\s*$", kind) is None:
            return name
        head, *tail = name.split("-")
        return head + "".join(t[:1].upper() + t[1:] for t in tail)
    return name.replace("-", "_")


def camel(module):
    head, *tail = module.split("-")
    return head + "".join(t[:1].upper() + t[1:] for t in tail)


def gather(texts):
    own, declared, modules = {}, {}, {}
    for path, text in texts.items():
        if not path.endswith(".antt"):
            for m in re.finditer(r"\bas «([^»]*-[^»]*)»", text):
                own.setdefault(m.group(1), m.group(1).replace("-", "_"))
            continue
        base = os.path.basename(path)[: -len(".antt")]
        if "-" in base:
            modules[base] = camel(base)
        for name, kind in signatures(text):
            if MADE.match(kind.strip()):
                continue
            declared.setdefault(path, set()).add(name)
            if "-" in name:
                new = spelled(name, kind)
                if new != name:
                    own[name] = new
        for m in re.finditer(r"\bas ([^\s,}]*-[^\s,}]*)", text):
            n = m.group(1)
            own.setdefault(n, camel(n) if n[0].isupper() else n.replace("-", "_"))
    return own, declared, modules


def foreign(text, crates):
    """Names that a file takes from a library that is not the repository's."""
    names = set()
    for m in re.finditer(r"\buse ([^\s{;]+)\.\{([^}]*)\}", text):
        parts = m.group(1).split(".")
        if parts[0] == "Rattle" and len(parts) > 1 and parts[1] in crates:
            continue
        for item in m.group(2).split(","):
            names.update(item.split())
    return names


def turn(text, rename, skip):
    def dotted(m):
        parts = m.group(0).split(".")
        for i, p in enumerate(parts):
            if i == 1 and parts[0] in ("c", "w", "l", "goal", "g", "given", "need"):
                continue
            if p in rename and p not in skip:
                parts[i] = rename[p]
        return ".".join(parts)

    return re.sub(r"[^\s(){}\[\],;«»\"@|]+", dotted, text)


def main():
    paths = list(sources())
    texts = {p: open(p, encoding="utf-8").read() for p in paths}
    crates = set(os.listdir("crates"))
    own, declared, modules = gather(texts)
    rename = dict(own)
    rename.update(modules)
    clash = []
    for path, names in declared.items():
        seen = {}
        for n in sorted(names):
            t = rename.get(n, n)
            if t in seen and seen[t] != n:
                clash.append(f"{path}: {seen[t]} and {n} are both {t}")
            seen[t] = n
        for n in names:
            if n in rename and rename[n] in foreign(texts[path], crates):
                clash.append(f"{path}: {n} would be {rename[n]}, which the file imports")
    if clash:
        print("\n".join(clash))
        return 1
    for path in paths:
        text, out = texts[path], []
        skip = foreign(text, crates)
        for line in text.split("\n"):
            if path.endswith(".rt"):
                if re.match(r"\s*(pub )?(ghost|requires|ensures)\b", line):
                    line = turn(line, rename, skip)
                    line = re.sub(r"«(\w+)»", lambda m: m.group(0) if m.group(1) in KEPT_WORDS else m.group(1), line)
            else:
                c = code(line)
                line = turn(c, rename, skip) + line[len(c):]
            out.append(line)
        new = "\n".join(out)
        if new != text:
            with open(path, "w", encoding="utf-8") as f:
                f.write(new)
        base = os.path.basename(path)
        if path.endswith(".antt") and base[: -len(".antt")] in modules:
            os.rename(path, os.path.join(os.path.dirname(path), modules[base[: -len(".antt")]] + ".antt"))
    print(f"{len(own)} names and {len(modules)} modules")
    return 0


sys.exit(main())
