#!/usr/bin/env python3
"""Respells the repository's own names in specs/, proofs/, clauses, edits and pages.

usage: python3 tools/respell.py [--dry]      at the top of the repository, once, after /opt/rattle/port/port.py

Types and facts go to upper camel case (In-step: InStep), all else to snake case (looked-up: looked_up). In a lemma's name
a dash stays where it joins the names of two definitions of its crate or the crates below (ascending-entered). Names that
Rattle makes (answers to goals, steps of a function) keep their spelling. It stops, and writes nothing, where two names would
fall together.
"""

import glob
import re
import sys

TOKEN = re.compile(r"[^\s(){}\[\],;.⌜⌝«»`|\"]+")
DECL = re.compile(r"^(\s*)((?:(?:abbrev|unfoldable|pub|record|data)\s+)*)([^\s(){}\[\],;.:]+)(?=\s.*[:({])(.*)$")
# names of definitions that are plain words in the name of a lemma
PLAIN = {"is", "of", "self", "own", "one", "first", "four", "here", "some", "start", "short", "before", "after", "up", "total", "word", "header"}
LIBRARY = {"length", "take", "drop", "map", "filter", "append", "insert", "remove", "set", "replicate", "reverse", "get_or"}
NOT_NAMES = {"use", "module", "mod", "let", "in", "where", "elim", "unfolding", "open", "--", "λ", "ruleset"}


def declared():
    """Each own name with a dash, by its kind: 'type', 'word' (definitions and fields), 'lemma' or 'local'; the crates that
    declare it; the names of each crate's definitions; and the answers to goals."""
    kinds, homes, words, answers = {}, {}, {}, set()
    for p in sorted(glob.glob("crates/*/specs/*.antt") + glob.glob("crates/*/proofs/**/*.antt", recursive=True)):
        fields = None
        crate = p.split("/")[1]
        for line in open(p, encoding="utf-8"):
            if line.lstrip().startswith("--"):
                continue
            for local in re.findall(r"\b(?:let|λ) \(?([^\s(){}\[\],;.:]*-[^\s(){}\[\],;.:]*)(?= [=:]|\.)", line):
                kinds.setdefault(local, "local")
            m = DECL.match(line)
            depth = len(line) - len(line.lstrip())
            if fields is not None and line.strip() and depth <= fields:
                fields = None
            if not m or m.group(3) in NOT_NAMES:
                continue
            marks, name, rest = m.group(2).split(), m.group(3), m.group(4)
            if "goal." in rest or "given." in rest:
                answers.add(name)
                continue
            if not marks and ":" not in rest:
                continue
            if "abbrev" in marks or "unfoldable" in marks:
                words.setdefault(crate, set()).add(name.replace("-", "_"))
            if "-" not in name.strip("-"):
                if "record" in marks:
                    fields = depth
                continue
            homes.setdefault(name, set()).add(crate)
            if name[0].isupper():
                kinds[name] = "type"
            elif "abbrev" in marks or "unfoldable" in marks or fields is not None:
                kinds[name] = "word"
            elif kinds.get(name) != "word":
                kinds[name] = "lemma"
            if "record" in marks:
                fields = depth
    return kinds, homes, words, answers


def below():
    """Each crate with the crates that it stands on."""
    lines = [line.split("#")[0].split(":") for line in open("crates.txt", encoding="utf-8") if ":" in line.split("#")[0]]
    direct = {left.split()[0]: right.split() for left, right in lines}

    def all_below(crate):
        found = {crate}
        for d in direct.get(crate, []):
            found |= all_below(d)
        return found

    return {c: all_below(c) for c in direct}


def spelled(name, kind, words):
    parts = name.replace("getD-", "get_or-").split("-")
    if kind == "type":
        return "".join(p[:1].upper() + p[1:] for p in parts)
    if kind == "lemma":
        for i in range(1, len(parts)):
            left, right = "_".join(parts[:i]), "_".join(parts[i:])
            if right == "++" or left in words and right in words and not {left, right} & PLAIN:
                return left + "-" + right
    return "_".join(parts)


def bare(text):
    """The names of an .antt file that are no field, no part of a path, no text and in no comment."""
    text = re.sub(r"--[^\n]*|\"[^\"\n]*\"", "", text)
    return {m.group(0) for m in TOKEN.finditer(text) if text[max(m.start() - 1, 0)] != "." and text[m.end() : m.end() + 1] != "."}


def respell(text, names):
    return TOKEN.sub(lambda m: names.get(m.group(0), m.group(0)), text)


def outside_strings(text, names):
    """The text of a .rt file, but for its string literals."""
    return re.sub(r'"(?:\\.|[^"\\])*"|[^"]+', lambda m: m.group(0) if m.group(0).startswith('"') else respell(m.group(0), names), text)


def between_ticks(text, names):
    return re.sub(r"`[^`\n]+`", lambda m: respell(m.group(0), names), text)


def main():
    kinds, homes, words, answers = declared()
    under = below()

    def words_of(name):
        """The definitions that a lemma of this name can speak of."""
        return LIBRARY.union(*(words.get(d, set()) for c in homes.get(name, ()) for d in under.get(c, {c})))

    names = {n: spelled(n, k, words_of(n)) for n, k in kinds.items() if n not in answers}
    names = {n: m for n, m in names.items() if n != m}
    back = {}
    for n, m in sorted(names.items()):
        back.setdefault(m, []).append(n)
    clash = [f"{ns} -> {m}" for m, ns in back.items() if len(ns) > 1]
    files = sorted(glob.glob("crates/*/specs/*.antt") + glob.glob("crates/*/proofs/**/*.antt", recursive=True) + glob.glob("crates/*/src/**/*.rt", recursive=True) + glob.glob("crates/*/must-fail/*.edit"))
    pages = ["README.md"] + sorted(glob.glob("docs/*.md"))
    out = {}
    for p in files + pages:
        text = open(p, encoding="utf-8").read()
        if p.endswith(".antt"):
            tokens = bare(text)
            clash += [f"{p}: {n} -> {names[n]}, which stands there" for n in sorted(tokens & set(names)) if names[n] in tokens]
        turn = between_ticks if p in pages else outside_strings if p.endswith(".rt") else respell
        new = turn(text, names)
        if new != text:
            out[p] = new
    print("\n".join(clash) or "no names fall together")
    print(f"{len(names)} names, {len(out)} files")
    if "--dry" in sys.argv:
        for n, m in sorted(names.items()):
            print(f"{kinds[n]:6} {n} -> {m}")
        return 0
    if clash:
        return 1
    for p, text in out.items():
        with open(p, "w", encoding="utf-8") as f:
            f.write(text)
    return 0


if __name__ == "__main__":
    raise SystemExit(main())
