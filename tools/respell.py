#!/usr/bin/env python3
"""Respells the repository's own definitions and lemmas as today's Rattle writes names: words in snake case.

usage: python3 tools/respell.py        at the top of the repository, once, after Rattle's own port.py

A name of several words takes `_` between them, in place of a capital letter or a dash: `restAfter` is `rest_after`, `day-same` is
`day_same`, `LONGEST-DAY` is `LONGEST_DAY`. A dash stays where it joins names that have such an `_` or a sign of their own, as in
`false-eq_z`. Types, facts and constants keep their capitals. A new name that something else bears already ends in `_lem`. Names that come
from Rattle's own libraries, and those that Rattle makes of a function's code, stay as they are. It writes what it did into
docs/respelled.txt: crate, old name, new name.
"""

import os
import re

TOKEN = r"[^\s(){}\[\].,;\"`|]+"
DECLARED = re.compile(r"^\s*(?:(?:abbrev|unfoldable|pub|data|record|ruleset)\s+)*(" + TOKEN + r")\s*(?:[({].*)?\s?:(?:\s|$)")
FOREIGN = re.compile(r"^\s*(?:pub\s+|ghost\s+)*use\s+(?!Rattle\.(?!std\b))")
QUOTED = re.compile(r"\"(?:[^\"\\]|\\.)*\"")
WORD = re.compile(TOKEN)


def snake(part):
    part = part.replace("ℤ", "_z") if re.search(r"[a-z]ℤ", part) else part
    part = re.sub(r"([a-z0-9])([A-Z])", r"\1_\2", part)
    return part.lower()


def respelled(name):
    if re.fullmatch(r"[A-Z][A-Z0-9]*(-[A-Z0-9]+)+", name):
        return name.replace("-", "_")
    if not re.match(r"[a-zℤ]", name) or "◌" in name:
        return name
    if re.fullmatch(r"[a-z0-9']+(-[a-z0-9']+)+", name):
        return name.replace("-", "_")
    parts = name.split("-")
    return "-".join(p if re.match(r"[A-Z]", p) and i else snake(p) for i, p in enumerate(parts))


def files(ending):
    for folder, dirs, names in os.walk("crates"):
        dirs[:] = sorted(d for d in dirs if d != "out")
        for f in sorted(names):
            if f.endswith(ending):
                yield os.path.join(folder, f)


def text_of(path):
    with open(path, encoding="utf-8") as f:
        return f.read()


def of_a_function(path):
    """Whether it is the proof of one function, whose names Rattle makes."""
    return "/proofs/" in path and path.split("/proofs/")[1].count("/") > 0


def commented(line, mark):
    at = line.find(mark)
    return (line, "") if at < 0 else (line[:at], line[at:])


def replaced(line, table):
    def plain(part):
        return WORD.sub(lambda m: table.get(m.group(0), m.group(0)), part)

    out, at = [], 0
    for m in QUOTED.finditer(line):
        out += [plain(line[at:m.start()]), m.group(0)]
        at = m.end()
    return "".join(out) + plain(line[at:])


def in_ticks(text, table):
    """Of a page or a comment, what stands between backticks; `path#name` is how a page names a declaration."""
    return re.sub(r"`([^`\n]+)`", lambda m: "`" + "#".join(replaced(p, table) for p in m.group(1).split("#")) + "`", text)


def turned(text, mark, table):
    lines = []
    for line in text.split("\n"):
        code, comment = commented(line, mark)
        lines.append(replaced(code, table) + in_ticks(comment, table))
    return "\n".join(lines)


def lemma(name):
    """A lemma's old name has dashes alone; a definition's has a capital letter."""
    return "-" in name and not name.isupper()


def main():
    where, tokens, foreign = {}, set(), set()
    for path in list(files(".antt")) + list(files(".rt")):
        mark = "--" if path.endswith(".antt") else "//"
        for line in text_of(path).split("\n"):
            code = commented(line, mark)[0]
            if not of_a_function(path):
                tokens.update(WORD.findall(QUOTED.sub("", code)))
            if FOREIGN.match(code):
                foreign.update(WORD.findall(code))
            m = DECLARED.match(code)
            if m and path.endswith(".antt") and not of_a_function(path):
                where.setdefault(m.group(1), set()).add(path.split("/")[1])
    table, taken = {}, {}
    # A definition may bear the name of the function that computes it; a lemma steps aside.
    for name in sorted(where, key=lambda n: (lemma(n), n)):
        new = respelled(name)
        if new == name or name in foreign:
            continue
        if not lemma(name) and new in where:
            table[new], taken[new + "_lem"] = new + "_lem", new
        if lemma(name) and (new in tokens or new in taken):
            new += "_lem"
        if new in taken:
            raise SystemExit(f"{name}: {new} is taken, by {taken[new]}")
        table[name], taken[new] = new, name
    for path in list(files(".antt")) + list(files(".rt")):
        mark = "--" if path.endswith(".antt") else "//"
        write(path, aliased(turned(text_of(path), mark, table)))
    for path in files(".edit"):
        write(path, edit(text_of(path), table))
    pages = ["README.md"] + [os.path.join(d, f) for d in ("docs", "docs/landings", "tests") for f in sorted(os.listdir(d)) if f.endswith((".md", ".sh"))]
    for path in pages:
        write(path, in_ticks(text_of(path), table))
    with open("docs/respelled.txt", "w", encoding="utf-8") as f:
        for name in sorted(table, key=lambda n: (sorted(where[n]), n)):
            f.write(f"{' '.join(sorted(where[name]))}: {name} {table[name]}\n")


def aliased(text):
    """A module's short name in a file is respelled where nothing else in the file bears the new one."""
    for old in set(re.findall(r"(?m)^use \S+ as ([a-z0-9]+(?:-[a-z0-9]+)+)$", text)):
        new = old.replace("-", "_")
        if not re.search(r"(?<![\w.'-])" + re.escape(new) + r"(?![\w'-])", text):
            text = re.sub(r"(?<![\w.'-])" + re.escape(old) + r"(?![\w'-])", new, text)
    return text


def edit(text, table):
    """An edit's first line says what it does; its further lines quote the file that it changes."""
    return "\n".join(replaced(l, table) if re.match(r"(old|new): ", l) else in_ticks(l, table) for l in text.split("\n"))


def write(path, text):
    if text != text_of(path):
        with open(path, "w", encoding="utf-8") as f:
            f.write(text)


main()
