#!/usr/bin/env python3
"""Spells the repository's own definitions and lemmas as respell.tsv says, a row for each: old, a tab, new.

usage: python3 tools/respell.py    at the top of a checkout of docs/PORT.md's first line in which the kit's port.py ran

Whole words alone turn: in .antt files and in the clauses of .rt files, in the lines of .edit files, and in comments and pages between backticks. Quoted text stays.
A second run changes nothing."""
import pathlib
import re

ROWS = pathlib.Path(__file__).with_name("respell.tsv").read_text(encoding="utf-8").splitlines()
TABLE = dict(row.split("\t") for row in ROWS)
WORD = re.compile(r'[^\s(){}.;,:@"«»`]+')
SPAN = re.compile(r"`[^`\n]*`")
ANTT = re.compile(r'"(?:[^"\\\n]|\\.)*"|(?<![^\s(){}.;,@"«»])--[^\n]*')
RUST = re.compile(r'//[^\n]*|b?"(?:[^"\\\n]|\\.)*"|b?\'(?:[^\'\\\n]|\\.)\'')


def words(text):
    return WORD.sub(lambda m: TABLE.get(m[0], m[0]), text)


def prose(text):
    return SPAN.sub(lambda m: words(m[0]), text)


def code(text, quiet):
    """Code turns; of what is quiet only the comments do, between backticks."""
    parts, at = [], 0
    for m in quiet.finditer(text):
        parts += [words(text[at : m.start()]), prose(m[0]) if m[0][:2] in ("--", "//") else m[0]]
        at = m.end()
    return "".join(parts) + words(text[at:])


def edit(text):
    lines, kind = [], ANTT
    for line in text.split("\n"):
        if line.startswith("file: "):
            kind = RUST if line.endswith(".rt") else ANTT
        head, found, rest = line.partition(": ")
        if found and head in ("old", "new"):
            line = head + found + code(rest, kind)
        elif found and head == "refused":
            line = head + found + words(rest)
        lines.append(line)
    return "\n".join(lines)


def main():
    for path in sorted(p for p in pathlib.Path(".").rglob("*") if p.is_file()):
        if path.parts[0] in (".git", "tools", "target") or "out" in path.parts:
            continue
        if path.suffix not in (".antt", ".rt", ".edit", ".md"):
            continue
        old = path.read_text(encoding="utf-8")
        if path.suffix == ".edit":
            new = edit(old)
        elif path.suffix == ".md":
            new = prose(old)
        else:
            new = code(old, ANTT if path.suffix == ".antt" else RUST)
        if new != old:
            path.write_text(new, encoding="utf-8")


main()
