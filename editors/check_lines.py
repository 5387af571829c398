#!/usr/bin/env python3
"""Compares the table of the kinds of lines, as `caa_show lines` prints it, with all who tell the same table again: docs/script.md,
both grammars for editors, and examples/play_by_rules.py, which has to know each word that begins a line.

    caa_show lines | python3 -B editors/check_lines.py"""
import json
import os
import re
import sys

TOP = os.path.dirname(os.path.dirname(os.path.abspath(__file__)))
NUMBERS = ("value", "count", "rounds")
EXCEPTIONS = ("own", "inner", "outer", "told")
# Where the lines of a section of docs/script.md stand. A line that ends a block stands in two.
SECTIONS = {"At the top": "top", "In a graph": "graph", "In an action": "action", "In a body or a handler": "steps"}


def read(path):
    with open(f"{TOP}/{path}", encoding="utf-8") as it:
        return it.read()


def rows():
    """The rows of the table: where a line stands, its first word, and what the others are."""
    return [(stand, word, parts) for stand, word, *parts in map(str.split, sys.stdin.read().splitlines())]


def in_manual(word, parts):
    """The words of a row as the manual writes them."""
    owns = iter(("UPPER", "LOWER"))
    for part in parts:
        if part == "new-role":
            yield "ROLE"
        elif part.startswith("new-"):
            yield "NAME"
        elif part == "own":
            yield next(owns)
        elif part == "told":
            yield "LOWER"
        elif part in ("inner", "outer"):
            yield "UPPER" if word == "map" else "EXCEPTION"
        else:
            yield part.upper()


def by_kind(parts):
    """What the words of a row are to a grammar: a name is of the kind that it is declared as."""
    for part in parts:
        part = part.removeprefix("new-")
        yield "exception" if part in EXCEPTIONS else "number" if part in NUMBERS else part


def manual(text):
    """The rows of the tables of docs/script.md, with the places where their lines stand."""
    stand, found = None, []
    for line in text.splitlines():
        if line.startswith("#"):
            stand = SECTIONS.get(line.lstrip("# "))
        row = re.match(r"\| `([a-z]+)((?: [A-Z.]+)*)` \|", line)
        if row and stand:
            stand_here = {"end": "block", "enter": "body"}.get(row[1], stand)
            found.append((stand_here, row[1], tuple(row[2].split())))
    return set(found)


def vim(text):
    """The forms of the vim syntax. The longer form of abort has groups of its own there."""
    kinds = {"Number": "number", "Count": "number", "Rounds": "number"}
    forms = re.search(r"let s:forms = \{(.*?)\\ \}", text, re.S)[1]
    found = set()
    for word, parts in re.findall(r"'(\w+)': \[([^\]]*)\]", forms):
        listed = []
        for part in re.findall(r"'(\w+\*?)'", parts):
            listed.append(kinds.get(part.rstrip("*"), part.rstrip("*").lower()))
            listed += [".."] if part.endswith("*") else []
        found.add((word, tuple(listed)))
    groups = re.findall(r"syn match caa_abort_(test|number) ", text)
    return found | {("abort", ("role", *groups, "exception"))}


def textmate(value):
    """The forms of the TextMate grammar, from each rule that begins with a keyword."""
    found = set()
    for it in value if isinstance(value, list) else value.values() if isinstance(value, dict) else ():
        found |= textmate(it)
    if isinstance(value, dict):
        for rule, captures in (("match", "captures"), ("begin", "beginCaptures"), ("end", "endCaptures")):
            words = re.match(r"\^\[ \\t\\r\]\*\(([a-z|]+)\)", value.get(rule, ""))
            if words:
                parts = []
                for _, capture in sorted(value[captures].items(), key=lambda it: int(it[0])):
                    scope = capture["name"] if "name" in capture else capture["patterns"][0]["name"]
                    kind = "test" if ".operator." in scope else scope.split(".")[-2].replace("numeric", "number")
                    parts += [kind, ".."] if "patterns" in capture else [kind]
                found |= {(word, tuple(parts[1:])) for word in words[1].split("|")}
    return found


def differ(name, wanted, found):
    """Tells how two sets of rows differ, and whether they do."""
    for row in sorted(wanted - found):
        print(f"{name} lacks {row}")
    for row in sorted(found - wanted):
        print(f"{name} has {row}, which is no row of the table")
    return wanted != found


def main():
    table = rows()
    words = {word for _, word, _ in table}
    kinds = {(word, tuple(by_kind(parts))) for _, word, parts in table}
    told = {(stand, word, tuple(in_manual(word, parts))) for stand, word, parts in table}
    script_like = {row for row in textmate(json.loads(read("editors/caa.tmLanguage.json"))) if row[0] in words}
    known = {word for word in words if re.search(f'["\']{word}["\']', read("examples/play_by_rules.py"))}
    wrong = [
        not table,
        differ("docs/script.md", told, manual(read("docs/script.md"))),
        differ("the vim syntax", kinds, vim(read("editors/vim/syntax/caa.vim"))),
        differ("the TextMate grammar", kinds, script_like),
        differ("examples/play_by_rules.py", words, known),
    ]
    how = "told otherwise" if any(wrong) else "told alike"
    print(f"rows of the table of lines: {len(table)}, {how} by the manual, both grammars and the slow player")
    sys.exit(any(wrong))


if __name__ == "__main__":
    main()
