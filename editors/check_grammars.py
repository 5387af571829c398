#!/usr/bin/env python3
"""Tries the grammars for editors on the line forms of docs/script.md and on the example scripts: each word has to get the scope
that its form gives it. The TextMate grammar is read by a small reader of its own; the vim syntax is tried by vim, where there is one.

    python3 -B editors/check_grammars.py"""
import json
import os
import re
import shutil
import subprocess
import sys
import tempfile

TOP = os.path.dirname(os.path.dirname(os.path.abspath(__file__)))
# What the words of a form are. A NAME is of the kind that its line declares.
KINDS = {"VALUE": "number", "COUNT": "number", "ROUNDS": "number", "UPPER": "exception", "LOWER": "exception"}
# What the groups of the vim syntax stand for where that isn't their name.
VIM = {"count": "number", "rounds": "number", "error": "invalid"}
# Lines that fit no form, each after a line that opens its block, if there is one.
MISFITS = ["Participant press", "put belt 1", "object belt 05", "object belt 1 # at first", "play", "participant 9a", "drill belt 0"]
MISFITS_IN_ACTION = ["particpant press", "work -5", "check under 3 jam", "put belt", "participant press"]


def forms():
    """Each first word with the kinds of the words after it, as the tables of docs/script.md have them, and the examples by block."""
    found, examples, block = {}, {"graph": [], "action": [], "": []}, ""
    with open(f"{TOP}/docs/script.md", encoding="utf-8") as it:
        for line in it:
            if line.startswith("##"):
                block = next((name for name in ("graph", "action") if f"In an {name}" in line or f"In a {name}" in line), "")
                block = "action" if "In a body" in line else block
            row = re.match(r"\| `([a-z]+(?: [A-Z.]+)*)` \| `([^`]+)` \|", line)
            if row:
                word, *rest = row[1].split()
                rest = [word if it == "NAME" and word != "nest" else "nest" if it == "NAME" else KINDS.get(it, it.lower()) for it in rest]
                found.setdefault(word, []).append(rest)
                if row[2] not in ("end", f"graph {row[2][6:]}", f"action {row[2][7:]}"):
                    examples[block].append(row[2])
    return found, examples


def wanted(line, known):
    """The kinds of the words of a script's line, the first a keyword; None where no form fits."""
    word, *rest = line.split()
    for form in known.get(word, []):
        if len(form) == len(rest) and ".." not in form:
            return ["keyword", *form]
        if form[-1:] == [".."] and len(rest) >= len(form) - 1:
            return ["keyword", *form[:-1], *[form[-2]] * (len(rest) - len(form) + 1)]
    return None


class TextMate:
    """As much of a TextMate reader as this grammar needs: match, begin and end, captures with patterns, include."""

    def __init__(self, grammar):
        self.grammar, self.open = grammar, [grammar]

    def rules(self, patterns):
        for rule in patterns:
            if "include" in rule:
                rule = self.grammar["repository"][rule["include"][1:]]
            if "match" in rule or "begin" in rule:
                yield rule
            else:
                yield from self.rules(rule["patterns"])

    def captures(self, found, captures, scopes):
        for number, capture in captures.items():
            start, end = found.span(int(number))
            if "name" in capture:
                scopes[start:end] = [capture["name"]] * (end - start)
            while start >= 0 and start < end and "patterns" in capture:
                inner, _ = self.first(found.string, start, end, capture["patterns"])
                if not inner:
                    break
                rule, it = inner
                scopes[it.start():it.end()] = [rule["name"]] * (it.end() - it.start())
                start = it.end()

    def first(self, line, start, end, patterns, closing=None):
        best = closing and re.compile(closing["end"]).search(line, start, end)
        best = ((closing, best), True) if best else (None, False)
        for rule in self.rules(patterns):
            it = re.compile(rule.get("match") or rule["begin"]).search(line, start, end)
            if it and (not best[0] or it.start() < best[0][1].start()):
                best = ((rule, it), False)
        return best

    def line(self, line):
        """The scope of each character of the line, or None."""
        scopes, block = [None] * len(line), self.open[-1]
        found, closes = self.first(line, 0, len(line), block["patterns"], block if "end" in block else None)
        if found:
            rule, it = found
            if "name" in rule and "begin" not in rule:
                scopes[it.start():it.end()] = [rule["name"]] * (it.end() - it.start())
            self.captures(it, rule.get("endCaptures" if closes else "beginCaptures" if "begin" in rule else "captures", {}), scopes)
            if closes:
                self.open.pop()
            elif "begin" in rule:
                self.open.append(rule)
        return scopes


def kind_of(scope):
    """The kind that a scope of the TextMate grammar stands for."""
    if scope is None or scope.startswith(("invalid", "comment")):
        return scope
    parts = scope.split(".")
    return {"keyword": "keyword" if "operator" not in parts else "test", "constant": parts[-2], "string": "detail"}.get(
        parts[0], parts[-2]).replace("numeric", "number")


def kinds_by_textmate(texts):
    """For each text, for each of its lines, the kinds of its words."""
    with open(f"{TOP}/editors/caa.tmLanguage.json", encoding="utf-8") as it:
        grammar = json.load(it)
    for text in texts:
        reader = TextMate(grammar)
        lines = []
        for line in text.split("\n"):
            scopes = reader.line(line)
            lines.append([{*map(kind_of, scopes[it.start():it.end()])} for it in re.finditer(r"\S+", line)])
        yield [[it.pop() if len(it) == 1 else "mixed" for it in line] for line in lines]


def kinds_by_vim(texts):
    """The same by vim. A group such as caa_cover_2, of the second word after cover, is linked to one that tells the kind."""
    with tempfile.TemporaryDirectory() as folder:
        with open(f"{folder}/show.vim", "w", encoding="utf-8") as it:
            it.write("""let s:said = []
function! Group(row, at)
  let name = synIDattr(synID(a:row, a:at + 1, 1), 'name')
  return name =~# '^caa_' ? matchstr(execute('highlight ' . name), 'links to \\zs\\w*') : name
endfunction
for s:row in range(1, line('$'))
  let s:groups = []
  let s:from = 0
  while 1
    let [s:word, s:start, s:end] = matchstrpos(getline(s:row), '\\S\\+', s:from)
    if s:start < 0
      break
    endif
    let s:ids = map(range(s:start, s:end - 1), 'Group(s:row, v:val)')
    call add(s:groups, len(uniq(copy(s:ids))) == 1 ? s:ids[0] : 'mixed')
    let s:from = s:end
  endwhile
  call add(s:said, join(s:groups, ' '))
endfor
call writefile(s:said, $SAID)
qall!
""")
        for number, text in enumerate(texts):
            with open(f"{folder}/{number}.caa", "w", encoding="utf-8") as it:
                it.write(text)
            words = ["vim", "-es", "-u", "NONE", "-i", "NONE", "-N", "--cmd", f"set rtp^={TOP}/editors/vim", "-c", "filetype on",
                     "-c", "syntax on", "-c", f"edit {folder}/{number}.caa", "-S", f"{folder}/show.vim"]
            subprocess.run(words, env={**os.environ, "SAID": f"{folder}/said"}, stdin=subprocess.DEVNULL, timeout=60, check=False)
            with open(f"{folder}/said", encoding="utf-8") as it:
                lines = it.read().lower().replace("caa", "").split("\n")
            os.remove(f"{folder}/said")
            yield [[VIM.get(it, it) for it in line.split()] for line in lines]


def faults_of(reader, names, texts, known):
    """What is wrong with the kinds that a reader finds: by its name, the text's, and the line's number."""
    for name, text, lines in zip(names, texts, reader(texts)):
        in_journal = False
        for number, (line, kinds) in enumerate(zip(text.split("\n"), lines), 1):
            if not line.split() or line.lstrip().startswith("#"):
                continue
            if in_journal or line.split() == ["journal"]:
                in_journal, right = True, all(kinds) and not any(it == "mixed" or it.startswith("invalid") for it in kinds)
            elif name.startswith("misfit"):
                right = number == 1 and len(text.split("\n")) > 1 or any(it.startswith("invalid") for it in kinds if it)
            else:
                right = kinds == wanted(line, known)
            if not right:
                yield f"{reader.__name__}: {name}:{number}: {line!r} has {kinds}, and {wanted(line, known)} is wanted"


def main():
    known, examples = forms()
    blocks = [["graph g", *examples["graph"], "end"], ["action a", *examples["action"], "end"], examples[""]]
    names, texts = ["docs/script.md"], ["\n".join(line for block in blocks for line in block)]
    for folder in ("cases", "unready_device", "worked"):
        for name in sorted(os.listdir(f"{TOP}/examples/{folder}")):
            if "." not in name:
                names.append(f"examples/{folder}/{name}")
                with open(f"{TOP}/{names[-1]}", encoding="utf-8") as it:
                    texts.append(it.read())
    misfits = [*MISFITS, *[f"action a\n{it}" for it in MISFITS_IN_ACTION]]
    all_names = [*names, *[f"misfit {it.split(chr(10))[-1]!r}" for it in misfits]]
    faults = list(faults_of(kinds_by_textmate, all_names, [*texts, *misfits], known))
    readers = "TextMate"
    if shutil.which("vim"):
        readers = "TextMate and vim"
        faults += faults_of(kinds_by_vim, names, texts, known)
    print(*faults, sep="\n", end="\n" if faults else "")
    lines = sum(len([line for line in text.split("\n") if line.split()]) for text in texts)
    print(f"{readers}: {len(known)} first words, {len(texts)} texts, {lines} lines, {len(misfits)} misfits, {len(faults)} faults")
    sys.exit(bool(faults))


main()
