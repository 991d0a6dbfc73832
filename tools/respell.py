#!/usr/bin/env python3
"""Respells the names that this repository's specs/ and proofs/ declare, after port.py: words in snake case, types in camel case.

usage: tools/respell.py [FOLDER]

A name is respelled wherever it stands as a whole word: in specs/, proofs/, the clauses and imports of src/, must-fail/ and,
between backquotes, in README.md and docs/. Labels of goals keep the spelling that Rattle gives them, and so do texts in quotes.
"""
import collections
import glob
import os
import re
import sys

os.chdir(sys.argv[1] if len(sys.argv) > 1 else ".")

WORD = r"[^\s(){}.;,@\"«»:\[\]`]+"
DECLARED = re.compile(rf"\s*(?:(?:pub|abbrev|unfoldable)\s+)*({WORD})(?: \{{[^{{}}]*\}})*\s*:(?!=)\s")
RECORD = re.compile(rf"\s*(?:pub\s+)?(?:record|data|ruleset)\s+({WORD})")
LET = re.compile(r"\blet\s+([A-Za-z_][\w'-]*)\s*[:=]")
GOAL = re.compile(rf"(?m)^(?:(?:pub|abbrev) )*({WORD}) : (?:goal|need)\.")

# Names that would fall together with another: the lemma gives way to the definition.
TAKEN = {"start-state": "start_is_state"}
ONLY = {"crates/planner_trials/proofs/Running.antt": {"by_one": "step_by_one", "by_two": "step_by_two"}}


def is_odd(name):
    return "-" in name or (name[0].islower() and re.search("[A-Z]", name) is not None)


def respelled(name):
    if name in TAKEN:
        return TAKEN[name]
    if name[0].isupper():
        return "".join(word[0].upper() + word[1:] for word in name.split("-"))
    return re.sub(r"(?<=[a-z0-9])[A-Z]", lambda m: "_" + m[0].lower(), name).replace("-", "_")


def declared(paths):
    found = set()
    for path in paths:
        for line in open(path, encoding="utf-8"):
            for m in (DECLARED.match(line), RECORD.match(line)):
                if m:
                    found.add(m[1])
            found.update(LET.findall(line))
    return found


lemmas = sorted(glob.glob("crates/*/specs/*.antt") + glob.glob("crates/*/proofs/*.antt"))
answers = sorted(glob.glob("crates/*/proofs/*/**/*.antt", recursive=True))
sources = sorted(glob.glob("crates/*/src/**/*.rt", recursive=True))
edits = sorted(glob.glob("crates/*/must-fail/*.edit"))
pages = sorted(glob.glob("*.md") + glob.glob("docs/*.md"))

labels = set()
for path in answers:
    labels.update(GOAL.findall(open(path, encoding="utf-8").read()))
names = {n for n in declared(lemmas) | (declared(answers) - labels) if is_odd(n)}
# a field of a record may be spelled as a label is: in a file that has the label, a label it stays
spelling = {n: respelled(n) for n in names}

meeting = collections.defaultdict(set)
for old, new in spelling.items():
    meeting[new].add(old)
for new, olds in sorted(meeting.items()):
    if len(olds) > 1:
        sys.exit(f"these fall together as {new}: {sorted(olds)}")

TOKEN = re.compile(rf'"[^"\n]*"|{WORD}')


def turn(text, own, keep=()):
    def word(m):
        w = m[0]
        if w.startswith('"') or w in keep:
            return w
        return own.get(w, spelling.get(w, w))

    return TOKEN.sub(word, text)


changed = 0
for path in lemmas + answers + sources + edits:
    text = open(path, encoding="utf-8").read()
    keep = set(GOAL.findall(text)) if path in answers else ()
    new = turn(text, ONLY.get(path, {}), keep)
    if new != text:
        open(path, "w", encoding="utf-8").write(new)
        changed += 1
for path in pages:
    text = open(path, encoding="utf-8").read()
    new = re.sub(r"`[^`\n]+`", lambda m: turn(m[0], {}), text)
    if new != text:
        open(path, "w", encoding="utf-8").write(new)
        changed += 1
print(f"{len(spelling)} names, {changed} files")
