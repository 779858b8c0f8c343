#!/usr/bin/env python3
"""Respells the names that this repository's own specs/ and proofs/ declare: a dash between two words becomes an underscore.

usage: python3 tools/snake_names.py [--list]      at the top of the repository, after port.py

Turned are definitions, lemmas, fields, constructors and names bound by `let`, in the code of .antt files, in the clauses and ghost items of .rt files, and in
code spans of comments. Left are the names that Rattle makes (a goal, an invariant or a measure is declared at a type `goal.x`), names of
the library, strings, and everything that is not a clause in .rt. It stops where two names of one file would fall together.
"""
import os
import re
import sys

WORD = re.compile(r'[^\s(){}.;,@"«»×→≡λ]+')
DASHED = re.compile(r"[^\W\d][\w']*(?:-[\w']+)+\Z")
OWN_WORDS = {"getD": "get_or", "remEuclid": "rem_euclid"}
DECLARED = re.compile(r" {0,8}(?:(?:abbrev|unfoldable|pub|record|data) +)*([^\s:(){}.;,]+)(?: +[({][^\n=]*[)}])? : +(\S+)")
LET = re.compile(r"\blet +([^\s:(){}.;,]+) *(?::|=)")
QUIET = re.compile(r'"(?:[^"\\\n]|\\.)*"|(?<![^\s(){}.;,@"«»])--[^\n]*')
SPAN = re.compile(r"`[^`\n]+`")
CLAUSE = re.compile(r"\b(?:requires|ensures)\b[^{;]*\{|\bghost\b[^{;\"]*\{")


def files(top):
    for folder, dirs, names in os.walk(os.path.join(top, "crates")):
        dirs[:] = sorted(d for d in dirs if d not in ("out", "must-fail"))
        for name in sorted(names):
            if name.endswith((".rt", ".antt")):
                yield os.path.join(folder, name)


def without_quiet(text):
    return QUIET.sub(lambda m: " " * len(m.group(0)), text)


def declared(text):
    """The dashed names that a file declares, but for those at a type that Rattle makes."""
    own, made = set(), set()
    for line in without_quiet(text).splitlines():
        m = DECLARED.match(line)
        if m and DASHED.match(m.group(1)):
            (made if m.group(2).startswith(("goal.", "need.")) else own).add(m.group(1))
        own |= {n for n in LET.findall(line) if DASHED.match(n)}
    return own, made


def imported(text):
    """The names that a file takes from modules that are no crate's of this repository."""
    crates = "|".join(sorted(os.listdir("crates")))
    return {w for m in re.finditer(rf"^\s*(?:ghost )?(?:pub )?use (?!Rattle\.(?:{crates})\.)[^{{;\n]*\{{([^}}]*)\}}", text, re.M) for w in re.split(r"[\s,]+", m.group(1)) if w}


def snake(name):
    parts = [OWN_WORDS.get(part, part) for part in name.split("-")]
    if re.match(r"[A-Z][a-z]{1,}", name):  # a type
        return "".join(part[0].upper() + part[1:] for part in parts)
    return "_".join(parts)


def turn(code, names):
    return WORD.sub(lambda m: snake(m.group(0)) if m.group(0) in names else m.group(0), code)


def turn_comment(text, names):
    return SPAN.sub(lambda m: "`" + turn(m.group(0)[1:-1], names) + "`", text)


def turn_antt(text, names):
    parts, at = [], 0
    for m in QUIET.finditer(text):
        parts.append(turn(text[at : m.start()], names))
        quiet = m.group(0)
        parts.append(turn_comment(quiet, names) if quiet.startswith("--") else quiet)
        at = m.end()
    parts.append(turn(text[at:], names))
    return "".join(parts)


def block_end(text, start):
    depth = 0
    for i in range(start, len(text)):
        depth += {"{": 1, "}": -1}.get(text[i], 0)
        if depth == 0:
            return i + 1
    return len(text)


def turn_rt(text, names):
    parts, at = [], 0
    while True:
        m = CLAUSE.search(text, at)
        if not m:
            break
        line = text.rfind("\n", 0, m.start()) + 1
        if text[line : m.start()].lstrip().startswith("//"):
            end = text.find("\n", m.start())
            end = len(text) if end < 0 else end
            parts.append(text[at:end])
        else:
            end = block_end(text, m.end() - 1)
            parts.append(text[at : m.start()] + turn_antt(text[m.start() : end], names))
        at = end
    parts.append(text[at:])
    whole = "".join(parts)
    return re.sub(r"//[^\n]*", lambda m: turn_comment(m.group(0), names), whole)


def main(argv):
    top = os.getcwd()
    texts = {}
    for path in files(top):
        with open(path, encoding="utf-8") as f:
            texts[path] = f.read()
    own, made = set(), set()
    for path, text in texts.items():
        if path.endswith(".antt"):
            a, b = declared(text)
            own |= a
            made |= b
    both = sorted(own & made)
    names = own - made
    if "--list" in argv:
        print("\n".join(f"{n} {snake(n)}" for n in sorted(names)))
        print("both:", both, file=sys.stderr)
        return 0
    for path, text in texts.items():
        if path.endswith(".antt"):
            here = {n for n in declared(text)[0] if n in names}
            plain = {m.group(1) for m in map(DECLARED.match, without_quiet(text).splitlines()) if m}
            together = sorted(n for n in here if snake(n) in plain)
            if together:
                print(f"{path}: these fall together with a name of the file: {together}", file=sys.stderr)
                return 1
    for path, text in texts.items():
        here = names - imported(text)
        new = turn_antt(text, here) if path.endswith(".antt") else turn_rt(text, here)
        if new != text:
            with open(path, "w", encoding="utf-8") as f:
                f.write(new)
    return 0


if __name__ == "__main__":
    raise SystemExit(main(sys.argv[1:]))
