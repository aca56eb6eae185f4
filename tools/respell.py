#!/usr/bin/env python3
"""Brings the repository's own names to the spelling of rattle-kit-13f: functions, lemmas, fields, constructors and
variables of antt in snake case; in a lemma's name a dash joins two names, and a type to a name.

usage: python3 tools/respell.py [LIST]     at the top of the repository, once, after the kit's porting script

Names of types and modules, of the Rust sources (src/) and of the kit stay as they are. Strings stay too. It says which
names fall together. With LIST, the renamed definitions are written to that file, old and new.
"""
import collections
import glob
import re
import sys

TOKEN = re.compile(r"[^\W\d][\w'′₀-₉-]*")
WORDS = set()


def files(*patterns):
    return sorted({f for p in patterns for f in glob.glob(p, recursive=True)})


def read(path):
    with open(path, encoding="utf-8") as f:
        return f.read()


def code_and_comments(text, mark):
    """The lines of a text, each cut into what stands before a comment and the comment."""
    for line in text.split("\n"):
        at = 0
        quoted = False
        while at < len(line):
            if line[at] == '"' and (at == 0 or line[at - 1] != "\\"):
                quoted = not quoted
            if not quoted and line.startswith(mark, at):
                break
            at += 1
        yield line[:at], line[at:]


def outside_strings(code, turn):
    parts = re.split(r'("(?:[^"\\]|\\.)*")', code)
    return "".join(p if k % 2 else turn(p) for k, p in enumerate(parts))


def imported(text):
    """The names that a file takes from the kit's own libraries."""
    names = set()
    for m in re.finditer(r"^\s*(?:ghost )?(?:pub )?use ([\w.+-]+)\.\{([^}]*)\}", text, re.M):
        crate = re.match(r"Rattle\.(\w+)\.", m.group(1) + ".")
        if crate is None or crate.group(1) in ("std", "core", "io", "libc", "os"):
            for n in m.group(2).split(","):
                names |= set(n.strip().split(" as "))
    return names


def snake(word):
    """A word in snake case; a type keeps its capital."""
    if word[:1].isupper():
        return word
    word = re.sub(r"([a-z0-9'₀-₉])([A-Z])", r"\1_\2", word)
    word = re.sub(r"([A-Z]+)([A-Z][a-z])", r"\1_\2", word)
    return word.lower() if re.search("[A-Z]", word) else word


def respelled(name, lemma=False):
    """A definition, field, constructor or variable has no dash but behind a type; a lemma also has one between names."""
    parts = name.split("-")
    out = snake(parts[0])
    for before, after in zip(parts, parts[1:]):
        joins = before[:1].isupper() or (lemma and before in WORDS and after in WORDS)
        out += ("-" if joins else "_") + snake(after)
    return out.replace("′", "'")


DEFINED = re.compile(r"^\s*(?:abbrev |unfoldable |pub )*(?:data |record )?([^\W\d][\w'′₀-₉-]*)(?: \{[^}]*\}| \([^)]*\))* :(?: |$)")

specs = files("crates/*/specs/**/*.antt")
lemmas = files("crates/*/proofs/*.antt")
functions = [f for f in files("crates/*/proofs/**/*.antt") if f not in set(lemmas)]
sources = files("crates/*/src/**/*.rt")
edits = files("must-fail/**/*.edit", "crates/*/must-fail/*.edit")
pages = [f for f in files("*.md", "docs/**/*.md", "crates/*/README.md", "compare/README.md", "firmware/README.md") if not f.startswith("docs/changes/")]

texts = {f: read(f) for f in specs + lemmas + functions + sources + edits + pages}


def defined(paths):
    """What these files define: definitions, lemmas, fields and constructors."""
    lines = (code for f in paths for code, _ in code_and_comments(texts[f], "--"))
    return {m.group(1) for m in map(DEFINED.match, lines) if m}


in_specs = defined(specs)
in_lemmas = defined(lemmas)
rust = set()
for f in sources:
    rust |= set(re.findall(r"\bfn (\w+)", texts[f]))
    rust |= set(re.findall(r"^\s*(?:pub )?(\w+): ", texts[f], re.M))

WORDS |= {n for n in in_specs if n[:1].islower() and re.search("[A-Z]", n)} | {"length", "take", "drop", "append", "get_or", "eqb", "ltb"}

turned = {}
for n in in_specs | in_lemmas:
    new = respelled(n, lemma=n not in in_specs)
    if new != n:
        turned[n] = new


def local(name):
    """A variable of an antt file that is no definition's name."""
    if "-" in name or (name[:1].islower() and re.search("[A-Z]", name)):
        return respelled(name)
    return name.replace("′", "'")


def path_end(text):
    """Where the path of a `use` line ends: modules keep their names."""
    m = re.match(r"\s*(?:ghost )?(?:pub )?use [^{]*", text)
    return m.end() if m else 0


def turn_names(kept, whole, lemmas=True):
    def one(m):
        n = m.group(0)
        before = m.string[: m.start()]
        if n in kept or m.start() < path_end(m.string) or before.endswith("::"):
            return n
        if n in turned and not (turned[n].endswith("_lem") and (before.endswith(".") or not lemmas)):
            return turned[n]
        return local(n) if whole and not n[:1].isupper() else n
    return lambda text: TOKEN.sub(one, text)


def in_backquotes(comment, turn):
    return re.sub(r"`[^`]*`", lambda m: turn(m.group(0)), comment)


def turn_comment(comment, kept):
    """In a comment: names in backquotes, and definitions that are no English words."""
    turn = turn_names(kept, False, False)
    comment = in_backquotes(comment, turn)
    return re.sub(r"(?<![\w-])[a-z]+[A-Z]\w*(?![\w-])", lambda m: turned.get(m.group(0), m.group(0)) if m.group(0) not in kept else m.group(0), comment)


met = collections.defaultdict(set)
for n in in_specs | in_lemmas:
    met[turned.get(n, n)].add(n)
# a lemma that would have its function's name gets `_lem`
for new, old in met.items():
    if len(old) > 1:
        others = sorted(old - in_specs, key=lambda n: ("-" in n, "_" in n, n))
        for n in others if old & in_specs else others[1:]:
            turned[n] = new + "_lem"
met = collections.defaultdict(set)
for n in in_specs | in_lemmas:
    met[turned.get(n, n)].add(n)
changed = 0
for f, text in texts.items():
    if f.endswith(".antt"):
        kept = imported(text)
        whole = f not in set(functions)
        turn = turn_names(kept, whole)
        new = "\n".join(outside_strings(code, turn) + turn_comment(comment, kept) for code, comment in code_and_comments(text, "--"))
        if not whole:
            # in a function's proof: variables in camel case, and the names of definitions; goals keep theirs
            new = "\n".join(
                outside_strings(code, lambda t: TOKEN.sub(lambda m: m.group(0) if m.group(0) in kept or "-" in m.group(0) or m.start() < path_end(m.string) else local(m.group(0)) if not m.group(0)[:1].isupper() else m.group(0), t)) + comment
                for code, comment in code_and_comments(new, "--"))
    elif f.endswith(".rt"):
        kept = imported(text)
        turn = turn_names(kept, False, False)
        new = "\n".join(outside_strings(code, turn) + turn_comment(comment, kept) for code, comment in code_and_comments(text, "//"))
    elif f.endswith(".edit"):
        turn = turn_names(set(), False, "/proofs/" in text or "file: proofs/" in text)
        new = "\n".join(line if line.startswith("file:") else outside_strings(line, turn) for line in text.split("\n"))
    else:
        new = in_backquotes(text, turn_names(set(), False, False))
    if new != text:
        changed += 1
        with open(f, "w", encoding="utf-8") as out:
            out.write(new)

for new, old in sorted(met.items()):
    if len(old) > 1:
        print("falls together:", new, "from", ", ".join(sorted(old)))
print(f"respelled {len(turned)} names of definitions and lemmas; {changed} files changed")
if len(sys.argv) > 1:
    with open(sys.argv[1], "w") as out:
        for n in sorted(turned):
            out.write(f"{n} {turned[n]}\n")
