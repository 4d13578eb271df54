#!/usr/bin/env python3
"""Spells this repository's own definitions and lemmas as the library spells its: words in snake case, types in camel case.

usage: tools/spell_names.py [FOLDER]

FOLDER is a checkout, by default the one that this script stands in. Files are rewritten in place, so commit first; a second run writes
nothing more. What turns: each name with a hyphen that a file of specs/ or proofs/ declares or binds, in every .antt file, in the ghost
text of every .rt file, and between back quotes in README.md and docs/. What stays: names of the library, and the labels that the check
makes for a function's proof (the first name behind c., l. or goal. in Answers and Invariants, and each goal).
It was run once, when the repository was brought to the Rattle that spells names so.
"""

import collections
import os
import re
import sys

# Names whose new spelling is taken in a file that cites them: by a Rust function, or by a module.
TAKEN = {
    "bytes-besides": "bytes_beside",
    "mark-at": "mark_in",
    "operation-of": "operation_named",
    "put-mark": "marked_at",
    "ran-as": "ran_in_words",
}
NAME = r"[A-Za-z][A-Za-z0-9_'₀-₉]*(?:-[A-Za-z0-9_'₀-₉]+)+"
HYPHENED = re.compile(rf"(?<![\w'\-◌])(?:{NAME}|[A-Z][A-Za-z0-9']*_[\w']+)(?![\w'◌])")
DECLARED = re.compile(rf"(?m)^\s*(?:pub )?(?:abbrev )?(?:pub )?(?:record |data |ruleset |let )?({NAME}|[A-Z][a-z]\w*_\w+)(?: \{{.*?\}})*(?: \([^=\n]*?\))* :(?!=)(.*)")
BOUND = re.compile(rf"(?:λ|let|\(|\{{)((?:\s+|(?<=[({{]))[\w' ₀-₉-]*{NAME}[\w' ₀-₉-]*)(?=[.:=)])")
ALIAS = re.compile(rf"\bas ({NAME})(?=[,}}\s])")
USE = re.compile(r"\buse ([^\s;{]+)(?:\{([^}]*)\})?")
WALKED = re.compile(r"/proofs/(?:.*/)?(?:Answers|Invariants|Proof)\.antt$")
LABEL = re.compile(rf"(?<![\w'.\-])((?:c|l|w|g|goal)\.)({NAME})")
GOAL = re.compile(rf"(?m)^((?:abbrev )?(?:pub )?)({NAME})(?=[^\n]*)")


def files(root, endings):
    for folder, dirs, names in os.walk(os.path.join(root, "crates")):
        dirs[:] = sorted(d for d in dirs if d != "out")
        for name in sorted(names):
            if name.endswith(endings):
                yield os.path.join(folder, name)


def read(path):
    with open(path, encoding="utf-8") as f:
        return f.read()


def own_crates(root):
    return {c for c in os.listdir(os.path.join(root, "crates"))}


def imported(text, crates):
    """The names that a file takes from the library."""
    found = set()
    text = ALIAS.sub("", text)
    for m in USE.finditer(text):
        parts = m[1].split(".")
        if parts[0] == "Rattle" and len(parts) > 1 and parts[1] in crates:
            continue
        found |= set(HYPHENED.findall(m[2] or ""))
    return found


def spelled(name):
    if name in TAKEN:
        return TAKEN[name]
    if name[0].isupper():
        return "".join(w[:1].upper() + w[1:] for w in re.split("[-_]", name))
    return name.replace("-", "_")


def declared(root):
    """The names that turn, and those of the library."""
    crates, names, theirs = own_crates(root), set(), set()
    for path in files(root, (".antt",)):
        text = read(path)
        theirs |= imported(text, crates)
        names |= set(ALIAS.findall(text))
        for m in DECLARED.finditer(text):
            if not re.match(r"\s*(goal|given)\.", m[2]):
                names.add(m[1])
        if not WALKED.search(path):
            for m in BOUND.finditer(text):
                names |= set(HYPHENED.findall(m[1]))
    return names - theirs, theirs


def turned(text, names, walked):
    def word(m):
        return spelled(m[0]) if m[0] in names else m[0]

    if not walked:
        return HYPHENED.sub(word, text)
    kept = {}

    def keep(before, name):
        key = f"\x00{len(kept)}\x00"
        kept[key] = name
        return before + key

    own_goals = {m[1] for m in re.finditer(rf"(?m)^(?:abbrev )?pub ({NAME}) : goal\.", text)}
    lines = []
    for line in text.split("\n"):
        first = re.match(rf"((?:abbrev )?(?:pub )?)({NAME})(?![\w'-])", line)
        if first and first[2] in own_goals:
            line = keep(first[1], first[2]) + line[first.end() :]
        lines.append(line)
    text = LABEL.sub(lambda m: keep(m[1], m[2]), "\n".join(lines))
    text = HYPHENED.sub(word, text)
    for key, name in kept.items():
        text = text.replace(key, name)
    return text


def ghost(text, names):
    """Rust's own text has no name with a hyphen, but strings and comments may: only lines outside of strings turn."""
    out = []
    for line in text.split("\n"):
        code = re.split(r'"', line)
        for i in range(0, len(code), 2):
            body, slash, comment = code[i].partition("//")
            comment = re.sub(r"`[^`]*`", lambda m: turned(m[0], names, False), comment)
            code[i] = turned(body, names, False) + slash + comment
        out.append('"'.join(code))
    return "\n".join(out)


def quoted(text, names):
    return re.sub(r"`[^`\n]*`", lambda m: turned(m[0], names, False), text)


def check(names, root):
    """Refuses names that fall together."""
    by = collections.defaultdict(set)
    for n in names:
        by[spelled(n)].add(n)
    both = {k: v for k, v in by.items() if len(v) > 1}
    if both:
        sys.exit(f"these names fall together: {both}")
    for path in files(root, (".antt", ".rt")):
        text = read(path)
        words = set(re.findall(r"(?<![\w'-])[A-Za-z][\w'₀-₉]*(?![\w'-])", text))
        for n in sorted(set(HYPHENED.findall(text)) & names):
            if spelled(n) in words:
                print(f"look: {path}: {n} becomes {spelled(n)}, which stands there already")


def main(argv):
    root = argv[0] if argv else os.path.dirname(os.path.dirname(os.path.realpath(__file__)))
    names, _ = declared(root)
    check(names, root)
    changed = 0
    texts = [(p, "antt") for p in files(root, (".antt",))] + [(p, "rt") for p in files(root, (".rt",))]
    pages = [os.path.join(root, "README.md")] + [os.path.join(root, "docs", p) for p in sorted(os.listdir(os.path.join(root, "docs")))]
    texts += [(p, "md") for p in pages if p.endswith(".md") and not os.path.basename(p).startswith("PORT")]
    for path, kind in texts:
        old = read(path)
        new = turned(old, names, bool(WALKED.search(path))) if kind == "antt" else ghost(old, names) if kind == "rt" else quoted(old, names)
        if new != old:
            changed += 1
            with open(path, "w", encoding="utf-8") as f:
                f.write(new)
    print(f"{len(names)} names, {changed} files")


if __name__ == "__main__":
    main(sys.argv[1:])
