#!/usr/bin/env python3
"""Lists the places of docs/DESIGN-PASS.md in crates/*/src, point by point.

usage: tools/places.py [--count] [COMMIT]     the files of a commit, or without one those that stand here

It reads text and decides nothing: what it lists is looked at by a person, and the page says what was found there.
"""
import collections
import re
import subprocess
import sys

COUNT = "--count" in sys.argv
REV = next((a for a in sys.argv[1:] if not a.startswith("-")), None)


def git(*words):
    return subprocess.run(["git", *words], capture_output=True, text=True, check=True).stdout


def files(ending, folder):
    if REV:
        names = git("ls-tree", "-r", "--name-only", REV).split("\n")
    else:
        names = git("ls-files", "--cached", "--others", "--exclude-standard").split("\n")
    for name in sorted(set(names)):
        if re.match(r"crates/[^/]+/" + folder + "/", name) and name.endswith(ending):
            try:
                yield name, git("show", f"{REV}:{name}") if REV else open(name).read()
            except FileNotFoundError:
                pass


def bare(text):
    """Without comments and strings."""
    text = re.sub(r'"(\\.|[^"\\])*"', '""', text, flags=re.S)
    return re.sub(r"//[^\n]*", "", text)


# without modules of tests, whose cases are alike by design
SOURCES = {name: bare(text).split("#[cfg(test)]\nmod tests {")[0] for name, text in files(".rt", "src")}
HEADS = re.compile(r"^[ \t]*(?:pub(?:\([a-z]+\))? )?(?:extern \"\" )?fn (\w+)", re.M)


def line_of(text, at):
    return text.count("\n", 0, at) + 1


def functions():
    """Each function: its file, line, name, parameters, result, clauses and body."""
    for name, text in SOURCES.items():
        starts = [m for m in HEADS.finditer(text)]
        for m, after in zip(starts, starts[1:] + [None]):
            part = text[m.start() : after.start() if after else len(text)]
            opened = part.index("(")
            deep, at = 0, opened
            for at in range(opened, len(part)):
                deep += {"(": 1, ")": -1}.get(part[at], 0)
                if deep == 0:
                    break
            given = [p.strip() for p in re.split(r",(?![^<(\[]*[>)\]])", part[opened + 1 : at])]
            rest = part[at + 1 :]
            result = re.match(r"\s*->\s*([^\n{]*?)\s*(?:\n|\{)", rest)
            yield {
                "place": f"{name}:{line_of(text, m.start())} {m[1]}",
                "crate": name.split("/")[1],
                "given": [p for p in given if p and "self" not in p],
                "result": result[1] if result else "",
                "requires": re.findall(r"requires\s+(?:\w+\s+)?\{(.*)\}\s*$", rest, re.M),
                "rest": rest,
            }


FUNCTIONS = list(functions())


def enums():
    for name, text in SOURCES.items():
        for m in re.finditer(r"enum (\w+)[^{]*\{(.*?)\n\}", text, re.S):
            cases = [c.strip() for c in re.split(r",\s*\n", m[2]) if c.strip()]
            yield f"{name}:{line_of(text, m.start())}", m[1], [re.sub(r"\s+", " ", c) for c in cases]


def point_1():
    for place, enum, cases in enums():
        full = [c for c in cases if "(" in c or "{" in c]
        returned = [f for f in FUNCTIONS if re.search(r"\b" + enum + r"\b", f["result"])]
        if full and len(full) < len(cases) and len(cases) <= 4 and returned:
            yield f"{place} enum {enum} {{ {', '.join(cases)} }}"
    for name, text in SOURCES.items():
        for m in re.finditer(r"struct (\w+)[^{;]*\{(.*?)\n\}", text, re.S):
            flags = re.findall(r"(\w+): bool", m[2])
            if flags:
                yield f"{name}:{line_of(text, m.start())} struct {m[1]} has flags: {', '.join(flags)}"
    for f in FUNCTIONS:
        arms = re.findall(r"^\s*(?:[\d_]+|\d+\.\.=\d+) => .*::|^\s*(?:\w+::)+\w+(?:\([^)]*\))? => [\d_]+,", f["rest"], re.M)
        if len(arms) > 2:
            yield f"{f['place']}: {len(arms)} arms between numbers and cases"
        if re.search(r"\bas u8 == |\bas u8;|const \w+: u8 = \d", f["rest"]) or f["result"] == "u8":
            yield f"{f['place']}: a number for a case"
    for name, text in SOURCES.items():
        for m in re.finditer(r"^const (\w+): u(?:8|32) = \d;", text, re.M):
            yield f"{name}:{line_of(text, m.start())} const {m[1]}: a number for a case"


def shape(line):
    line = re.sub(r"\b[a-z_][a-z0-9_]*\b", lambda m: m[0] if m[0] in WORDS else "i", line.strip())
    return re.sub(r"\b[A-Z]\w*\b", "I", re.sub(r"\b[\d_]+\b", "0", line))


WORDS = set("fn pub let mut if else match for in return requires ensures struct enum impl while loop use".split())


def point_2():
    seen = collections.defaultdict(list)
    for name, text in SOURCES.items():
        lines = [(i + 1, shape(l)) for i, l in enumerate(text.split("\n"))]
        lines = [(i, l) for i, l in lines if l not in ("", "}", "{", "});", "})", ")", ");")]
        for k in range(len(lines) - 5):
            run = tuple(l for _, l in lines[k : k + 6])
            listed = sum(bool(re.fullmatch(r"[iI0:. &']*,?", l)) for l in run)
            if listed < 4 and not any(l.startswith(("use", "#")) for l in run):
                seen[run].append((name, lines[k][0], lines[k + 5][0]))
    spans = []
    for run, places in seen.items():
        if 1 < len(places) <= 8:
            spans += [(a, b) for i, a in enumerate(places) for b in places[i + 1 :]]
    spans.sort()
    grown = []
    for a, b in spans:
        for g in grown:
            if g[0][0] == a[0] and g[1][0] == b[0] and a[1] <= g[0][2] and b[1] <= g[1][2] and g[0][1] <= a[1] and g[1][1] <= b[1]:
                g[0][2], g[1][2] = max(g[0][2], a[2]), max(g[1][2], b[2])
                break
        else:
            if a[0] != b[0] or a[2] < b[1]:
                grown.append([list(a), list(b)])
    for a, b in grown:
        yield f"{a[0]}:{a[1]}-{a[2]} ~ {b[0]}:{b[1]}-{b[2]}"
    names = collections.defaultdict(list)
    for place, enum, cases in enums():
        names[enum].append(place)
    for name, text in SOURCES.items():
        for m in re.finditer(r"struct (\w+)", text):
            names[m[1]].append(f"{name}:{line_of(text, m.start())}")
    for enum, places in names.items():
        if len(places) > 1:
            yield f"{' ~ '.join(places)}: types named {enum}"


def point_3():
    for name, text in SOURCES.items():
        for m in re.finditer(r"^[ \t]*(?:'\w+: )?for (\w+) in ([^\n]*?\.\.[^\n]*?) \{(.*?)^[ \t]*\}", text, re.M | re.S):
            how = "an index" if re.search(r"\[[^\]]*\b" + m[1] + r"\b", m[3]) else "a range"
            yield f"{name}:{line_of(text, m.start())} for {m[1]} in {m[2]}: {how}"
        for m in re.finditer(r"^[ \t]*for (?:\(\w+, )?\w+\)? in [^\n]*\{\n[^\n]*(?:\+= 1;|\|\||&&|= \w+ \+)", text, re.M):
            yield f"{name}:{line_of(text, m.start())} a loop that folds by hand"
        for m in re.finditer(r"^[ \t]*(?:'\w+: )?while [^\n]*[<>]=? [^\n]*\{", text, re.M):
            yield f"{name}:{line_of(text, m.start())} a while with a count"


def point_4():
    for name, text in SOURCES.items():
        for m in re.finditer(r"impl(?:<[^{\n]*?>)? (?:fmt::)?(PartialEq|Eq|PartialOrd|Ord|Clone|Default|From|TryFrom|FromStr|Display|Debug|Error)\b[^\n]* for [^\n]*", text):
            yield f"{name}:{line_of(text, m.start())} {m[0].rstrip(' {')}"
        for m in re.finditer(r"[^\n]*(?:\.0 [=!]= \w[\w.]*\.0|as u8 == )[^\n]*", text):
            yield f"{name}:{line_of(text, m.start())} compared by its inside: {m[0].strip()}"
    for f in FUNCTIONS:
        if len(f["given"]) == 1 and re.search(r"_of\b|_as\b|^code$|named", f["place"].split()[1]) and "match" in f["rest"]:
            yield f"{f['place']}({f['given'][0]}) -> {f['result']}: a conversion"


def point_5():
    for crate in sorted({f["crate"] for f in FUNCTIONS}):
        own = [f for f in FUNCTIONS if f["crate"] == crate]
        facts = collections.Counter(re.sub(r"\b\w+(?=\.(?:old|now)\b)", "x", r.strip()) for f in own for r in set(f["requires"]))
        for fact, n in facts.items():
            if n > 2:
                yield f"{crate}: `requires {fact}` in {n} functions"
        groups = collections.Counter()
        for i, f in enumerate(own):
            for g in own[i + 1 :]:
                both = frozenset(f["given"]) & frozenset(g["given"])
                if len(both) > 2:
                    groups[both] = sum(both <= frozenset(h["given"]) for h in own)
        most = [(g, n) for g, n in groups.items() if n > 2 and not any(g < h and n <= k for h, k in groups.items())]
        for g, n in sorted(most, key=lambda x: (-x[1], sorted(x[0]))):
            yield f"{crate}: ({', '.join(sorted(g))}) in {n} functions"


def point_6():
    for name, text in SOURCES.items():
        for m in re.finditer(r"struct (\w+)[^{;]*\{(.*?)\n\}", text, re.S):
            buffers = re.findall(r"(\w+): (?:\[\w+; \w+\]|Vec<\w+>)", m[2])
            counts = re.findall(r"(\w+): (?:usize|u32)", m[2])
            if buffers and counts:
                yield f"{name}:{line_of(text, m.start())} struct {m[1]}: {', '.join(buffers)} beside {', '.join(counts)}"
            slices = re.findall(r"(\w+): &'\w+ (?:mut )?\[u32\]", m[2])
            if len(slices) > 1:
                yield f"{name}:{line_of(text, m.start())} struct {m[1]}: slices beside one another: {', '.join(slices)}"
    for f in FUNCTIONS:
        if re.search(r"if .*\.len\(\) [<>]=? |if \w+ [<>]=? \w+\.len\(\)", f["rest"]) and re.search(r"\[[^\]\n]*\]", f["rest"]):
            yield f"{f['place']}: a length tested by hand"


def point_7():
    for f in FUNCTIONS:
        for m in re.finditer(r"match [^\n]*\{\n((?:.*\n)*?)    \}", f["rest"]):
            calls = re.findall(r"^        (?:[^\n=]*) => (?:return |Some\(|if )?[\w:]+\(", m[1], re.M)
            if len(calls) > 2 and not re.search(r"=> (?:Ok|Some|Err)\(\w+::", m[1]):
                yield f"{f['place']}: a switch with {len(calls)} calls"
        if re.search(r"\bfn\(|\bdyn\b", f["rest"]):
            yield f"{f['place']}: a table of functions"


def point_8():
    for name, text in files(".antt", "proofs"):
        answers = len(re.findall(r"^pub [\w-]+ : goal\.", text, re.M))
        if answers:
            yield f"{name}: {answers} answers, {len(text.splitlines())} lines"


for number, point in enumerate([point_1, point_2, point_3, point_4, point_5, point_6, point_7, point_8], 1):
    places = list(point())
    print(f"point {number}: {len(places)}")
    if not COUNT:
        for place in places:
            print(f"  {place}")
