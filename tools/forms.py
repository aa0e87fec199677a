"""Counts, over src/ of every crate, the places of older forms, point by point, and lists them with -v.

    python3 tools/forms.py [-v] [ROOT]
"""
import collections
import pathlib
import re
import sys

WORDS = [a for a in sys.argv[1:] if not a.startswith("-")]
ROOT = pathlib.Path(WORDS[0] if WORDS else ".")
FULL = "-v" in sys.argv


def sources():
    for line in (ROOT / "crates.txt").read_text().splitlines():
        crate = re.match(r"(\w+).*:", line)
        if crate and not line.startswith("#"):
            for path in sorted((ROOT / "crates" / crate[1] / "src").glob("**/*.rt")):
                yield f"{crate[1]}/{path.name}", path.read_text()


FILES = list(sources())
KEYWORDS = set("if else while for in loop match return let mut true false as break continue".split())


def lines(pattern):
    """Each line that has the pattern, comments left out."""
    for name, text in FILES:
        for number, line in enumerate(text.splitlines(), 1):
            code = line.split("//")[0]
            if re.search(pattern, code):
                yield f"{name}:{number} {code.strip()}"


def items(kind):
    """Each struct or enum: its place and its body."""
    for name, text in FILES:
        for m in re.finditer(kind + r" (\w+)[^;{]*\{(.*?)\n\}", text, re.S):
            yield f"{name} {m[1]}", m[2]


def functions():
    """Each function: its place, its parameters, its clauses and its body."""
    for name, text in FILES:
        for m in re.finditer(r"^( *)(?:pub )?fn (\w+)(.*?)^\1\{(.*?)^\1\}", text, re.M | re.S):
            head = re.split(r"^\s+(?=requires|ensures)", m[3], maxsplit=1, flags=re.M)
            params = head[0][head[0].index("(") + 1 : head[0].rindex(")")]
            yield f"{name} {m[2]}", params, head[1] if len(head) > 1 else "", m[4]


def repeated(found, least):
    """What at least so many functions have, most common first."""
    return [f"{len(v)} {k}" for k, v in sorted(found.items(), key=lambda e: -len(e[1])) if len(v) >= least]


def alike():
    """2: functions whose bodies are the same but for names and numbers, of three lines or more; and those of one line that call the same with one word changed are
    found by sight."""
    shapes = collections.defaultdict(list)
    for place, _, _, body in functions():
        code = re.sub(r"//[^\n]*", "", body)
        if len(code.strip().splitlines()) < 3:
            continue
        names = {}
        shape = re.sub(r"b?\"[^\"]*\"|b'.[^']*'|\b0x\w+|\b\d+|[A-Za-z_]\w*", lambda m: m[0] if m[0] in KEYWORDS else names.setdefault(m[0], f"n{len(names)}"), code)
        shapes[re.sub(r"\s+", " ", shape)].append(place)
    return [" ~ ".join(v) for v in shapes.values() if len(v) > 1]


def enums():
    """1: enums of two cases, or of one that bears nothing beside others; by sight which have the shape of Option or Result."""
    cases = re.compile(r"^ *([A-Z][^/,]*),", re.M)
    return [place + ": " + ", ".join(cases.findall(body)) for place, body in items("enum")]


def flags():
    """1: a field that is a flag, in a struct that has others."""
    return [f"{place}.{f}" for place, body in items("struct") for f in re.findall(r"(\w+): bool", body)]


def matched():
    """4: a match whose arms all say true or false, or give one case a number each."""
    out = []
    for place, _, _, body in functions():
        arms = re.findall(r"=> ([^,{]+),", body)
        if len(arms) > 1 and all(re.fullmatch(r"true|false|\d+", a) for a in arms):
            out.append(place)
    return out


def facts():
    """5: a conjunct of `requires` that three functions or more have."""
    found = collections.defaultdict(set)
    for place, _, clauses, _ in functions():
        for clause in re.findall(r"requires \{ (.*) \}", clauses):
            for fact in clause.split(" × "):
                found[fact.strip("() ")].add(place)
    return repeated(found, 3)


def together():
    """5: parameters next to each other in four functions or more."""
    found = collections.defaultdict(set)
    for place, params, _, _ in functions():
        each = [re.sub(r"\s+", " ", p).strip() for p in params.split(",") if ":" in p]
        for pair in zip(each, each[1:]):
            found[", ".join(pair)].add(place)
    return repeated(found, 4)


def answers():
    """8: files of answers, their lines, and the answers that say the same as one before them in the file."""
    files = [p for p in ROOT.glob("crates/*/proofs/**/Answers.antt")]
    same = collections.Counter()
    for path in files:
        seen = collections.Counter(re.findall(r"^\S+ c = (search \(.*\))$", path.read_text(), re.M))
        same[str(path.parent.relative_to(ROOT / "crates"))] = sum(n - 1 for n in seen.values())
    total = sum(len(p.read_text().splitlines()) for p in files)
    return [f"{len(files)} files, {total} lines"] + [f"{n} {k}" for k, n in same.most_common() if n > 2]


POINTS = [
    ("1 enums", enums),
    ("1 flags in structs", flags),
    ("1 zero for nothing", lambda: [p for p in lines(r"[!=]= 0\b") if not re.search(r"\blen(\(\))? [!=]= 0| % ", p)]),
    ("2 bodies alike", alike),
    ("3 loops by hand", lambda: list(lines(r"^\s*(while|loop)\b"))),
    ("3 for", lambda: list(lines(r"^\s*for\b"))),
    ("4 matches to true, false or a number", matched),
    ("4 derives", lambda: [m for m in lines(r"derive\(")]),
    ("5 facts in three contracts or more", facts),
    ("5 parameters that travel together", together),
    ("6 arrays of a fixed size", lambda: list(lines(r"&?(mut )?\[(usize|u8|u32); ?\d+\]"))),
    ("7 closures", lambda: list(lines(r"\(\|[^|]+\||\|\||impl Fn|dyn "))),
    ("8 answers", answers),
]

for title, count in POINTS:
    found = count()
    print(f"{title}: {len(found)}")
    if FULL:
        for place in found:
            print(f"    {place}")
