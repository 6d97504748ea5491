#!/usr/bin/env python3
"""Respells this repository's own names as today's Rattle spells names: run once at the top, after the kit's port.py.

Definitions, lemmas, fields, constructors and local names of specs/ and proofs/ that had dashes get underscores; a type whose name had one
is in upper camel case. It goes by the names that the .antt files declare, so what the kit declares or makes keeps its dashes. In .rt files
only clauses and `ghost use` lines change. The must-fail edits get the same spelling, and that of port.py where their text no longer stands.
"""
import glob
import re

NAME = r"[^\s(){}\[\].,;:λ⌜⌝\"@|]+"
TOKEN = re.compile(NAME)
DASHED = re.compile(r"[\w'₀-₉]-[\w]")

specs = sorted(glob.glob("crates/*/specs/*.antt"))
lemmas = sorted(glob.glob("crates/*/proofs/*.antt"))
walks = sorted(glob.glob("crates/*/proofs/**/Proof.antt", recursive=True))
sources = sorted(glob.glob("crates/*/src/*.rt"))
edits = sorted(glob.glob("crates/*/must-fail/*.edit"))


def read(path):
    with open(path, encoding="utf-8") as file:
        return file.read()


def write(path, text):
    with open(path, "w", encoding="utf-8") as file:
        file.write(text)


def bare(text):
    return re.sub(r"--[^\n]*", "", text)


def imports(text):
    for line in re.finditer(r"^use ([^\s{]+)\.\{([^}]*)\}", text, re.M):
        own = re.match(r"Rattle\.\w+\.(specs|proofs)\b", line[1]) and not line[1].startswith("Rattle.std.")
        for item in line[2].split(","):
            words = item.strip().split(" as ")
            yield bool(own), words[0].strip(), words[-1].strip()


# Names with a dash that stand in a file of definitions or lemmas and come from the kit in none of its imports are the repository's own.
kit = {"zero-suc", "suc-zero", "suc-suc", "not-nil"}  # the kit's too, but named by their paths (`compare.zero-suc`)
for path in specs + lemmas + walks:
    for own, name, alias in imports(read(path)):
        if not own:
            kit.add(name)
own = set()
for path in specs + lemmas:
    text = bare(read(path))
    text = re.sub(r"^use [^\n]*$", lambda m: m[0] if re.search(r"Rattle\.(?!std\.)\w+\.(specs|proofs)", m[0]) else "", text, flags=re.M)
    own |= {name for name in TOKEN.findall(text) if DASHED.search(name) and name not in kit and not name.startswith("Need-")}

# A fact or a type: its signature ends in a Type.
types = set()
for path in specs + lemmas:
    for line in re.finditer(r"^ *(?:abbrev |unfoldable )?(?:pub )?(?:data |record )?(" + NAME + r")(?: [({][^\n]*?)? :([^\n]*)$", bare(read(path)), re.M):
        if line[1] in own and line[1][0].isupper() and re.search(r"Type [0ℓ1]\s*(where)?\s*$", line[2]):
            types.add(line[1])


def respelt(name):
    if name not in own:
        return name
    if name in types:
        head, *rest = name.split("-")
        return head + "".join(part[:1].upper() + part[1:] for part in rest)
    return name.replace("-", "_")


taken = {}
for name in sorted(own):
    new = respelt(name)
    assert taken.setdefault(new, name) == name, (taken[new], name)


def quoted_respelt(text):
    return re.sub(r"`([^`\n]*)`", lambda q: "`" + TOKEN.sub(lambda m: respelt(m[0]), q[1]) + "`", text)


def line_respelt(text):
    code, dashes, comment = text.partition("-- ") if not text.startswith("--") else ("", "", text)
    # What stands in a string is data.
    parts = [part if part.startswith('"') else TOKEN.sub(lambda m: respelt(m[0]), part) for part in re.split(r'("[^"]*")', code)]
    return "".join(parts) + dashes + quoted_respelt(comment)


def antt(text):
    return "\n".join(line_respelt(line) for line in text.split("\n"))


def rust(text):
    lines, depth, inside = [], 0, False
    for line in text.split("\n"):
        begins = re.match(r"\s*(ghost use|requires|ensures|ghost)\b", line)
        if begins and not inside:
            inside, depth = True, 0
        if inside and not line.lstrip().startswith("//"):
            line = TOKEN.sub(lambda m: respelt(m[0]), line)
        if inside:
            depth += line.count("{") - line.count("}")
            if depth <= 0:
                inside = False
        lines.append(line)
    return "\n".join(lines)


# port.py's spelling of what stands in edits: fields written tight, one form of path, the library's names, and those of ours that it turned.
KIT = [(r"Rattle·(\w+)·specs\.specs\.", r"Rattle.\1.specs."), (r"mathlib\.Core\.List\._\+\+_", "Rattle.std.specs.Prelude.◌++◌"), (r"\bgetD\b", "get_or")]


def tight(text):
    before = None
    while before != text:
        before = text
        text = re.sub(r"\(([\w'][\w'.-]*) \.([\w-]+)\)", r"\1.\2", text)
        text = re.sub(r"(?<=[\w')]) \.([A-Za-z][\w-]*)", r".\1", text)
        text = re.sub(r"\((\w[\w']*\.[\w.-]+)\)", r"\1", text)
    return text


def turned(text, words):
    def one(match):
        name = match[0].replace("-", "_")
        return name if DASHED.search(match[0]) and match[0] not in kit and name in words else match[0]

    return re.sub(r"[\w'-]+", one, text)


# Names of clauses that port.py had to make up, and better ones.
CLAUSES = [
    ("calls/src/steps.rt", "requires width_in_bounds", "requires room"),
    ("calls/src/steps.rt", "requires width_len", "requires room"),
    ("commands/src/obeying.rt", "requires fact", "requires not_clear"),
    ("flow/src/lib.rt", "requires width_in_bounds", "requires room"),
    ("flow/src/lib.rt", "requires read_in_bounds", "requires room"),
    ("flow/src/lib.rt", "ensures read_lt_read", "ensures onward"),
    ("flow/src/lib.rt", "ensures by_index", "ensures stepped"),
    ("lookups/src/lookup.rt", "requires by_index", "requires few"),
    ("lookups/src/neighbours.rt", "requires by_index", "requires stands"),
    ("lookups/src/neighbours.rt", "requires p_value", "requires sided"),
    ("splay/src/lib.rt", "ensures a_unchanged", "ensures alone"),
    ("splay/src/lib.rt", "ensures a_after", "ensures joined"),
]


def clauses(path, text):
    for place, was, name in CLAUSES:
        if path.endswith(place):
            text = text.replace(was + " {", name + " {")
    return text


texts = {path: antt(read(path)) for path in specs + lemmas + walks}
texts.update({path: clauses(path, rust(read(path))) for path in sources})
for path, text in texts.items():
    write(path, text)

declared = set(re.findall(r"[\w'-]+", "".join(texts[path] for path in specs + lemmas)))
for path in ["README.md"] + sorted(glob.glob("docs/**/*.md", recursive=True)):
    page = quoted_respelt(read(path))
    write(path, re.sub(r"`[^`\n]*`", lambda quote: turned(quote[0], declared), page))

for path in edits:
    crate, place, out = path.split("/")[1], None, []
    lines = read(path).split("\n")
    for line in lines:
        if line.startswith("file: "):
            place = f"crates/{crate}/{line[6:].strip()}"
        elif line.startswith("old: ") or line.startswith("new: "):
            kind, text = line[:5], line[5:]
            if place.endswith(".antt"):
                for was, name in KIT:
                    text = re.sub(was, name, text)
                text = turned(line_respelt(tight(text)), set(re.findall(r"[\w'-]+", texts[place])))
            line = kind + text
        out.append(line)
    write(path, "\n".join(out))
