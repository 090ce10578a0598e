#!/usr/bin/env python3
"""Spells this repository's own names as today's Rattle does; run once, after port.py, at the top.

usage: python3 tools/respell.py [--look]     --look writes nothing and prints where two names would fall together

A definition, a lemma, a field or a variable of antt in lower camel case becomes snake case (`gainOf`, `gain_of`). In a name of several
parts a dash stays where each part is the name of something (`cut-append`, a lemma on `cut` and `append`) and else becomes `_`
(`one-gone`, `one_gone`); in a definition of specs/ or a record's field every dash becomes `_`. Types and modules keep their capitals.
What turns: the .antt files, clauses and `ghost` items of .rt files, the texts of must-fail edits, and code spans of Markdown. Functions
of src/, exported names, strings, inputs and outputs keep their names.
"""

import glob
import os
import re
import sys

TOKEN = re.compile(r'--[^\n]*|"(?:[^"\\\n]|\\.)*"|[^\s(){}.;,@"«»\[\]\\]+')
CAMEL = re.compile(r"^\+?[a-z][a-z0-9]*[A-Z]")
MODIFIER = r"(?:abbrev |unfoldable |pub |private |ruleset )*"
DECLARED = re.compile(rf"(?m)^(\s*)({MODIFIER})([^\s:(){{}}]+) :(?= |$)")
TYPED = re.compile(r"(?m)^\s*(?:pub )?(?:record|data) ([^\s:(){}]+)")
# names of the library that a lemma's name still has in their older spelling
OLDER = {"getD": "get_or", "natAbs": "unsigned_abs"}
# lemmas whose names a definition now has, by their crates
LEMMAS = {
    "board_kept": {"kept_by": "kept_by_lem"},
    "board_anew": {"kept_by": "kept_by_lem"},
    "card_back": {"in_bounds": "in_bounds_lem"},
    "claims": {"non_zero": "non_zero_lem"},
    "curtain": {"in_order": "in_order_lem"},
    "hundredths": {"raised_by": "raised_by_lem"},
    "planet_lines": {"span_to": "span_to_lem"},
}


def snake(part):
    if part in OLDER:
        return OLDER[part]
    if not CAMEL.match(part):
        return part
    s = re.sub(r"([a-z0-9])([A-Z])", r"\1_\2", part)
    s = re.sub(r"([A-Z])([A-Z][a-z])", r"\1_\2", s)
    return s.lower() if not re.search(r"[^\x00-\x7f]", s) else "".join(c.lower() if c.isascii() else c for c in s)


def read(path):
    with open(path, encoding="utf-8") as f:
        return f.read()


def antt_files():
    return sorted(glob.glob("crates/*/specs/**/*.antt", recursive=True) + glob.glob("crates/*/proofs/**/*.antt", recursive=True))


def brought():
    """The names of one part that files bring from a library."""
    names = set()
    for f in antt_files():
        for path, words in re.findall(r"(?m)^use ([^{\n]*)\.\{([^}]*)\}", read(f)):
            if not path.startswith("Rattle.") or path.startswith("Rattle.std"):
                names |= {w.split(" as ")[0].strip() for w in words.split(",") if "-" not in w}
    return names


def table():
    """The new spelling of each name that changes."""
    tokens, defined, lemmas = set(), set(), set()
    for f in antt_files():
        text = read(f)
        tokens |= {t for t in TOKEN.findall(text) if not t.startswith("--") and t[0] != '"'}
        if "/specs/" in f:
            defined |= {m.group(3) for m in DECLARED.finditer(text)}
        elif not f.endswith("/Proof.antt"):
            for m in DECLARED.finditer(text):
                (defined if m.group(1) and not m.group(2) and re.search(r"(?m)^\s*(?:pub )?record ", text[: m.start()][-2000:]) else lemmas).add(m.group(3))
    known = {snake(t) for t in defined} | {t for t in tokens if t[0].isupper()} | brought()
    names = {}
    for t in tokens:
        if "-" not in t:
            if CAMEL.match(t):
                names[t] = snake(t)
    taken = set(names.values()) | tokens
    for t in defined | lemmas:
        if "-" in t and re.search(r"[A-Za-z]", t):
            parts = [snake(p) for p in t.split("-")]
            if t in defined and t not in lemmas:
                new = "_".join(parts)
            else:
                new = ("-" if all(p in known for p in parts) else "_").join(parts)
            if new != t and new in taken:
                new += "_lem"
            if new != t:
                names[t] = new
    return names


class Spellings(dict):
    """The table, and for a name that port.py respelled in the code already, its spelling there."""

    def __init__(self, names):
        super().__init__(names)
        self.have = set(names.values())
        for f in antt_files():
            self.have |= set(TOKEN.findall(read(f)))

    def get(self, key, default=None):
        if key in self:
            return self[key]
        return snake(key) if CAMEL.match(key) and "-" not in key and snake(key) in self.have else default


def turned(text, names, comments=True):
    def one(m):
        t = m.group(0)
        if t.startswith("--"):
            return prose(t, names) if comments else t
        if t[0] == '"':
            return t
        return names.get(t, t)

    return TOKEN.sub(one, text)


def prose(text, names):
    """Code spans, and camel names anywhere."""
    text = re.sub(r"`[^`\n]+`", lambda m: re.sub(r"[^\s(){}.;,@\"«»\[\]\\`:]+", lambda n: names.get(n.group(0), n.group(0)), m.group(0)), text)
    return re.sub(r"(?<![\w`-])[a-z][a-z0-9]*[A-Z]\w*(?![\w-])", lambda m: names.get(m.group(0), m.group(0)), text)


def clauses(text, names, loose):
    """Turns the clauses and ghost items of Rattle's code."""
    out, at = [], 0
    start = re.compile(r"(?m)^\s*ghost use [^;]*;|^\s*(?:requires|ensures|ghost)\b[^{\n;]*\{|//[^\n]*")
    while True:
        m = start.search(text, at)
        if not m:
            out.append(text[at:])
            return "".join(out)
        out.append(text[at : m.start()])
        if m.group(0).startswith("//"):
            out.append("//" + prose(m.group(0)[2:], loose))
            at = m.end()
        elif m.group(0).endswith(";"):
            out.append(turned(m.group(0), names))
            at = m.end()
        else:
            depth, i = 1, m.end()
            while depth:
                depth += {"{": 1, "}": -1}.get(text[i], 0)
                i += 1
            out.append(turned(text[m.start() : i], names))
            at = i


def markdown(text, names):
    def fence(m):
        return turned(m.group(0), names) if re.search(r" : |≡|→", m.group(0)) else m.group(0)

    text = re.sub(r"(?m)(?:^(?: {4}|\t).*\n)+|^```[^\n]*\n(?:.*\n)*?```", fence, text)
    return re.sub(r"`[^`\n]+`", lambda m: re.sub(r"[^\s(){}.;,@\"«»\[\]\\`:]+", lambda n: names.get(n.group(0), n.group(0)), m.group(0)), text)


def look(names):
    back = {}
    for old, new in names.items():
        back.setdefault(new, set()).add(old)
    for new, olds in sorted(back.items()):
        if len(olds) > 1:
            print("two names, one spelling:", new, sorted(olds))
    for f in antt_files():
        have = {t for t in TOKEN.findall(re.sub(r"(?m)^use [^\n{]*", "", read(f))) if not t.startswith("--")}
        for old in sorted(have & set(names)):
            if names[old] in have:
                print("both in", f + ":", old, names[old])
    for f in sorted(glob.glob("crates/*/src/**/*.rt", recursive=True)):
        text = re.sub(r"//[^\n]*", "", read(f))
        for m in re.finditer(r"\bfn (\w+)[^(]*\(([^{]*?)\)[^{]*?((?:\s*(?:requires|ensures)[^\n]*\n(?:\s+[^\n{}]*\n)*)+)", text):
            params = set(re.findall(r"(\w+)\s*:", m.group(2)))
            have = set(TOKEN.findall(m.group(3)))
            for old in sorted(have & set(names)):
                if names[old] in params or names[old] == "result":
                    print("hidden by a parameter in", f, m.group(1) + ":", old, names[old])
        have = set(TOKEN.findall(text))
        for old in sorted(have & set(names)):
            if names[old] in set(re.findall(r"ghost use [^;]*;", text) and [w for u in re.findall(r"ghost use [^;]*;", text) for w in TOKEN.findall(u)]):
                print("both in", f + ":", old, names[old])


def main():
    names = table()
    if "--look" in sys.argv[1:]:
        look(names)
        print(len(names), "names")
        return
    files = 0
    loose = Spellings(names)
    for f in antt_files() + sorted(glob.glob("crates/*/src/**/*.rt", recursive=True)) + sorted(glob.glob("crates/*/must-fail/*.edit")) + sorted(glob.glob("*.md") + glob.glob("docs/**/*.md", recursive=True)):
        text = read(f)
        if f.endswith(".antt"):
            new = turned(text, names | LEMMAS.get(f.split("/")[1], {}))
        elif f.endswith(".rt"):
            new = clauses(text, names, loose)
        elif f.endswith(".edit"):
            antt = re.search(r"(?m)^file: .*\.antt", text)
            new = re.sub(r"(?m)^((?:old|new): )(.*)$", lambda m: m.group(1) + (turned(m.group(2), loose, False) if antt or re.search(r"requires|ensures|ghost", m.group(2)) else m.group(2)), text)
        else:
            new = markdown(text, loose)
        if new != text:
            files += 1
            with open(f, "w", encoding="utf-8") as out:
                out.write(new)
    print(len(names), "names,", files, "files")


if __name__ == "__main__":
    main()
