#!/usr/bin/env python3
"""Brings this repository's own antt names to one spelling: words in snake case, types in camel case.

usage: python3 tools/respell_names.py [--dry] [TOP]

It was run once, on 2026-11-26, on the tree that /opt/rattle/port/port.py had left; docs/PORT.md tells where that stands in
the history. A name is respelled where the repository's own specs/ or proofs/ declare it (a definition, a lemma, a field of a
record, a bound variable). Names that the library declares, names that the check makes of the code (goals and steps, as
`returns-in_err-x`), code, strings and comments stay as they are.
"""

import glob
import os
import re
import sys

WORD = re.compile(r"(?P<dot>\.|(?<![\w'⟦.-]))(?P<name>[^\W\d_][\w']*(?:-[\w'+→≡ℕℤ]+)+)")
SPECIAL = {"decides-leZ": "decides_int_le", "decides-ltZ": "decides_int_lt", "Numbers-of": "numbers_of"}


def spelled(name):
    """The name in the wanted spelling."""
    if name in SPECIAL:
        return SPECIAL[name]
    parts = name.split("-")
    if name[0].isupper():
        return "".join(p[0].upper() + p[1:] for p in parts)
    return "_".join(parts)


def antt_files(top):
    return sorted(f for f in glob.glob(os.path.join(top, "crates/*/specs/**/*.antt"), recursive=True) + glob.glob(os.path.join(top, "crates/*/proofs/**/*.antt"), recursive=True))


def rt_files(top):
    return sorted(glob.glob(os.path.join(top, "crates/*/src/**/*.rt"), recursive=True))


def code(line):
    """The line without its comment."""
    return line.split("--")[0]


def declared(top, files):
    """Own names with a dash, and own fields with a dash."""
    names, fields, library, made = set(), set(), set(), set()
    for f in rt_files(top):
        names |= set(re.findall(r" as ([^\W\d_][\w']*-[\w'-]+)", open(f, encoding="utf-8").read()))
    for f in files:
        text = "\n".join(code(l) for l in open(f, encoding="utf-8").read().split("\n"))
        for path, items in re.findall(r"(?m)^use ([\w.+'-]+)\.\{([^}]*)\}", text):
            own = path.startswith("Rattle.") and not path.startswith("Rattle.std.")
            if not own:
                library |= {i.split(" as ")[0].strip() for i in items.split(",")}
            elif path.endswith((".Goals", ".Given")):
                made |= {i.strip() for i in items.split(",")}
        names |= set(re.findall(r" as ([^\W\d_][\w']*-[\w'-]+)[,}]", text))
        for name in re.findall(r"(?m)^[ \t]*(?:pub )?([^\W\d_][\w']*(?:-[\w'+-]+)+) : goal\.", text):
            made.add(name)
        for name in re.findall(r"(?m)^(?:abbrev |unfoldable |pub |data |record )*([^\W\d_][\w'-]*)[^:\n=]* : (?!goal\.)", text):
            names.add(name)
        for name in re.findall(r"(?m)^[ \t]+(?:abbrev |unfoldable |pub )*([^\W\d_][\w'-]*) : (?!goal\.)", text):
            fields.add(name)
        # variables: of a signature, of a function, of a let, of a pattern
        for group in re.findall(r"[({]([\w' -]+) : ", text):
            names |= set(group.split())
        for group in re.findall(r"λ ([^.]*)\.(?=\s)", text):
            names |= set(re.findall(r"[\w'-]+", group))
        names |= set(re.findall(r"\blet ([\w'-]+)", text))
        for line in text.split("\n"):
            if re.search(r" =( |$)", line):
                names |= set(re.findall(r"(?<![\w'.-])[\w'-]+", re.split(r" =(?: |$)", line)[0])[1:])
    dashed = lambda s: {n for n in s if re.fullmatch(r"[^\W\d_][\w']*(-[\w'+]+)+", n)}
    return dashed(names | fields) - library - made, dashed(fields) - library, library, made


def respell(text, names, fields, keep_comment):
    def one(m):
        name = m["name"]
        if m["dot"]:
            return "." + (spelled(name) if name in fields else name)
        return spelled(name) if name in names else name

    out = []
    for line in text.split("\n"):
        at = line.find(keep_comment)
        body, rest = (line, "") if at < 0 else (line[:at], line[at:])
        if re.match(r"\s*(ghost )?use ", body) and "{" in body:
            # a path of modules stays as it is; the items are respelled
            head, tail = body.split("{", 1)
            out.append(head + "{" + WORD.sub(one, tail) + rest)
        else:
            out.append(WORD.sub(one, body) + rest)
    return "\n".join(out)


def main(argv):
    dry = "--dry" in argv
    top = next((a for a in argv if not a.startswith("--")), ".")
    files = antt_files(top)
    names, fields, library, made = declared(top, files)
    everything = set()
    for f in files + rt_files(top):
        everything |= set(re.findall(r"[^\W\d][\w']*", open(f, encoding="utf-8").read()))
    for name in sorted(names):
        if spelled(name) in everything or spelled(name) in library:
            print(f"falls together: {name} and {spelled(name)}")
    new = {}
    for name in sorted(names):
        new.setdefault(spelled(name), []).append(name)
    for to, olds in new.items():
        if len(olds) > 1:
            print(f"falls together: {' and '.join(olds)}")
    if dry:
        print(len(names), " ".join(sorted(names)))
        print("fields:", " ".join(sorted(fields)))
        return 0
    for f in files + rt_files(top):
        old = open(f, encoding="utf-8").read()
        text = respell(old, names, fields, "--" if f.endswith(".antt") else "//")
        if text != old:
            open(f, "w", encoding="utf-8").write(text)
    return 0


if __name__ == "__main__":
    raise SystemExit(main(sys.argv[1:]))
