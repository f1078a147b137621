#!/usr/bin/env python3
"""Brings the repository's own definitions and lemmas to one spelling: types and facts in camel case, all other names in snake
case, a prime as an apostrophe. Run once, at the top of the repository.

A name is the repository's own where a file of specs/ or of proofs/ declares it, or names an import by `as`. The names that the
checker makes (goals, steps of a function) and the names of other libraries stay, and so do comments, strings, and the functions,
fields and types of src/. Names that would fall together stop the run.
"""

import glob
import re
import sys

BREAKS = r"\s(){}\[\];,.\"«»⌜⌝@:"
TOKEN = re.compile(rf"[^{BREAKS}]+")
DECLARED = re.compile(
    r"^\s*(?:(?:pub|abbrev|unfoldable|package)\s+)*(?:(?:record|data)\s+)?([^\s(){};,.:=]+)\s+((?:[({][^=]*?)?):(?=\s|$)(.*)"
)
KIND = re.compile(r"^\s*(?:pub\s+)?(?:record|data)\s+([^\s(){};,.:=]+)")
ALIAS = re.compile(r"[\w'′-]+\s+as\s+([^\s(){};,.]+)")
IMPORT = re.compile(r"(?:^|\n)\s*(?:ghost\s+|pub\s+)*use\s+([^;{}\n]+?)(?:\.\{([^}]*)\})?(?:\s+as\s+(\S+?))?;?(?=\n|$)")
OWN = None
# Names that would be spelled like another of the repository: the bytes of a level are also defined of a plan's levels, and a fault is called NoOrder.
INSTEAD = {"levelBytes": "level_record", "No-order": "HasNoOrder"}
# An import's other name, and a definition of another crate; no file has both.
APART = {"listing_text"}


def antt_files():
    return sorted(set(glob.glob("crates/*/specs/**/*.antt", recursive=True) + glob.glob("crates/*/proofs/**/*.antt", recursive=True)))


def rt_files():
    return sorted(glob.glob("crates/*/src/**/*.rt", recursive=True))


def split_comments(text, mark, strings):
    """Pieces of text, each with whether it is code."""
    out, at = [], 0
    pattern = re.compile((r'b?"(?:\\.|[^"\\])*"|' if strings else "") + mark + r"[^\n]*")
    for m in pattern.finditer(text):
        out.append((text[at : m.start()], True))
        out.append((m.group(), False))
        at = m.end()
    out.append((text[at:], True))
    return out


def code_of(path, text):
    return split_comments(text, "--" if path.endswith(".antt") else "//", path.endswith(".rt"))


def respelled(name):
    if name in INSTEAD:
        return INSTEAD[name]
    name = name.replace("′", "'")
    parts = name.split("-")
    if name[0].isupper():
        return parts[0] + "".join(p[:1].upper() + p[1:] for p in parts[1:])
    words = [re.sub(r"(?<=[a-z0-9])([A-Z])", lambda m: "_" + m.group(1).lower(), p) for p in parts]
    return "_".join(words)


def imports(text):
    """Names that a file takes from elsewhere, with whether the place is a crate of this repository."""
    for m in IMPORT.finditer(text):
        path, names = m.group(1).strip(), m.group(2)
        own = path.split(".")[0] == "Rattle" and len(path.split(".")) > 1 and path.split(".")[1] in OWN
        if names is not None:
            for n in names.split(","):
                yield n.split(" as ")[0].strip(), own


def main():
    global OWN
    OWN = {p.split("/")[1] for p in glob.glob("crates/*/src")}
    declared = {}
    for path in antt_files():
        text = "".join(t for t, code in code_of(path, open(path).read()) if code)
        for line in text.splitlines():
            m = DECLARED.match(line)
            if m and not re.match(r"\s*(needs?|goal|given)\b", m.group(3)):
                declared.setdefault(m.group(1), path)
            k = KIND.match(line)
            if k:
                declared.setdefault(k.group(1), path)
    for path in antt_files() + rt_files():
        text = "".join(t for t, code in code_of(path, open(path).read()) if code)
        for line in text.splitlines():
            if re.match(r"\s*(ghost\s+|pub\s+)*use\s", line) and "Rattle" in line:
                for a in ALIAS.findall(line):
                    declared.setdefault(a, path)
    generated = re.compile(r"^(invariant|decreases|loop|returns|overflow|bounds|offset|slice-bounds)-|-requires(-|$)")
    names = {n: respelled(n) for n in declared if respelled(n) != n and not generated.search(n) and not n.startswith("-")}
    taken = {}
    for n in list(declared):
        taken.setdefault(names.get(n, n), []).append(n)
    clash = {k: v for k, v in taken.items() if len(v) > 1 and k not in APART}
    if clash:
        for k, v in sorted(clash.items()):
            print(f"falls together: {k}: {', '.join(f'{x} ({declared[x]})' for x in v)}")
        if "--force" not in sys.argv:
            return 1
    if "--list" in sys.argv:
        for n in sorted(names):
            print(f"{n} -> {names[n]}")
        return 0
    met = set()
    changed = 0
    for path in antt_files() + rt_files() + sorted(glob.glob("crates/*/must-fail/*.edit")):
        whole = open(path).read()
        foreign = {n for n, own in imports(whole) if not own}
        pieces = code_of(path, whole) if not path.endswith(".edit") else [(whole, True)]

        def turn(m):
            word = m.group()
            if word in names.values() and word not in met:
                met.add((word, path))
            return names[word] if word in names and word not in foreign else word

        text = "".join(TOKEN.sub(turn, t) if code else t for t, code in pieces)
        if text != whole:
            open(path, "w").write(text)
            changed += 1
    print(f"{len(names)} names respelled in {changed} files")
    for word, path in sorted(met):
        print(f"look: {word} stood already in {path}")
    return 0


if __name__ == "__main__":
    raise SystemExit(main())
