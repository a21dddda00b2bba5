#!/usr/bin/env python3
"""Brings the repository's own definitions, lemmas and variables to today's spelling: snake case, and camel case for types.

Run once at the top of the repository, after the toolchain's own porting script. It takes every name with a dash that a file of
specs/ or proofs/ defines or binds, and writes it anew wherever it stands in specs/, proofs/, clauses and ghost items.
Names that the toolchain makes and names of its library stay as they are; so do strings, functions of src/ and pages.
"""
import glob
import re
import sys

LETTER = "A-Za-zμα-ωΑ-Ωℕℤ"
NAME = re.compile(rf"[{LETTER}_][{LETTER}0-9_'₀-₉-]*")
DASHED = rf"[{LETTER}][{LETTER}0-9_'₀-₉]*(?:-[{LETTER}0-9_'₀-₉]+)+"
STRING = re.compile(r'"(?:[^"\\]|\\.)*"')


def files():
    return sorted(glob.glob("crates/*/specs/**/*.antt", recursive=True) + glob.glob("crates/*/proofs/**/*.antt", recursive=True))


def is_made(rest):
    """Whether a signature is that of a goal, whose name the toolchain makes."""
    return re.match(r"\s*:\s*goal\.", rest) is not None


def bound_in(line):
    """The dashed names that a line defines or binds."""
    found = set()
    m = re.match(rf"\s*(?:abbrev )?(?:unfoldable )?(?:pub )?(?:abbrev )?(?:record|data) ({DASHED})", line)
    if m:
        found.add(m.group(1))
    m = re.match(rf"\s*(?:abbrev |unfoldable |pub |let )*((?:{NAME.pattern} )*?{NAME.pattern}) :( |$)", line)
    if m and not is_made(line[m.end(1):]):
        found.update(w for w in m.group(1).split() if re.fullmatch(DASHED, w))
    found.update(re.findall(rf"\blet ({DASHED}) [=:]", line))
    for m in re.finditer(rf"[({{]((?:{NAME.pattern} )*{NAME.pattern}) : ", line):
        found.update(w for w in m.group(1).split() if re.fullmatch(DASHED, w))
    for m in re.finditer(r"λ ([^.]*)\.", line):
        found.update(w for w in m.group(1).split() if re.fullmatch(DASHED, w))
    for m in re.finditer(rf" as ({DASHED})", line):
        found.add(m.group(1))
    return found


# Names that would fall together with one of src/.
APART = {"Least-drives": "LeastDrivesShow", "plan-text": "planned_text"}


def respelled(name):
    if name in APART:
        return APART[name]
    parts = name.split("-")
    if name[0].isupper() and not re.fullmatch(r"[A-Z]", parts[0]):
        return parts[0] + "".join(p[:1].upper() + p[1:] for p in parts[1:])
    return "_".join(parts)


def own_names():
    own, borrowed = set(), set()
    for path in files() + sorted(glob.glob("crates/*/src/**/*.rt", recursive=True)):
        with open(path, encoding="utf-8") as file:
            for line in file:
                if path.endswith(".antt"):
                    own |= bound_in(line.split("--")[0])
                use = re.match(r"\s*(?:pub |ghost )*use (Rattle\.\w+)\S*\.\{(.*)\}", line)
                if use:
                    own.update(re.findall(rf" as ({DASHED})", line))
                    if use.group(1) == "Rattle.std":
                        borrowed.update(w.strip() for w in re.sub(r"(\S+) as \S+", r"\1", use.group(2)).split(","))
    return own, borrowed


def rewrite(text, names):
    def of_line(line):
        kept = STRING.split(line)
        strings = STRING.findall(line)
        kept = [NAME.sub(lambda m: names.get(m.group(0), m.group(0)), part) for part in kept]
        return "".join(a + b for a, b in zip(kept, strings + [""]))

    return "".join(of_line(line) for line in text.splitlines(keepends=True))


def main():
    own, borrowed = own_names()
    names = {name: respelled(name) for name in own - borrowed}
    if "--list" in sys.argv:
        for name in sorted(names):
            print(name, names[name])
        return
    for path in files() + sorted(glob.glob("crates/*/src/**/*.rt", recursive=True)):
        with open(path, encoding="utf-8") as file:
            text = file.read()
        new = rewrite(text, names)
        if new != text:
            with open(path, "w", encoding="utf-8") as file:
                file.write(new)


if __name__ == "__main__":
    main()
