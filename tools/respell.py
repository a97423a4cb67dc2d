#!/usr/bin/env python3
"""Brings this repository's own names of definitions and lemmas to snake case, as today's Rattle spells them.

usage: python3 tools/respell.py [--list]     at the top of the repository, once, right after the kit's port.py

Own names are those that specs/ and the files directly in proofs/ declare: functions, lemmas, constructors, fields. What Rattle makes of the
code's names, types, modules and facts that are spelled like types stay, and so do functions of src/, strings, inputs and outputs.
A name whose new spelling would meet another one gets the spelling that MET says. --list prints the table and writes nothing.
"""

import os
import re
import sys

# Names that would fall together with another one, and what each is called instead.
MET = {
    "allThere": "all_pages_there",
    "bit-of": "bit_of_lem",
    "heldAfter": "held_after_all",
    "lastPage": "last_page_of",
    "sameSource": "is_same_source",
    "takesAll": "takes_whole",
}

WORD = re.compile(r"[^\s(){}\[\].;,@\"«»`:⌜⌝⌞⌟/|\\*#]+")
# A middle dot in a name, and what stands for a module in front of it.
ALIAS = re.compile(r"\b(\w+)·(\w+)")
ALIASES = {"ListN": "list", "Check": "check"}
DECLARED = re.compile(r"(?m)^ *(?:(?:pub|abbrev|unfoldable|private|data|record) +)*([^\s(){}.;,]+)(?: +[({][^:\n]*[)}])* *:(?= |$)")
STRINGS = re.compile(r'b?"(?:\\.|[^"\\])*"', re.S)
SPANS = re.compile(r"`[^`\n]+`")


def files(root, endings):
    for folder, inner, names in os.walk(root):
        inner[:] = sorted(x for x in inner if x not in ("out", "target", ".git"))
        for name in sorted(names):
            if name.endswith(endings):
                yield os.path.join(folder, name)


def read(path):
    with open(path, encoding="utf-8") as f:
        return f.read()


def of_function(path):
    """Whether a file proves one function of the code: what it declares has names that Rattle made."""
    inside = path.split("/proofs/")
    return len(inside) == 2 and "/" in inside[1]


def snake(name):
    name = re.sub(r"(?<=[a-z0-9₀-₉])([A-Z])(?![A-Z0-9]*$|[A-Z])", lambda m: "_" + m[1].lower(), name)
    name = re.sub(r"(?<=[a-z0-9])([A-Z])(?=[0-9]*$)", lambda m: "_" + m[1].lower(), name)
    return name.replace("-", "_").replace("·", "_")


def own_names(top):
    own, settled = set(), set()
    for path in files(os.path.join(top, "crates"), ".antt"):
        if of_function(path):
            continue
        found = set(DECLARED.findall(re.sub(r"--[^\n]*", "", read(path))))
        (settled if os.path.basename(path).startswith("Settled") else own).update(found)
    own = {n for n in own | settled if n[0].islower() and (re.search(r"[a-z0-9₀-₉][A-Z]", n) or "-" in n)}
    return own, settled


def table(top):
    own, settled = own_names(top)
    definitions = {snake(n): n for n in own if "-" not in n}
    out = {}
    for n in own:
        # A lemma that would have the name of a definition; a theorem on a call keeps the call's name.
        lemma = "_lem" if "-" in n and snake(n) in definitions and n not in settled else ""
        out[n] = MET.get(n, snake(n) + lemma)
    return out


def turned(text, names):
    return ALIAS.sub(lambda m: ALIASES[m[1]] + "_" + m[2] if m[1] in ALIASES else m[1] + "_" + m[2], WORD.sub(lambda m: names.get(m[0], m[0]), text))


def imported(text, names):
    """The names that a function's proof brings in, or reaches behind a dot: others of the same spelling are its own."""
    uses = " ".join(re.findall(r"(?m)^(?:pub )?use .*$", text))
    words = set(WORD.findall(uses)) | set(re.findall(r"\.([^\s(){}\[\].;,@\"«»`:]+)", text))
    return {a: b for a, b in names.items() if a in words}


def turned_rust(text, names):
    out, at = [], 0
    for m in STRINGS.finditer(text):
        out += [turned(text[at:m.start()], names), m[0]]
        at = m.end()
    return "".join(out) + turned(text[at:], names)


def main():
    top = os.getcwd()
    names = table(top)
    if "--list" in sys.argv:
        for a, b in sorted(names.items()):
            print(a, b)
        return
    for path in files(top, (".antt", ".rt", ".edit", ".md")):
        text = read(path)
        if path.endswith(".antt"):
            new = turned(text, imported(text, names) if of_function(path) else names)
        elif path.endswith(".md"):
            new = SPANS.sub(lambda m: turned(m[0], names), text)
        else:
            new = turned_rust(text, names)
        if new != text:
            with open(path, "w", encoding="utf-8") as f:
                f.write(new)


main()
