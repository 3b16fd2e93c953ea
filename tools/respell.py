#!/usr/bin/env python3
"""Brings the repository's own names in antt to snake case: a dash in a word becomes an underscore.

Run it once at the top of a checkout, right after the toolchain's port.py. It looks up which definitions,
lemmas, fields, constructors, local names and aliases the .antt and .rt files under crates/ declare, and
respells those that have a dash, wherever they stand in clauses, ghost items, definitions, proofs and
must-fail edits. A fact that is spelled as a type loses the dash and gets a capital. Comments, strings,
code, and the names that Rattle makes for goals and steps stay as they are. It stops, and changes
nothing, where two names would fall together.
"""

import collections
import pathlib
import re
import sys

CRATES = pathlib.Path("crates")

# Names that Rattle makes: goals, invariants, measures and steps.
MADE = re.compile(r"^(invariant|decreases|loop|returns|then|else|if|match|overflow|ensures|requires)-|-(requires|init|preserved|branch|law)$")

DECLARED = re.compile(r"^ {0,4}(?:(?:abbrev|unfoldable|pub|data|record|let) )*([^\s:(){}=;,.λ]+)(?: .*?)? : ?(.*)$")
LOCAL = re.compile(r"\blet ([^\s:=(){}.,;]+) [:=]")
ALIAS = re.compile(r" as ([^\s:=(){}.,;]+)")
TOKEN = re.compile(r"[^\s(){}\[\];,.|\"⌜⌝→∷λ]+")


def files(*endings):
    return sorted(p for p in CRATES.rglob("*") if p.suffix in endings and "out" not in p.parts and p.is_file())


def parts(path, text):
    """The text in pieces, each with whether it may be respelled: comments and strings may not."""
    mark = "--" if path.suffix == ".antt" else "//"
    pieces = re.compile(r'(?:(?<=\s)|^)' + mark + r'[^\n]*|b?"(?:[^"\\\n]|\\.)*"', re.M)
    at = 0
    for m in pieces.finditer(text):
        yield text[at:m.start()], True
        yield m.group(), False
        at = m.end()
    yield text[at:], True


def respelled(name):
    if name[0].isupper():
        return "".join(part[0].upper() + part[1:] for part in name.split("-"))
    return name.replace("-", "_")


def declared():
    """The own names with a dash, and the files that declare each."""
    own = collections.defaultdict(set)
    for path in files(".antt", ".rt"):
        text = "".join(t for t, code in parts(path, path.read_text(encoding="utf-8")) if code)
        for line in text.splitlines():
            found = set()
            ghost = path.suffix == ".antt" or line.startswith("ghost use")
            if path.suffix == ".antt":
                m = DECLARED.match(line)
                if m and not m.group(2).startswith("goal."):
                    found.add(m.group(1))
                found.update(LOCAL.findall(line))
            if ghost:
                found.update(ALIAS.findall(line))
            for name in found:
                if re.search(r"\w-\w", name) and not MADE.search(name):
                    own[name].add(path)
    return own


def main():
    own = declared()
    turned = {name: respelled(name) for name in own}
    seen = collections.defaultdict(set)
    for path in files(".antt"):
        for text, code in parts(path, path.read_text(encoding="utf-8")):
            if code:
                for token in TOKEN.findall(text):
                    seen[token].add(path)
    wrong = [f"{name}, {other}" for name, other in turned.items() for path in own[name] & seen[other] if not spelled_once(path, name, other)]
    backward = collections.defaultdict(set)
    for name, other in turned.items():
        backward[other].add(name)
    wrong += [", ".join(sorted(names)) for names in backward.values() if len(names) > 1]
    if wrong:
        sys.exit("names that would fall together: " + "; ".join(wrong))
    changed = 0
    for path in files(".antt", ".rt", ".edit"):
        text = path.read_text(encoding="utf-8")
        new = "".join(TOKEN.sub(lambda m: turned.get(m.group(), m.group()), t) if code else t for t, code in parts(path, text))
        if new != text:
            path.write_text(new, encoding="utf-8")
            changed += 1
    print(f"{len(turned)} names respelled, in {changed} files")


def spelled_once(path, name, other):
    """Whether a file that declares `name` uses `other` only as the module or step of a function of that name."""
    text = "".join(t for t, code in parts(path, path.read_text(encoding="utf-8")) if code)
    return all(m.group().startswith(".") for m in re.finditer(r"[.]?(?<![\w-])" + re.escape(other) + r"(?![\w-])", text))


main()
