#!/usr/bin/env python3
"""Brings the names that this repository declares in specs/ and proofs/ to the spelling of today's Rattle: snake case, with plain underscores.

    tools/respell.py

It runs once, at the top of the checkout, straight after port.py of the kit. A name is turned where a file of specs/ or proofs/ declares it
(definition, lemma, field, constructor, local) and it has a capital inside or a dash: blockBytes becomes block_bytes, cut-at-end cut_at_end.
A lemma whose plain name a definition has gets `_lem` behind it, as the kit's guide of style says. Types and modules, which begin with a capital,
stay, and so do names of a library in the files that import them, names that Rattle makes in the folder of a function's proof, and code.
Edits below must-fail/ are turned alike.
"""

import pathlib
import re

ROOT = pathlib.Path(__file__).resolve().parent.parent
CRATES = ROOT / "crates"
OWN = {p.name for p in CRATES.iterdir() if p.is_dir()}
# A name of antt: up to a blank, a bracket, a dot or the like.
NAME = re.compile(r"[^\s(){}\[\].;,@\"«»λ`]+")
OLD = re.compile(r"[a-z][\w'-]*")
DECLARED = re.compile(r"(?m)^ *(?:(?:pub|abbrev|unfoldable|opaque|data|record|instance|private) )*([^\s(){}.;,:@\"]+)(?: \{[^{}\n]*\})* :(?!:)")
LOCAL = re.compile(r"(?:let|where|;|\{|\() *([a-z][\w'-]*) (?::|=) ")
FIELD = re.compile(r"(?m)^ +(?:pub )?([a-z][\w'-]*) :(?!:)")
USE = re.compile(r"^ *(?:ghost )?(?:pub )?use ([^\s;{]+?)(?:\.\{([^}]*)\})?(?: as (\S+))?;?$", re.M)


def turned(name):
    return re.sub(r"(?<=[a-z0-9])([A-Z])", lambda m: "_" + m.group(1).lower(), name).replace("-", "_")


def is_old(name):
    return bool(OLD.fullmatch(name)) and turned(name) != name


def texts():
    for path in sorted(CRATES.glob("**/*")):
        parts = path.relative_to(CRATES).parts
        if "out" not in parts and path.is_file() and path.suffix in (".antt", ".rt", ".edit"):
            yield path


def is_made(path):
    """Whether a file stands in the folder of a function's proof."""
    parts = path.relative_to(CRATES).parts
    return parts[1] == "proofs" and len(parts) > 3


def imports(text):
    """The names that a file takes from a library, and from this repository."""
    theirs, ours = set(), set()
    for module, names, _ in USE.findall(text):
        steps = module.split(".")
        own = steps[0] == "Rattle" and len(steps) > 1 and steps[1] in OWN
        (ours if own else theirs).update(re.split(r"[\s,]+", names.strip()))
    return theirs - {""}, ours - {""}


def new_names():
    declared, fields = set(), set()
    for path in texts():
        if path.suffix == ".antt" and not is_made(path):
            text = path.read_text(encoding="utf-8")
            declared.update(filter(is_old, DECLARED.findall(text) + LOCAL.findall(text)))
            fields.update(filter(is_old, FIELD.findall(text)))
    pairs = {name: turned(name) for name in declared}
    plain = {turned(name) for name in declared if "-" not in name}
    return {old: new + "_lem" if "-" in old and new in plain else new for old, new in pairs.items()}, fields


def respell(path, text, pairs, fields):
    theirs, ours = imports(text)
    made = is_made(path)
    comment = "//" if path.suffix == ".rt" else "--"

    def is_turned(name, dotted):
        if name not in pairs or name in theirs:
            return False
        return not made or name in ours or dotted and name in fields

    def turn(part):
        return NAME.sub(lambda m: pairs[m.group()] if is_turned(m.group(), m.start() > 0 and part[m.start() - 1] == ".") else m.group(), part)

    def say(part):
        return re.sub(r"[a-z]\w*[A-Z]\w*", lambda m: pairs.get(m.group(), m.group()), part)

    lines = []
    for line in text.split("\n"):
        if path.suffix == ".edit":
            lines.append(turn(line) if re.match(r"(old|new):", line) else say(line))
            continue
        code, mark, rest = line.partition(comment)
        lines.append(turn(code) + mark + say(rest))
    return "\n".join(lines)


def main():
    pairs, fields = new_names()
    files = 0
    for path in texts():
        text = path.read_text(encoding="utf-8")
        new = respell(path, text, pairs, fields)
        if new != text:
            path.write_text(new, encoding="utf-8")
            files += 1
    print("%d names, %d files" % (len(pairs), files))


if __name__ == "__main__":
    main()
