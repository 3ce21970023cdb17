#!/usr/bin/env python3
"""Brings the repository's own definitions and lemmas to the spelling of today's library: words in snake case, types and modules in camel
case, a dash only where it joins the names of two definitions. Run once, at the top of the repository, after the kit's port.py.

usage: tools/respell.py           rewrites crates/*/specs, proofs, src and must-fail
       tools/respell.py --names   prints the old and the new names, and writes nothing

A lemma that would have its definition's name gets `_lem`. Names from the Rattle sources (functions of src/, fields, C names) keep their spelling, and so do the permissions and the acts that the
papers write in capitals. A must-fail edit's text gets the spelling that the kit's scripts gave the file that it changes: tight projections,
apostrophes, the new names.
"""
import pathlib
import re
import sys

root = pathlib.Path(__file__).resolve().parent.parent
LETTER = r"[\w'′·₀-₉\-]"
# Names of definitions in the library that a dash may join to another name.
LIBRARY = set("length append set get_or take drop replicate map sum min max not cond eqb leb ltb get".split())
# Names that would have the name of the definition that they speak of, and one that names a word of the older library.
INSTEAD = {"by_may": "may_by", "bytes-of": "bytes_of_lem", "getD-padded": "get_or-padded"}
DECLARED = re.compile(
    r"^[ \t]*((?:(?:pub|unfoldable|abbrev|const|record|data|ruleset)[ ]+)*)([^\s:(){}=\[\]]+(?:[ ]+[^\s:(){}=\[\]]+)*)[ ]*(?:[({][^\n]*[)}][ ]*)*:(?=\s|$)", re.M
)
FIELDS = re.compile(r"[({ ;]([a-z][\w'′]*(?: [a-z][\w'′]*)*) : ")


def read(path):
    return path.read_text(encoding="utf-8")


def is_camel(name):
    return re.search(r"[a-z0-9][A-Z]", name) is not None and "-" not in name


def own_files(kind):
    """The lemma files and definitions of the repository, without what stands in a function's own folder under the name of a goal."""
    return sorted(p for p in (root / "crates").glob(f"*/{kind}/**/*.antt"))


def declared(kinds=("specs", "proofs")):
    names = set()
    for path in [file for kind in kinds for file in own_files(kind)]:
        if path.name == "Proof.antt":
            continue
        for match in DECLARED.finditer(re.sub(r"--.*", "", read(path))):
            names.update(match.group(2).split())
    return names - {"let", "in", "use", "where", "elim", "module", "_"}


def aliases():
    """Names under which a file takes in another's definition, as `carries as cellCarries`."""
    found = set()
    for path in sorted((root / "crates").glob("*/src/**/*.rt")) + own_files("specs") + own_files("proofs"):
        found.update(re.findall(r" as ([a-z]+[A-Z][A-Za-z]*)", read(path)))
    return found


def snake(word):
    """`levelsAmong` is `levels_among`; a capital alone at the end, as in `mapA`, is a letter of the papers."""
    word = word.replace("′", "'")
    if not word[:1].islower():
        return word
    word = re.sub(r"(?<=[a-z0-9])([A-Z])", lambda m: "_" + m.group(1), word)
    return re.sub(r"[A-Z]+", lambda m: m.group(0).lower(), word)


def respelled(name, known):
    if name in INSTEAD:
        return INSTEAD[name]
    parts = [snake(part) for part in name.split("-")]
    if len(parts) == 1:
        return parts[0]
    for at in range(1, len(parts)):
        left, right = "_".join(parts[:at]), "_".join(parts[at:])
        if left in known and right in known:
            return left + "-" + right
    return "_".join(parts)


def table():
    names = declared()
    known = {snake(n) for n in declared(["specs"])} | LIBRARY
    new = {n: respelled(n, known) for n in sorted(names)}
    definitions = {to for old, to in new.items() if is_camel(old)}
    for old, to in new.items():
        if to in definitions and not is_camel(old) and old not in INSTEAD:
            new[old] = to + "_lem"
    new |= {old: snake(old) for old in aliases()}
    return names, {old: to for old, to in new.items() if old != to}


def turned(text, names, dotted):
    """The names in a text. Behind a dot, what is not in camel case is a field or a goal that Rattle makes, and keeps its spelling."""

    def one(match):
        before, word = match.group(1), match.group(2)
        if word not in names or (before == "." and not is_camel(word) and word not in INSTEAD and not dotted):
            return match.group(0)
        return before + names[word]

    return re.sub(rf"(^|[^\w'′·\-])({LETTER}+)", one, text, flags=re.M)


def edit_text(text, names):
    text = re.sub(r"(?<=[ (])\((\w+(?: \.[\w-]+)+)\)(?! \.)", lambda m: m.group(1).replace(" .", "."), text)
    text = re.sub(r"(?<=[\w')\]]) \.(?=[a-z0-9])", ".", text)
    text = turned(text.replace("′", "'").replace("Rattle·", "Rattle."), names, True)
    return re.sub(r"(?<![\w'-])[a-z]+[a-z0-9]*[A-Z]\w*", lambda m: snake(m.group(0)), text)


def edited(path, names):
    lines = []
    for line in read(path).split("\n"):
        key, colon, rest = line.partition(": ")
        lines.append(key + colon + edit_text(rest, names) if key in ("old", "new") and colon else line)
    return "\n".join(lines)


def main():
    names, new = table()
    taken = {}
    for old in sorted(names):
        taken.setdefault(new.get(old, old), []).append(old)
    together = {to: olds for to, olds in taken.items() if len(olds) > 1}
    if "--names" in sys.argv[1:]:
        for old, to in new.items():
            print(old, to)
    for to, olds in sorted(together.items()):
        print(f"respell: {' and '.join(olds)} fall together as {to}", file=sys.stderr)
    if "--names" in sys.argv[1:]:
        return 1 if together else 0
    count = 0
    for path in own_files("specs") + own_files("proofs"):
        text = read(path)
        after = turned(text, new, False)
        if after != text:
            path.write_text(after, encoding="utf-8")
            count += 1
    spoken = {old: to for old, to in new.items() if is_camel(old)}
    for path in sorted((root / "crates").glob("*/src/**/*.rt")):
        text = read(path)
        after = turned(text, spoken, False)
        if after != text:
            path.write_text(after, encoding="utf-8")
            count += 1
    for path in sorted((root / "crates").glob("*/must-fail/*.edit")):
        text = read(path)
        after = edited(path, new)
        if after != text:
            path.write_text(after, encoding="utf-8")
            count += 1
    print(f"respell: {len(new)} names, {count} files")
    return 0


if __name__ == "__main__":
    sys.exit(main())
