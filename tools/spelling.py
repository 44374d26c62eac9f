#!/usr/bin/env python3
"""Spells the definitions, lemmas and fields of this repository's own antt as today's Rattle does: in snake case, a prime as an apostrophe.

    python3 tools/spelling.py [--look] [ROOT]

Run once, behind the toolchain's port.py, on what that left. Types, predicates, modules and whatever Rust names keep their spelling. Where a lemma would
have the name of a definition it gets `_lem`. With --look nothing is written, and what a new name meets in each file is printed. The table of names that
it used is written to docs/spelling.tsv.
"""
import collections
import pathlib
import re
import sys

DECLARED = re.compile(r'^\s*(?:(?:abbrev|unfoldable|pub|ruleset|record|data) )*([^\s(){}.;,@"«»:]+)(?: \{[^{}]*\})* :(?: |$)')
TOKEN = re.compile(r'[^\s(){}.;,@"«»]+')


def files(root, *parts):
    for part in parts:
        yield from sorted(root.glob(f"crates/*/{part}"))


def declared(root):
    names = collections.defaultdict(set)
    for path in files(root, "specs/*.antt", "proofs/*.antt"):
        for line in path.read_text().split("\n"):
            found = DECLARED.match(line)
            if found and not line.strip().startswith("--"):
                names[found.group(1)].add(path.relative_to(root).as_posix())
    return names


def turned(name):
    words = re.sub(r"(?<=[a-z0-9])[A-Z](?![A-Z0-9])|(?<=[a-z0-9])[A-Z]$", lambda m: "_" + m[0].lower(), name)
    words = re.sub(r"(?<=-)[A-Z](?=-|$)", lambda m: m[0].lower(), words)
    return words.replace("-", "_").replace("′", "'")


def table(names):
    new = {name: turned(name) for name in names if not name[0].isupper() and turned(name) != name}
    camel = {new[name] for name in new if re.search("[A-Z]", name) and "-" not in name}
    for name in new:
        if "-" in name and (new[name] in camel or (new[name] in names)):
            new[name] += "_lem"
    for name in names:
        if name in camel:
            new[name] = name + "_lem"
    return new


def line_of(text, place):
    return text[text.rfind("\n", 0, place) + 1 : place]


def respelled(text, new, rust, functions):
    """The text with new names. A step of a path stays, and so does what only looks like a name: an English word in a comment, a Rust name or a difference."""

    def word(found):
        name, before = found.group(0), line_of(text, found.start())
        if name not in new:
            return name
        is_use = re.match(r"\s*(?:ghost )?(?:pub )?use ", before)
        behind_dot, in_front_of_dot = text[found.start() - 1] == ".", text[found.end() : found.end() + 1] == "."
        if is_use and in_front_of_dot:
            return name
        if not re.search("[A-Z]", name) and (re.search(r"--|//", before) or rust and not re.match(r"\s*(?:ghost use|requires|ensures|ghost) ", before)):
            return name
        if behind_dot and not is_use and new[name].endswith("_lem") and turned(name) in functions:
            return turned(name)
        return new[name]

    return TOKEN.sub(word, text)


def main():
    arguments = [word for word in sys.argv[1:] if word != "--look"]
    root = pathlib.Path(arguments[0] if arguments else ".")
    names = declared(root)
    new = table(names)
    functions = {name for path in files(root, "src/**/*.rt") for name in re.findall(r"\bfn (\w+)", path.read_text())}
    for path in files(root, "specs/*.antt", "proofs/**/*.antt", "src/**/*.rt"):
        text = path.read_text()
        words = set(TOKEN.findall(text))
        if "--look" in sys.argv:
            for name in sorted(words & set(new)):
                if new[name] in words and new[name] not in new:
                    print(f"{path.relative_to(root)}: {name} -> {new[name]}")
        else:
            path.write_text(respelled(text, new, path.suffix == ".rt", functions))
    if "--look" not in sys.argv:
        (root / "docs/spelling.tsv").write_text("".join(f"{name}\t{new[name]}\n" for name in sorted(new)))


if __name__ == "__main__":
    main()
