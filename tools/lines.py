#!/usr/bin/env python3
"""The text of the Rattle and antt sources: no line above 160 characters, and no name that a `use` line brings in and nothing uses.

Run it in the repository, or give it the folder. It prints each fault with its file and line, and its exit status is 1 where there is one.
"""
import pathlib
import re
import sys

sys.dont_write_bytecode = True
from rattle_text import AnttSource, RattleSource, line_of, paths_in, use_of

MOST = 160

# Lines that the formatter joins again however they are broken: the file's end and the line's beginning.
JOINED = []

# Traits whose methods alone show that they are used, with these.
METHODS = {
    "Read": "read read_exact read_to_end read_to_string bytes take chain",
    "BufRead": "fill_buf consume read_line read_until skip_until lines split",
    "Write": "write write_all write_fmt flush",
    "Seek": "seek rewind stream_position",
}

# A name of antt that stands alone or at the front of a path, and not behind a dot, where it is a field or a name of another module.
ANTT_WORD = re.compile(r"(?<![^\s(){};,@\"«»])[^\s(){}.;,@\"«»]+")


def sources(root):
    """The sources of every crate; what the toolchain leaves in its folder out/ is none."""
    for kind in ("*.rt", "*.antt"):
        yield from sorted(path for path in (root / "crates").rglob(kind) if path.relative_to(root).parts[2] != "out")


def long_lines(path, text):
    for number, line in enumerate(text.split("\n"), 1):
        if len(line) > MOST and not any(path.endswith(file) and line.strip().startswith(front) for file, front in JOINED):
            yield number, f"{len(line)} characters, above {MOST}"


def brought(text):
    """The names that a `use` brings in, as the file writes them."""
    if "::" in text or re.match(r"\{", text):
        paths = [re.sub(r"::self$", "", path) for path in paths_in(text)]
        return [name for path in paths if (name := re.split(r"::| as ", path)[-1].strip()) != "*"]
    return [alias for _, alias in use_of(text, 0).items] or [re.split(r"\.| as ", text)[-1].strip()]


def antt_words(text):
    """The names in an antt text; of an operator's name also its signs, as it is written between its arguments."""
    words = set(ANTT_WORD.findall(text))
    return words | {sign for word in words if "◌" in word for sign in word.split("◌")}


def is_used(name, words):
    """Whether the words have the name; of an operator such as `◌+◌`, each of its signs."""
    return name in words or "◌" in name and all(sign in words for sign in name.split("◌") if sign)


def is_called(name, words):
    """Whether the words have a method of this trait, where it is one of METHODS."""
    return bool(words & {*METHODS.get(name, "").split()})


def without(text, found):
    return text[: found.start()] + re.sub(r"[^\n]", " ", found.group()) + text[found.end() :]


def unused_in_antt(text):
    body = AnttSource(text).text
    uses = list(re.finditer(r"^[ \t]*(pub |unfoldable pub )?use ([^\s{]+(?:\{[^}]*\})?[^\n]*)", body, re.M))
    for found in uses:
        body = without(body, found)
    words = antt_words(body)
    for found in uses:
        for name in brought(found.group(2)) if not found.group(1) else []:
            if not is_used(name, words):
                yield line_of(body, found.start(2)), f"`{name}` is brought in and not used"


def unused_in_rattle(text):
    """What a `ghost use` brings is for clauses and other ghost text, what another `use` brings for all."""
    source = RattleSource(text)
    body = source.text
    uses = list(re.finditer(r"^[ \t]*(pub(?:\([^)]*\))? |ghost )?use\b([^;]*);", body, re.M))
    for found in uses:
        body = without(body, found)
    for_clauses, for_all = antt_words(" ".join(source.ghost_texts())), {*re.findall(r"\w+", body)}
    for found in uses:
        words = for_clauses if found.group(1) == "ghost " else for_all
        for name in brought(found.group(2).strip()) if not (found.group(1) or "").startswith("pub") else []:
            if not is_used(name, words) and not (words is for_all and is_called(name, words)):
                yield line_of(body, found.start(2)), f"`{name}` is brought in and not used"


def unused(path, text):
    return unused_in_rattle(text) if path.endswith(".rt") else unused_in_antt(text)


def all_faults(root):
    for file in sources(root):
        path, text = file.as_posix(), file.read_text()
        for number, fault in [*long_lines(path, text), *unused(path, text)]:
            yield f"{file.relative_to(root)}:{number}: {fault}"


def main():
    root = pathlib.Path(sys.argv[1]) if len(sys.argv) > 1 else pathlib.Path(__file__).resolve().parent.parent
    faults = list(all_faults(root))
    print("\n".join([*faults, f"{len(faults)} faults in the text of the sources"]))
    sys.exit(1 if faults else 0)


if __name__ == "__main__":
    main()
