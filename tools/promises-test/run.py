#!/usr/bin/env python3
"""The test of tools/promises.py and tools/lines.py: they find no fault with the right project (right.py), or the right text, and refuse each wrong
source (wrong.py), for its own reason."""
import pathlib
import sys
import tempfile

sys.dont_write_bytecode = True
sys.path.insert(0, str(pathlib.Path(__file__).resolve().parent.parent))

import lines
import promises
import right
import wrong


def write(root, path, text):
    (root / path).parent.mkdir(parents=True, exist_ok=True)
    (root / path).write_text(text)


def faults_in(root, **lists):
    """What the script finds, by the right project's lists or by others that are named."""
    return list(promises.all_faults(root, promises.Lists(**{**right.LISTS, **lists})))


def changed(source):
    """The text of the file that a wrong source changes."""
    if source.old is None:
        return source.new
    text = right.FILES[source.file]
    if text.count(source.old) != 1:
        sys.exit(f"promises-test: {source.slip}: the old text occurs {text.count(source.old)} times")
    return text.replace(source.old, source.new)


def take_away(root, path):
    """Without the file, and without the folders that it was alone in."""
    (root / path).unlink()
    for folder in (root / path).parents:
        if any(folder.iterdir()):
            return
        folder.rmdir()


def faults_with(root, source):
    """What the script finds in the right project with one change, which is then taken back."""
    write(root, source.file, changed(source))
    faults = faults_in(root)
    if source.old is None:
        take_away(root, source.file)
    else:
        write(root, source.file, right.FILES[source.file])
    return faults


def problems_in(root):
    for path, text in right.FILES.items():
        write(root, path, text)
    yield from (f"the right project: {fault}" for fault in faults_in(root))
    for source in wrong.SOURCES:
        faults = faults_with(root, source)
        if not any(fault.startswith(source.place or source.file) and source.fault in fault for fault in faults):
            yield f"{source.slip}: not refused as `{source.fault}`, but: {faults}"
    for slip, lists, fault in wrong.LISTS:
        faults = faults_in(root, **lists)
        if not any(fault in found for found in faults):
            yield f"{slip}: not refused as `{fault}`, but: {faults}"
    yield from (f"the right project once more: {fault}" for fault in faults_in(root))
    for slip, path, text, fault in wrong.TEXTS:
        found = [each for _, each in [*lines.long_lines(path, text), *lines.unused(path, text)]]
        if found != ([fault] if fault else []):
            yield f"{slip}: found {found}"


def main():
    with tempfile.TemporaryDirectory() as folder:
        problems = list(problems_in(pathlib.Path(folder).resolve()))
    for problem in problems:
        print(problem)
    if problems:
        sys.exit(1)
    print(f"{len(wrong.SOURCES) + len(wrong.LISTS) + len(wrong.TEXTS)} sources judged")


if __name__ == "__main__":
    main()
