"""Reads wrong bodies as `rt ci` does, and says what is wrong with one. `tools/edits` and `.ci/counts` import it.

A wrong body is a file NAME.edit: a line `file: `, and then pairs of lines `old: ` and `new: `, each of which applies to what the pairs
before it made. `rt ci` passes over other lines, and calls a body that can't be applied a BAD EDIT without failing. So here each of these
is a fault: no `file:`, no `old:`, an old text that doesn't stand once in its file, and one that changes nothing but comments.
"""
import os
import re

FOLDER = "must-fail"
# A comment of Rattle, or what only looks like one, since it stands in a text.
OF_RATTLE = re.compile(r"""//[^\n]*|/\*.*?\*/|r(#*)".*?"\1|"(?:\\.|[^"\\])*"|'(?:\\.|[^'\\\n])'""", re.S)
# The same of the language of definitions and proofs.
OF_PROOFS = re.compile(r'--[^\n]*|\{-.*?-\}|"(?:\\.|[^"\\])*"', re.S)


def without_comments(file, text):
    """The text of a source with a space in the place of each comment."""
    pattern, begins = (OF_PROOFS, ("--", "{-")) if file.endswith(".antt") else (OF_RATTLE, ("//", "/*"))
    return pattern.sub(lambda found: " " if found[0].startswith(begins) else found[0], text)


def paths_of(folder):
    """The paths of a crate's wrong bodies; a page there is only to be read."""
    names = sorted(os.listdir(f"{folder}/{FOLDER}")) if os.path.isdir(f"{folder}/{FOLDER}") else []
    yield from (f"{folder}/{FOLDER}/{name}" for name in names if not name.endswith(".md"))


def text_of(path):
    with open(path, encoding="utf-8") as file:
        return file.read()


def pairs_of(path):
    """The file, the old and the new text of each pair of a wrong body; a None for what its lines don't say."""
    file, old, pairs = None, None, []
    for line in text_of(path).split("\n"):
        if line.startswith("file: "):
            file = line[6:].strip()
        elif line.startswith("old: "):
            pairs += [(file, old, None)] if old is not None else []
            old = line[5:]
        elif line.startswith("new:"):
            pairs.append((file, old, line[4:].removeprefix(" ")))
            old = None
    return pairs + ([(file, old, None)] if old is not None else [])


def faults_of(path, folder):
    """What is wrong with a wrong body of the crate in a folder; nothing if it can be tried."""
    name, texts = os.path.relpath(path, os.path.dirname(os.path.dirname(folder))), {}
    if not os.path.isfile(path) or not re.fullmatch(r"[\w-][\w.-]*\.edit", os.path.basename(path), flags=re.A):
        yield f"{name}: is no file with a name of letters, digits, `_`, `-` and `.` that ends in .edit"
        return
    pairs = pairs_of(path)
    if not pairs:
        yield f"{name}: has no line `old: `"
    for file, old, new in pairs:
        if file is None or old is None or new is None:
            lacks = [line for line, has in (("file: ", file), ("old: ", old), ("new: ", new)) if has is None]
            yield f"{name}: has no line `{lacks[0]}` to a pair"
            return
        if not os.path.isfile(f"{folder}/{file}"):
            yield f"{name}: {file} isn't there"
            return
        text = texts.get(file) or text_of(f"{folder}/{file}")
        if text.count(old) != 1:
            yield f"{name}: {file} has its old text {text.count(old)} times"
            return
        texts[file] = text.replace(old, new)
        if without_comments(file, texts[file]) == without_comments(file, text):
            yield f"{name}: its old text stands in a comment of {file}, or nothing is changed: {old}"
