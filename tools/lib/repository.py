"""What the scripts share: the crates of this repository, scratch trees of them, and sums of their texts."""
import functools
import glob
import hashlib
import os
import re
import shutil
import subprocess
import sys
from collections import namedtuple

sys.dont_write_bytecode = True
import functions

TOP = os.path.dirname(os.path.dirname(os.path.dirname(os.path.abspath(__file__))))
# What a proof reads of a crate, and what a program is run on.
TEXTS = ("src", "specs", "proofs")
PARTS = (*TEXTS, "args", "stdin", "stdout", "status")
# The proof of a function: the toolchain asks for files of these names, and no other crate imports one.
ANSWERS = re.compile(r"proofs/.+/(?:Answers|Invariants)\.antt")
OF_FUNCTION = re.compile(r"\bRattle\.(\w+)\.proofs\.[^A-Z]")
# Where programs stand that no landing proves: their text ends in `.rs`, and `crate.txt` has their line.
UNPROVED = ("bench", "tools", "examples")

# `line` is the crate's line of crates.txt, and `needs` the crates of this repository that it names.
Crate = namedtuple("Crate", "name line needs folder")


def text_of(*path):
    """The text of a file, or nothing where there is no such file."""
    try:
        with open(os.path.join(*path), encoding="utf-8", newline="") as file:
            return file.read()
    except (FileNotFoundError, NotADirectoryError):
        return ""


def write(text, *path):
    with open(os.path.join(*path), "w", encoding="utf-8", newline="") as file:
        file.write(text)


def lines_of(text):
    """The crates that a text names, each with its line and the libraries of that line."""
    found = [it.strip() for it in text.splitlines() if ":" in it.partition("#")[0]]
    return {it.partition(":")[0].split()[0]: (it, it.partition("#")[0].partition(":")[2].split()) for it in found}


@functools.lru_cache(maxsize=None)
def crates():
    """All crates by name: those that every landing proves, and the programs that none proves."""
    lines = {name: (*it, os.path.join(TOP, "crates", name)) for name, it in lines_of(text_of(TOP, "crates.txt")).items()}
    for at in sorted(glob.glob(os.path.join(TOP, "*", "*", "crate.txt"))):
        if os.path.relpath(at, TOP).split(os.sep)[0] in UNPROVED:
            folder = os.path.dirname(at)
            lines.update({it: (*said, folder) for it, said in lines_of(text_of(at)).items()})
    return {name: Crate(name, line, [it for it in named if it in lines], folder) for name, (line, named, folder) in lines.items()}


def is_proved(name):
    """Whether a landing proves the crate."""
    return crates()[name].folder.startswith(os.path.join(TOP, "crates", ""))


def below(name):
    """The crates below one, each after those that it stands on."""
    found = []
    for it in crates()[name].needs:
        found += [crate for crate in [*below(it), it] if crate not in found]
    return found


def lay_out(tree, names):
    """Makes a repository of these crates in a folder; `.rs` becomes `.rt`."""
    os.makedirs(tree, exist_ok=True)
    shutil.copy(os.path.join(TOP, "HANDLES"), tree)
    write("".join(f"{crates()[it].line}\n" for it in names), tree, "crates.txt")
    for name in names:
        for part in PARTS:
            source, target = os.path.join(crates()[name].folder, part), os.path.join(tree, "crates", name, part)
            if os.path.isdir(source):
                shutil.copytree(source, target)
            elif os.path.isfile(source):
                shutil.copy(source, target)
        for at, _, files in os.walk(os.path.join(tree, "crates", name, "src")):
            for file in files:
                if file.endswith(".rs"):
                    os.rename(os.path.join(at, file), os.path.join(at, f"{file[:-3]}.rt"))
    return tree


@functools.lru_cache(maxsize=None)
def logic():
    """The name of the toolchain's logic: two toolchains that have it prove the same."""
    said = subprocess.run(["rt", "version"], stdin=subprocess.DEVNULL, stdout=subprocess.PIPE, text=True, check=True).stdout
    return said.partition("logic ")[2].split()[0] if "logic " in said else said.strip()


# A text or a character is kept, and a comment goes. In clauses and proofs a comment begins with `--` where a word may begin.
CODE = re.compile(r"""("(?:[^"\\]|\\.)*"|'(?:\\.[^'\n]*|[^'\\\n])')|//[^\n]*|/\*.*?\*/""", re.DOTALL)
LOGIC = re.compile(r"""("(?:[^"\\]|\\.)*")|(?<!\S)--[^\n]*|\{-.*?-\}""", re.DOTALL)


def without_comments(path, text):
    """A text without comments, docs, empty lines and blanks at the end of a line."""
    form = LOGIC if path.endswith(".antt") else CODE
    kept = (it.rstrip() for it in form.sub(lambda found: found[1] or "", text).split("\n"))
    return "\n".join(it for it in kept if it)


def texts_of(name):
    """What a proof reads of a crate itself: the path of each file in the crate, and its text."""
    for part in TEXTS:
        for at, folders, files in os.walk(os.path.join(crates()[name].folder, part)):
            folders.sort()
            for file in sorted(files):
                path = os.path.join(at, file)
                yield os.path.relpath(path, crates()[name].folder), text_of(path)


def statements_of(name):
    """What a proof of another crate may read of a crate: all of it but the bodies of functions and the answers to their goals."""
    for path, text in texts_of(name):
        if path.startswith("src/"):
            yield path, functions.without_bodies(text)
        elif not ANSWERS.fullmatch(path):
            yield path, text


def imports_of_answers():
    """The files that import the proof of a function of another crate of this repository."""
    return [
        os.path.join(name, path)
        for name in crates()
        for path, text in texts_of(name)
        if any(it in crates() and it != name for it in OF_FUNCTION.findall(text))
    ]


def sum_of_texts(name, texts):
    """A sum of a crate's line in crates.txt, and of texts without comments and docs."""
    made = hashlib.sha256(" ".join(crates()[name].line.split()).encode())
    for path, text in texts:
        made.update(f"{path}\0{without_comments(path, text)}\0".encode())
    return made.hexdigest()


@functools.lru_cache(maxsize=None)
def sum_of_crate(name):
    """A sum of a crate itself."""
    return sum_of_texts(name, texts_of(name))


@functools.lru_cache(maxsize=None)
def sum_of_statements(name):
    """A sum of what a proof of another crate may read of a crate."""
    return sum_of_texts(name, statements_of(name))


def sum_over(name, sum_below):
    """A sum of the toolchain's logic, HANDLES, what `sum_below` says of each crate below it, and the text of the crate."""
    made = hashlib.sha256(f"{logic()}\n{text_of(TOP, 'HANDLES')}".encode())
    for it in sorted(below(name)):
        made.update(f"{it} {sum_below(it)}\n".encode())
    made.update(f"{name} {sum_of_crate(name)}\n".encode())
    return made.hexdigest()


@functools.lru_cache(maxsize=None)
def sum_of(name):
    """A sum of a crate and of those below it, whole: of what a program is made of, and what all their proofs rest on."""
    return sum_over(name, sum_of_crate)


@functools.lru_cache(maxsize=None)
def sum_of_proof(name):
    """A sum of what the proof of a crate alone rests on: its text, and what the crates below it state."""
    return sum_over(name, sum_of_statements)


if __name__ == "__main__":
    print(sum_of(sys.argv[1]))
