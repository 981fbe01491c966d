"""Where functions stand in a source file, by the layout of `rt fmt`."""
import itertools
import re
from collections import namedtuple

FUNCTION = re.compile(r"\s*(?:pub(?:\([^)]*\))? )?(?:const )?(?:unsafe )?fn (\w+)")
CLAUSE = re.compile(r"\s*(?:requires|ensures|ghost)\b")
TRAIT = re.compile(r"\s*(?:pub(?:\([^)]*\))? )?(?:unsafe )?trait ")

# A function of a source file that has a body of its own lines: its lines from 1, its attributes among them, and the first line of
# its body, behind the contract.
Function = namedtuple("Function", "name first body last")


def blanks_of(line):
    return line[: len(line) - len(line.lstrip())]


def attributes_above(lines, number):
    """How many lines of attributes stand right above a line (from 1)."""
    return len(list(itertools.takewhile(lambda it: it.lstrip().startswith("#["), reversed(lines[: number - 1]))))


def ends_head(line):
    """Whether a line is the last of a function's head: its body begins at the end of the line, or there is none of its own lines."""
    return line.endswith((";", "{}")) or (line.endswith("{") and not CLAUSE.match(line))


def head_end(lines, first):
    """The last line (from 1) of the head of a function that begins at a line, its contract included, or None."""
    depth = 0
    for at, line in enumerate(lines[first - 1 :], first):
        if depth == 0 and ends_head(line.rstrip()):
            return at
        depth += line.count("{") - line.count("}")
    return None


def functions_in(text):
    """The functions of a source file that have bodies of their own lines."""
    lines, found = text.split("\n"), []
    for first, line in enumerate(lines, 1):
        named = FUNCTION.match(line)
        head = head_end(lines, first) if named else None
        if head and lines[head - 1].rstrip().endswith("{"):
            closing = f"{blanks_of(line)}}}"
            last = next((at for at, it in enumerate(lines[head:], head + 1) if it.rstrip() == closing), None)
            if last:
                found.append(Function(named[1], first - attributes_above(lines, first), head, last))
    return found


def function_at(text, line):
    """The innermost function in which a line (from 1) of a source file is, or None."""
    return max((it for it in functions_in(text) if it.first <= line <= it.last), key=lambda it: it.first, default=None)


def is_default(lines, function):
    """Whether a function stands in a trait: what its default body calls counts in the crates that keep it."""
    around = (it for it in reversed(lines[: function.first - 1]) if it and len(blanks_of(it)) < len(blanks_of(lines[function.first - 1])))
    return bool(TRAIT.match(next(around, "")))


def without_bodies(text):
    """A source file without the lines inside its functions' bodies, but for default ones."""
    lines = text.split("\n")
    inside = {at for it in functions_in(text) if not is_default(lines, it) for at in range(it.body + 1, it.last)}
    return "\n".join(it for at, it in enumerate(lines, 1) if at not in inside)
