"""The wrong bodies of edits/, each of which the prover has to refuse, and the record of what came of each."""
import datetime
import glob
import hashlib
import os
import re
import shutil
from collections import namedtuple

import functions
import repository

EDITS = os.path.join(repository.TOP, "edits")
RECORD = os.path.join(EDITS, "RECORD")
HEAD = """\
# The wrong bodies of edits/: when each was last refused, a sum of the text that it was tried on, or of one in which only names, breaks
# of lines and the division of imports are others (the edit, its crate, and what the crates below it state, without comments and docs,
# and the toolchain's logic), and how: at a goal of the function that it changes (goal) or of another (caller), since a proof by hand no
# longer fits (proof), for a lost name (name), or by a limit of the prover (limit).
"""
# What says little of a contract: such an edit is due until it is refused in another way.
WEAK = ("name", "limit")

# `gate` says what an edit of the gate turns, and `pairs` has the file, the old and the new text of each change.
Edit = namedtuple("Edit", "crate name gate pairs")
Record = namedtuple("Record", "date sum how")


def read_edit(path):
    gate, file, old, pairs = None, None, None, []
    for line in repository.text_of(path).split("\n"):
        word, _, rest = line.partition(": ")
        if word == "gate":
            gate = rest
        elif word == "file":
            file = rest.strip()
        elif word == "old":
            old = rest
        elif line.startswith("new:"):
            pairs.append((file, old, line[len("new:") :].removeprefix(" ")))
            old = None
    return Edit(os.path.basename(os.path.dirname(path)), os.path.basename(path).removesuffix(".edit"), gate, pairs)


def all_edits():
    """All edits, each by `CRATE/NAME`."""
    found = [read_edit(it) for it in sorted(glob.glob(os.path.join(EDITS, "*", "*.edit")))]
    return {label(it): it for it in found}


def label(edit):
    return f"{edit.crate}/{edit.name}"


def edited(edit):
    """The texts of the files that an edit changes, by their path in the crate, or why it can't be applied."""
    texts = {}
    for file, old, new in edit.pairs:
        if not file or not old:
            return None, "a new: text has no file: or old: before it"
        text = texts.get(file, repository.text_of(repository.crates()[edit.crate].folder, file))
        if text.count(old) != 1:
            return None, f"an old: text is in {file} {text.count(old)} times, and not once"
        texts[file] = text.replace(old, new)
    return (texts, None) if texts else (None, "it changes nothing")


def sum_of(edit):
    """A sum of what the prover's answer to an edit rests on."""
    return hashlib.sha256(repr((edit.pairs, repository.sum_of_proof(edit.crate))).encode()).hexdigest()[:16]


def read_records():
    lines = [it.split() for it in repository.text_of(RECORD).splitlines() if it and not it.startswith("#")]
    return {name: Record(*rest) for name, *rest in lines}


def write_records(records):
    known = all_edits()
    kept = [f"{name} {' '.join(records[name])}\n" for name in sorted(records) if name in known]
    repository.write(HEAD + "".join(kept), RECORD)


def is_valid(edit, records):
    """Whether an edit was refused on this text, in a way that says something of a contract."""
    found = records.get(label(edit))
    return found is not None and found.sum == sum_of(edit) and found.how not in WEAK


def due(edits, records):
    """The gate's edits that no record speaks for."""
    return [it for it in edits.values() if it.gate and not is_valid(it, records)]


def picked(edits, commit, due, count=3):
    """Some edits of one crate, which the commit's id chooses, so that a record of what nobody tried is found out: of one that is proved
    once more for edits that are due, where there is one."""
    by_hash = lambda name: hashlib.sha256(f"{commit} {name}".encode()).hexdigest()
    crate = min({it.crate for it in due or edits.values()}, key=by_hash)
    return [edits[it] for it in sorted((it for it in edits if edits[it].crate == crate), key=by_hash)[:count]]


def lay_out(tree, edits):
    """Puts edits under must-fail/ of the crates of a scratch tree, where the toolchain looks for them."""
    for edit in edits:
        folder = os.path.join(tree, "crates", edit.crate, "must-fail")
        os.makedirs(folder, exist_ok=True)
        shutil.copy(os.path.join(EDITS, edit.crate, f"{edit.name}.edit"), folder)


def bodies_of(edit):
    """The files and functions whose bodies an edit changes, and None where it changes something else."""
    found = set()
    for file, old, _ in edit.pairs:
        text = repository.text_of(repository.crates()[edit.crate].folder, file)
        at = text[: text.index(old)].count("\n") + 1 if text.count(old) == 1 else 0
        inside = functions.function_at(text, at) if file.startswith("src/") else None
        found.add((file, inside) if inside and inside.body < at < inside.last else None)
    return found


def body_of(edit):
    """The file and the only function whose body an edit changes, or None."""
    found = bodies_of(edit)
    return found.pop() if len(found) == 1 else None


def modules_of(edits):
    """The modules of the functions whose bodies these edits change, as the toolchain names them; none if one is the crate's root."""
    names = sorted({body_of(it)[0].removeprefix("src/").removesuffix(".rt") for it in edits})
    return [] if {"lib", "main"} & set(names) else [it.replace("/", "::") for it in names]


CYCLE = re.compile(r"#\[cycle\((\w+)\)\]")


def proof_of(edit):
    """The folder of the proof of the only function whose body an edit changes: it has the function's name, or that of its cycle
    of calls."""
    file, function = body_of(edit)
    lines = repository.text_of(repository.crates()[edit.crate].folder, file).split("\n")
    cycle = CYCLE.search("\n".join(lines[function.first - 1 : function.body]))
    module = f"proofs/{file[len('src/') :].removesuffix('.rt')}/".replace("proofs/lib/", "proofs/")
    return module, f"+{cycle[1]}" if cycle else function.name


def in_rounds(edits, most=12):
    """Edits that change one body, in lists of at most 12, of which each changes every proof once at most: the goals of many more take
    more memory than there may be."""
    rounds = []
    for edit in edits:
        if body_of(edit):
            proof = proof_of(edit)
            free = next((it for it in rounds if proof not in it and len(it) < most), None)
            if free is None:
                rounds.append(free := {})
            free[proof] = edit
    return [list(it.values()) for it in rounds]


# What the toolchain says at a place in a file: the goal that isn't proved, or the error of a proof by hand.
SAID_AT = re.compile(r"^(?:note: )?(?:\./)?((?:src|proofs)/[^\s:]+):(\d+):\d+: (.*)$", re.MULTILINE)
LOST_NAME = re.compile(r"has no field|is not in scope|has no `|was not admitted")


def how_together(edit, output):
    """How an edit was refused that was tried with edits of other functions, or None where the output doesn't tell. A proof rests on the
    contracts of other functions and not on their bodies, so what is said of a function is due to its own edit."""
    file, function = body_of(edit)
    module, name = proof_of(edit)
    folder = re.compile(rf"{re.escape(module)}(?:\S*/)?{re.escape(name)}/")
    said = [it for it in SAID_AT.findall(output) if it[0] == file and function.first <= int(it[1]) <= function.last]
    if any(it[2].startswith("error") for it in said):
        return None
    if said:
        return "goal"
    in_proof = [it[2] for it in SAID_AT.findall(output) if folder.match(it[0])]
    return "proof" if any(not LOST_NAME.search(it) for it in in_proof) else None


def how_of(edit, said):
    """How the toolchain says that an edit was refused, or None where it was not."""
    if not said.startswith(": refused, as it must be"):
        return None
    if said.startswith(": refused, as it must be (only"):
        return "name" if "names what the edit took away" in said else "limit"
    at = re.match(r": refused, as it must be: (?:note: )?(?:\./)?(src/[^:]+):(\d+):", said)
    if not at:
        return "proof"
    bodies = bodies_of(edit)
    is_own = None in bodies or any(at[1] == file and it.first <= int(at[2]) <= it.last for file, it in bodies)
    return "goal" if is_own else "caller"


def noted(edit, how, records):
    """The records with that of an edit which was refused so."""
    before = records.get(label(edit))
    is_known = before is not None and before[1:] == (sum_of(edit), how)
    return records if is_known else {**records, label(edit): Record(datetime.date.today().isoformat(), sum_of(edit), how)}


def outcomes(edits, output):
    """What the toolchain's output says of each edit that it tried: the words after its name, by the edit's label."""
    said = dict(re.findall(r"^(?:rt: )?must-fail ([\w-]+/[\w.-]+)\.edit(:.*)$", output, re.MULTILINE))
    return {label(it): said.get(label(it), ": NOT TRIED: the toolchain says nothing of it") for it in edits}


def judged(edits, output, records):
    """The records with what came of these edits, and a line for each that was not refused as it has to be."""
    found, wrong = dict(records), []
    for edit in edits:
        said = outcomes([edit], output)[label(edit)]
        how = how_of(edit, said)
        if how is None:
            found.pop(label(edit), None)
        else:
            found = noted(edit, how, found)
        if how is None or how in WEAK:
            wrong.append(f"{label(edit)}{said}")
    return found, wrong


def faults(edits, records):
    """What is wrong with edits and their records before any is tried: a line for each."""
    found = [f"{name}: {why}" for name, it in edits.items() for why in [edited(it)[1]] if why]
    imports = "imports the proof of a function of another crate, whose text no record counts"
    found += [f"{it}: {imports}" for it in repository.imports_of_answers()]
    return found + [f"{name}: edits/RECORD names it, and there is no such edit" for name in records if name not in edits]
