"""Reads what programs say of themselves with `--help`, and makes manual pages of it."""
import re
import subprocess
import textwrap
from collections import namedtuple

# A word's help: what it does, its usage, and each entry of its lists. `rest` has the blocks of text behind them.
Help = namedtuple("Help", "name about usage arguments options words rest")
# An option or an argument; `value` is the name of what it takes, where it takes something.
Option = namedtuple("Option", "short long value text")
Argument = namedtuple("Argument", "value is_many text")
# A program: its name and version, its own help, and that of each of its words.
Program = namedtuple("Program", "name version help words")

OPTION = re.compile(r"(?:-(\w), )?--([a-z][a-z-]*)(?: <([A-Z]+(?:=[A-Z]+)?)>)?")
ARGUMENT = re.compile(r"[<\[]([A-Z]+)[>\]](\.\.\.)?")
WORD = re.compile(r"[a-z][a-z-]*")
# An entry of a list: what it names, and what it says of that. A line that begins further in goes on with the last one.
ENTRY = re.compile(r" {2,6}(\S.*?)(?:  +(\S.*))?")
FURTHER = re.compile(r" {8,}(\S.*)")
GAP = re.compile(r"  \S.*?  +(?=\S)")
# A list of words or a span of numbers, at the end of a sentence; notes in brackets are left out before.
NOTE = re.compile(r" \([^()]*\)| \[[^\[\]]*\]")
CHOICE = re.compile(r"(?:^|: |, )((?:[A-Za-z][A-Za-z-]*, )*[A-Za-z][A-Za-z-]* or [A-Za-z][A-Za-z-]*)$")
SPAN = re.compile(r": (\d+) to (\d+)(?=$|,)")
MOST_NUMBERS = 16


class Unread(Exception):
    """A text that isn't read, since it has another form."""


def entries(name, lines):
    """The entries of a list, each with its text."""
    found = []
    for line in lines:
        further, entry = FURTHER.fullmatch(line), ENTRY.fullmatch(line)
        if further and found:
            found[-1][1] = f"{found[-1][1]} {further[1]}".strip()
        elif entry:
            found.append([entry[1], entry[2] or ""])
        else:
            raise Unread(f"the help of {name} has a line that is no entry of a list: {line}")
    return found


def matched(form, name, term):
    found = form.fullmatch(term)
    if not found:
        raise Unread(f"the help of {name} names something that is neither option, argument nor word: {term}")
    return found


def read_help(name, text):
    """The parts of a help."""
    blocks = text.strip("\n").split("\n\n")
    if len(blocks) < 2 or not blocks[1].startswith("Usage: "):
        raise Unread(f"the help of {name} has no usage behind its first lines")
    about, usage, lists = " ".join(blocks[0].split()), " ".join(blocks[1].removeprefix("Usage: ").split()), {}
    rest = blocks[2:]
    while rest and rest[0].split("\n")[0] in ("Commands:", "Arguments:", "Options:"):
        head, *lines = rest.pop(0).split("\n")
        lists[head] = entries(name, lines)
    words = [(matched(WORD, name, term)[0], said) for term, said in lists.get("Commands:", [])]
    arguments = [Argument(it[1], bool(it[2]), said) for term, said in lists.get("Arguments:", []) for it in [matched(ARGUMENT, name, term)]]
    options = [Option(it[1], it[2], it[3], said) for term, said in lists.get("Options:", []) for it in [matched(OPTION, name, term)]]
    return Help(name, about, usage, arguments, options, words, rest)


def said_by(words):
    """What a program writes, where it ends well."""
    ran = subprocess.run(words, stdin=subprocess.DEVNULL, stdout=subprocess.PIPE, stderr=subprocess.PIPE, text=True)
    if ran.returncode:
        raise Unread(f"{' '.join(words)} ended with status {ran.returncode}: {ran.stderr.strip()[-300:]}")
    return ran.stdout


def read_program(path):
    """What a program says of itself and of each of its words."""
    name, _, version = said_by([path, "--version"]).strip().partition(" ")
    top = read_help(name, said_by([path, "--help"]))
    words = [read_help(word, said_by([path, "help", word])) for word, _ in top.words if word != "help"]
    return Program(name, version, top, words)


def choices(program, said):
    """The values that a text names as those that there are, where it does: words, but no names of values, or a few numbers."""
    names = {it.value for word in program.words for it in [*word.arguments, *word.options]}
    plain = NOTE.sub("", said)
    found, span = CHOICE.search(plain), SPAN.search(plain)
    if found:
        return [it for it in re.split(", | or ", found[1]) if it not in names]
    if span and int(span[2]) - int(span[1]) < MOST_NUMBERS:
        return [str(it) for it in range(int(span[1]), int(span[2]) + 1)]
    return []


def names_of_files(program):
    """The names of those values that are files: some text about them says so."""
    said = [it for word in program.words for it in [*word.arguments, *word.options] if it.value]
    return {it.value for it in said if re.search(r"\bfile\b", it.text)}


def is_repeated(option):
    return "given several times" in option.text


def escaped(text):
    """A text for roff, every character as it stands."""
    for plain, code in (("\\", "\\e"), ("-", "\\-"), ("'", "\\(aq"), ("`", "\\(ga"), ("^", "\\(ha"), ("~", "\\(ti")):
        text = text.replace(plain, code)
    return re.sub(r"^\.", r"\\&.", text, flags=re.MULTILINE)


def prose(text):
    """A text for roff, in which code and options are bold."""
    parts = re.split(r"(`[^`]+`|(?<![\w-])--?[a-z][a-z-]*)", " ".join(text.split()))
    return "".join(f"\\fB{escaped(it.strip('`'))}\\fR" if at % 2 else escaped(it) for at, it in enumerate(parts))


def shown(term):
    """An option, an argument or a usage: names of values slanted and the rest bold."""
    parts = re.split(r"([<\[]?\b[A-Z]+\b[>\]]?(?:\.\.\.)?)", term)
    return "".join(f"\\fI{escaped(it)}\\fR" if at % 2 else f"\\fB{escaped(it)}\\fR" if it.strip() else it for at, it in enumerate(parts))


def tagged(pairs):
    """A list: each pair has a term for roff and what is said of it."""
    return "".join(f".TP\n{term}\n{prose(said)}\n" for term, said in pairs)


def pairs_of(lines):
    """The pairs of a list in two columns; None where it has no two."""
    for column in sorted({it.end() for it in map(GAP.match, lines) if it}):
        if all(it[column - 1 : column] == " " and it[column : column + 1].strip() for it in lines):
            return [(it[:column].strip(), it[column:]) for it in lines]
    return None


def block_of(block):
    """A block of a help: a list, text as it stands where it is indented, or a paragraph. The line above a list may be part of it."""
    head, *lines = block.split("\n")
    if head.startswith(" "):
        head, lines = "", [head, *lines]
    if not lines or not all(it.startswith(" ") for it in lines):
        return f".PP\n{prose(block)}\n"
    above, pairs = f".PP\n{prose(head)}\n" if head else "", pairs_of(lines)
    if pairs:
        return above + tagged((f"\\fB{escaped(term)}\\fR", said) for term, said in pairs)
    plain = escaped(textwrap.dedent("\n".join(lines)))
    return f"{above}.PP\n.RS 4\n.nf\n{plain}\n.fi\n.RE\n"


def head_of(name, version, date, about, usage):
    """The beginning of a page."""
    line = f"{about[0].lower()}{about[1:]}"
    title = f'.TH {escaped(name.upper())} 1 "{date}" "itipdesk {version}" "User Commands"\n'
    begin = f".\\\" Made from what the program says with --help.\n{title}.nh\n.ad l\n"
    return f"{begin}.SH NAME\n{escaped(name)} \\- {escaped(line)}\n.SH SYNOPSIS\n{usage}"


def term_of(it):
    if isinstance(it, Argument):
        return shown(f"{it.value}...") if it.is_many else shown(it.value)
    names = f"-{it.short}, --{it.long}" if it.short else f"--{it.long}"
    return shown(f"{names} {it.value}" if it.value else names)


def page_of(program, date):
    """The manual page of a program, as it is at a date."""
    page = head_of(program.name, program.version, date, program.help.about, f"{shown(program.help.usage)}\n")
    page += ".SH DESCRIPTION\n" + tagged((f"\\fB{escaped(word)}\\fR", said) for word, said in program.help.words)
    page += ".SH OPTIONS\n" + tagged((term_of(it), it.text) for it in program.help.options)
    page += ".SH COMMANDS\n"
    for word in program.words:
        page += f".SS {shown(word.usage)}\n{prose(word.about)}\n"
        page += tagged((term_of(it), it.text) for it in [*word.arguments, *word.options])
        page += "".join(block_of(it) for it in word.rest)
    return page + see_also(["mail-of-message", "parts-of-mail"])


def see_also(names):
    others = ", ".join(f"\\fB{escaped(it)}\\fR(1)" for it in names)
    return f".SH SEE ALSO\n{others}, and the pages in the folder \\fIdoc/itipdesk\\fR beside the manual pages\n"


def page_of_script(name, text, version, date, others):
    """The manual page of a script that says what it does in a line, its usage, and more."""
    about, usage, *more = re.sub(rf"\bbin/(?={'|'.join([name, *others])})", "", text).strip("\n").split("\n\n")
    page = head_of(name, version, date, about.partition(":")[0], f"{shown(' '.join(usage.split()))}\n")
    page += f".SH DESCRIPTION\n{prose(about)}\n" + "".join(map(block_of, more))
    return page + see_also(others)
