"""Makes what bash, zsh and fish need to complete the words of a program, from what it says of itself with `--help`."""
import manual

BASH = """\
# Completes the words of {name} in bash. Made from what it says with --help.
_{name}() {{
    local word=${{COMP_WORDS[1]}} options='' valued='' repeated='' values='' files='' given=' ' option='' dashes='' place=0 at it
    COMPREPLY=()
    if ((COMP_CWORD == 1)); then
        COMPREPLY=($(compgen -W '{words}' -- "$2"))
        return
    fi
    case $word in
{lists}
    *) return ;;
    esac
    # What stands before the cursor. A word goes on behind `=`, `:` and `@`, which bash gives as words of their own.
    for ((at = 2; at < COMP_CWORD; at++)); do
        it=${{COMP_WORDS[at]}}
        case $dashes$it in
        [=:@]*) ((++at < COMP_CWORD)) || return ;;
        --) dashes=. ;;
        --*)
            given+="$it "
            if [[ $valued == *" $it "* ]]; then
                [[ ${{COMP_WORDS[at + 1]}} != = ]] || ((at++))
                ((++at < COMP_CWORD)) || option=$it
            fi
            ;;
        *) ((place++)) ;;
        esac
    done
    [[ $option || ${{COMP_WORDS[COMP_CWORD]}} != [=:@]* ]] || return
    case $word${{option:-$place}} in
{places}
    esac
    if [[ ! $option && ! $dashes && ($2 == -* || ! $values$files) ]]; then
        for it in $options; do
            [[ $given == *" $it "* && $repeated != *" $it "* ]] || values+=" $it"
        done
    elif [[ $files ]]; then
        compopt -o default
    fi
    COMPREPLY=($(compgen -W "$values" -- "$2"))
}}
complete -F _{name} {name}
"""

ZSH = """\
#compdef {name}
# Completes the words of {name} in zsh. Made from what it says with --help.
_{name}() {{
    local curcontext=$curcontext state line
    local -a said=(
{words}
    )
    _arguments -C -S \\
{options}
        '1: :->word' \\
        '*:: :->rest'
    case $state in
    word) _describe -t commands word said ;;
    rest)
        case $words[1] in
{cases}
        esac
        ;;
    esac
}}
_{name} "$@"
"""

FISH = """\
# Completes the words of {name} in fish. Made from what it says with --help.
function __{name}_is -d 'Whether the word of the call is one of these'
    set -l said (commandline -opc)
    contains -- "$said[2]" $argv
end
function __{name}_lacks -d 'Whether none of these stands behind the word of the call'
    for it in (commandline -opc)[3..-1]
        contains -- $it $argv; and return 1
    end
    return 0
end
function __{name}_begins -d 'Whether the call has no word'
    test (count (commandline -opc)) -lt 2
end
complete -c {name} -f
{lines}
"""


def quoted(text):
    """A text as one word, for bash and zsh."""
    return "'" + text.replace("'", "'\\''") + "'"


class Values:
    """What the values of a program may be."""

    def __init__(self, program):
        self.program, self.files = program, manual.names_of_files(program)
        self.words = [word for word, _ in program.help.words]

    def known(self, it):
        return manual.choices(self.program, it.text)

    def is_file(self, it):
        return it.value in self.files


def bash_places(values, word):
    """The cases of what may stand at a place of a word, or behind an option."""
    found = []
    for option in word.options:
        if values.known(option) and option.value:
            found.append((f"{word.name}--{option.long}", f"values='{' '.join(values.known(option))}'"))
        elif values.is_file(option):
            found.append((f"{word.name}--{option.long}", "files=."))
    for place, it in enumerate(word.arguments):
        at = f"{word.name}[0-9]*" if it.is_many else f"{word.name}{place}"
        what = f"values='{' '.join(values.known(it))}'" if values.known(it) else "files=." if values.is_file(it) else ""
        found.append((at, what))
    return found


def bash(program):
    values, lists, places = Values(program), [], []
    for word in program.words:
        names = {
            "options": [it.long for it in word.options],
            "valued": [it.long for it in word.options if it.value],
            "repeated": [it.long for it in word.options if manual.is_repeated(it)],
        }
        said = " ".join(f"{name}=' {''.join(f'--{it} ' for it in some)}'" for name, some in names.items() if some)
        lists.append(f"    {word.name}) {said} ;;")
        places += bash_places(values, word)
    every = " ".join(values.words)
    lists.append("    help) ;;")
    places.append(("help0", f"values='{every}'"))
    top = " ".join([*values.words, *(f"--{it.long}" for it in program.help.options)])
    cases = "\n".join(f"    {at}) {what} ;;" if what else f"    {at}) ;;" for at, what in places)
    return BASH.format(name=program.name, words=top, lists="\n".join(lists), places=cases)


def zsh_value(values, it):
    """The name of a value, and what it may be, as zsh has them in a specification."""
    known = values.known(it)
    return f":{it.value}:" + (f"({' '.join(known)})" if known else "_files" if values.is_file(it) else " ")


def zsh_option(values, it):
    """The words for an option."""
    said = it.text
    for mark in "\\[]":
        said = said.replace(mark, f"\\{mark}")
    if it.value:
        return quoted(f"{'*' * manual.is_repeated(it)}--{it.long}=[{said}]{zsh_value(values, it)}")
    if it.short:
        return f"{quoted(f'(- *)-{it.short}[{said}]')} {quoted(f'(- *)--{it.long}[{said}]')}"
    return quoted(f"--{it.long}[{said}]")


def zsh(program):
    values, cases = Values(program), []
    for word in program.words:
        said = [zsh_option(values, it) for it in word.options]
        said += [quoted(f"{'*' if it.is_many else place}{zsh_value(values, it)}") for place, it in enumerate(word.arguments, 1)]
        lines = " \\\n".join(f"                {it}" for it in said)
        cases.append(f"        {word.name})\n            _arguments -S \\\n{lines}\n            ;;")
    cases.append("        help) _describe -t commands word said ;;")
    words = "\n".join(f"        {quoted(f'{word}:{said}')}" for word, said in program.help.words)
    options = " \\\n".join(f"        {zsh_option(values, it)}" for it in program.help.options)
    return ZSH.format(name=program.name, words=words, options=f"{options} \\", cases="\n".join(cases))


def for_fish(text):
    return "'" + text.replace("\\", "\\\\").replace("'", "\\'") + "'"


def fish_option(values, it):
    """The words for an option."""
    short = f"-s {it.short} " if it.short else ""
    known = values.known(it)
    takes = "" if not it.value else f" -x -a '{' '.join(known)}'" if known else " -r -F" if values.is_file(it) else " -x"
    return f"{short}-l {it.long}{takes} -d {for_fish(it.text)}"


def fish(program):
    values, name = Values(program), program.name
    lines = [f"complete -c {name} -n __{name}_begins -a {word} -d {for_fish(said)}" for word, said in program.help.words]
    lines += [f"complete -c {name} -n __{name}_begins {fish_option(values, it)}" for it in program.help.options]
    for word in program.words:
        at = f"__{name}_is {word.name}"
        for it in word.options:
            once = "" if it.value else f"; and __{name}_lacks --{it.long}"
            lines.append(f"complete -c {name} -n '{at}{once}' {fish_option(values, it)}")
        for it in word.arguments:
            known = " ".join(values.known(it))
            if known:
                lines.append(f"complete -c {name} -n '{at}; and __{name}_lacks {known}' -a '{known}'")
                at += f"; and not __{name}_lacks {known}"
            elif values.is_file(it):
                lines.append(f"complete -c {name} -n '{at}' -F")
    lines.append(f"complete -c {name} -n '__{name}_is help' -a '{' '.join(values.words)}'")
    return FISH.format(name=name, lines="\n".join(lines))
