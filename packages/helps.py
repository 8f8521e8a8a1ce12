"""Manual pages, and completions for bash, zsh and fish, made of what the programs print for --help.

No other list of commands and options is kept, so a new one is in all of these as soon as --help prints it. A line of --help
that has no known form stops this program.
"""
import re
import subprocess
import sys
from dataclasses import dataclass, field

PROGRAMS = ("nms_tool", "nms_review", "nms_serve")
# The names of values that are files, and of those that are a file after a letter or two files.
FILES = {"FILE", "CHANGES", "PLANFILE", "PLAN", "ORDERS", "EXECUTIONS", "TIMES", "MAP", "NBBO", "ANSWERS", "SCRIPT", "PAGE"}
# Values that --help says in words.
WORDS = {"SIDE": ("B", "S")}


class Unknown(Exception):
    """A line of --help that has no known form."""


@dataclass(frozen=True)
class Option:
    short: str
    long: str
    value: str
    text: str

    def words(self):
        return [*([f"-{self.short}"] if self.short else []), *([f"--{self.long}"] if self.long else [])]

    def is_file(self):
        return self.value in FILES


@dataclass(frozen=True)
class Argument:
    name: str
    is_needed: bool
    is_many: bool
    text: str

    def values(self):
        said = re.search(r" \[possible values: ([^]]*)\]", self.text)
        return said[1].split(", ") if said else WORDS.get(self.name, ())

    def is_file(self):
        return self.name in FILES or self.name.startswith("FEED_")


@dataclass
class Section:
    """Lines under a heading of the program's own, or under none."""
    title: str
    lines: list = field(default_factory=list)


@dataclass
class Help:
    """What one call of --help prints."""
    program: str
    command: str
    about: str
    usage: str
    options: list = field(default_factory=list)
    arguments: list = field(default_factory=list)
    commands: list = field(default_factory=list)
    sections: list = field(default_factory=list)


def option(line):
    found = re.fullmatch(r"  (?:-(\w)|  )(?:(?:, |  )--([\w-]+))?(?: <([^>]+)>)?(?: {2,}(\S.*))?", line)
    if not found or not (found[1] or found[2]):
        raise Unknown(f"no line of an option: {line!r}")
    return Option(*(it or "" for it in found.groups()))


def argument(line):
    found = re.fullmatch(r"  ([<\[])(\w+)[>\]](\.\.\.)? {2,}(\S.*)", line)
    if not found:
        raise Unknown(f"no line of an argument: {line!r}")
    return Argument(found[2], found[1] == "<", bool(found[3]), found[4])


def command(line):
    found = re.fullmatch(r"  ([a-z]\w*) {2,}(\S.*)", line)
    if not found:
        raise Unknown(f"no line of a command: {line!r}")
    return found.groups()


def read_help(program, word, text):
    """Reads what --help prints: a line about it, the usage, the three known lists, then sections of the program's own."""
    head = re.match(r"(\S[^\n]*)\n\nUsage: (\S[^\n]*)\n(?=\n|$)", text)
    if not head:
        raise Unknown(f"no head: {text[:80]!r}")
    it = Help(program, word, head[1], head[2])
    lists = {"Options:": (option, it.options), "Arguments:": (argument, it.arguments), "Commands:": (command, it.commands)}
    for part in re.split(r"\n{2,}", text[head.end():].strip("\n")):
        title, *lines = part.split("\n")
        if title in lists and not it.sections:
            read, found = lists[title]
            found += map(read, lines)
        elif title in lists or (lines and title.endswith(":") and not all(line.startswith("  ") for line in lines)):
            raise Unknown(f"a list at no place for it: {part[:80]!r}")
        elif title.endswith(":") and lines:
            it.sections.append(Section(title[:-1], lines))
        elif not any(line.startswith(" ") for line in (title, *lines)):
            it.sections.append(Section("", [title, *lines]))
        elif part:
            raise Unknown(f"lines of no section: {part[:80]!r}")
    return it


def printed(folder, program, *words):
    """What a program prints."""
    try:
        return subprocess.run([f"{folder}/{program}", *words], stdin=subprocess.DEVNULL, stdout=subprocess.PIPE, check=True, text=True).stdout
    except (OSError, subprocess.CalledProcessError) as error:
        sys.exit(f"helps.py: {' '.join([program, *words])}: {error}")


def ask(folder, program, *words):
    try:
        return read_help(program, "".join(words), printed(folder, program, *words, "--help"))
    except Unknown as error:
        sys.exit(f"helps.py: {' '.join([program, *words, '--help'])}: {error}")


# Manual pages.

def roff(text):
    return re.sub(r"^([.'])", r"\\&\1", text.replace("\\", "\\e").replace("-", "\\-"), flags=re.M)


def listed(it):
    """The arguments and options of one help."""
    for each in it.arguments:
        yield from (".TP", f"\\fI{each.name}\\fR" + (" ..." if each.is_many else ""), roff(each.text))
    for each in it.options:
        value = f" \\fI{roff(each.value)}\\fR" if each.value else ""
        yield from (".TP", ", ".join(f"\\fB{roff(word)}\\fR" for word in each.words()) + value, roff(each.text) or "\\&")


def synopsis(it):
    words = [it.program, *([it.command] if it.command else [])]
    return f"\\fB{' '.join(words)}\\fR {roff(it.usage.split(' ', len(words))[len(words)])}"


def described(title, lines):
    """A section of the program's own, line by line. A page that it names is installed."""
    text = "\n".join(re.sub("^  ", "", line) for line in lines)
    text = re.sub(r"\b(docs/\w+\.md)(?: of the repository)?", r"share/doc/nms/\1", text)
    yield from (f'.SH "{roff(title)}"', ".nf", *(roff(line) or "\\&" for line in text.split("\n")), ".fi")


def manual(top, subs, version, date):
    """The manual page of a program."""
    lines = [f'.TH {top.program.upper()} 1 {date} "nms {version}" "User Commands"', ".SH NAME", f"{top.program} \\- {roff(top.about)}", ".SH SYNOPSIS", synopsis(top)]
    for it in subs:
        lines += [".br", synopsis(it)]
    plain = [line for it in top.sections if not it.title for line in (*it.lines, "")]
    lines += described("DESCRIPTION", plain[:-1]) if plain else ()
    lines += [".SH OPTIONS", *listed(top)]
    if subs:
        lines.append(".SH COMMANDS")
    for it in subs:
        lines += [f".SS {it.command}", roff(it.about) + ".", *listed(it)]
    for it in top.sections:
        # The options that each command takes are listed with each.
        if it.title and not re.match("Each (sub)?command also takes", it.title):
            lines += described("EXIT STATUS" if it.title == "Exit statuses" else it.title.upper(), it.lines)
    others = ", ".join(f"\\fB{it}\\fR(1)" for it in PROGRAMS if it != top.program)
    return "\n".join([*lines, ".SH SEE ALSO", f"{others}, and the pages in share/doc/nms of the installation.", ""])


# Completions. Each program is a function; a program with commands completes them first.

def quoted(text):
    return text.replace("'", "'\\''")


def bash_case(it, is_nested):
    """What may follow: options after a dash, else the commands or the values and files of the arguments."""
    words = " ".join(word for o in it.options for word in o.words())
    named = [name for name, _ in it.commands] + [value for a in it.arguments for value in a.values()]
    given = [f"$(compgen -W '{' '.join(named)}' -- \"$cur\")"] * bool(named) + ['$(compgen -f -- "$cur")'] * is_nested
    return [f"        if [[ $cur == -* ]]; then COMPREPLY=($(compgen -W '{words}' -- \"$cur\"))", f"        else COMPREPLY=({' '.join(given)}); fi ;;"]


def bash(top, subs):
    name, helps = top.program, [top, *subs]
    with_value = {is_file: sorted({word for it in helps for o in it.options if o.value and o.is_file() == is_file for word in o.words()}) for is_file in (False, True)}
    lines = [f"# bash completion for {name}, made of its --help by packages/helps.py.", f"_{name}() {{"]
    lines += ["    local cur=${COMP_WORDS[COMP_CWORD]} prev=${COMP_WORDS[COMP_CWORD-1]} sub= at", "    COMPREPLY=()", "    case $prev in"]
    files = 'COMPREPLY=($(compgen -f -- "$cur")); '
    lines += [f"    {'|'.join(words)}) {files * is_file}return ;;" for is_file, words in with_value.items() if words]
    lines += ["    esac", "    for ((at = 1; at < COMP_CWORD; at++)); do", "        case ${COMP_WORDS[at]} in"]
    lines += [f"        {'|'.join(it.command for it in subs)}) sub=${{COMP_WORDS[at]}} && break ;;"] * bool(subs)
    lines += ["        esac", "    done", "    case $sub in"]
    for it in subs:
        lines += [f"    {it.command})", *bash_case(it, True)]
    lines += ["    *)", *bash_case(top, not subs), "    esac", "}", f"complete -o filenames -F _{name} {name}", ""]
    return "\n".join(lines)


def zsh_text(text):
    return quoted(re.sub(r"([\[\]:\\])", r"\\\1", text))


def zsh_specs(it):
    """The words for _arguments: `-o[text]:value:action`, and `:name:action` for what stands at a place."""
    for o in it.options:
        after = f":{zsh_text(o.value)}:{'_files' if o.is_file() else ' '}" if o.value else ""
        yield from (f"'{word}[{zsh_text(o.text)}]{after}'" for word in o.words())
    for a in it.arguments:
        what = f"({' '.join(a.values())})" if a.values() else "_files" if a.is_file() else " "
        yield f"'{'*' if a.is_many else ''}{':' if a.is_needed or a.is_many else '::'}{a.name}:{what}'"


def zsh(top, subs):
    name = top.program
    lines = [f"#compdef {name}", f"# Made of {name} --help by packages/helps.py.", f"_{name}() {{", "    local line state"]
    if not subs:
        return "\n".join([*lines, "    _arguments " + " \\\n        ".join(zsh_specs(top)), "}", f'_{name} "$@"', ""])
    specs = [*zsh_specs(top), "'1: :->command'", "'*:: :->words'"]
    lines += ["    _arguments -C " + " \\\n        ".join(specs), "    case $state in", "    command)", "        local -a commands=("]
    lines += [f"            '{zsh_text(word)}:{zsh_text(text)}'" for word, text in top.commands]
    lines += ["        )", "        _describe command commands ;;", "    words)", "        case $line[1] in"]
    for it in subs:
        lines += [f"        {it.command})", "            _arguments " + " \\\n                ".join(zsh_specs(it)) + " ;;"]
    return "\n".join([*lines, "        esac ;;", "    esac", "}", f'_{name} "$@"', ""])


def fish_option(name, when, o):
    words = (f" -s {o.short}" if o.short else "") + (f" -l {o.long}" if o.long else "")
    value = (" -r -F" if o.is_file() else " -x") if o.value else ""
    return f"complete -c {name}{when}{words}{value} -d '{quoted(o.text)}'"


def fish(top, subs):
    name = top.program
    first = f" -n 'not __fish_seen_subcommand_from {' '.join(word for word, _ in top.commands)}'" if subs else ""
    lines = [f"# Made of {name} --help by packages/helps.py."]
    lines += [f"complete -c {name}{first} -f"] * bool(subs)
    lines += [f"complete -c {name}{first} -a {word} -d '{quoted(text)}'" for word, text in top.commands]
    lines += [fish_option(name, first, o) for o in top.options]
    for it in subs:
        when = f" -n '__fish_seen_subcommand_from {it.command}'"
        lines += [fish_option(name, when, o) for o in it.options]
        lines += [f"complete -c {name}{when} -a '{' '.join(a.values())}'" for a in it.arguments if a.values()]
    return "\n".join([*lines, ""])


def made(folder, version, date):
    """The files of all programs whose folder is given: man1/NAME.1, bash/NAME, zsh/_NAME, fish/NAME.fish."""
    found = {}
    for name in PROGRAMS:
        top = ask(folder, name)
        subs = [ask(folder, name, word) for word, _ in top.commands]
        found[f"man1/{name}.1"] = manual(top, subs, version, date)
        found[f"bash/{name}"], found[f"zsh/_{name}"], found[f"fish/{name}.fish"] = bash(top, subs), zsh(top, subs), fish(top, subs)
    return found


def version(folder, program):
    """The version that a program prints, as `nms_tool 0.3.0`, perhaps with more after it."""
    said = printed(folder, program, "--version")
    found = re.match(rf"{program} (\d+\.\d+\.\d+)\b", said)
    return found[1] if found else sys.exit(f"helps.py: {program} --version printed {said!r}")
