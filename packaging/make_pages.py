#!/usr/bin/env python3
"""Writes the man page and the completions of bash, zsh and fish from what the program says of itself, and the crate for Rust
of the reasons, or checks that they are so.

    packaging/make_pages.py PROGRAM           writes packaging/pages/{ion.1,ion.bash,_ion,ion.fish}
    packaging/make_pages.py --check PROGRAM   says which of them differ; the status is then 1

Whoever changes the help runs it and commits what it wrote: `checks/manual.py`, which the gate runs, refuses pages that
differ. What it finds in the help and does not understand is an error, and never left out.
"""
import os
import re
import subprocess
import sys

HERE = os.path.dirname(os.path.abspath(__file__))
FOLDER = os.path.join(HERE, "pages")
# where each reason stands with a sentence, by number
REASONS = os.path.join(HERE, "../bindings/rust/src/reason.rs")
HEADINGS = ("Usage", "Arguments", "Commands", "Options", "Exit status", "Examples", "Example")
# What an option takes, by the name of its value in the help: files, any number, or one of these words.
FILES, NUMBER, FORMS = "FILE", "N", "FORM"
WORDS = {FORMS: ("text", "binary")}

# What the page says beside the help. Lines that begin with a blank are shown as they stand.
NOTES = """\
With FILE -, which may stand once, or without FILE standard input is read. Outputs of several files follow one another, cut ones
too, on the same line; lines of check and of refusals begin with FILE, and the status is the greatest. What several files are
converted to is named by --to. In names and wrong words control characters and backslashes are escaped, as \\n, \\x1b and \\\\.
After --catalog a - is a file of that name in the present folder, since standard input is most often the stream itself. A
catalogue that comes by a pipe is read from /dev/stdin, and the stream then has a name:

  make-tables | ion show --catalog /dev/stdin data.10n

A stream is binary if its first byte is E0, whatever the file is called. A script that may run twice says --to, since convert
alone would turn everything back. Without --rewrite binary is not written again as binary: that is refused as SameForm at 0.

--pretty goes with show, and with convert --to text; --rewrite with convert --to binary.

With --lines a refusal of a text ends in the line and the column of OFFSET, both counted from 1, the column in bytes. A line
ends with LF, so that CR LF ends one and CR alone none. They are left out of a catalogue's fault, and where 65,536 lines or more
ended from OFFSET on before the fault was known. With --lines a run holds 524,288 bytes more.

Without --floats a float other than null.float is refused, as Float, and so is a number of JSON with an exponent, which is one.

If the reader of a pipe ends before the output does, as head does, the next write fails, and ion ends with "write
fault" and status 3. Nothing is said of the rest of the stream then, and what head has printed is right:

  ion show data.10n 2>/dev/null | head -n 3

Check the status before you trust the output: values are written as they are read, so that a refusal comes after what
stands before it. In a pipe "set -o pipefail" keeps the status."""

DIAGNOSTICS = (
    ("refused REASON at OFFSET [(line L, column C)]",
     "The stream is not valid, passes a limit or, without --floats, has a float. OFFSET is the number of bytes before the faulty part. Status 1."),
    ("catalog refused REASON at OFFSET", "So of --catalog's file, with any float. Status 1."),
    ("cannot open FILE: WHY", "The file is not there, or may not be read. Status 3."),
    ("no memory, read fault, write fault", "The system failed; nothing is said of the stream. Status 3."),
)

BUGS = """\
A file whose name is not UTF-8 is read by standard input alone. What is said of one stream does not name its file. Controls from
U+0080 to U+009F and marks of direction in a text are shown as they are."""
SEE_ALSO = """\
share/doc/cozgelt below /usr, or below the prefix of a tarball: REFUSALS.md has an input for each reason, DIFFERENCES.md what other
readers of Ion do, LIBRARY.md the same calls from C, Rust and Python."""


def said(program, *words):
    """What the program writes to standard output, over an empty input."""
    done = subprocess.run([program, *words], stdin=subprocess.DEVNULL, capture_output=True, timeout=60)
    if done.returncode:
        sys.exit(f"ion {' '.join(words)}: status {done.returncode}: {done.stderr.decode('utf-8', 'replace')}")
    return done.stdout.decode("utf-8", "replace")


def sections(text):
    """The lines below each heading of a help; those before the first below '', and free lines after one below 'After'."""
    found, at = {"": []}, ""
    for line in text.splitlines():
        head = re.fullmatch(r"([A-Z][\w ]*):(?: (.*))?", line)
        if head and head[1] in HEADINGS:
            at = head[1]
            found[at] = [head[2]] if head[2] else []
        elif at and re.match(r"\S", line):
            found.setdefault("After", []).append(line)
        else:
            found[at].append(line)
    return found


def rows(lines):
    """The words and the meaning of each line `WORDS  MEANING`."""
    for line in filter(str.strip, lines):
        row = re.fullmatch(r"\s+(\S.*?)\s{2,}(\S.*)", line)
        if not row:
            sys.exit(f"not understood in the help: {line!r}")
        yield row[1], row[2]


def options(lines):
    """The names, the value's name or None, and the meaning of each option."""
    for words, meaning in rows(lines):
        row = re.fullmatch(r"((?:-\w, )?--[\w-]+)(?: <(\w+)>)?", words)
        if not row or row[2] not in (None, FILES, NUMBER, *WORDS):
            sys.exit(f"not understood in the help: {words!r}")
        yield row[1].split(", "), row[2], meaning


class Help:
    """All that the program says of itself."""

    def __init__(self, program):
        top = sections(said(program, "--help"))
        self.version = said(program, "--version").strip()
        self.title = self.version.split(",")[0]
        self.about, self.after = top[""], top["After"]
        self.commands = [row for row in rows(top["Commands"]) if row[0] != "help"]
        self.top_options = list(options(top["Options"]))
        self.statuses = list(rows(top["Exit status"]))
        self.examples = [line.strip() for line in top["Examples"] if line.strip()]
        helps = {name: sections(said(program, name, "--help")) for name, _ in self.commands}
        self.usages = [below["Usage"][0] for below in helps.values()]
        self.options = {name: list(options(below["Options"])) for name, below in helps.items()}
        for name, listed in self.options.items():
            for names, value, _ in listed:
                for word in WORDS.get(value, ()):
                    said(program, name, names[-1], word)  # the program takes each word that is offered

    def every_option(self):
        """Each option once, with the commands that list it."""
        found = {}
        for name, listed in self.options.items():
            for names, value, meaning in listed:
                found.setdefault((tuple(names), value, meaning), []).append(name)
        for names, value, meaning in self.top_options:
            found.setdefault((tuple(names), value, meaning), [])
        return dict(sorted(found.items(), key=lambda row: row[0][0][-1] in ("--help", "--version")))


# ---- the man page


def roff(text):
    """Text in which nothing is a request or a dash of its own."""
    return re.sub(r"^([.'])", r"\\&\1", text.replace("\\", "\\e").replace("-", "\\-"))


def paragraphs(lines):
    for line in lines:
        if line.startswith("  "):
            yield from (".PP", ".RS", ".nf", roff(line.strip()), ".fi", ".RE")
        else:
            yield roff(line) if line else ".PP"


def without_twice(lines):
    """Without a paragraph's mark right after another, or at the end."""
    kept = []
    for line in lines:
        if line != ".PP" or (kept and kept[-1] != ".PP" and not kept[-1].startswith(".SH")):
            kept.append(line)
    return kept[:-1] if kept and kept[-1] == ".PP" else kept


def entries(pairs):
    for name, meaning in pairs:
        yield from (".TP", f".B {name}", meaning)


def ended(text):
    return roff(text.rstrip(".") + ".")


def reasons():
    """The name of each reason, and what it says."""
    with open(REASONS, encoding="utf-8") as file:
        return re.findall(r'^ {4}(\w+) = \d+ "(.+)",$', file.read(), re.M)


def man_page(said_by):
    lines = [f'.TH ION 1 "" "{said_by.title}" "User Commands"', ".SH NAME"]
    lines += ["ion \\- shows, checks and converts Amazon Ion 1.0", ".SH SYNOPSIS"]
    for usage in said_by.usages:
        words = usage.split()
        lines += [f".B {' '.join(words[:2])}", roff(" ".join(words[2:])), ".br"]
    lines += [".B ion", ".SH DESCRIPTION", *paragraphs(said_by.about), ".PP", *paragraphs(said_by.after)]
    lines += [".SH COMMANDS", *entries((name, ended(meaning)) for name, meaning in said_by.commands), ".SH OPTIONS"]
    for (names, value, meaning), where in said_by.every_option().items():
        taken = f" \\fI{value}\\fR" if value else ""
        alone = len(where) not in (0, len(said_by.commands))
        of = f" Of {' and '.join(where)}." if alone else ""
        lines += [".TP", ".B " + roff(", ".join(names)) + taken, ended(meaning) + of]
    lines += [".SH NOTES", *paragraphs(NOTES.splitlines())]
    lines += [".SH EXIT STATUS", *entries((name, ended(meaning)) for name, meaning in said_by.statuses)]
    lines += [".SH DIAGNOSTICS", "On standard error:", *entries((name, roff(meaning)) for name, meaning in DIAGNOSTICS)]
    lines += [".SH REASONS", *entries((name, roff(meaning.replace("`", ""))) for name, meaning in reasons())]
    lines += [".SH EXAMPLES", ".nf", *map(roff, said_by.examples), ".fi"]
    lines += [".SH BUGS", *paragraphs(BUGS.splitlines()), ".SH SEE ALSO", *paragraphs(SEE_ALSO.splitlines())]
    return without_twice(lines)


# ---- completions


def names_of(listed):
    return " ".join(name for names, _, _ in listed for name in names)


def valued(said_by, value):
    """The options that take such a value, as a pattern of the shell."""
    of = [names for listed in said_by.options.values() for names, has, _ in listed if has == value]
    return "|".join(sorted({name for names in of for name in names}))


def bash_words(words):
    return f"COMPREPLY=($(compgen -W '{words}' -- \"$cur\"))"


# a line a name, since there are names with blanks
BASH_FILES = 'mapfile -t COMPREPLY < <(compgen -f -- "$cur")'


def for_bash(said_by):
    commands = " ".join(name for name, _ in said_by.commands)
    lines = [f"# Completions of {said_by.title} for bash, written by packaging/make_pages.py.", "_ion() {"]
    # a COMP_WORDBREAKS with = cuts --to=text into three words
    lines += ["    local cur=${COMP_WORDS[COMP_CWORD]} prev=${COMP_WORDS[COMP_CWORD-1]}"]
    lines += ["    [[ $prev == = ]] && prev=${COMP_WORDS[COMP_CWORD-2]}"]
    lines += ["    [[ $cur == = ]] && prev=${COMP_WORDS[COMP_CWORD-1]} cur="]
    lines += ["    COMPREPLY=()", "    case $prev in"]
    lines += [f"        {valued(said_by, FILES)}) {BASH_FILES}; return ;;"]
    lines += [f"        {valued(said_by, NUMBER)}) return ;;"]
    lines += [f"        {valued(said_by, value)}) {bash_words(' '.join(words))}; return ;;" for value, words in WORDS.items()]
    lines += ["    esac", "    if ((COMP_CWORD == 1)); then"]
    lines += [f"        {bash_words(commands + ' help ' + names_of(said_by.top_options))}", "        return", "    fi"]
    lines += ["    if [[ $cur == -* ]]; then", "        case ${COMP_WORDS[1]} in"]
    lines += [f"            {name}) {bash_words(names_of(listed))} ;;" for name, listed in said_by.options.items()]
    lines += ["        esac", "        return", "    fi"]
    lines += [f"    [[ ${{COMP_WORDS[1]}} == help ]] && {bash_words(commands)} && return"]
    lines += ["    " + BASH_FILES, "}", "complete -o filenames -F _ion ion"]
    return lines


def quoted(text):
    return text.replace("'", "'\\''")


def zsh_specs(names, value, meaning):
    taken = {None: "", FILES: ":file:_files", NUMBER: ":number:"}
    after = taken[value] if value in taken else f":form:({' '.join(WORDS[value])})"
    meaning = quoted(re.sub(r"([\[\]:])", r"\\\1", meaning))
    dash = "=" if value else ""
    return [f"'({' '.join(names)}){name}{dash if name.startswith('--') else ''}[{meaning}]{after}'" for name in names]


def for_zsh(said_by):
    commands = " ".join(name for name, _ in said_by.commands)
    lines = ["#compdef ion", f"# Completions of {said_by.title} for zsh, written by packaging/make_pages.py.", "_ion() {"]
    lines += ["  local state", "  _arguments -C \\"]
    lines += [f"    {spec} \\" for option in said_by.top_options for spec in zsh_specs(*option)]
    lines += ["    '1: :->command' '*:: :->rest'", "  case $state in", "    command)", "      local -a commands=("]
    lines += [f"        '{name}:{quoted(meaning)}'" for name, meaning in said_by.commands]
    lines += ["        'help:Print help'", "      )", "      _describe command commands ;;", "    rest)", "      case $words[1] in"]
    for name, listed in said_by.options.items():
        lines += [f"        {name}) _arguments \\"]
        lines += [f"            {spec} \\" for option in listed for spec in zsh_specs(*option)]
        lines += ["            '*:file:_files' ;;"]
    return lines + [f"        help) _values command {commands} ;;", "      esac ;;", "  esac", "}", '_ion "$@"']


def fish_option(where, names, value, meaning):
    flags = "".join(f" -l {name[2:]}" if name.startswith("--") else f" -s {name[1:]}" for name in names)
    taken = {None: " -f", FILES: " -r -F", NUMBER: " -x"}
    after = taken[value] if value in taken else f" -x -a '{' '.join(WORDS[value])}'"
    meaning = meaning.replace("'", "\\'")
    return f"complete -c ion -n '{where}'{flags}{after} -d '{meaning}'"


def for_fish(said_by):
    none = "__fish_use_subcommand"
    lines = [f"# Completions of {said_by.title} for fish, written by packaging/make_pages.py.", f"complete -c ion -n {none} -f"]
    for name, meaning in [*said_by.commands, ("help", "Print help")]:
        told = meaning.replace("'", "\\'")
        lines += [f"complete -c ion -n {none} -a {name} -d '{told}'"]
    lines += [fish_option(none, *option) for option in said_by.top_options]
    for name, listed in said_by.options.items():
        lines += [fish_option(f"__fish_seen_subcommand_from {name}", *option) for option in listed]
    commands = " ".join(name for name, _ in said_by.commands)
    return lines + [f"complete -c ion -n '__fish_seen_subcommand_from help' -f -a '{commands}'"]


def pages(program):
    """The text of each page, by its file's name."""
    said_by = Help(program)
    made = {"ion.1": man_page(said_by), "ion.bash": for_bash(said_by), "_ion": for_zsh(said_by), "ion.fish": for_fish(said_by)}
    return {name: "\n".join(lines) + "\n" for name, lines in made.items()}


def stale(program):
    """The pages that are not there, or not as the program's help makes them."""
    for name, text in pages(program).items():
        path = os.path.join(FOLDER, name)
        if not os.path.exists(path) or open(path, encoding="utf-8").read() != text:
            yield path


def main(words):
    check = words[:1] == ["--check"]
    if len(words) != 1 + check:
        sys.exit(__doc__)
    program = os.path.abspath(words[-1])
    if check:
        wrong = list(stale(program))
        for path in wrong:
            print(f"{path} is not what the help makes: packaging/make_pages.py PROGRAM writes it")
        return 1 if wrong else 0
    for name, text in pages(program).items():
        with open(os.path.join(FOLDER, name), "w", encoding="utf-8") as made:
            made.write(text)
    return 0


if __name__ == "__main__":
    sys.exit(main(sys.argv[1:]))
