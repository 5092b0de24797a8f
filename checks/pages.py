"""Runs the commands and the rows that the pages show, compares what is printed, and follows links to files.
`checks/run` calls it.

In a page a block that begins with ```console is one session of a shell: a line `$ COMMAND`, lines `> MORE` that
continue it, and what it prints, standard error among it, up to the next command. `$ echo $?` after a command shows its
status, which is 0 where nothing shows it. Each command runs in a shell of its own, which begins in the folder where the
one before it ended, so that a `cd` holds to the end of the page; the first begins in the root, where no command may
leave anything. In a table that has a column `Input` and next to it a column `Answer`, a row has an
input for `ion show` (a text, or bytes in hexadecimal after `hex` or after the version marker `M`), options
or another command in a second code span, and the lines that are printed, a code span each. A block of code that begins with
`// crates/..` has lines of the files that are named there, and comments.
"""
import glob
import os
import re
import shutil
import subprocess
import sys
import tempfile

from counts import files_of

MARKER = "E00100EA"
# Beside README and the examples, the pages whose commands and rows are run.
RUN = {"docs/" + name for name in ("BINARY.md", "DIFFERENCES.md", "REFUSALS.md", "SYMBOLS.md", "TEXT.md", "TEXT_INPUT.md")}
# Programs that every system has; each other one is looked for.
EVERYWHERE = {"echo", "printf", "cat", "head", "tail", "wc", "cmp", "rm", "ls", "sh", "find", "sort", "mkdir", "cp", "test",
              "tr", "cd", "exit", "if", "then", "else", "fi", "for", "in", "do", "done", "while", "case", "esac", "sleep",
              "timeout", "mktemp", "dd", "od", "tee", "grep", "sed", "awk", "xargs", "true", "false", "read", "ion"}
NEVER_RUN = ("rt ", "(cd crates", ".ci/run", "install ", "git ", "sudo ", "apt")


class Page:
    """What was counted over one page."""

    def __init__(self, name):
        self.name = name
        self.passed = 0
        self.failed = 0

    def judge(self, is_right, where, wanted, got):
        if is_right:
            self.passed += 1
        else:
            self.failed += 1
            print(f"FAILED {self.name}: {where}\n  wanted: {wanted!r}\n  got:    {got!r}")


def commands_of(block):
    """Pairs of a command and the lines that it prints."""
    found = []
    for line in block:
        if line.startswith("$ "):
            found.append((line[2:], []))
        elif line.startswith("> ") and found and not found[-1][1]:
            found[-1] = (found[-1][0] + "\n" + line[2:], found[-1][1])
        elif found:
            found[-1][1].append(line)
    return found


def blocks_of(text):
    """The lines of each block of a shell's session."""
    return [m.group(1).split("\n")[:-1] for m in re.finditer(r"^```console\n(.*?)^```$", text, re.M | re.S)]


def missing_tool(command):
    """The name of a program in the command that is not there, if one is."""
    begins = r"(?:^|[|;({\n]|\bdo |\bthen |&& |xargs (?:-\S+ )*)\s*(?:[A-Z_]+=\S* )*([A-Za-z][\w.-]*)(?![\w.-]*=)"
    for word in re.findall(begins, re.sub(r"'[^']*'|\"[^\"]*\"", "''", command)):
        if word not in EVERYWHERE and shutil.which(word) is None:
            return word
    return None


def run_command(command, folder, environment):
    """Status and output of a command that begins in the folder which a file names, and where it ended is named there then."""
    # a file that is followed has no end, so such a command is ended when it has written what there is
    bounded = re.sub(r"\btail (-c \+1 )?-f\b", r"timeout 1 tail \1-f", command)
    # what shows progress does so on standard error, with times
    errors = subprocess.DEVNULL if command.startswith("pv ") else subprocess.STDOUT
    place = os.path.join(folder, "place")
    with open(place, encoding="utf-8") as file:
        at = file.read().rstrip("\n")
    done = subprocess.run(["sh", "-c", f"trap 'pwd > \"{place}\"' EXIT\n{bounded}"], cwd=at, env=environment,
                          stdin=subprocess.DEVNULL, stdout=subprocess.PIPE, stderr=errors, timeout=60)
    return done.returncode, done.stdout.decode("utf-8", "replace").rstrip("\n")


def run_session(page, block, folder, environment):
    commands = commands_of(block)
    at = 0
    while at < len(commands):
        command, lines = commands[at]
        at += 1
        status = 0
        if at < len(commands) and commands[at][0] == "echo $?":
            status = int(commands[at][1][0])
            at += 1
        if command.startswith(NEVER_RUN):
            continue
        tool = missing_tool(command)
        if tool:
            print(f"skipped: {tool} ({page.name}: {command})")
            continue
        got = run_command(command, folder, environment)
        page.judge(got == (status, "\n".join(lines).rstrip("\n")), command, (status, "\n".join(lines)), got)


def run_blocks(page, text, program):
    """Runs the commands of a page, in folders that are removed then."""
    with tempfile.TemporaryDirectory() as folder:
        root = folder + "/at"
        for name in ("bin", "tmp"):
            os.mkdir(os.path.join(folder, name))
        os.symlink(program, folder + "/bin/ion")
        shutil.copytree("examples", root + "/examples")
        with open(folder + "/place", "w", encoding="utf-8") as file:
            file.write(root)
        path = folder + "/bin:" + os.environ.get("PATH", "")
        environment = dict(os.environ, PATH=path, LC_ALL="C.UTF-8", TMPDIR=folder + "/tmp")
        before = files_of(root)
        for block in blocks_of(text):
            run_session(page, block, folder, environment)
        left = sorted(files_of(root) - before)
        page.judge(not left, "what the commands leave in the root", [], left)


def spans(cell):
    return [span.replace("\\|", "|") for span in re.findall(r"`` ?(.*?) ?``|`([^`]*)`", cell) for span in [span[0] or span[1]]]


def octets_of(text):
    """The bytes of an input: octets after `hex` or `M`, and else the text itself."""
    if text == "M" or text.startswith("M "):
        return bytes.fromhex(MARKER + text[1:])
    if text.startswith("hex "):
        return bytes.fromhex(text[4:])
    return text.encode()


def run_row(page, cells, program):
    given = spans(cells[0])
    wanted = spans(cells[1])
    words = given[1].split() if len(given) > 1 else []
    if not words or words[0].startswith("--"):
        words = ["show"] + words
    done = subprocess.run([program] + words, input=octets_of(given[0]), capture_output=True, timeout=60)
    out = done.stdout
    refusal = [wanted[-1]] if wanted and wanted[-1].startswith(("refused ", "catalog refused ")) else []
    shown = wanted[:len(wanted) - len(refusal)]
    if words[0] == "convert" and shown and octets_of(given[0])[:1] != b"\xe0":
        right = out == octets_of(shown[0])
    else:
        right = out.decode("utf-8", "replace").split("\n") in (shown + [""], shown or [""])
    right = right and done.stderr.decode() == "".join(line + "\n" for line in refusal)
    right = right and done.returncode == (1 if refusal else 0)
    page.judge(right, cells[0], wanted, (done.returncode, out, done.stderr))


def check_links(page, text):
    """Each link to a file of the repository leads to one."""
    for target in re.findall(r"\]\(([^)#\s]+)", text):
        if not re.match(r"[a-z]+:", target):
            path = os.path.join(os.path.dirname(page.name), target)
            if not os.path.exists(path):
                page.judge(False, "a link", path, "no such file")
    page.judge(True, "", None, None)


def check_code(page, text):
    """Each line of a block that begins with `// crates/..`, but for comments, stands in one of the files that are named there."""
    for head, lines in re.findall(r"^```rattle\n(// crates/[^\n]*)\n(.*?)^```$", text, re.M | re.S):
        there = set()
        for name in filter(os.path.exists, re.findall(r"crates/[\w/]+\.rt", head)):
            with open(name, encoding="utf-8") as file:
                there.update(map(str.strip, file))
        for line in map(str.strip, lines.split("\n")):
            if line and not line.startswith("// ") and line not in there:
                page.judge(False, "a line of code", head, line)


def rows_of(text):
    """The cells of input and answer of each row of the tables that have both."""
    first = None
    for line in text.split("\n"):
        if not line.startswith("|"):
            first = None
        elif "| Input | Answer |" in line:
            first = line.split("| Input |")[0].count("|")
        elif first is not None and not re.fullmatch(r"[|\s:-]+", line):
            yield [cell.strip() for cell in re.split(r"(?<!\\)\|", line)[1:-1]][first:first + 2]


def main():
    program = os.path.abspath(sys.argv[1])
    if not os.access(program, os.X_OK):
        sys.exit(f"there is no program {program}: (cd crates/ion_tool && rt run) builds it")
    pages = []
    for name in ["README.md", "CONTRIBUTING.md", "SECURITY.md", "CHANGELOG.md",
                 *(found for folder in ("docs", "crates/*", "examples/*") for found in sorted(glob.glob(folder + "/*.md")))]:
        with open(name, encoding="utf-8") as file:
            text = file.read()
        page = Page(name)
        pages.append(page)
        check_links(page, text)
        check_code(page, text)
        if name != "README.md" and name not in RUN and not name.startswith("examples/"):
            continue
        run_blocks(page, text, program)
        for cells in rows_of(text):
            run_row(page, cells, program)
        print(f"{name}: {page.passed} as shown, {page.failed} not")
    passed = sum(page.passed for page in pages)
    failed = sum(page.failed for page in pages)
    print(f"{passed} passed, {failed} failed")
    sys.exit(1 if failed or not passed else 0)


if __name__ == "__main__":
    main()
