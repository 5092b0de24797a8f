#!/usr/bin/env python3
"""Checks that the man page and the completions are those that the program's help makes, and what completion offers in each
shell that is there. `checks/run` calls it; its last line is `N passed, M failed`.

`packaging/make_pages.py` writes the pages. In a row of OFFERED stand the words so far, the last one cut, and all that
bash and fish offer for it; in one of COMPLETED the line so far, and what zsh makes of it where somebody presses the
tabulator.
"""
import os
import pty
import select
import shutil
import subprocess
import sys
import tempfile
import time

sys.dont_write_bytecode = True
sys.path.insert(0, "packaging")
import make_pages

FILES = ("log.ion", "two words.10n", "tables.ion")
OFFERED = [
    (["sh"], "show"),
    (["co"], "convert"),
    (["help", "co"], "convert"),
    (["convert", "--t"], "--to"),
    (["convert", "--to", ""], "text binary"),
    (["convert", "--to", "b"], "binary"),
    (["convert", "--va"], "--value"),
    (["show", "--va"], ""),
    (["show", "--depth", ""], ""),
    (["check", "--catalog", "ta"], "tables.ion"),
    (["check", "l"], "log.ion"),
]
COMPLETED = [
    ("ion sh", "ion show "),
    ("ion help co", "ion help convert "),
    ("ion convert --t", "ion convert --to="),
    ("ion convert --to b", "ion convert --to binary "),
    ("ion convert --to=t", "ion convert --to=text "),
    ("ion show --va", "ion show --va"),
    ("ion check tw", "ion check two\\ words.10n "),
    ("ion check --catalog ta", "ion check --catalog tables.ion "),
]
IN_BASH = 'source "$1"; shift; COMP_WORDS=("$@"); COMP_CWORD=$(($# - 1)); _ion; printf "%s\\n" "${COMPREPLY[@]}"'
# a key that prints the line as it stands
IN_ZSH = """fpath=({folder} $fpath); autoload -Uz compinit; compinit -u -D; PS1=''
shown() {{ print -r -- "<<$BUFFER>>" }}; zle -N shown; bindkey '^X' shown; print begun
"""


def offered_by_bash(folder, at, words):
    asked = ["bash", "-c", IN_BASH, "bash", folder + "/ion.bash", "ion", *words]
    done = subprocess.run(asked, cwd=at, capture_output=True, text=True, timeout=60)
    return set(done.stdout.split("\n")) - {""}


def offered_by_fish(folder, at, words):
    line = " ".join(["ion", *words])
    asked = f"source {folder}/ion.fish; complete -C '{line}'"
    environment = dict(os.environ, HOME=at)
    done = subprocess.run(["fish", "-N", "-c", asked], cwd=at, env=environment, capture_output=True, text=True, timeout=60)
    return {row.split("\t")[0] for row in done.stdout.split("\n")} - {""}


def read_until(terminal, wanted):
    """What the terminal shows until this is there, or nothing comes any more."""
    got, until = b"", time.monotonic() + 30
    while wanted not in got and time.monotonic() < until:
        if select.select([terminal], [], [], 1)[0]:
            try:
                got += os.read(terminal, 4096)
            except OSError:
                break
    return got


def completed_by_zsh(folder, at, line):
    """The line that stands where the tabulator was pressed after this one, in a zsh at a terminal of its own."""
    child, terminal = pty.fork()
    if child == 0:
        os.chdir(at)
        os.execvpe("zsh", ["zsh", "-f", "-i"], dict(os.environ, TERM="dumb", HOME=at))
    os.write(terminal, IN_ZSH.format(folder=folder).encode())
    read_until(terminal, b"\nbegun")
    os.write(terminal, line.encode() + b"\t\x18")
    got = read_until(terminal, b">>").decode("utf-8", "replace")
    os.close(terminal)
    os.waitpid(child, 0)
    return got[got.rfind("<<") + 2:got.rfind(">>")]


def completions(folder, at):
    """What was asked of each shell that is there, what has to come, and what came."""
    for shell, offered in (("bash", offered_by_bash), ("fish", offered_by_fish)):
        if not shutil.which(shell):
            print(f"skipped: {shell}")
            continue
        for words, wanted in OFFERED:
            yield f"{shell}: {' '.join(words)}", set(wanted.split()), offered(folder, at, words)
    if not shutil.which("zsh"):
        print("skipped: zsh")
        return
    for line, wanted in COMPLETED:
        yield f"zsh: {line}", wanted, completed_by_zsh(folder, at, line)


def main():
    program = os.path.abspath(sys.argv[1])
    passed = failed = 0
    wrong = list(make_pages.stale(program))
    for path in wrong:
        print(f"FAILED {path} is not what the help makes: packaging/make_pages.py writes it")
    failed += len(wrong)
    passed += 4 - len(wrong)
    with tempfile.TemporaryDirectory() as at:
        for name in FILES:
            open(os.path.join(at, name), "w").close()
        for row, wanted, got in completions(make_pages.FOLDER, at):
            if wanted == got:
                passed += 1
            else:
                failed += 1
                print(f"FAILED {row}\n  wanted: {wanted}\n  got:    {got}")
    print(f"{passed} passed, {failed} failed")
    sys.exit(1 if failed else 0)


if __name__ == "__main__":
    main()
