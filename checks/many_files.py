"""Runs `examples/many_files/convert_tree.py` over a small tree, with a stand-in for dask's cluster: what is written,
reported, left out and swept, and each status; and `convert_one` over names and folders that may mislead it. `checks/run`
calls it; its last line is `N passed, M failed`.

`checks/system/many_files` runs it on a cluster, with 2,000 files and killed workers, and judges by the same functions.
"""
import bz2
import contextlib
import io
import json
import os
import re
import signal
import subprocess
import sys
import tempfile
import types

ROOT = os.path.dirname(os.path.dirname(os.path.abspath(__file__)))
SCRIPT = os.path.join(ROOT, "examples/many_files/convert_tree.py")
sys.dont_write_bytecode = True
sys.path[:0] = [os.path.dirname(SCRIPT), os.path.join(ROOT, "tests"), os.path.join(ROOT, "checks")]
import answers
from counts import Counts, files_of

# as a worker that was killed leaves them, and a file that only ends so
LEFT = ["day=00/m0.ion.some-host.12.34567.part", "day=00/of two\nlines.ion.some-host.12.34567.part"]
KEPT = "day=00/notes.part"
# Seconds that a run may take, which takes one or two.
PATIENCE = 60


def inputs():
    """The inputs of the drawn cases."""
    with bz2.open(os.path.join(ROOT, "tests/cases/drawn.jsonl.bz2")) as lines:
        for line in lines:
            yield answers.bytes_of(json.loads(line)["input"])


def make_tree(folder, count):
    """So many files in folders of several levels, text as .ion and binary as .10n; and one that is no Ion file by its name."""
    for number, stream in zip(range(count), inputs()):
        at = os.path.join(folder, f"day={number % 20:02d}", f"part {number % 7}")
        os.makedirs(at, exist_ok=True)
        with open(os.path.join(at, f"m{number}" + (".10n" if stream[:1] == b"\xe0" else ".ion")), "wb") as file:
            file.write(stream)
    open(os.path.join(folder, "notes.txt"), "w").close()


def plant(dest):
    """What the sweep has to remove, and what it has to leave."""
    os.makedirs(os.path.join(dest, "day=00"), exist_ok=True)
    for name in (*LEFT, KEPT):
        open(os.path.join(dest, name), "w").close()


def content_of(path):
    with open(path, "rb") as file:
        return file.read()


def wrong_rows(program, to, source, dest, rows):
    """The files on which the report or the result is not what `ion convert` says of the file."""
    ending = {"text": ".ion", "binary": ".10n"}[to]
    for name in files_of(source) - {"notes.txt"}:
        done = subprocess.run([program, "convert", "--to", to, os.path.join(source, name)], capture_output=True, timeout=60)
        row, out = rows.get(name, {"status": "none"}), os.path.splitext(name)[0] + ending
        path = os.path.join(dest, out)
        if done.returncode == 0:
            right = row["status"] == "ok" and (row["out"], row["bytes"]) == (out, len(done.stdout))
            right = right and content_of(path) == done.stdout
        else:
            why = re.fullmatch(r"refused (\w+) at (\d+)\n", done.stderr.decode())
            right = row["status"] == "refused" and (row["reason"], row["place"]) == (why[1], int(why[2]))
            right = right and not os.path.exists(path)
        if not right:
            yield name


def judge_run(counts, what, program, to, source, dest, report):
    """All that a run that has ended has to have done."""
    with open(report, "rb") as lines:
        rows = [json.loads(line) for line in lines if line.endswith(b"}\n")]
    told = {row["file"]: row for row in rows}
    counts.judge(len(told) == len(files_of(source)) - 1, f"{what}: a line for each file", len(told))
    wrong = list(wrong_rows(program, to, source, dest, told))
    counts.judge(not wrong, f"{what}: each as ion says", wrong[:5])
    ours = {row["out"] for row in told.values() if row["status"] == "ok"}
    more = files_of(dest) - ours
    counts.judge(more == {KEPT}, f"{what}: nothing else below DEST", sorted(more)[:5])
    return rows


# ---- the stand-in


class Done:
    """A batch that was run at once."""

    def __init__(self, key, answer):
        self.key, self.answer = key, answer

    def result(self):
        if isinstance(self.answer, Exception):
            raise self.answer
        return self.answer

    def release(self):
        pass


class Client:
    """Runs the batches here; the one of this number is lost with its worker."""

    lost = None

    def __init__(self, where):
        pass

    def __enter__(self):
        return self

    def __exit__(self, *why):
        pass

    def map(self, call, batches, pure):
        return [Done(number, call(batch) if number != self.lost else RuntimeError("lost")) for number, batch in enumerate(batches)]


def stand_in():
    made = types.ModuleType("distributed")
    made.Client, made.LocalCluster, made.as_completed = Client, lambda **words: None, iter
    sys.modules["distributed"] = made
    sys.modules["dask"] = types.SimpleNamespace(config=types.SimpleNamespace(set=lambda words: None))


class Late(BaseException):
    """A run that waits for ever."""


def is_late(*_):
    raise Late


def run(words):
    """The status of a run with these words, and what it says."""
    import convert_tree
    sys.argv, said = ["convert_tree.py", *words], io.StringIO()
    signal.signal(signal.SIGALRM, is_late)
    signal.alarm(PATIENCE)
    with contextlib.redirect_stderr(said):
        try:
            status = convert_tree.main()
        except SystemExit as end:
            status = end.code
        except (Exception, Late) as why:
            status = repr(why)
    signal.alarm(0)
    return status, said.getvalue()


def rows_in(report):
    """The last row on each file in a report, by the file's name."""
    if not os.path.exists(report):
        return {}
    with open(report, "rb") as lines:
        return {row["file"]: row for row in map(json.loads, lines)}


def told_of(report, name):
    """What the last row on a file says of its end."""
    row = rows_in(report).get(name, {})
    return row.get("status"), row.get("reason"), row.get("bound")


def put_files(folder, files):
    """Files by their names, as bytes."""
    for name, content in files.items():
        path = os.path.join(os.fsencode(folder), name)
        os.makedirs(os.path.dirname(path), exist_ok=True)
        with open(path, "wb") as file:
            file.write(content)


def put_program(folder, name, lines):
    """A program of the shell, and its path."""
    path = os.path.join(folder, name)
    with open(path, "w", encoding="utf-8") as file:
        file.write("#!/bin/sh\n" + lines)
    os.chmod(path, 0o755)
    return path


def judge_all(counts, program, folder):
    source, dest, report = (os.path.join(folder, name) for name in ("in", "out", "report"))
    make_tree(source, 150)
    plant(dest)
    words = ["--to", "text", "--ion", program, "--workers", "1", source, dest, report]
    Client.lost = 3
    status, said = run(words)
    counts.judge(status == 3, "a batch is lost", (status, said))
    Client.lost = None
    with open(report, "r+b") as lines:
        lines.truncate(lines.seek(0, os.SEEK_END) - 9)  # as a run that was killed leaves it
    status, said = run(words)
    counts.judge(status == 1 and said.startswith("141 done before, 9 to do"), "it goes on", (status, said))
    judge_run(counts, "to text", program, "text", source, dest, report)
    status, said = run(words)
    counts.judge(status == 1 and said == "150 done before, 0 to do\n", "nothing is left to do", (status, said))
    rows = judge_run(counts, "again", program, "text", source, dest, report)
    changed = next(row["file"] for row in rows if row["status"] == "ok")
    with open(os.path.join(source, changed), "wb") as file:
        file.write(b"1 2 4e0")
    counts.judge(run(words)[1].startswith("149 done before, 1 to do"), "a file that has changed")
    judge_run(counts, "one has changed", program, "text", source, dest, report)
    counts.judge(run(words[:-3] + ["--option=--depth=9", source, dest, report])[1].startswith("0 done before"), "other words")
    plant(dest + "2")
    counts.judge(run(["--to", "binary", "--ion", program, source, dest + "2", report + "2"])[0] == 1, "to binary: the status")
    judge_run(counts, "to binary", program, "binary", source, dest + "2", report + "2")


def judge_statuses(counts, program, folder):
    source = os.path.join(folder, "few")
    os.makedirs(source)
    rest = [source, os.path.join(folder, "few out"), os.path.join(folder, "few report")]
    with open(os.path.join(source, "a.ion"), "wb") as file:
        file.write(b"5")
    counts.judge(run(["--to", "binary", "--ion", "nowhere", *rest])[0] == 2, "no such program")
    counts.judge(run(["--to", "binary", "--ion", program, *rest])[0] == 0, "all are converted")
    open(os.path.join(source, "a.10n"), "w").close()
    two = (2, "a.10n and a.ion would both become a.10n\n")
    counts.judge(run(["--to", "binary", "--ion", program, *rest]) == two, "two of one name")
    nowhere, itself = ["--to", "text", folder + "/none", *rest[1:]], ["--to", "text", source, source, rest[2]]
    for words in (["--to", "json", *rest], rest, nowhere, itself):
        counts.judge(run(words)[0] == 2, f"wrong words {words}")


def judge_odd_files(counts, program, folder):
    """What is no regular file, a name that is no UTF-8, and a folder that has the name of a result."""
    source, dest, report = (os.path.join(folder, name) for name in ("odd", "odd out", "odd report"))
    put_files(source, {b"a.ion": b"5", b"caf\xe9.ion": b"6", b"x.ion": b"7", b"y.ion": b"8e0"})
    put_files(dest, {b"x.10n/in the way": b"", b"y.10n/in the way": b""})
    os.mkfifo(os.path.join(source, "pipe.ion"))
    os.symlink("/dev/zero", os.path.join(source, "device.10n"))
    words = ["--to", "binary", "--ion", program, source, dest, report]
    status, said = run(words)
    counts.judge(status == 3, "odd files: the status", (status, said))
    rows = rows_in(report)
    wanted = {"a.ion": "ok", "caf\udce9.ion": "ok", "x.ion": "failed", "y.ion": "refused", "pipe.ion": "skipped",
              "device.10n": "skipped"}
    counts.judge({name: row["status"] for name, row in rows.items()} == wanted, "odd files: each row", rows)
    made = {"a.10n", "caf\udce9.10n", "x.10n/in the way", "y.10n/in the way"}
    counts.judge(files_of(dest) == made, "odd files: what is made", files_of(dest))
    os.unlink(os.path.join(source, "x.ion"))
    status, said = run(words)
    counts.judge((status, said) == (1, "5 done before, 0 to do\n"), "odd files: again", (status, said))


def judge_report(counts, program, folder):
    """Lines of a report that are no rows, and a report that can't be written."""
    source, dest, report = (os.path.join(folder, name) for name in ("told", "told out", "told report"))
    put_files(source, {b'"a" 1.ion': b"5", b'"a" 2.ion': b"6e0", b'"a" 3.ion': b"7e0"})
    words = ["--to", "text", "--ion", program, source, dest]
    counts.judge(run([*words, report])[0] == 1, "the status of two refusals")
    rows = content_of(report)
    for line in (b"5", b"{}", b"null", b'["file"]', b'{"file":["a.ion"]}', b'{"file":"\\"a\\" 9.ion"}', b"[" * 100000, b"\xff"):
        put_files(folder, {b"told report": rows + line + b"\n"})
        status, said = run([*words, report])
        counts.judge((status, said) == (1, "3 done before, 0 to do\n"), f"a line {line[:30]}", (status, said))
    put_files(folder, {b"told report": rows.replace(b'"status"', b'"state"')})
    status, said = run([*words, report])
    counts.judge(status == 1 and said.startswith("0 done before, 3 to do"), "rows without a status", (status, said))
    put_files(source, {b'"a" 2.ion': b"6.0"})
    counts.judge(run([*words, report])[0] == 1, "one is mended")
    with open(os.path.join(os.path.dirname(SCRIPT), "README.md"), encoding="utf-8") as page:
        shown = next(line for line in page if line.startswith("    tac "))
    done = subprocess.run(["sh", "-c", shown.replace("report.jsonl", "'told report'")], cwd=folder, capture_output=True, timeout=60)
    told = [json.loads(line)["file"] for line in done.stdout.splitlines()]
    counts.judge(told == ['"a" 3.ion'], "the line that shows what is refused", done)
    status, said = run([*words, os.path.join(folder, "nowhere", "report")])
    counts.judge(status == 3 and "No such file" in said, "no folder for the report", (status, said))


def judge_versions(counts, program, folder):
    """Another version of ion, where the job is started and on a worker."""
    source, dest, report = (os.path.join(folder, name) for name in ("new", "new out", "new report"))
    put_files(source, {b"a.ion": b"5", b"b.ion": b"6e0"})
    other = put_program(folder, "other", f'[ "$1" = --version ] && echo ion 9 && exit\nexec "{program}" "$@"\n')
    each = put_program(folder, "each", f'[ "$1" = --version ] && echo ion $$ && exit\nexec "{program}" "$@"\n')
    words, rest = ["--to", "text", "--ion"], [source, dest, report]
    counts.judge(run([*words, program, *rest])[0] == 1, "a version: the status")
    status, said = run([*words, other, *rest])
    counts.judge(status == 1 and said.startswith("0 done before, 2 to do"), "another version", (status, said))
    status, said = run([*words, other, *rest])
    counts.judge((status, said) == (1, "2 done before, 0 to do\n"), "the other version again", (status, said))
    status, said = run([*words, each, *rest])
    counts.judge(status == 3, "another version on a worker", (status, said))
    counts.judge({row["status"] for row in rows_in(report).values()} == {"failed"}, "its rows", content_of(report))


def judge_bounds(counts, program, folder):
    """Outputs and times that pass their bounds, which are tried again by another bound."""
    source, dest, report = (os.path.join(folder, name) for name in ("much", "much out", "much report"))
    put_files(source, {b"a.ion": b"123456789 " * 1000, b"b.ion": b"1234567", b"c.ion": b"12345678"})
    put_files(dest, {b"a.ion": b"of an earlier run"})
    words, rest = ["--to", "text", "--ion"], [source, dest, report]
    status, said = run([*words, program, "--most-output", "8", *rest])
    # seven digits and a line's end are as many as may be
    told, over = [told_of(report, name) for name in ("a.ion", "b.ion", "c.ion")], ("refused", "most-output", 8)
    counts.judge((status, told) == (1, [over, ("ok", None, None), over]), "a long output", (status, said, told))
    counts.judge(files_of(dest) == {"b.ion"}, "nothing is left of it", files_of(dest))
    counts.judge(run([*words, program, "--most-output", "8", *rest])[1] == "3 done before, 0 to do\n", "by the same bound")
    status, said = run([*words, program, "--most-output", "9", *rest])
    counts.judge(status == 1 and said.startswith("1 done before, 2 to do"), "by another bound", (status, said))
    version = f'[ "$1" = --version ] && exec "{program}" "$1"\n'
    large = put_program(folder, "large", version + "head -c 9000000 /dev/zero 2> /dev/null\necho write fault >&2\nexit 3\n")
    status, said = run([*words, large, "--most-output", "100000", *rest])
    counts.judge(status == 1 and told_of(report, "a.ion") == ("refused", "most-output", 100000), "a far longer output", (status, said))
    for name in ("b.ion", "c.ion"):
        os.unlink(os.path.join(source, name))
    slow = put_program(folder, "slow", version + f'[ -e "{folder}/hurry" ] || exec sleep 9\nexec "{program}" "$@"\n')
    status, said = run([*words, slow, "--timeout", "1", *rest])
    counts.judge(status == 1 and told_of(report, "a.ion") == ("refused", "timeout", 1), "a long time", (status, said))
    counts.judge(run([*words, slow, "--timeout", "1", *rest])[1] == "1 done before, 0 to do\n", "by the same time")
    put_files(folder, {b"hurry": b""})
    counts.judge(run([*words, slow, "--timeout", "60", *rest])[0] == 0, "by another time")
    for words in (["--most-output", "0"], ["--timeout", "x"], ["--batch", "0"]):
        counts.judge(run(["--to", "text", *words, *rest])[0] == 2, f"wrong words {words}")


def judge_one(counts, program, folder):
    """`convert_one` by itself: what it is given, its status, what it says, and what there is then."""
    script = os.path.join(os.path.dirname(SCRIPT), "convert_one")
    os.makedirs(os.path.join(folder, "bin"))
    os.symlink(program, os.path.join(folder, "bin", "ion"))
    environment = dict(os.environ, PATH=os.path.join(folder, "bin") + ":" + os.environ["PATH"])
    refused = b": refused Float at 0\n"
    rows = [
        ("a file", b"done", b"logs/a.ion", 0, b"", {b"done/logs/a.10n"}),
        ("names with dots", b"done", b"logs.d/a.b.ion", 0, b"", {b"done/logs.d/a.b.10n"}),
        ("a dot in a folder's name alone", b"done", b"logs.d/a", 0, b"", {b"done/logs.d/a.10n"}),
        ("no folder", b"done", b"a.ion", 0, b"", {b"done/a.10n"}),
        ("no UTF-8", b"done", b"caf\xe9.ion", 0, b"", {b"done/caf\xe9.10n"}),
        ("a DEST that begins with -", b"-p", b"logs/a.ion", 0, b"", {b"-p/logs/a.10n"}),
        ("a FILE that begins with -", b"done", b"-a.ion", 0, b"", {b"done/-a.10n"}),
        ("a line's end", b"done", b"a\nb.ion", 0, b"", {b"done/a\nb.10n"}),
        ("a refusal", b"done", b"bad.ion", 1, b"bad.ion" + refused, set()),
        ("backslashes", b"done", b"bs/a\\tb\\c.ion", 1, b"'bs/a\\tb\\c.ion'" + refused, set()),
        ("a line's end of what is refused", b"done", b"a\nb\x1b.ion", 1, b"'a'$'\\n''b'$'\\033''.ion'" + refused, set()),
        ("a folder of the result's name", b"in the way", b"logs/x.ion", 3, b"", {b"in the way/logs/x.10n/y"}),
        ("out of DEST", b"done", b"../at/logs/a.ion", 2, b"", set()),
        ("out of DEST further on", b"done", b"logs/../../at/a.ion", 2, b"", set()),
        ("two dots in a name", b"done", b"logs/..a.ion", 0, b"", {b"done/logs/..a.10n"}),
        ("no DEST", b"", b"a.ion", 2, b"", set()),
        ("no such file", b"done", b"no\nwhere.ion", None, b"'no'$'\\n''where.ion': cannot be opened\n", set()),
    ]
    for what, dest, name, status, said, made in rows:
        with tempfile.TemporaryDirectory(dir=folder) as there:
            at = os.path.join(there, "at")
            put_files(at, {b"in the way/logs/x.10n/y": b"", b"logs/a.ion": b"5"})
            if status is not None:
                put_files(at, {os.path.normpath(os.path.join(b"../at", name)): b"5e0" if status == 1 else b"5"})
            before = files_of(os.fsencode(there)) - {b"at/" + path for path in made}
            done = subprocess.run([script, dest, name], cwd=at, env=environment, capture_output=True, timeout=60)
            after = files_of(os.fsencode(there))
            right = done.returncode == (3 if status is None else status) and done.stdout == said
            counts.judge(right and after == before | {b"at/" + path for path in made}, f"convert_one: {what}", (done, after - before))


def main():
    counts, program = Counts(), os.path.abspath(sys.argv[1])
    stand_in()
    with tempfile.TemporaryDirectory() as folder:
        judge_all(counts, program, folder)
        judge_statuses(counts, program, folder)
        judge_odd_files(counts, program, folder)
        judge_report(counts, program, folder)
        judge_versions(counts, program, folder)
        judge_bounds(counts, program, folder)
        judge_one(counts, program, folder)
    sys.exit(counts.close())


if __name__ == "__main__":
    main()
