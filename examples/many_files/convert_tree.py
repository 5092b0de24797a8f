#!/usr/bin/python3
"""Converts a tree of folders of Ion files on the workers of a dask cluster.

Each file below SOURCE whose name ends in .ion or .10n becomes one at the same place below DEST, with the ending .ion
for text and .10n for binary. It is written under another name and renamed once it is whole, so that a file of DEST is a
whole one; what workers that were killed left is swept at the end. Of a file that is refused there is none. REPORT gets
a line of JSON for each file:

    {"file": .., "status": "ok", "out": .., "bytes": ..}                 converted
    {"file": .., "status": "refused", "reason": .., "place": ..}         ion refuses it, for this reason and at this place
    {"file": .., "status": "refused", "reason": .., "bound": ..}         it passes --most-output or --timeout, whose name is the reason
    {"file": .., "status": "skipped", "why": ..}                         it is a pipe, a socket or a device
    {"file": .., "status": "failed", "why": ..}                          it could not be read, or its result not be written

besides the file's size and time, the words that ion was given, and what `ion --version` says. Run again with the same
words and the same ion it goes on: what is ok, refused or skipped in REPORT, and has the same size and time, is left
out, and what failed is tried again, as is what passed a bound that is another one now. SOURCE, DEST and PROGRAM are
paths that every worker sees, and PROGRAM has one version everywhere. One such run at a time may write to a DEST. The
status is 0 where all files are ok or skipped, 1 where some are refused, 2 for wrong words, no PROGRAM, or two files of
one name in DEST, 3 where some failed.
"""
import argparse
import json
import os
import re
import stat
import subprocess
import sys
import time

ENDINGS = {"text": ".ion", "binary": ".10n"}
# NAME, then the worker's machine, process and time
PART = re.compile(r".*\.[^/]+\.\d+\.\d+\.part", re.DOTALL)


# ---- on a worker


def version_of(program):
    """What a program says of itself, with its name and version."""
    run = subprocess.run([program, "--version"], stdin=subprocess.DEVNULL, capture_output=True, check=True, timeout=60)
    return run.stdout.decode("utf-8", "replace").strip()


def at_once(path, flags):
    """Opens a pipe too without a wait, for `open`."""
    return os.open(path, flags | os.O_NONBLOCK)


def bounded(given, stream, file):
    """The status of ion, None where its time was over, and what it said."""
    command = ["prlimit", f"--fsize={given.most_output}", given.ion, "convert", *given.words]
    # Python ignores SIGXFSZ, and ion is left to ignore it too: a write past the bound fails, and kills nothing
    with subprocess.Popen(command, stdin=stream, stdout=file, stderr=subprocess.PIPE, restore_signals=False) as run:
        try:
            said = run.communicate(timeout=given.timeout)[1]
            return run.returncode, said.decode("utf-8", "replace").strip()
        except subprocess.TimeoutExpired:
            return None, ""
        finally:
            run.kill()


def answer_of(given, status, said, length):
    """What has come of a file, in the words of the report."""
    refusal = re.fullmatch(r"refused (\w+) at (\d+)", said)
    if status is None:
        return {"status": "refused", "reason": "timeout", "bound": given.timeout}
    if said == "write fault" and length == given.most_output:
        return {"status": "refused", "reason": "most-output", "bound": given.most_output}
    if status == 0:
        return {"status": "ok", "bytes": length}
    if status == 1 and refusal:
        return {"status": "refused", "reason": refusal[1], "place": int(refusal[2])}
    return {"status": "failed", "why": said or f"status {status}"}


def convert_one(given, name, out):
    """Converts a file. It may run twice, where a worker is lost, and then writes the same bytes again."""
    path, target = os.path.join(given.source, name), os.path.join(given.dest, out)
    part = f"{target}.{os.uname().nodename}.{os.getpid()}.{time.time_ns()}.part"
    told = {"file": name}
    try:
        if not stat.S_ISREG(os.stat(path).st_mode):
            return {**told, "status": "skipped", "why": "no regular file"}
        # ion reads standard input, since a name may be no UTF-8
        with open(path, "rb", opener=at_once) as stream:
            there = os.fstat(stream.fileno())
            told.update(size=there.st_size, time=there.st_mtime_ns, words=given.words, version=given.version)
            os.makedirs(os.path.dirname(target), exist_ok=True)
            with open(part, "xb") as file:
                status, said = bounded(given, stream, file)
                told.update(answer_of(given, status, said, os.fstat(file.fileno()).st_size))
                if told["status"] == "ok":
                    told.update(out=out)
                    os.fsync(file.fileno())
                    os.rename(part, target)
                else:
                    os.unlink(part)
                    if told["status"] == "refused" and os.path.isfile(target):
                        os.unlink(target)  # of the file as it was before
    except OSError as why:
        told.update(status="failed", why=str(why))
    return told


def convert_some(given, pairs):
    """Converts files, where this machine has the same ion as the one that asks."""
    try:
        found = version_of(given.ion)
    except (OSError, subprocess.SubprocessError) as why:
        found = str(why)
    if found != given.version:
        why = f"on {os.uname().nodename}: {found}, where the job was started: {given.version}"
        return [{"file": name, "status": "failed", "why": why} for name, _ in pairs]
    return [convert_one(given, name, out) for name, out in pairs]


# ---- on the machine that asks


def row_of(line):
    """A line of a report; None where it is no row, as one that was cut when its run was killed."""
    try:
        row = json.loads(line)
    except (ValueError, RecursionError):
        return None
    return row if isinstance(row, dict) and isinstance(row.get("file"), str) else None


def told_before(report):
    """The last row on each file in a report."""
    if not os.path.exists(report):
        return {}
    with open(report, "rb") as lines:
        return {row["file"]: row for row in map(row_of, lines) if row}


def is_cut(report):
    """Whether the last line of a report has no end, since its run was killed."""
    with open(report, "rb") as lines:
        if lines.seek(0, os.SEEK_END) == 0:
            return False
        lines.seek(-1, os.SEEK_END)
        return lines.read() != b"\n"


def files_below(source):
    """The names of all Ion files below a folder."""
    for folder, folders, names in os.walk(source, onerror=fail):
        folders.sort()
        for name in sorted(names):
            if os.path.splitext(name)[1] in ENDINGS.values():
                yield os.path.relpath(os.path.join(folder, name), source)


def fail(why):
    raise why


def is_done(told, given, out):
    """Whether the report has the answer for a file that is as it was, and its result is there."""
    try:
        there = os.stat(os.path.join(given.source, told["file"]))
    except OSError:
        return False
    if told.get("status") == "skipped":
        return not stat.S_ISREG(there.st_mode)
    now = (there.st_size, there.st_mtime_ns, given.words, given.version)
    if tuple(told.get(key) for key in ("size", "time", "words", "version")) != now:
        return False
    if told.get("status") == "refused":
        reason, bound = told.get("reason"), told.get("bound")
        return bound == (given.most_output if reason == "most-output" else given.timeout if reason == "timeout" else None)
    return told.get("status") == "ok" and os.path.isfile(os.path.join(given.dest, out))


def plan(given):
    """What is to be done, as pairs of a file and its name in DEST; and how many files were ok, refused and skipped before."""
    before, taken, todo = told_before(given.report), {}, []
    counts = {"ok": 0, "refused": 0, "failed": 0, "skipped": 0}
    for name in files_below(given.source):
        out = os.path.splitext(name)[0] + ENDINGS[given.to]
        if out in taken:
            sys.stderr.write(f"{taken[out]} and {name} would both become {out}\n")
            sys.exit(2)
        taken[out] = name
        if name in before and is_done(before[name], given, out):
            counts[before[name]["status"]] += 1
        else:
            todo.append((name, out))
    return todo, counts


def sweep(dest):
    """Removes what workers that were killed have left."""
    for folder, _, names in os.walk(dest):
        for name in filter(PART.fullmatch, names):
            os.unlink(os.path.join(folder, name))


class Progress:
    """A line on standard error: over and over at a terminal, and else every ten seconds."""

    def __init__(self, counts, todo):
        self.counts, self.before, self.todo = counts, sum(counts.values()), todo
        self.start = self.shown = time.monotonic()
        self.every, self.end = (0.2, "\r") if sys.stderr.isatty() else (10, "\n")

    def show(self, last=False):
        now = time.monotonic()
        if last or now - self.shown >= self.every:
            done = sum(self.counts.values()) - self.before
            rate = done / max(now - self.start, 0.001)
            told = ", ".join(f"{count} {status}" for status, count in self.counts.items())
            sys.stderr.write(f"{done} of {self.todo}, {rate:.0f} a second; in all {told}" + ("\n" if last else self.end))
            sys.stderr.flush()
            self.shown = now


def cluster(scheduler, workers):
    """A client of the cluster at this address, or of one on this machine."""
    import dask
    from distributed import Client, LocalCluster

    if scheduler:
        return Client(scheduler)
    # a batch that loses its worker again and again is given up, and not others that were on the same worker
    dask.config.set({"distributed.scheduler.allowed-failures": 10})
    return Client(LocalCluster(n_workers=workers, threads_per_worker=1, dashboard_address=None))


def rows_of(future, pairs):
    """The rows of a batch; of one that was given up, since it loses each worker, that it failed."""
    try:
        return future.result()
    except Exception as why:
        return [{"file": name, "status": "failed", "why": f"{type(why).__name__}: {why}"} for name, _ in pairs]


def run_all(client, given, todo, counts):
    """Hands the batches out, and writes the rows of each as it comes back."""
    from distributed import as_completed

    batches = [todo[at:at + given.batch] for at in range(0, len(todo), given.batch)]
    futures = client.map(lambda pairs: convert_some(given, pairs), batches, pure=False)
    pairs_of = dict(zip((future.key for future in futures), batches))
    progress = Progress(counts, len(todo))
    with open(given.report, "ab") as report:
        if is_cut(given.report):
            report.write(b"\n")
        for future in as_completed(futures):
            for row in rows_of(future, pairs_of[future.key]):
                counts[row["status"]] += 1
                report.write(json.dumps(row).encode() + b"\n")
            report.flush()
            future.release()
            progress.show()
    progress.show(last=True)


def count(word):
    """A number from 1 on, for `argparse`."""
    if int(word) < 1:
        raise ValueError(word)
    return int(word)


def arguments():
    words = argparse.ArgumentParser(description=__doc__, formatter_class=argparse.RawDescriptionHelpFormatter)
    words.add_argument("--to", choices=ENDINGS, required=True)
    words.add_argument("--scheduler", metavar="ADDRESS", help="of the cluster; without it workers are started on this machine")
    words.add_argument("--workers", metavar="N", type=count, default=os.cpu_count(), help="how many these are")
    words.add_argument("--ion", metavar="PROGRAM", default="ion")
    words.add_argument("--batch", metavar="N", type=count, default=8, help="files that are handed out together")
    words.add_argument("--most-output", metavar="BYTES", type=count, default=1 << 30, help="of one file; %(default)s if not given")
    words.add_argument("--timeout", metavar="SECONDS", type=count, default=600, help="for one file; %(default)s if not given")
    words.add_argument("--option", metavar="WORD", action="append", default=[],
                       help="a word more for ion convert, as --option=--depth=100")
    for name in ("source", "dest", "report"):
        words.add_argument(name, metavar=name.upper())
    given = words.parse_args()
    given.source, given.dest = os.path.abspath(given.source), os.path.abspath(given.dest)
    if not os.path.isdir(given.source):
        words.error(f"no folder {given.source}")
    if os.path.commonpath([given.source, given.dest]) in (given.source, given.dest):
        words.error("SOURCE and DEST are two folders, neither in the other")
    return given


def convert_all(given):
    """Does what is left to do, and gives the status."""
    todo, counts = plan(given)
    sys.stderr.write(f"{sum(counts.values())} done before, {len(todo)} to do\n")
    if todo:
        with cluster(given.scheduler, given.workers) as client:
            run_all(client, given, todo, counts)
    sweep(given.dest)
    return 3 if counts["failed"] else 1 if counts["refused"] else 0


def main():
    given = arguments()
    given.words = ["--to", given.to, *given.option]
    try:
        given.version = version_of(given.ion)
    except (OSError, subprocess.SubprocessError) as why:
        sys.stderr.write(f"{why}\n")
        return 2
    try:
        return convert_all(given)
    except OSError as why:
        sys.stderr.write(f"{why}\n")
        return 3


if __name__ == "__main__":
    sys.exit(main())
