#!/usr/bin/env python3
"""Makes the table of vectors that the tests of `ion_transcode` run, and shows what must come of each.

usage: make.py YARD                     writes crates/ion_transcode_tests/src/vectors/*.rt
       make.py YARD --check             writes nothing, and fails where a file would change
       make.py YARD --answers WORDS     prints the answers of all inputs of the rows whose sentence has these words
       make.py YARD --beside COMMAND    compares the answers with those of another program that reads the same lines

YARD is the program of bench/yard, built. It was written apart from the crates of this repository and shares nothing
with them, so that what must come of a mangled input is taken from outside. `yard batch` reads a line for each run:
TO DEPTH SCALAR SYMBOLS VALUE FINAL CATALOGUE INPUT, the last two in hexadecimal, `-` where there are no octets.

The source of the table is binary.py, text.py, symbols.py, catalogues.py and floats.py beside this file: for each
sentence of the format, in words of our own, an input that is accepted and one that is refused. For those of floats.py
YARD and COMMAND are given the word --floats. Each input is run whole, and then mangled: cut short at each place, and
with one octet replaced by 00, 7F, 80 or FF. It is written as text, as nothing and as binary each time. The table has
the whole input's verdict and outputs; a checksum over the answers of all mangled inputs; and a mark for each place,
which is the checksum of its inputs' answers, cut to one character, so that a test can name the place where an answer
first differs.

A table is one text, which the tests take apart, since the prover takes a text of any length as one term, and each number,
text and tuple as one more. A line that begins with `~` is a sentence, and each line after it is an input, with `|` after
each field; `%` and two digits are an octet in hexadecimal.
"""
import os
import re
import shutil
import subprocess
import sys

import binary
import catalogues
import floats
import symbols
import text

HERE = os.path.dirname(os.path.abspath(__file__))
CRATE = os.path.join(HERE, "..", "..", "crates", "ion_transcode_tests")
TABLES = os.path.join(CRATE, "src", "vectors")
TARGETS = ("text", "nothing", "binary")
OTHERS = (0x00, 0x7F, 0x80, 0xFF)
KINDS = ("cut short",) + tuple(f"{other:02X}" for other in OTHERS)
# The limits of a run where nothing else is said, and the last profile of the text.
LIMITS = "64 1048576 1048576 16777216 1"
REASONS = ("Truncated BadDescriptor BadVar Overrun BadVersion BadAnnotation BadNumber BadTimestamp Range BadText Float "
           "BadToken BadLob DepthLimit ScalarLimit AnnotationLimit BadSymbol UnknownSymbol BadTable SymbolLimit "
           "ValueLimit SameForm CatalogEntry").split()
# FNV-1a of 64 bits
SEED, PRIME = 0xCBF29CE484222325, 0x100000001B3


class Vector:
    """An input of a sentence, and the catalogue and stream of each of its runs."""

    def __init__(self, table, sentence, octets):
        self.table = table
        self.sentence = sentence
        self.octets = octets

    def mangled(self):
        """The mangled inputs of each place: cut short there, and with another octet there."""
        octets = self.octets
        for at in range(len(octets)):
            yield octets[:at]
            for other in OTHERS:
                yield octets[:at] + bytes([other]) + octets[at + 1:]

    def lines(self):
        """A line of `yard batch` for each run of the whole input and of the mangled ones."""
        for octets in (self.octets, *self.mangled()):
            for target in TARGETS:
                pair = (self.table.other, octets) if self.table.mangles == "stream" else (octets, self.table.other)
                yield f"{target} {LIMITS} {pair[0].hex() or '-'} {pair[1].hex() or '-'}"


class Table:
    """A table of rows: `mangles` says whether its inputs are streams or catalogues, `other` is what stays, `words` what the
    programs are given."""

    def __init__(self, name, title, mangles, other, rows, words):
        self.words = words
        self.name = name
        self.title = title
        self.mangles = mangles
        self.other = other
        self.rows = [(sentence, [Vector(self, sentence, one) for one in inputs]) for sentence, inputs in rows]


def octets_of(written):
    """An input: bytes as they stand, a text, or octets in hexadecimal after `M`, the version marker, or `hex`."""
    if isinstance(written, bytes):
        return written
    words = written.split(" ")
    if words[0] in ("M", "hex") and all(re.fullmatch("[0-9A-F]{2}", word) for word in words[1:]):
        return (binary.MARKER if words[0] == "M" else b"") + bytes.fromhex("".join(words[1:]))
    return written.encode()


def tables():
    for module in (binary, text, symbols, catalogues, floats):
        for name, title, mangles, other, rows in module.TABLES:
            rows = [(row[0], [octets_of(one) for one in row[1:]]) for row in rows]
            yield Table(name, title, mangles, octets_of(other), rows, ["--floats"] if module is floats else [])


def answers_of(command, lines):
    """The program's answer to each line."""
    done = subprocess.run(command, input="\n".join(lines) + "\n", capture_output=True, text=True, check=True)
    answers = done.stdout.split("\n")[:-1]
    if len(answers) != len(lines):
        sys.exit(f"{len(lines)} lines, but {len(answers)} answers")
    return answers


def decided(yard, lines):
    """The yardstick's answers, but for the inputs of which it says otherwise than what stands beside them in text.py."""
    answers = answers_of(yard, lines)
    others = {octets_of(written).hex(): reason for written, reason in text.OTHERWISE.items()}
    for at, line in enumerate(lines):
        reason = others.get(line.rsplit(" ", 1)[1])
        if reason:
            words = answers[at].split(" ")
            answers[at] = " ".join([words[0], reason, *words[2:]])
    return answers


def read(answer):
    """What an answer says: a reason or None, a place or how many values, the form, the output."""
    words = answer.split(" ")
    output = b"" if words[-1] == "-" or words[0] == "catalog" else bytes.fromhex(words[-1])
    if words[0] == "ok":
        return None, int(words[1]), words[2], output
    if words[0] not in ("refused", "catalog") or words[1] not in REASONS:
        sys.exit(f"no answer: {answer}")
    return words[1], int(words[2]), None, output


def put(checksum, octets):
    for octet in octets:
        checksum = (checksum ^ octet) * PRIME % 2 ** 64
    return checksum


def put_answer(checksum, answer):
    """The checksum with an answer: a code (a reason's number, 0 for an accepted text, 255 for binary), then the place
    or how many values, then the output and its length."""
    reason, number, form, output = read(answer)
    code = REASONS.index(reason) + 1 if reason else {"text": 0, "binary": 255}[form]
    checksum = put(checksum, bytes([code]) + number.to_bytes(8, "little"))
    return put(checksum, len(output).to_bytes(8, "little") + output)


def checksums(answers):
    """The checksum of each input's answers, one for each target."""
    step = len(TARGETS)
    for at in range(0, len(answers), step):
        checksum = SEED
        for answer in answers[at:at + step]:
            checksum = put_answer(checksum, answer)
        yield checksum


def folded(sums):
    """The checksum over some checksums."""
    checksum = SEED
    for one in sums:
        checksum = put(checksum, one.to_bytes(8, "little"))
    return checksum


def mark(checksum):
    return chr(ord("#") + checksum % 57)


def constant(name, words):
    """A constant text in which nothing is escaped, as `rt fmt` lays it out."""
    if '"#' in words or not words.isascii() or words.count("~") > words.count("\n~ "):
        sys.exit(f"no raw literal: {words}")
    line = f'pub const {name}: &str = r#"{words}"#;\n'
    return line if "\n" in words or len(line) <= 101 else line.replace(" = ", " =\n    ", 1)


def escaped(octets):
    """Octets as a field has them: what is no sign of ASCII, and `%`, `|`, `#` and `~`, as `%` and two digits."""
    return "".join(chr(one) if 0x20 <= one < 0x7F and chr(one) not in "%|#~" else f"%{one:02X}" for one in octets)


def write_vector(vector, answers):
    """A vector as the table has it: the input, its verdict, what is written of it as text and as binary, the checksum over the
    answers to all mangled inputs, and the marks."""
    shown, checked, converted = (read(answer) for answer in answers[:3])
    if shown[:3] != checked[:3] or checked[3]:
        sys.exit(f"text and nothing differ: {vector.sentence}: {answers[:3]}")
    is_binary = vector.table.mangles == "stream" and vector.octets[:1] == b"\xE0"
    wanted = ("SameForm", 0, None, b"") if is_binary else shown[:3] + (converted[3],)
    if converted != wanted:
        sys.exit(f"text and binary differ: {vector.sentence}: {answers[:3]}")
    reason, number, _form, output = shown
    verdict = f"{reason} {number}" if reason else str(number)
    sums = list(checksums(answers[len(TARGETS):]))
    places = [folded(sums[at:at + len(KINDS)]) for at in range(0, len(sums), len(KINDS))]
    marks = "".join(map(mark, places))
    fields = [escaped(vector.octets), verdict, escaped(output), escaped(converted[3]), f"{folded(places):016X}", marks]
    return "".join(field + "|" for field in fields)


def notes_on(vectors):
    """What a row says of its inputs of which the yardstick says otherwise."""
    inputs = [one for vector in vectors for one in vector.mangled()]
    for written, reason in text.OTHERWISE.items():
        if octets_of(written) in inputs:
            yield f"`{written}` is {reason}, and not what the yardstick says: see tests/vectors/text.py."


def write_table(table, answers):
    """The file of a table."""
    at = 0
    rows = []
    notes = []
    for sentence, vectors in table.rows:
        rows.append(f"~ {sentence}")
        for nth, vector in enumerate(vectors):
            if (answers[at].split(" ")[0] == "ok") != (nth == 0):
                sys.exit(f"the first input, and no other, is accepted: {sentence}: {vector.octets!r}: {answers[at]}")
            count = sum(1 for _ in vector.lines())
            rows.append(write_vector(vector, answers[at:at + count]))
            at += count
        notes += notes_on(vectors)
    head = f"//! {table.title} Written by tests/vectors/make.py.\n\n"
    if table.mangles == "catalogue":
        head += "/// The stream that is run with each catalogue.\n" + constant("STREAM", table.other.decode()) + "\n"
    elif table.name == "symbols_text":
        head += "/// The catalogue of each run.\n" + constant("CATALOGUE", table.other.decode()) + "\n"
    said = "".join(f"// {line}\n" for line in notes)
    return head + said + constant("ROWS", "\n".join(["", *rows, ""]))


def main(words):
    if not words or (len(words) > 1 and words[1] not in ("--check", "--answers", "--beside")):
        print(__doc__)
        return 2
    yard = [words[0], "batch"]
    if words[1:2] == ["--answers"]:
        return show_answers(yard, " ".join(words[2:]))
    count = runs = differ = changed = 0
    for table in tables():
        lines = [line for _, vectors in table.rows for vector in vectors for line in vector.lines()]
        answers = decided(yard + table.words, lines)
        count += sum(len(vectors) for _, vectors in table.rows)
        runs += len(lines)
        if words[1:2] == ["--beside"]:
            differ += compare(lines, answers, answers_of(words[2:] + table.words, lines))
        else:
            changed += write_file(table, answers, words[1:2] == ["--check"])
    if changed and words[1:2] != ["--check"]:
        changed = laid_out(CRATE)
    inputs = runs // len(TARGETS)
    print(f"{count} vectors, {inputs} inputs, {runs} runs" + (f", {differ} answers differ" if "--beside" in words else ""))
    return 1 if differ or changed else 0


def compare(lines, answers, others):
    differ = 0
    for line, answer, other in zip(lines, answers, others):
        if answer != other:
            differ += 1
            print(f"{line}\n  {answer}\n  {other}")
    return differ


def show_answers(yard, words):
    for table in tables():
        for sentence, vectors in table.rows:
            for vector in vectors if words in sentence else []:
                print(f"{sentence}\n{vector.octets!r}")
                answers = decided(yard + table.words, list(vector.lines()))
                inputs = [vector.octets, *vector.mangled()]
                names = ["whole"] + [f"{kind} at {at}" for at in range(len(vector.octets)) for kind in KINDS]
                for at, (name, octets, checksum) in enumerate(zip(names, inputs, checksums(answers))):
                    print(f"  {name}: {octets!r}, {checksum}")
                    for target, answer in zip(TARGETS, answers[at * len(TARGETS):]):
                        reason, number, form, output = read(answer)
                        print(f"    {target}: {reason or 'accepted'} {number} {output!r}")
    return 0


def laid_out(path):
    """Lays out the files of the crate, where the toolchain is there. Fails where that fails."""
    if not shutil.which("rt"):
        print("skipped: rt (the files are not laid out)")
        return 0
    return subprocess.run(["rt", "fmt"], cwd=path, stdout=subprocess.DEVNULL).returncode


def write_file(table, answers, is_check):
    path = os.path.join(TABLES, table.name + ".rt")
    written = write_table(table, answers)
    before = open(path).read() if os.path.exists(path) else ""
    if before == written:
        return 0
    if is_check:
        print(f"{path} would change")
        return 1
    with open(path, "w") as file:
        file.write(written)
    return 1


if __name__ == "__main__":
    sys.exit(main(sys.argv[1:]))
