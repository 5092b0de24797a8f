"""Runs the program by whole command lines and compares the exit status and both streams. `checks/run` calls it; its last
line is `N passed, M failed`.

A row has the words, standard input, and what must come: status, standard output, standard error. Of rows that are alike
a table has what differs, and says it above. The answers are worked out by hand from README.md, docs/TEXT.md, docs/BINARY.md
and docs/REFUSALS.md; what is printed of the command line itself (help, version, wrong words) is as it was seen. Each row
runs in a folder of its own, which has the files below.
"""
import contextlib
import os
import select
import signal
import socket
import struct
import subprocess
import sys
import tempfile
import time
import tty


def binary(octets):
    """A version marker, and these octets after it."""
    return bytes.fromhex("E00100EA" + octets)


MARKER = binary("")
SIX = binary("0F 11 21 05 31 07 2F 10")
LINES = b"null\ntrue\n5\n-7\nnull.int\nfalse\n"
FIVE = binary("21 05")
# a struct in binary, and the line of it
STRUCT = binary("D8 84 B6 21 01 53 C2 80 96")
LINE = b"{name:[1,-1.50]}\n"
# what begins with a whole value, and ends in an open list
CUT = b"5 [6, x"
IMPORT = b'$ion_symbol_table::{imports:[{name:"x",version:1,max_id:2}]} $10 $11'
IMPORT_AND_A = b'$ion_symbol_table::{imports:[{name:"x",version:1,max_id:2}],symbols:["a"]} $12 $10'
# a struct, an empty s-expression and another, as people write them
PRETTY = b"{\n  a: [\n    1,\n    {}\n  ],\n  'b c': x::\"y\\n\"\n}\n()\n(\n  a\n  1d5\n)\n"
# each value after the declaration of its new text
P_AND_Q = bytes.fromhex("EA 81 83 D7 86 71 03 87 B2 81 70 71 0A EA 81 83 D7 86 71 03 87 B2 81 71 71 0B")
FILES = {
    "six.10n": SIX,
    "six.ion": b"null true 5 -7 null.int false",
    "five.10n": FIVE,
    "nested.10n": binary("B3 B2 21 05"),
    "cut.10n": FIVE + b"\x82a",
    "empty": b"",
    "bad.ion": b"1 [2, 3] 4e0",
    "imports.ion": IMPORT,
    "tables.ion": b'$ion_shared_symbol_table::{name:"x",version:1,symbols:["p","q"]}',
    "twice.ion": b'$ion_shared_symbol_table::{name:"x",version:1} $ion_shared_symbol_table::{name:"x"}',
    "notables.ion": b"$ion_shared_symbol_table::{name:5}",
    "limits.ion": b'[1,"abc"] a',
    "-dashed": b"7",
    "of\x1b[2Jdots": b"10",
    "a.ion: ok 3 values\nb.ion": b"11 ]",
    "\u009b2J\u00a0\x7f\\n": b"12",
    "ends in a blank ": b"8",
    "ends in a line\n": b"9",
    "\ttables ": b'$ion_shared_symbol_table::{name:"x",version:1,symbols:["r","s"]}',
    "long.ion": b"1\n" * 69_999 + b"[2] 4e0\n5\n",
}
ALL_FOUR = ["--depth", "1", "--scalar", "3", "--symbols", "17", "--value", "7"]
# [1,"abc"] in binary; then the declaration of `a` and its symbol
WITHIN = MARKER + bytes.fromhex("B6 21 01 83 61 62 63 EA 81 83 D7 86 71 03 87 B2 81 61 71 0A")
TRY = b"\nFor more information, try '--help'.\n"
NO_FORM = b"error: '--to <FORM>' takes text or binary\n" + TRY
PRETTY_ALONE = b"error: '--pretty' needs '--to text'\n" + TRY
REWRITE_ALONE = b"error: '--rewrite' needs '--to binary'\n" + TRY
NO_ONE_FORM = b"error: several files need '--to <FORM>'\n" + TRY
INPUT_TWICE = b"error: the file '-', standard input, cannot be used multiple times\n" + TRY
FLOATS = b"[1e0, 1.0e0, -0e0, 6.02214076e23, 5e-324, 1.7976931348623157e308, nan, +inf, -inf, 0.1e0, 1e400]"
SHOWN_FLOATS = b"[1e0,1e0,-0e0,6.02214076e23,5e-324,1.7976931348623157e308,nan,+inf,-inf,1e-1"
# After a NOP pad an int with a zero octet before it, and a struct with its fields in order.
PADDED = MARKER + bytes.fromhex("01 FF 22 00 05 D1 82 84 11")
# Seconds that a row may take, which takes some milliseconds.
PATIENCE = 60

ROWS = [
    ("no words", "", b"{a: 1, b: [2.50]}", 0, b"{a:1,b:[2.50]}\n", b""),
    ("show, standard input", "show", b"1 2", 0, b"1\n2\n", b""),
    ("show -", "show -", b"1 2", 0, b"1\n2\n", b""),
    ("show, a binary file", "show six.10n", b"not read", 0, LINES, b""),
    ("show, a text file", "show six.ion", b"", 0, LINES, b""),
    ("show, an empty file", "show empty", b"", 0, b"", b""),
    ("show, after --", "show -- -dashed", b"", 0, b"7\n", b""),
    ("a name that ends in a blank", ["show", "ends in a blank "], b"", 0, b"8\n", b""),
    ("a name that ends in a line's end", ["show", "ends in a line\n"], b"", 0, b"9\n", b""),
    ("a catalogue's name in blanks", ["show", "--catalog", "\ttables ", "imports.ion"], b"", 0, b"r\ns\n", b""),
    ("a name of two lines that is not there", ["show", "a\nb: read fault\r\\"], b"", 3, b"",
     b"cannot open a\\nb: read fault\\r\\\\: No such file or directory\n"),
    ("a catalogue's name of controls that is not there", ["show", "--catalog", "\t\u0080\u009f", "five.10n"], b"", 3, b"",
     b"cannot open \\t\\xc2\\x80\\xc2\\x9f: No such file or directory\n"),
    ("controls in the place of a command", ["\t\u009b2J\u00a0"], b"", 2, b"",
     b"error: unrecognized subcommand '\\t\\xc2\\x9b2J\xc2\xa0'\n\n  tip: to show a file, use 'ion show \\t\\xc2\\x9b2J\xc2\xa0'\n\n"
     b"Usage: ion <show|check|convert> [OPTIONS] [FILE]...\n       as in: ion show data.ion\n" + TRY),
    ("a line's end in the place of a command", ["a'\n\\"], b"", 2, b"",
     b"error: unrecognized subcommand 'a'\\n\\\\'\n\n  tip: to show a file, use 'ion show a'\\n\\\\'\n\n"
     b"Usage: ion <show|check|convert> [OPTIONS] [FILE]...\n       as in: ion show data.ion\n" + TRY),
    ("a line's end in the number of an option", ["show", "--depth=1\n"], b"", 2, b"",
     b"error: invalid value '1\\n' for '--depth <N>': invalid digit found in string\n" + TRY),
    ("a name that is not there with a blank", ["show", "five.10n "], b"", 3, b"", b"cannot open five.10n : No such file or directory\n"),
    ("check, standard input", "check", b"1 2", 0, b"ok 2 values\n", b""),
    ("check -", "check -", SIX, 0, b"ok 6 values\n", b""),
    ("check, a file", "check six.10n", b"", 0, b"ok 6 values\n", b""),
    ("convert, standard input", "convert", b"5", 0, MARKER + b"\x21\x05", b""),
    ("convert -, binary", "convert -", SIX, 0, LINES, b""),
    ("convert, a text file", "convert six.ion", b"", 0, SIX, b""),
    ("convert, a binary file", "convert six.10n", b"", 0, LINES, b""),
    ("to text, of text", "convert --to text six.ion", b"", 0, LINES, b""),
    ("to text, of binary", "convert --to text -", SIX, 0, LINES, b""),
    ("to binary, of text", "convert --to binary six.ion", b"", 0, SIX, b""),
    ("to binary, of binary", "convert --to binary six.10n", b"", 1, b"", b"refused SameForm at 0\n"),
    ("the same, by =", "convert --to=binary", SIX + b"\xff", 1, b"", b"refused SameForm at 0\n"),
    ("to binary, of binary, written again", "convert --to binary --rewrite six.10n", b"", 0, SIX, b""),
    ("canonical binary of other binary", "convert --rewrite --to=binary", PADDED, 0, MARKER + b"\x21\x05\xD2\x84\x11", b""),
    ("to binary, of text, by the same words", "convert --to binary --rewrite -", LINES, 0, SIX, b""),
    ("binary written again, to its fault", "convert --to binary --rewrite", PADDED + b"\x31\x00", 1, MARKER + b"\x21\x05\xD2\x84\x11",
     b"refused BadNumber at 13\n"),
    ("floats in binary, written again", "convert --floats --to binary --rewrite", MARKER + b"\x40", 0, MARKER + b"\x40", b""),
    ("to binary, of nothing", "convert --to binary empty", b"", 0, MARKER, b""),
    ("to text, with a catalogue", "convert --catalog tables.ion --to text imports.ion", b"", 0, b"p\nq\n", b""),
    ("show with a catalogue", "show --catalog tables.ion imports.ion", b"", 0, b"p\nq\n", b""),
    ("check with a catalogue", "check --catalog tables.ion", IMPORT, 0, b"ok 2 values\n", b""),
    ("convert with a catalogue", "convert --catalog=tables.ion -", IMPORT, 0, MARKER + P_AND_Q, b""),
    ("floats", "show --floats", FLOATS, 1, SHOWN_FLOATS, b"refused Range at 90\n"),
    ("floats without the option", "show", b"1 [null.float, 2e0]", 1, b"1\n[null.float", b"refused Float at 15\n"),
    ("floats, checked", "check --floats -", b"1e0 nan", 0, b"ok 2 values\n", b""),
    ("floats, to binary", "convert --floats", b"0e0 -1.5e0 0.1", 0, MARKER + bytes.fromhex("40 44bfc00000 52c101"), b""),
    ("floats, from binary", "convert --floats -", MARKER + bytes.fromhex("48 3fb999999999999a"), 0, b"1e-1\n", b""),
    ("pretty text", "show --pretty", b"{a:[1,{}],'b c':x::\"y\\n\"} () (a 1d5)", 0, PRETTY, b""),
    ("pretty text by its form", "convert --pretty --to text", b"{a:[1,{}],'b c':x::\"y\\n\"} () (a 1d5)", 0, PRETTY, b""),
    ("pretty text of a refused stream", "show --pretty -", b"[1,{a:2 3", 1, b"[\n  1,\n  {\n    a: 2", b"refused BadToken at 8\n"),
    ("pretty text of floats", "show --floats --pretty", b"[1e0]", 0, b"[\n  1e0\n]\n", b""),
    ("show without a catalogue", "show imports.ion", b"", 1, b"", b"refused UnknownSymbol at 61\n"),
    ("a catalogue that is none", "show --catalog notables.ion six.ion", b"", 1, b"", b"catalog refused CatalogEntry at 0\n"),
    ("a catalogue past its limit", "show --symbols 33 --catalog tables.ion six.ion", b"", 1, b"", b"catalog refused SymbolLimit at 55\n"),
    ("a catalogue that is not there", "check --catalog nowhere.ion six.ion", b"", 3, b"", b"cannot open nowhere.ion: No such file or directory\n"),
    ("all four limits, ten words", "convert --depth 1 --scalar 3 --symbols 17 --value 7 limits.ion", b"", 0, WITHIN, b""),
    ("the same, by =", "convert --depth=1 --scalar=3 --symbols=17 --value=7", FILES["limits.ion"], 0, WITHIN, b""),
    ("all four limits, to text", ["show", *ALL_FOUR], FILES["limits.ion"], 0, b'[1,"abc"]\na\n', b""),
    ("all four limits, checked", ["check", *ALL_FOUR, "-"], FILES["limits.ion"], 0, b"ok 2 values\n", b""),
    ("all four and a catalogue, twelve words", ["convert", "--catalog", "empty", *ALL_FOUR, "limits.ion"], b"", 0, WITHIN, b""),
    ("limits of nothing", "check --depth 0 --scalar 0 --symbols 0 --value 0 empty", b"", 0, b"ok 0 values\n", b""),
    ("a scalar past nothing", "check --scalar 0 five.10n", b"", 1, b"", b"refused ScalarLimit at 4\n"),
    ("too deep", ["convert", *ALL_FOUR], b"[[1]]", 1, MARKER, b"refused DepthLimit at 1\n"),
    ("too long a scalar", ["convert", *ALL_FOUR], b'1 "abcd"', 1, MARKER + b"\x21\x01", b"refused ScalarLimit at 2\n"),
    ("too many symbols", ["convert", *ALL_FOUR], b"[a,b]", 1, MARKER, b"refused SymbolLimit at 3\n"),
    ("too long a value", ["convert", *ALL_FOUR], b'["abc",12,3]', 1, MARKER, b"refused ValueLimit at 0\n"),
    ("a refusal, shown", "show bad.ion", b"", 1, b"1\n[2,3]\n", b"refused Float at 9\n"),
    ("a refusal, checked", "check", FILES["bad.ion"], 1, b"", b"refused Float at 9\n"),
    ("a refusal, converted", "convert -", FILES["bad.ion"], 1, MARKER + bytes.fromhex("21 01 B4 21 02 21 03"), b"refused Float at 9\n"),
    ("a refusal in a container", "show", b"[1, 2", 1, b"[1,2", b"refused Truncated at 5\n"),
    ("no such file", "show nowhere.ion", b"1", 3, b"", b"cannot open nowhere.ion: No such file or directory\n"),
    ("a folder", "check .", b"", 3, b"", b"read fault\n"),
    ("a folder as a catalogue", "show --catalog . five.10n", b"", 3, b"", b"read fault\n"),
    ("a folder, with a catalogue", "check --catalog empty .", b"", 3, b"", b"read fault\n"),
    ("a folder after a catalogue that is none", "show --catalog five.10n .", b"", 1, b"", b"catalog refused CatalogEntry at 4\n"),
    ("--version", "--version", b"", 0, b"ion 0.2.0, canonical text 2\n", b""),
    ("--version, over an input", "--version", IMPORT_AND_A, 0, b"ion 0.2.0, canonical text 2\n", b""),
    ("no such command", "frobnicate", b"1", 2, b"",
     b"error: unrecognized subcommand 'frobnicate'\n\n  tip: to show a file, use 'ion show frobnicate'\n\nUsage: ion <show|check|convert> [OPTIONS] [FILE]...\n"
     b"       as in: ion show data.ion\n" + TRY),
    ("a file in the place of a command", "six.ion", b"1", 2, b"",
     b"error: unrecognized subcommand 'six.ion'\n\n  tip: to show a file, use 'ion show six.ion'\n\n"
     b"Usage: ion <show|check|convert> [OPTIONS] [FILE]...\n       as in: ion show data.ion\n" + TRY),
    ("several files to their other forms", "convert six.ion six.10n", b"", 2, b"", NO_ONE_FORM),
    ("one file twice to its other form", "convert six.ion six.ion", b"", 2, b"", NO_ONE_FORM),
    ("standard input twice to its other form", "convert - -", b"1", 2, b"", NO_ONE_FORM),
    ("standard input twice", "check - -", b"1", 2, b"", INPUT_TWICE),
    ("standard input twice among files", "show --pretty - five.10n -", b"1", 2, b"", INPUT_TWICE),
    ("standard input twice, after --", "convert --to text -- - -", b"1", 2, b"", INPUT_TWICE),
    ("a limit without a number", "check --depth", b"1", 2, b"",
     b"error: a value is required for '--depth <N>' but none was supplied\n" + TRY),
    ("a limit that is no number", "check --scalar x", b"1", 2, b"",
     b"error: invalid value 'x' for '--scalar <N>': invalid digit found in string\n" + TRY),
    ("a limit past its maximum", "show --depth 65536", b"1", 2, b"",
     b"error: invalid value '65536' for '--depth <N>': 65536 is not in 0..=65535\n" + TRY),
    ("a form that is none", "convert --to ion six.ion", b"", 2, b"", NO_FORM),
    ("a form that is none, with both flags", "convert --to ion --pretty --rewrite", b"", 2, b"", NO_FORM),
    ("pretty text without its form", "convert --pretty six.ion", b"", 2, b"", PRETTY_ALONE),
    ("pretty text of several files without its form", "convert --pretty six.ion six.10n", b"", 2, b"", PRETTY_ALONE),
    ("pretty binary", "convert --pretty --to binary six.ion", b"", 2, b"", PRETTY_ALONE),
    ("pretty binary, written again", "convert --rewrite --pretty --to binary six.10n", b"", 2, b"", PRETTY_ALONE),
    ("binary written again without its form", "convert --rewrite six.10n", b"", 2, b"", REWRITE_ALONE),
    ("text written again", "convert --rewrite --to text six.10n", b"", 2, b"", REWRITE_ALONE),
    ("pretty text written again", "convert --rewrite --pretty --to text six.10n", b"", 2, b"", REWRITE_ALONE),
    ("no form", "convert --to", b"", 2, b"", b"error: a value is required for '--to <FORM>' but none was supplied\n" + TRY),
    ("a form to show", "show --to text six.ion", b"", 2, b"",
     b"error: unexpected argument '--to' found\n\n  tip: to pass '--to' as a value, use '-- --to'\n\n"
     b"Usage: ion show [OPTIONS] [FILE]...\n" + TRY),
    ("a form to check", "check --to binary", b"1", 2, b"",
     b"error: unexpected argument '--to' found\n\n  tip: to pass '--to' as a value, use '-- --to'\n\n"
     b"Usage: ion check [OPTIONS] [FILE]...\n" + TRY),
    ("a limit twice", "show --depth 1 --depth 2", b"1", 2, b"",
     b"error: the argument '--depth <N>' cannot be used multiple times\n\nUsage: ion show [OPTIONS] [FILE]...\n" + TRY),
    ("no such option", "convert --xyz six.ion", b"", 2, b"",
     b"error: unexpected argument '--xyz' found\n\n  tip: to pass '--xyz' as a value, use '-- --xyz'\n\n"
     b"Usage: ion convert [OPTIONS] [FILE]...\n" + TRY),
]

# A stream, and what no words and `show` answer to it: status and both streams; then what `check` writes.
SHOWN = [
    (b"", 0, b"", b"", b"ok 0 values\n"),
    (SIX, 0, LINES, b"", b"ok 6 values\n"),
    (binary("D5 80 01 FF 84 11"), 0, b"{name:true}\n", b"", b"ok 1 values\n"),
    (binary("EA 81 83 D7 87 B2 81 61 86 71 03 EA 81 83 D7 87 B2 81 62 86 71 03 71 0A 71 0B"), 0, b"a\nb\n", b"", b"ok 2 values\n"),
    (binary("21 05 82 61"), 1, b"5\n", b"refused Truncated at 6\n", b""),
    (binary("71 0A"), 1, b"", b"refused BadSymbol at 4\n", b""),
    (binary("B1 B1 21"), 1, b"[", b"refused Overrun at 5\n", b""),
    (b"5 [a,", 1, b"5\n[a", b"refused Truncated at 5\n", b""),
]
# A stream, and what `convert` answers to it: what is not whole at top level is not written as binary.
CONVERTED = [
    (b"", 0, MARKER, b""),
    (b"{name: [1, -1.50]}", 0, STRUCT, b""),
    (b"a a", 0, binary("EA 81 83 D7 86 71 03 87 B2 81 61 71 0A 71 0A"), b""),
    (CUT, 1, FIVE, b"refused Truncated at 7\n"),
    (binary("71 04 21 05"), 0, b"name\n5\n", b""),
    (binary("B3 21 05 40"), 1, b"[5", b"refused Float at 7\n"),
]
# Decimals after a version marker, and how `show` writes them: with a point where the exponent is from 0 down to -38.
DECIMALS = [
    ("52 C1 0F", b"1.5\n"),
    ("52 C3 05", b"0.005\n"),
    ("52 80 80", b"-0.\n"),
    ("50", b"0.\n"),
    ("51 C2", b"0.00\n"),
    ("52 81 0F", b"15d1\n"),
    ("52 E7 01", b"1d-39\n"),
    ("C8 52 80 0F 52 80 80 71 04", b"(15. -0. name)\n"),
    ("5E 92 E6 00" + "FF" * 16, b"3.40282366920938463463374607431768211455\n"),
]
# Words that name a form, over standard input, over a file and with a catalogue.
FORMED = [
    ("convert --to text", b"{name: [1, -1.50]}", 0, LINE, b""),
    ("convert --to binary", LINE, 0, STRUCT, b""),
    ("convert --to=text -", STRUCT, 0, LINE, b""),
    ("convert --to=binary", STRUCT, 1, b"", b"refused SameForm at 0\n"),
    ("convert --to binary nested.10n", LINE, 1, b"", b"refused SameForm at 0\n"),
    ("convert --to binary --rewrite", STRUCT, 0, STRUCT, b""),
    ("convert --catalog tables.ion --to text", IMPORT_AND_A, 0, b"a\np\n", b""),
    ("convert --to binary", CUT, 1, FIVE, b"refused Truncated at 7\n"),
]
# Words that name a file, with limits and without.
FILED = [
    ("show five.10n", b"", 0, b"5\n", b""),
    ("show nested.10n", b"", 0, b"[[5]]\n", b""),
    ("check nested.10n", b"", 0, b"ok 1 values\n", b""),
    ("show --depth 2 nested.10n", b"", 0, b"[[5]]\n", b""),
    ("show --depth 1 nested.10n", b"", 1, b"[", b"refused DepthLimit at 5\n"),
    ("check --depth=0 nested.10n", b"", 1, b"", b"refused DepthLimit at 4\n"),
    ("show --scalar 0 nested.10n", b"", 1, b"[[", b"refused ScalarLimit at 6\n"),
    ("show cut.10n", b"\xE0", 1, b"5\n", b"refused Truncated at 6\n"),
    ("show other", b"", 3, b"", b"cannot open other: No such file or directory\n"),
    ("show other.10n", b"\xE0", 3, b"", b"cannot open other.10n: No such file or directory\n"),
]
# Words that name several files: what each has alone, one after another, with its name before its lines; the status is the greatest.
NOWHERE = b"cannot open nowhere.ion: No such file or directory\n"
SEVERAL = [
    ("show five.10n six.ion", b"not read", 0, b"5\n" + LINES, b""),
    ("show five.10n bad.ion six.ion", b"", 1, b"5\n1\n[2,3]\n" + LINES, b"bad.ion: refused Float at 9\n"),
    ("show cut.10n nowhere.ion five.10n", b"", 3, b"5\n5\n", b"cut.10n: refused Truncated at 6\n" + NOWHERE),
    ("show nowhere.ion bad.ion", b"", 3, b"1\n[2,3]\n", NOWHERE + b"bad.ion: refused Float at 9\n"),
    ("show --depth 1 nested.10n five.10n", b"", 1, b"[5\n", b"nested.10n: refused DepthLimit at 5\n"),
    ("check five.10n six.ion", b"", 0, b"five.10n: ok 1 values\nsix.ion: ok 6 values\n", b""),
    ("check six.ion --floats bad.ion -", b"1 2 3", 0, b"six.ion: ok 6 values\nbad.ion: ok 3 values\n-: ok 3 values\n", b""),
    ("check six.ion bad.ion empty", b"", 1, b"six.ion: ok 6 values\nempty: ok 0 values\n", b"bad.ion: refused Float at 9\n"),
    ("check nowhere.ion nowhere.ion", b"", 3, b"", NOWHERE + NOWHERE),
    ("check five.10n five.10n", b"", 0, b"five.10n: ok 1 values\n" * 2, b""),
    ("check ./- -", b"1", 3, b"-: ok 1 values\n", b"cannot open ./-: No such file or directory\n"),
    ("check . five.10n", b"", 3, b"five.10n: ok 1 values\n", b".: read fault\n"),
    ("check -- -dashed five.10n", b"", 0, b"-dashed: ok 1 values\nfive.10n: ok 1 values\n", b""),
    ("convert --to text five.10n - six.ion", b"[7, x]", 0, b"5\n[7,x]\n" + LINES, b""),
    ("show --pretty nested.10n bad.ion five.10n", b"", 1, b"[\n  [\n    5\n  ]\n]\n1\n[\n  2,\n  3\n]\n5\n", b"bad.ion: refused Float at 9\n"),
    ("convert --to text --pretty five.10n nested.10n", b"", 0, b"5\n[\n  [\n    5\n  ]\n]\n", b""),
    ("convert --to binary six.ion - empty", b"5", 0, SIX + FIVE + MARKER, b""),
    ("convert --to binary --rewrite six.ion five.10n", b"", 0, SIX + FIVE, b""),
    ("convert --to binary six.ion five.10n -", b"[1, 2", 1, SIX + MARKER, b"five.10n: refused SameForm at 0\n-: refused Truncated at 5\n"),
    ("show -", SIX + FIVE + MARKER, 0, LINES + b"5\n", b""),
    ("show --catalog tables.ion imports.ion imports.ion", b"", 0, b"p\nq\np\nq\n", b""),
    ("show --catalog nowhere.ion six.ion five.10n", b"", 3, b"", NOWHERE),
    ("show --catalog notables.ion six.ion five.10n", b"", 1, b"", b"catalog refused CatalogEntry at 0\n"),
    (["check", "five.10n", "of\x1b[2Jdots"], b"", 0, b"five.10n: ok 1 values\nof\\x1b[2Jdots: ok 1 values\n", b""),
    (["check", "empty", "\u009b2J\u00a0\x7f\\n"], b"", 0, b"empty: ok 0 values\n\\xc2\\x9b2J\xc2\xa0\\x7f\\\\n: ok 1 values\n", b""),
    (["check", "a.ion: ok 3 values\nb.ion", "ends in a line\n"], b"", 1, b"ends in a line\\n: ok 1 values\n",
     b"a.ion: ok 3 values\\nb.ion: refused BadToken at 3\n"),
]
# With `--lines` a refusal of a text says the line and the column too.
MANY = 65_536
LINED = [
    ("check --lines", b"]", 1, b"", b"refused BadToken at 0 (line 1, column 1)\n"),
    ("check --lines -", b"1 4e0", 1, b"", b"refused Float at 2 (line 1, column 3)\n"),
    ("show --lines", b"1\n2\n 4e0", 1, b"1\n2\n", b"refused Float at 5 (line 3, column 2)\n"),
    ("show --lines", b"1\r\n2\r\n 4e0", 1, b"1\n2\n", b"refused Float at 7 (line 3, column 2)\n"),
    ("show --lines", b"1\r2\r 4e0", 1, b"1\n2\n", b"refused Float at 5 (line 1, column 6)\n"),
    ("check --lines", b"[1,\n", 1, b"", b"refused Truncated at 4 (line 2, column 1)\n"),
    ("check --lines", b'"\xc3\xa9" ]', 1, b"", b"refused BadToken at 5 (line 1, column 6)\n"),
    ("check --lines", b" " * 4095 + b"\n]", 1, b"", b"refused BadToken at 4096 (line 2, column 1)\n"),
    ("convert --lines bad.ion", b"", 1, MARKER + bytes.fromhex("21 01 B4 21 02 21 03"), b"refused Float at 9 (line 1, column 10)\n"),
    ("show --lines six.ion", b"", 0, LINES, b""),
    ("check --lines", b"1 2", 0, b"ok 2 values\n", b""),
    ("check --lines long.ion", b"", 1, b"", b"refused Float at 140002 (line 70000, column 5)\n"),
    ("check --lines", FILES["long.ion"], 1, b"", b"refused Float at 140002 (line 70000, column 5)\n"),
    ("check long.ion", b"", 1, b"", b"refused Float at 140002\n"),
    ("check --lines cut.10n", b"", 1, b"", b"refused Truncated at 6\n"),
    ("convert --lines --to binary", SIX, 1, b"", b"refused SameForm at 0\n"),
    ("check --lines six.ion bad.ion cut.10n -", b"1\n2\n]", 1, b"six.ion: ok 6 values\n",
     b"bad.ion: refused Float at 9 (line 1, column 10)\ncut.10n: refused Truncated at 6\n-: refused BadToken at 4 (line 3, column 1)\n"),
    ("show --lines nowhere.ion", b"", 3, b"", NOWHERE),
    ("show --lines --catalog notables.ion six.ion", b"", 1, b"", b"catalog refused CatalogEntry at 0\n"),
    # the value is refused as too long once its second member is read, so many ends of lines after its beginning
    ("convert --lines --to binary --value 3", b"0\n[1" + b"\n" * (MANY - 1) + b",2]", 1, MARKER + b"\x20", b"refused ValueLimit at 2 (line 2, column 1)\n"),
    ("convert --lines --to binary --value 3", b"0\n[1" + b"\n" * MANY + b",2]", 1, MARKER + b"\x20", b"refused ValueLimit at 2\n"),
]
# Words that name a catalogue, and the same stream without one.
CATALOGUED = [
    ("show --catalog tables.ion", IMPORT_AND_A, 0, b"a\np\n", b""),
    ("check --catalog tables.ion -", IMPORT_AND_A, 0, b"ok 2 values\n", b""),
    ("show --catalog tables.ion nested.10n", IMPORT_AND_A, 0, b"[[5]]\n", b""),
    ("show", IMPORT_AND_A, 1, b"a\n", b"refused UnknownSymbol at 79\n"),
    ("show --catalog twice.ion nested.10n", IMPORT_AND_A, 1, b"", b"catalog refused CatalogEntry at 47\n"),
    ("show --catalog other nested.10n", IMPORT_AND_A, 3, b"", b"cannot open other: No such file or directory\n"),
    ("show --catalog tables.ion other", IMPORT_AND_A, 3, b"", b"cannot open other: No such file or directory\n"),
    ("show --catalog empty five.10n", b"", 0, b"5\n", b""),
]
# Words that ask for help, how it begins, and an example that it has.
HELPED = [
    ("--help", b"Shows", b"ion show data.ion"),
    ("--help", b"Shows", b"ion check < data.10n"),
    ("--help", b"Shows", b"ion convert data.ion > data.10n"),
    ("--help", b"Shows", b"has a float is refused"),
    ("--help", b"Shows", b"JSON is read too; its numbers with an exponent"),
    ("-h", b"Shows", b"ion show data.ion"),
    ("help", b"Shows", b"ion show data.ion"),
    ("show --help", b"Writes", b"ion show data.ion"),
    ("help show", b"Writes", b"ion show data.ion"),
    ("check --help", b"Reads", b"ion check < data.10n"),
    ("convert --help", b"Writes", b"ion convert --to binary data.ion > data.10n"),
]
# Words that are refused with status 2, as some of ROWS are; of what these print the first word alone is compared.
USAGE = [
    "show --floats=1 six.ion",
    "show --lines=1 six.ion",
    "x",
    "write",
    "--",
    "--depth 3",
    "help x",
    "show --depth 65536",
    "show --scalar x",
    "show --to text",
    "check --to binary",
    "check --pretty six.ion",
    "show --rewrite six.10n",
    "convert --to text --to text",
]
# Words, what standard input gives before a read of it fails, and what is written before `read fault`.
INPUT_FAILS = [
    ("", FIVE, b"5\n"),
    ("show", FIVE, b"5\n"),
    ("show", MARKER, b""),
    ("show", b"5 [6,", b"5\n[6"),
    ("check -", FIVE, b""),
    ("check --catalog empty", FIVE, b""),
    ("convert", FIVE, b"5\n"),
    ("convert --to binary", b"5 [6,", FIVE),
]
# Where it is the file FAILS that cannot be read, by which the words name the stream or the catalogue.
FILE_FAILS = [
    ("show FAILS", FIVE, b"5\n"),
    ("show FAILS", MARKER, b""),
    ("check --catalog empty FAILS", FIVE, b""),
    ("show --catalog FAILS five.10n", MARKER, b""),
    ("show --catalog FAILS five.10n", FILES["tables.ion"], b""),
]
# Words, standard input, and what a terminal shows where both streams go to it: a message begins a line of its own.
ON_A_TERMINAL = [
    ("show", b"{a:1, b:4e0}", b"{a:1\nrefused Float at 8\n"),
    ("show", b"5 4e0", b"5\nrefused Float at 2\n"),
    ("check", b"[4e0", b"refused Float at 1\n"),
    ("convert --to text --depth 1", b"[[", b"[\nrefused DepthLimit at 1\n"),
]
# Words with a file whose first read fails.
NOT_READ = [
    "show /proc/self/mem",
    "check --catalog empty /proc/self/mem",
    "convert /proc/self/mem",
    "show --catalog /proc/self/mem five.10n",
]


def compared_whole():
    """The rows of ROWS and of the tables whose answers are compared whole."""
    yield from ROWS
    for given, status, out, errors, count in SHOWN:
        yield "shown without words", "", given, status, out, errors
        yield "shown", "show", given, status, out, errors
        yield "checked", "check", given, status, count, errors
    for given, status, out, errors in CONVERTED:
        yield "converted", "convert", given, status, out, errors
    for octets, out in DECIMALS:
        yield "a decimal", "show", binary(octets), 0, out, b""
    for row in FORMED:
        yield "a form that is named", *row
    for row in FILED:
        yield "a file", *row
    for row in SEVERAL:
        yield "several files", *row
    for row in LINED:
        yield "line and column", *row
    for row in CATALOGUED:
        yield "a catalogue", *row


@contextlib.contextmanager
def folder_of_files():
    """A folder that has FILES."""
    with tempfile.TemporaryDirectory() as folder:
        for file, content in FILES.items():
            with open(os.path.join(folder, file), "wb") as made:
                made.write(content)
        yield folder


def answer(program, words, **given):
    """Status and both streams; the words are a line, or a list of them."""
    words = words.split() if isinstance(words, str) else words
    with folder_of_files() as folder:
        done = subprocess.run([program, *words], cwd=folder, capture_output=True, timeout=PATIENCE, **given)
    return done.returncode, done.stdout, done.stderr


def told(is_right, name, words, wanted, got):
    """What is wrong with an answer, or nothing."""
    words = words if isinstance(words, str) else " ".join(words)
    return None if is_right else f"FAILED {name}: ion {words}\n  wanted: {wanted}\n  got:    {got}"


def run_row(program, row):
    """An answer that is compared whole."""
    name, words, given, *wanted = row
    got = answer(program, words, input=given)
    return told(got == tuple(wanted), f"{name}, over {given}", words, tuple(wanted), got)


def run_helped(program, row):
    """Help on standard output."""
    words, begins, example = row
    status, out, errors = got = answer(program, words, input=b"")
    is_right = (status, errors) == (0, b"") and out.startswith(begins) and b"Usage: ion" in out and example in out
    return told(is_right, "help", words, row, got)


def run_usage(program, words):
    """Why the words are refused, on standard error."""
    status, out, errors = got = answer(program, words, input=b"")
    return told((status, out) == (2, b"") and errors.startswith(b"error: "), "refused words", words, "error: ..", got)


def has_terminals():
    """Whether a terminal can be made here, and opened by its name, and a process be looked at."""
    try:
        master, slave = os.openpty()
        is_named = os.path.exists(os.ttyname(slave))
    except OSError:
        return False
    os.close(master)
    os.close(slave)
    return is_named and os.path.exists("/proc/self/stat")


def run_where_input_fails(program, row):
    """Standard input is one end of a terminal, whose other end was closed after what it wrote."""
    words, given, out = row
    master, slave = os.openpty()
    tty.setraw(slave)
    os.write(slave, given)
    os.close(slave)
    got = answer(program, words, stdin=master)
    os.close(master)
    return told(got == (3, out, b"read fault\n"), f"standard input fails after {given}", words, (3, out), got)


def run_on_a_terminal(program, row):
    """Both streams go to a terminal."""
    words, given, wanted = row
    master, slave = os.openpty()
    tty.setraw(slave)
    done = subprocess.run([program, *words.split()], input=given, stdout=slave, stderr=slave, timeout=PATIENCE)
    os.close(slave)
    got = done.returncode, os.read(master, 65_536)
    os.close(master)
    return told(got == (1, wanted), f"on a terminal, of {given}", words, (1, wanted), got)


def run_beside_a_terminal(program):
    """Messages alone go to a terminal: no line is added."""
    master, slave = os.openpty()
    tty.setraw(slave)
    pipe = subprocess.PIPE
    done = subprocess.run([program, "show"], input=b"{a:1, b:4e0}", stdout=pipe, stderr=slave, timeout=PATIENCE)
    os.close(slave)
    got = done.stdout, os.read(master, 65_536)
    os.close(master)
    wanted = b"{a:1", b"refused Float at 8\n"
    return told(got == wanted, "messages on a terminal", "show", wanted, got)


def sleeps(process):
    """Whether it waits for an event, as in a read."""
    with open(f"/proc/{process.pid}/stat", encoding="utf-8", errors="replace") as stat:
        return stat.read().rpartition(")")[2].split()[0] == "S"


def run_where_a_file_fails(program, row):
    """FAILS is one end of a terminal, whose other end is closed when the program has read all and waits for more."""
    words, given, out = row
    master, slave = os.openpty()
    tty.setraw(slave)
    os.write(master, given)
    select.select([slave], [], [], PATIENCE)
    asked = [os.ttyname(slave) if word == "FAILS" else word for word in words.split()]
    with folder_of_files() as folder:
        pipe = subprocess.PIPE
        process = subprocess.Popen([program, *asked], cwd=folder, stdin=subprocess.DEVNULL, stdout=pipe, stderr=pipe)
        end = time.monotonic() + PATIENCE
        while process.poll() is None and time.monotonic() < end:
            if not select.select([slave], [], [], 0)[0] and sleeps(process):
                break
            time.sleep(0.001)
        os.close(master)
        os.close(slave)
        try:
            wrote, errors = process.communicate(timeout=PATIENCE)
        finally:
            process.kill()
    got = process.returncode, wrote, errors
    return told(got == (3, out, b"read fault\n"), f"a file fails after {given}", words, (3, out), got)


def stopped_and_continued(process):
    """Stops the process where it waits, and has it go on."""
    end = time.monotonic() + PATIENCE
    while not sleeps(process) and time.monotonic() < end:
        time.sleep(0.001)
    process.send_signal(signal.SIGSTOP)
    os.waitpid(process.pid, os.WUNTRACED)
    process.send_signal(signal.SIGCONT)


def with_time_limit(option):
    """Both ends of a socket; a call on the second that waits ends with EINTR where the process was stopped, as `signal(7)` says."""
    ours, its = socket.socketpair()
    its.setsockopt(socket.SOL_SOCKET, option, struct.pack("ll", PATIENCE, 0))
    return ours, its


def run_read_interrupted(program):
    """A signal interrupts a read of standard input."""
    ours, its = with_time_limit(socket.SO_RCVTIMEO)
    pipe = subprocess.PIPE
    with ours, subprocess.Popen([program, "show"], stdin=its, stdout=pipe, stderr=pipe) as process:
        its.close()
        ours.sendall(b"5 ")
        first = process.stdout.readline()
        stopped_and_continued(process)
        with contextlib.suppress(OSError):  # where it ended
            ours.sendall(b"6 ")
            ours.shutdown(socket.SHUT_WR)
        out, errors = process.communicate(timeout=PATIENCE)
    got = process.returncode, first + out, errors
    return told(got == (0, b"5\n6\n", b""), "a read that a signal interrupts", "show", (0, b"5\n6\n", b""), got)


def run_write_interrupted(program):
    """A signal interrupts a write of standard output, which takes no more."""
    ours, its = with_time_limit(socket.SO_SNDTIMEO)
    values = 1_000_000
    with tempfile.TemporaryFile() as given, ours:
        given.write(b"7 " * values)
        given.seek(0)
        with subprocess.Popen([program, "show"], stdin=given, stdout=its, stderr=subprocess.PIPE) as process:
            its.close()
            stopped_and_continued(process)
            length = 0
            while part := ours.recv(65_536):
                length += len(part)
            errors = process.communicate(timeout=PATIENCE)[1]
    got = process.returncode, length, errors
    return told(got == (0, 2 * values, b""), "a write that a signal interrupts", "show", (0, 2 * values, b""), got)


def run_not_read(program, words):
    """A file whose first read fails; standard input is not read in its place."""
    got = answer(program, words, input=b"7")
    return told(got == (3, b"", b"read fault\n"), "a file that cannot be read", words, (3, b""), got)


def run_on_a_full_device(program):
    """Output that cannot be written, by the device that is always full."""
    with open("/dev/full", "wb") as full:
        done = subprocess.run([program, "show"], input=b"1", stdout=full, stderr=subprocess.PIPE, timeout=PATIENCE)
    got = (done.returncode, done.stderr)
    return None if got == (3, b"write fault\n") else f"FAILED show to /dev/full: {got}"


def run_several_on_a_full_device(program):
    """The first of several files that cannot be written is the last that is read."""
    with open("/dev/full", "wb") as full, folder_of_files() as folder:
        words = [program, "show", "empty", "five.10n", "nowhere.ion"]
        done = subprocess.run(words, cwd=folder, stdout=full, stderr=subprocess.PIPE, timeout=PATIENCE)
    got, wanted = (done.returncode, done.stderr), (3, b"five.10n: write fault\n")
    return told(got == wanted, "a full device", " ".join(words[1:]), wanted, got)


def packets_of(pipe):
    """What was written into a pipe that keeps writes apart, one by one."""
    with open(pipe, "rb", buffering=0) as file:
        return list(iter(lambda: file.read(65536), b""))


def run_line_by_line(program):
    """Lines with names are written at once, so that those of other processes do not stand between their parts."""
    words = [program, "check", "five.10n", "nowhere.ion", "empty", "here.ion"]
    pipes = [os.pipe2(os.O_DIRECT), os.pipe2(os.O_DIRECT)]
    with folder_of_files() as folder:
        with open(os.path.join(folder, "here.ion"), "wb") as file:
            file.write(b"1 ]")
        subprocess.run(words, cwd=folder, stdin=subprocess.DEVNULL, stdout=pipes[0][1], stderr=pipes[1][1], timeout=PATIENCE)
    for _, end in pipes:
        os.close(end)
    got = [packets_of(begin) for begin, _ in pipes]
    wanted = [[b"five.10n: ok 1 values\n", b"empty: ok 0 values\n"],
              [b"cannot open nowhere.ion: No such file or directory\n", b"here.ion: refused BadToken at 2\n"]]
    return told(got == wanted, "lines written at once", " ".join(words[1:]), wanted, got)


def main():
    program = os.path.abspath(sys.argv[1])
    wrong = [run_row(program, row) for row in compared_whole()]
    wrong += [run_helped(program, row) for row in HELPED]
    wrong += [run_usage(program, words) for words in USAGE]
    if has_terminals():
        wrong += [run_where_input_fails(program, row) for row in INPUT_FAILS]
        wrong += [run_where_a_file_fails(program, row) for row in FILE_FAILS]
        wrong += [run_on_a_terminal(program, row) for row in ON_A_TERMINAL]
        wrong.append(run_beside_a_terminal(program))
    else:
        print("skipped: openpty")
    if os.path.exists("/proc/self/stat") and hasattr(socket, "SO_RCVTIMEO"):
        wrong += [run_read_interrupted(program), run_write_interrupted(program)]
    else:
        print("skipped: /proc/self/stat")
    if os.path.exists("/proc/self/mem"):
        wrong += [run_not_read(program, words) for words in NOT_READ]
    else:
        print("skipped: /proc/self/mem")
    if hasattr(os, "O_DIRECT"):
        wrong.append(run_line_by_line(program))
    else:
        print("skipped: O_DIRECT")
    if os.path.exists("/dev/full"):
        wrong += [run_on_a_full_device(program), run_several_on_a_full_device(program)]
    else:
        print("skipped: /dev/full")
    failed = sum(line is not None for line in wrong)
    for line in filter(None, wrong):
        print(line)
    print(f"{len(wrong) - failed} passed, {failed} failed")
    sys.exit(1 if failed else 0)


if __name__ == "__main__":
    main()
