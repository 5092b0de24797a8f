"""Sends blocks to `ion` through a pipe, as the C library does, and waits: each value that is whole has to come before more
is sent. Of a file, which stands whole before it, it counts the writes. `checks/run` calls it. Its last line is
`N passed, M failed`.

A row is a command, values as pairs of what is sent and what has to be written, and the lengths of the blocks. After each
block the output has to begin with the values that are whole; of a container that is open there may be more. Then the rest
is sent, and the input ends. Nothing that is compared comes from `ion`: this program writes the canonical text and the octets.
"""
import contextlib
import os
import queue
import select
import socket
import subprocess
import sys
import tempfile
import threading
import time

MARKER = b"\xe0\x01\x00\xea"
# Seconds. What comes at all comes in some milliseconds; what is late waits for more input, which is not sent.
PATIENCE = 5
# The bytes that `ion` reads and writes at once.
WINDOW = 4096


def texts(sizes):
    """A struct for each size, at least 20: a line of canonical text with so many bytes, which is shown as it is."""
    pairs = []
    for n, size in enumerate(sizes):
        line = b'{id:%d,t:"' % n
        line += b"x" * (size - len(line) - 3) + b'"}\n'
        pairs.append((line, line))
    return pairs


def octets(sizes):
    """After a version marker a string for each size, from 131 to 16,386 octets, and its line."""
    pairs = [(MARKER, b"")]
    for n, size in enumerate(sizes):
        inside = (b"%d " % n).ljust(size - 3, b"x")
        pairs.append((bytes([0x8E, len(inside) >> 7, 0x80 | len(inside) & 0x7F]) + inside, b'"%s"\n' % inside))
    return pairs


def lines_of_four(length):
    """So many bytes, four to a line."""
    return [(b"%d\n" % (100 + n % 900),) * 2 for n in range(length // 4)]


def ints_to_binary(length):
    """So many bytes of text, four to an int, and the octets of these ints."""
    return [(b"", MARKER)] + [(b"%d  " % (10 + n % 90), bytes([0x21, 10 + n % 90])) for n in range(length // 4)]


def long_in_text(length):
    """By name: what is so long in text, each with what has to be written of it. Where it is no value, one stands after it."""
    x = b"x" * length
    segments = length // 10
    return {
        "string": (b'"%s"\n' % x,) * 2,
        "long string": (b"'''%s''' 1\n" % x, b'"%s"\n1\n' % x),
        "segments": (b"'''xxx'''\n" * segments + b"1\n", b'"%s"\n1\n' % (b"xxx" * segments)),
        "symbol": (b"'x %s' 1\n" % x, b"'x %s'\n1\n" % x),
        "annotation": (b"%s::1\n" % x,) * 2,
        "blob": (b"{{%s}}\n" % (b"QUJD" * (length // 4)),) * 2,
        "clob": (b'{{"%s"}}\n' % x,) * 2,
        "comment": (b"/*%s*/1\n" % x, b"1\n"),
        "comments": (b"// xxxxxx\n" * segments + b"1\n", b"1\n"),
        "line": (b"//%s\n1\n" % x, b"1\n"),
        "blanks": (b" " * length + b"1\n", b"1\n"),
        "symbol table": (b'$ion_symbol_table::{symbols:["%s"]}1\n' % x, b"1\n"),
    }


def sized(descriptor, inside):
    """What has this descriptor and these octets, fewer than 2^21, after a length of three."""
    length = len(inside)
    return bytes([descriptor, length >> 14, length >> 7 & 0x7F, 0x80 | length & 0x7F]) + inside


def long_in_binary(length):
    """Sessions in binary: what has come is written before more is read."""
    x = b"x" * length
    table = b"\x81\x83" + sized(0xDE, b"\x87" + sized(0xBE, sized(0x8E, x)))
    return {
        "string": (sized(0x8E, x), b'"%s"\n' % x),
        "blob": (sized(0xAE, b"ABC" * (length // 3)), b"{{%s}}\n" % (b"QUJD" * (length // 3))),
        "annotated string": (sized(0xEE, b"\x81\x84" + sized(0x8E, x)), b'name::"%s"\n' % x),
        "pad": (sized(0x0E, x) + b"\x21\x05", b"5\n"),
        "pads": (b"\x01\x00" * (length // 2) + b"\x21\x05", b"5\n"),
        "symbol table": (sized(0xEE, table) + b"\x21\x05", b"5\n"),
    }


def cut_in_long_ones():
    """Rows: values that are whole, and one more that is longer than all windows, or stands after what is, cut there."""
    for form, make, long_ones in (("text", texts, long_in_text), ("binary", octets, long_in_binary)):
        for name, pair in long_ones(50000).items():
            # few bytes at once, many, and many that end where a window does
            for values, after in ((5, 200), (110, 9000), (20, 45056)):
                some = make([200] * values)
                size = sum(len(sent) for sent, _ in some) + after
                yield f"{form}, {name} after {values}", "show", some + [pair] + make([150])[-1:], [size]


# Values of many kinds, with what is passed over before them, and their lines: each is whole without a byte more.
TEXTS_OF_MANY_KINDS = [
    (b"17 ", b"17\n"),
    (b"-1.50 ", b"-1.50\n"),
    (b"a::'b c'::18 ", b"a::'b c'::18\n"),
    (b'"x\\"y/*" ', b'"x\\"y/*"\n'),
    (b"'x\\'y' 19 ", b"'x\\'y'\n19\n"),
    (b"{{ aGVs bG8= }} ", b"{{aGVsbG8=}}\n"),
    (b'{{ "}}\\"" }} ', b'{{"}}\\""}}\n'),
    (b"/* a * / \" */ 20 // ' {\n", b"20\n"),
    (b"// a \" /*\r\n21 ", b"21\n"),
    (b"[1,(a + /**/ 2),{x:'''l''',\"y\":{{aGVs}}}] ", b"[1,(a '+' 2),{x:\"l\",y:{{aGVs}}}]\n"),
    (b"'''l\\'''' /**/ '''m''' 22 ", b'"l\'m"\n22\n'),
    (b"sym /* ::*/ 23 ", b"sym\n23\n"),
    (b"$ion_symbol_table::{symbols:[\"a\"]} $10 24 ", b"a\n24\n"),
    (b"'$ion_1_0' $ion_1_0 25 ", b"'$ion_1_0'\n25\n"),
    (b"$3::{symbols:[\"b\"]} $10 27 ", b"b\n27\n"),
    (b"'$ion_symbol_table'::{symbols:[\"c\"]} $10 28 ", b"c\n28\n"),
    (b"'\\x24ion_symbol_table'::{symbols:[\"d\"]} $10 29 ", b"d\n29\n"),
    (b"2007-01-02T ", b"2007-01-02\n"),
    (b"null.int true ", b"null.int\ntrue\n"),
    (b"26 ", b"26\n"),
]
OCTETS_OF_MANY_KINDS = [
    (MARKER, b""),
    (b"\x21\x05", b"5\n"),
    (b"\x52\xC1\x0F", b"1.5\n"),
    (b"\x8E\x83abc", b'"abc"\n'),
    (b"\xE4\x81\x84\x21\x06", b"name::6\n"),
    (b"\xE4\x81\x83\x21\x06", b"$ion_symbol_table::6\n"),
    (b"\x01\x00\x0E\x82\x00\x00\x21\x07", b"7\n"),
    (b"\xB6\x21\x05\xD3\x84\x21\x06", b"[5,{name:6}]\n"),
    (b"\xD1\x83\x84\x21\x08", b"{name:8}\n"),
    (b"\xE7\x81\x83\xD4\x87\xB2\x81\x61\x71\x0A", b"a\n"),
    (MARKER + b"\x21\x09", b"9\n"),
    (b"\xA5hello", b"{{aGVsbG8=}}\n"),
    (b"\x11\x0F", b"true\nnull\n"),
]


def cut_in_each(pairs):
    """Rows: each value is cut after so many bytes, and what stands before it comes at once with these."""
    for after in range(1, max(len(sent) for sent, _ in pairs)):
        at, cuts = 0, [0]
        for sent, _ in pairs:
            if after < len(sent):
                cuts.append(at + after)
            at += len(sent)
        yield f"many kinds cut after {after}", "show", pairs, [cut - before for before, cut in zip(cuts, cuts[1:])]


def whole_and_cut(make, size, most):
    """Two rows: values of some size, of which one ends where the block does, and values that the block's end cuts."""
    some = make([most] * (size // most - 2))
    last = size - sum(len(sent) for sent, _ in some)
    yield make([most] * (size // most - 2) + [last]), [size]
    yield make([most + 33 * (n % 3) for n in range(2 * size // most + 2)]), [size, size]


def rows():
    """The name of each row, its command, its pairs and its blocks."""
    for size in (4096, 8192, 65536):
        yield f"lines of four bytes by {size}", "show", lines_of_four(3 * size), [size] * 3
        yield f"ints to binary by {size}", "convert", ints_to_binary(2 * size), [size] * 2
        for name, make in (("texts", texts), ("octets", octets)):
            for pairs, blocks in whole_and_cut(make, size, 150):
                yield f"{name} by {size}, {len(blocks)}", "show", pairs, blocks
    for name, make in (("texts", texts), ("octets", octets)):
        # a value longer than a window, cut at each of its blocks but the last
        for size in (4096, 12288):
            yield f"one of 16,000 {name} by {size}", "show", make([1000, 1000, 16000, 500]), [size, 16000 - size, 2500]
        # as much as a pipe holds, with a value that is nearly as long as a window cut at its end
        yield f"4,000 {name} cut at 65536", "show", make([1000] * 62 + [4000] * 2), [65536]
        # lengths on both sides of those of a window
        for size in (1, 15, 16, 4080, 4081, 4095, 4097, 8191, 8193, 61439, 65535):
            yield f"{name} by {size}", "show", make([150, 177] * (size // 150 + 1)), [size] * 2
    yield from cut_in_long_ones()
    yield from cut_in_each(TEXTS_OF_MANY_KINDS)
    yield from cut_in_each(OCTETS_OF_MANY_KINDS)


# Before each of these the output is written: that what may be a declaration stands whole is not seen ahead of it.
WRITTEN_BEFORE = (b"$ion_symbol_table::{", b"$3::{", b"'$", b"'\\x24", b"\xE4\x81\x83")


def files():
    """The name of each file, its command, what stands in it, and what has to be written, None where that is not worked out."""
    for size in (80000, 300000):
        for command, pairs in (("show", lines_of_four(size)), ("convert", ints_to_binary(size))):
            sent, written = zip(*pairs)
            yield f"a file of {size} bytes, four to a value", command, b"".join(sent), b"".join(written)
    for before, kinds in ((b"", TEXTS_OF_MANY_KINDS), (MARKER, OCTETS_OF_MANY_KINDS)):
        for sent, written in kinds:
            if not sent.startswith(WRITTEN_BEFORE):
                name = f"a file of 3,000 times {sent}"
                yield name, "show", before + 3000 * sent, 3000 * written
                yield name, "convert", before + 3000 * sent, 3000 * written if before else None


def whole_at(pairs, length):
    """What has to be written of the values that are whole in so many bytes."""
    whole = b""
    for sent, written in pairs:
        length -= len(sent)
        if length < 0:
            break
        whole += written
    return whole


def read_until(stream, got, wanted):
    """What was written so far and what comes, until it begins with what is wanted, ends or is late."""
    until = time.monotonic() + PATIENCE
    while not got.startswith(wanted):
        ready, _, _ = select.select([stream], [], [], max(0, until - time.monotonic()))
        more = os.read(stream.fileno(), 1 << 16) if ready else b""
        if not more:
            break
        got += more
    return got


def send(pipe, blocks):
    """Sends each block of a queue and ends the input at a None: a thread of its own, so that no end waits for the other
    where a pipe holds less than a block."""
    try:
        for block in iter(blocks.get, None):
            pipe.write(block)
    except BrokenPipeError:
        pass  # the status and the output say what is wrong
    pipe.close()


def converse(child, pairs, blocks):
    """Holds the session, and answers what is wrong with it, if anything is."""
    sent = b"".join(pair[0] for pair in pairs)
    written = b"".join(pair[1] for pair in pairs)
    at, got, to_send = 0, b"", queue.Queue()
    threading.Thread(target=send, args=(child.stdin, to_send), daemon=True).start()
    for length in blocks:
        to_send.put(sent[at:at + length])
        at += length
        whole = whole_at(pairs, at)
        got = read_until(child.stdout, got, whole)
        if not (got.startswith(whole) and written.startswith(got)):
            return f"of {at} bytes that were sent {len(whole)} are to be written, and {len(got)} were"
    to_send.put(sent[at:])
    to_send.put(None)
    got = read_until(child.stdout, got, written + b"more")
    said = child.stderr.read()
    if (child.wait(), got, said) != (0, written, b""):
        return f"status {child.returncode}, {len(got)} of {len(written)} bytes, and {said!r}"
    return None


@contextlib.contextmanager
def started(program, words, given, taken):
    """A process of the program, which is ended in any case."""
    child = subprocess.Popen([program] + words, stdin=given, stdout=taken, stderr=subprocess.PIPE, bufsize=0)
    guard = threading.Timer(12 * PATIENCE, child.kill)
    guard.start()
    try:
        yield child
    finally:
        guard.cancel()
        child.kill()
        child.wait()


def wrong_session(program, words, pairs, blocks):
    """What is wrong with a session, if anything is."""
    with started(program, words, subprocess.PIPE, subprocess.PIPE) as child:
        return converse(child, pairs, blocks)


def wrong_writes(program, words, sent, written):
    """What is wrong with the writes for a file, if anything is. It may do one for each window of the input and of the output,
    and two more. A socket of packets keeps each apart."""
    ours, its = socket.socketpair(socket.AF_UNIX, socket.SOCK_SEQPACKET)
    with ours, tempfile.TemporaryFile() as file:
        file.write(sent)
        file.seek(0)
        with started(program, words, file, its) as child:
            its.close()
            writes = list(iter(lambda: ours.recv(1 << 20), b""))
            said = child.stderr.read()
            status = child.wait()
    got = b"".join(writes)
    most = len(sent) // WINDOW + len(got) // WINDOW + 2
    if (status, said) != (0, b"") or written is not None and got != written:
        return f"status {status}, {len(got)} bytes, and {said!r}"
    return f"{len(writes)} writes of {len(got)} bytes, where {most} are enough" if len(writes) > most else None


def main():
    program = os.path.abspath(sys.argv[1])
    passed = failed = 0
    sessions = [(wrong_session, *row) for row in rows()]
    for wrong_in, name, command, *more in sessions + [(wrong_writes, *row) for row in files()]:
        # the second one is a pipe or a file that a word names, as the shell's <(..) is
        for words in ([command], [command, "/dev/stdin"]):
            wrong = wrong_in(program, words, *more)
            passed += not wrong
            failed += bool(wrong)
            if wrong:
                print(f"FAILED live: {name}: ion {' '.join(words)}: {wrong}")
    print(f"{passed} passed, {failed} failed")
    sys.exit(1 if failed else 0)


if __name__ == "__main__":
    main()
