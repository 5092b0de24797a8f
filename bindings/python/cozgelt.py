"""Amazon Ion 1.0, text or binary: as canonical text, as pretty text, as binary, or checked, by the proved library of Cozgelt.

>>> to_text(b"{a: 1.50, b: [2, x]}")
b'{a:1.50,b:[2,x]}\\n'
>>> to_text(to_binary(b"{a: 1.50}"))
b'{a:1.50}\\n'
>>> print(to_pretty(b"{a: 1.50, b: [2, x]}").decode(), end="")
{
  a: 1.50,
  b: [
    2,
    x
  ]
}
>>> check(b"1 2 3")
3
>>> check(b"[[1]]", depth=1)
Traceback (most recent call last):
    ...
cozgelt.Refused: refused DepthLimit at 1
>>> tables = b'$ion_shared_symbol_table::{name: "x", version: 1, symbols: ["p", "q"]}'
>>> to_text(b'$ion_symbol_table::{imports: [{name: "x", version: 1, max_id: 2}]} $10 $11', catalog=tables)
b'p\\nq\\n'
>>> loaded = Catalog(tables)
>>> to_text(b'$ion_symbol_table::{imports: [{name: "x", version: 1, max_id: 1}]} $10', catalog=loaded)
b'p\\n'
>>> to_text(b"[1.5e0, nan]", floats=True)
b'[1.5e0,nan]\\n'

A stream of any length is converted while it is read, in memory that does not grow with its values:

>>> import io
>>> reader, writer = io.BytesIO(b"{a: 1.50}\\n[2, x]\\n"), io.BytesIO()
>>> convert(reader, writer, to="binary")
2
>>> b"".join(Parts(io.BytesIO(writer.getvalue())))
b'{a:1.50}\\n[2,x]\\n'

It is a transcoder: no value can be read from it but out of what it writes. A float other than null.float is refused (Float),
unless floats=True is given; one of the catalogue always is.

Catalogue, limits and floats go by keyword, with the defaults of the program. Stream and catalogue are bytes, or a bytearray or
memoryview, of which a call takes a copy; a Catalog serves too, which is loaded once. libcozgelt.so is looked for at the path in
COZGELT_LIBRARY, then beside this file, then where the system looks. Any number of threads may call at once.
"""
import ctypes
import ctypes.util
import io
import os
import threading
from typing import Any, Iterator, NoReturn, Optional, Tuple, Union

__all__ = ["to_text", "to_pretty", "to_binary", "rewrite", "check", "convert", "version", "Parts", "Catalog", "Refused",
           "CatalogRefused", "InputLimit", "Invalid"]

_REASONS = ("", "Truncated", "BadDescriptor", "BadVar", "Overrun", "BadVersion", "BadAnnotation", "BadNumber", "BadTimestamp",
            "Range", "BadText", "Float", "BadToken", "BadLob", "DepthLimit", "ScalarLimit", "AnnotationLimit", "BadSymbol",
            "UnknownSymbol", "BadTable", "SymbolLimit", "ValueLimit", "SameForm", "CatalogEntry")
_VERSION = 200  # of cozgelt.h, which this module goes with
_Bytes = Union[bytes, bytearray, memoryview]


class Refused(ValueError):
    """The stream is refused. reason: a name of docs/REFUSALS.md; place: the first byte of the faulty part, counted from 0;
    output: that of what stands before it, of `Parts` since its last output; b"" where `convert` has written that."""

    def __init__(self, reason: str, place: int, output: bytes = b"") -> None:
        super().__init__(f"refused {reason} at {place}")
        self.reason = reason
        self.place = place
        self.output = output

    def __reduce__(self) -> Tuple[Any, ...]:
        return type(self), (self.reason, self.place, self.output), self.__dict__


class CatalogRefused(ValueError):
    """The catalogue is refused; reason and place are of it."""

    def __init__(self, reason: str, place: int) -> None:
        super().__init__(f"catalog refused {reason} at {place}")
        self.reason = reason
        self.place = place

    def __reduce__(self) -> Tuple[Any, ...]:
        return type(self), (self.reason, self.place), self.__dict__


class InputLimit(ValueError):
    """The stream or the catalogue is longer than the limit on the input, or more bytes of a stream wait than may."""


class Invalid(ValueError):
    """A limit is above its maximum, or `to` is no word that it may be."""


class _Limits(ctypes.Structure):
    _fields_ = [("size", ctypes.c_uint32), ("depth", ctypes.c_uint32), ("scalar", ctypes.c_uint64), ("symbols", ctypes.c_uint64),
                ("value", ctypes.c_uint64), ("input", ctypes.c_uint64)]


class _Answer(ctypes.Structure):
    _fields_ = [("size", ctypes.c_uint32), ("reason", ctypes.c_uint32), ("place", ctypes.c_uint64), ("values", ctypes.c_uint64),
                ("needed", ctypes.c_uint64)]


class _Handle(ctypes.Structure):
    """A CozgeltCatalog: without tables as it is made."""
    _fields_ = [("tables", ctypes.c_void_p)]


class _Part(ctypes.Structure):
    _fields_ = [("size", ctypes.c_uint32), ("profile", ctypes.c_uint32), ("to", ctypes.c_uint32), ("last", ctypes.c_uint32),
                ("kept", ctypes.c_uint64), ("taken", ctypes.c_uint64), ("keeps", ctypes.c_uint64)]


def _load() -> ctypes.CDLL:
    beside = os.path.join(os.path.dirname(os.path.abspath(__file__)), "libcozgelt.so")
    path = os.environ.get("COZGELT_LIBRARY") or (beside if os.path.exists(beside) else ctypes.util.find_library("cozgelt"))
    if not path:
        raise ImportError("there is no libcozgelt.so: COZGELT_LIBRARY may name it")
    library = ctypes.CDLL(path)
    library.cozgelt_version.argtypes = []
    library.cozgelt_version.restype = ctypes.c_uint32
    if library.cozgelt_version() != _VERSION:
        raise ImportError(f"{path} is another version than this module")
    for name in ("cozgelt_to_text_with", "cozgelt_to_pretty_with", "cozgelt_to_binary_with", "cozgelt_rewrite_with",
                 "cozgelt_check_with"):
        call = getattr(library, name)
        call.argtypes = [ctypes.c_uint32, ctypes.POINTER(_Limits), ctypes.c_char_p, ctypes.c_size_t, ctypes.c_char_p,
                         ctypes.c_size_t, ctypes.c_void_p, ctypes.c_size_t, ctypes.POINTER(_Answer)]
        call.restype = ctypes.c_uint32
        call = getattr(library, name[:-len("with")] + "loaded")
        call.argtypes = [ctypes.c_uint32, ctypes.POINTER(_Limits), ctypes.POINTER(_Handle), ctypes.c_char_p, ctypes.c_size_t,
                         ctypes.c_void_p, ctypes.c_size_t, ctypes.POINTER(_Answer)]
        call.restype = ctypes.c_uint32
    library.cozgelt_part.argtypes = [ctypes.POINTER(_Limits), ctypes.POINTER(_Handle), ctypes.POINTER(_Part), ctypes.c_void_p,
                                     ctypes.c_size_t, ctypes.c_void_p, ctypes.c_size_t, ctypes.c_void_p, ctypes.c_size_t,
                                     ctypes.POINTER(_Answer)]
    library.cozgelt_part.restype = ctypes.c_uint32
    library.cozgelt_catalog_load.argtypes = [ctypes.POINTER(_Limits), ctypes.c_char_p, ctypes.c_size_t, ctypes.POINTER(_Handle),
                                             ctypes.POINTER(_Answer)]
    library.cozgelt_catalog_load.restype = ctypes.c_uint32
    library.cozgelt_catalog_share.argtypes = [ctypes.POINTER(_Handle), ctypes.POINTER(_Handle)]
    library.cozgelt_catalog_share.restype = ctypes.c_uint32
    library.cozgelt_catalog_free.argtypes = [ctypes.POINTER(_Handle)]
    library.cozgelt_catalog_free.restype = None
    return library


_library = _load()


def _fixed(what: str, given: _Bytes) -> bytes:
    """These bytes, which nobody changes during a call: a copy, unless they are of the type bytes itself. A subclass may say of its
    length what it likes, so the buffer is asked."""
    if not isinstance(given, (bytes, bytearray, memoryview)):
        raise TypeError(f"{what} is {type(given).__name__}, not bytes")
    return given if type(given) is bytes else memoryview(given).tobytes()


def _given(limits: Tuple[int, int, int, int, int]) -> _Limits:
    """The limits, each of which is one."""
    for number, most in zip(limits, (65535, 1 << 30, 1 << 30, 1 << 30, 1 << 48)):
        if not 0 <= number <= most:
            raise Invalid(f"{number} is no limit from 0 to {most}")
    return _Limits(ctypes.sizeof(_Limits), *limits)


def _judge(status: int, answer: _Answer) -> None:
    """Raises what a status says, but for those of a stream that is accepted or refused."""
    if status in (2, 4):
        raise MemoryError("no memory")
    if status == 3:
        raise InputLimit("longer than the limit on the input")
    if status == 5:
        raise Invalid("a limit is above its maximum")
    if status == 6:
        raise CatalogRefused(_REASONS[answer.reason], answer.place)


class Catalog:
    """A catalogue that is loaded once, for any number of calls, also of several threads at once. tables: a stream of shared symbol
    tables. The limits are those of the calls; they bound the loading, and those of a call its stream alone."""

    def __init__(self, tables: _Bytes, *, depth: int = 64, scalar: int = 1 << 20, symbols: int = 1 << 20, value: int = 1 << 24,
                 input: int = 1 << 48) -> None:
        self._handle = _Handle()
        self._lock = threading.Lock()
        tables = _fixed("the catalog", tables)
        answer = _Answer(ctypes.sizeof(_Answer))
        limits = _given((depth, scalar, symbols, value, input))
        _judge(_library.cozgelt_catalog_load(limits, tables, len(tables), self._handle, answer), answer)

    def __del__(self, free: Any = _library.cozgelt_catalog_free) -> None:  # what a module names may be gone at the end
        if hasattr(self, "_handle"):
            free(self._handle)

    def _shared(self) -> _Handle:
        """Another handle, for one call: to be given back."""
        handle = _Handle()
        with self._lock:
            status = _library.cozgelt_catalog_share(self._handle, handle)
        _judge(status, _Answer())
        return handle

    def __reduce__(self) -> Tuple[Any, ...]:
        raise TypeError("a Catalog stays in its process")


_Tables = Union[_Bytes, Catalog]


def _call(name: str, floats: bool, stream: _Bytes, catalog: _Tables, limits: Tuple[int, int, int, int, int],
          writes: bool = True) -> Tuple[bytes, int]:
    """The output, and how many values there are."""
    stream = _fixed("the stream", stream)
    if not isinstance(catalog, Catalog):
        tables = _fixed("the catalog", catalog)
        return _convert(getattr(_library, name + "_with"), floats, stream, (tables, len(tables)), limits, writes)
    handle = catalog._shared()
    try:
        return _convert(getattr(_library, name + "_loaded"), floats, stream, (handle,), limits, writes)
    finally:
        _library.cozgelt_catalog_free(handle)


def _convert(call: Any, floats: bool, stream: bytes, catalog: Tuple[Any, ...], limits: Tuple[int, int, int, int, int],
             writes: bool) -> Tuple[bytes, int]:
    """Output and number by a call of the library. The first try has room for an output as long as the stream, and for a short one in any
    case; where that is too little, the second has as much as is needed. A call may hold as much again as its room."""
    size = max(len(stream), 1024) if writes else 0
    profile = 1 if floats else 0  # COZGELT_FLOATS, COZGELT_STRICT
    given = _given(limits)
    answer = _Answer(ctypes.sizeof(_Answer))
    while True:
        room = ctypes.create_string_buffer(size)
        status = call(profile, given, *catalog, stream, len(stream), room, size, answer)
        if status > 1 or answer.needed <= size:
            break
        del room
        size = answer.needed
    _judge(status, answer)
    output = memoryview(room)[:answer.needed].tobytes()  # string_at would cut its length to a C int
    if status == 1:
        raise Refused(_REASONS[answer.reason], answer.place, output)
    return output, answer.values


def to_text(stream: _Bytes, *, catalog: _Tables = b"", depth: int = 64, scalar: int = 1 << 20, symbols: int = 1 << 20,
            value: int = 1 << 24, input: int = 1 << 48, floats: bool = False) -> bytes:
    """The stream, text or binary, as canonical text: each value at top level is a line. catalog: a stream of shared symbol
    tables, for the imports of the other. floats: whether floats other than null.float are read."""
    return _call("cozgelt_to_text", floats, stream, catalog, (depth, scalar, symbols, value, input))[0]


def to_pretty(stream: _Bytes, *, catalog: _Tables = b"", depth: int = 64, scalar: int = 1 << 20, symbols: int = 1 << 20,
              value: int = 1 << 24, input: int = 1 << 48, floats: bool = False) -> bytes:
    """The stream, text or binary, as pretty text: each member of a container begins a line."""
    return _call("cozgelt_to_pretty", floats, stream, catalog, (depth, scalar, symbols, value, input))[0]


def to_binary(stream: _Bytes, *, catalog: _Tables = b"", depth: int = 64, scalar: int = 1 << 20, symbols: int = 1 << 20,
              value: int = 1 << 24, input: int = 1 << 48, floats: bool = False) -> bytes:
    """The stream, a text, as canonical binary. One that is binary is refused as SameForm."""
    return _call("cozgelt_to_binary", floats, stream, catalog, (depth, scalar, symbols, value, input))[0]


def rewrite(stream: _Bytes, *, catalog: _Tables = b"", depth: int = 64, scalar: int = 1 << 20, symbols: int = 1 << 20,
            value: int = 1 << 24, input: int = 1 << 48, floats: bool = False) -> bytes:
    """The stream, text or binary, as canonical binary."""
    return _call("cozgelt_rewrite", floats, stream, catalog, (depth, scalar, symbols, value, input))[0]


def check(stream: _Bytes, *, catalog: _Tables = b"", depth: int = 64, scalar: int = 1 << 20, symbols: int = 1 << 20,
          value: int = 1 << 24, input: int = 1 << 48, floats: bool = False) -> int:
    """How many values the stream has at top level."""
    return _call("cozgelt_check", floats, stream, catalog, (depth, scalar, symbols, value, input), False)[1]


# How many bytes are read at a time, and the room for their output: it grows where that is longer.
_CHUNK = 1 << 18
# What waits is tried after each read, so that a value is given as soon as all of it was read, until the tries had so many bytes together;
# then it is doubled between two tries, so that the time stays linear.
_TRIES = 1 << 20
# What an interrupt leaves wrong: bytes that were read may be lost, or what is kept may have been changed too.
_BYTES, _KEPT = 1, 2
_TO = {"text": 0, "pretty": 1, "binary": 2, "rewrite": 3, "check": 4}
_REFUSED, _NO_ROOM, _TRUNCATED = 1, 7, 1


class _Buffer:
    """Memory of the library's callers, so long, which begins with these bytes."""

    def __init__(self, size: int, used: Union[bytes, memoryview] = b"") -> None:
        self.held = (ctypes.c_char * size)()
        self.size, self.at = size, ctypes.addressof(self.held)
        self.view = memoryview(self.held).cast("B")
        self.view[:len(used)] = used


class Parts:
    """The outputs of a stream of any length, as it is read; joined they are what `to_text` and so on give for the whole. As binary of a
    text they show what the text shows, where it is accepted, depth is at least 2 and scalar at least 16 and symbols; of binary of binary
    that is only tested. reader: its `read(n)`, and `read1(n)` if it has that too, gives n bytes, or fewer, and b"" at the end. to:
    "text", "pretty", "binary" (of a text), "rewrite" (binary of either form), or "check", which has empty outputs.

    After each output `place` says how many bytes of the stream it took so far, and `kept` what of them is needed for the rest: a
    checkpoint, at which another Parts begins, with a reader that stands at `place`. `values` says how many values there were since this
    one began, also where that was at a checkpoint.

    Text is cut at ends of lines, and binary between values. What ends is given as soon as it was read, but for a symbol or string at the
    end of a text, which may go on. A call tries that after each read, and once its tries had a MiB together, as for 1,400 bytes one by
    one, or 50 KB by 1,400, only when twice as many bytes wait. hold: how many may wait for an end, and how many may be kept; more raise
    InputLimit, or Refused, where those that wait have a fault. A fault is told at the latest there, or at the end of the stream, and its
    place is counted from the stream's beginning.

    Where `read` raises an Exception, or gives None, which raises BlockingIOError, nothing is taken, and the next output is tried again.
    What else interrupts it (KeyboardInterrupt, no memory for an output, a reader that gives what it may not) leaves a Parts that raises
    ValueError; so does its `kept`, where there is no checkpoint either."""

    def __init__(self, reader: Any, *, to: str = "text", catalog: _Tables = b"", depth: int = 64, scalar: int = 1 << 20,
                 symbols: int = 1 << 20, value: int = 1 << 24, input: int = 1 << 48, floats: bool = False, kept: _Bytes = b"",
                 place: int = 0, hold: int = 1 << 26) -> None:
        if to not in _TO:
            raise Invalid(f"{to!r} is none of {', '.join(_TO)}")
        if place < 0 or hold < 0:
            raise Invalid(f"{min(place, hold)} is no number of bytes")
        limits = (depth, scalar, symbols, value, input)
        self.place, self.values = place, 0
        self._reader, self._hold = reader, hold
        self._limits, self._answer = _given(limits), _Answer(ctypes.sizeof(_Answer))
        kept = _fixed("what is kept", kept)
        self._part = _Part(ctypes.sizeof(_Part), 1 if floats else 0, _TO[to], 0, len(kept))
        self._kept, self._bytes = _Buffer(max(2 * len(kept), 64), kept), _Buffer(_CHUNK)
        self._room = _Buffer(1 if to == "check" else _CHUNK)
        self._start = self._end = 0  # of the bytes that were read and not taken
        self._wanted = 1  # so many of them a call is made for
        self._tried = 0  # how many all calls had since one took some
        self._read_all = self._over = False
        self._broken = 0
        self._lock = threading.Lock()
        if not isinstance(catalog, Catalog):
            catalog = Catalog(catalog, depth=depth, scalar=scalar, symbols=symbols, value=value, input=input)
        self._handle = catalog._shared()

    def __del__(self, free: Any = _library.cozgelt_catalog_free) -> None:
        if hasattr(self, "_handle"):
            free(self._handle)

    def __reduce__(self) -> Tuple[Any, ...]:
        raise TypeError("a Parts stays in its process, and is one: another begins at its place, with what it kept")

    @property
    def kept(self) -> bytes:
        """What a Parts that begins at `place` is given."""
        if self._broken == _KEPT:
            raise ValueError("a Parts that was interrupted in a call has no checkpoint")
        return self._kept.view[:self._part.kept].tobytes()

    def __iter__(self) -> Iterator[bytes]:
        return self

    def __next__(self) -> bytes:
        if not self._lock.acquire(blocking=False):
            raise ValueError("a Parts that is in use already")
        try:
            if self._broken:
                raise ValueError("a Parts that was interrupted")
            output: Optional[bytes] = None
            while output is None and not self._over:
                self._fill()
                output = self._take()
            if output is None:
                raise StopIteration
            return output
        finally:
            self._lock.release()

    def _read(self, most: int) -> Any:
        """What the reader has now. A buffered `read` waits for all that is asked, so there is `read1`; but that gives b"" where a file
        that does not wait has nothing yet, so of an end `read` is asked too."""
        try:
            read1 = getattr(self._reader, "read1", None)
            given = read1(most) if read1 else None
            given = given or self._reader.read(most)
            if given is None:
                raise BlockingIOError("the reader has nothing now")
            return given
        except Exception:
            self._broken = 0
            raise

    def _fill(self) -> None:
        """Reads until there are as many bytes as are wanted, or all."""
        while not self._read_all and self._end - self._start < self._wanted:
            length, size = self._end - self._start, self._bytes.size
            if self._wanted > size:
                waiting = self._bytes.view[self._start:self._end]
                grown = _Buffer(max(self._wanted, min(2 * size, self._hold)), waiting)
                self._broken = _BYTES
                self._bytes, self._start, self._end = grown, 0, length
            self._broken = _BYTES
            if self._start > 0:
                ctypes.memmove(self._bytes.at, self._bytes.at + self._start, length)
                self._start, self._end = 0, length
            most = self._bytes.size - length
            given = self._read(most)
            if not isinstance(given, (bytes, bytearray, memoryview)):
                raise TypeError(f"read gave {type(given).__name__}, not bytes")
            read = memoryview(given).cast("B")
            if len(read) > most:
                raise ValueError(f"read({most}) gave {len(read)} bytes")
            self._bytes.view[length:length + len(read)] = read
            self._end += len(read)
            self._read_all = not read
            self._broken = 0

    def _run(self, last: bool, grows: bool = True) -> int:
        """The status of a call, for which the room grows where it is too little. One that took something has changed what is kept:
        whoever called clears the mark when all else is changed too."""
        part, answer, length = self._part, self._answer, self._end - self._start
        if self.place + length > self._limits.input:
            raise InputLimit("longer than the limit on the input")
        while True:
            part.last = int(last)
            self._broken = _KEPT
            status: int = _library.cozgelt_part(self._limits, self._handle, part, self._bytes.at + self._start, length, self._kept.at,
                                                self._kept.size, self._room.at, self._room.size, answer)
            if status:
                self._broken = 0
            is_short = answer.needed > self._room.size
            if not (status == _NO_ROOM and grows or status == _REFUSED and is_short):
                return status
            if status == _NO_ROOM and part.keeps > self._kept.size:
                if part.keeps > self._hold:
                    raise InputLimit(f"{part.keeps} bytes of symbol tables are to be kept")
                self._kept = _Buffer(2 * part.keeps, self._kept.view[:part.kept])
            if is_short:
                self._room = _Buffer(max(answer.needed, 2 * self._room.size))

    def _refuse(self) -> NoReturn:
        answer = self._answer
        raise Refused(_REASONS[answer.reason], self.place + answer.place, self._room.view[:answer.needed].tobytes())

    def _take(self) -> Optional[bytes]:
        """The output of what can be taken, or of all that is left where the stream ends."""
        status = self._run(self._read_all)
        if status == _REFUSED:
            self._refuse()
        _judge(status, self._answer)
        output: Optional[bytes] = None
        taken = self._part.taken
        if taken or self._read_all and self._answer.needed:
            output = self._room.view[:self._answer.needed].tobytes()
            self._start += taken
            self.place += taken
            self.values += self._answer.values
            self._wanted, self._tried = 1, 0
        self._over = self._read_all
        self._broken = 0
        if not taken and not self._over:
            self._wait()
        return output

    def _wait(self) -> None:
        """Nothing can be taken yet, so that more bytes are wanted. Where no more may wait they are judged as if the stream ended with
        them; what a longer one may yet mend is no refusal."""
        length = self._end - self._start
        if length < self._hold:
            self._tried += length
            self._wanted = min(2 * length, self._hold) if self._tried > _TRIES else length + 1
            return
        status = self._run(True, False)
        self._broken = 0  # the last part changes nothing of what is kept
        if status == _REFUSED and self._answer.reason != _TRUNCATED and self._answer.place + self._limits.scalar + 64 < length:
            self._refuse()
        raise InputLimit(f"{length} bytes wait from {self.place} on, and none can be taken")


def _write_all(writer: Any, output: bytes) -> None:
    """Writes all of it. A raw file may take less at a time; any other writer takes all, and what it returns says nothing."""
    if not isinstance(writer, io.RawIOBase):
        writer.write(output)
        return
    rest = memoryview(output)
    while rest:
        written = writer.write(rest)
        if written is None:
            raise BlockingIOError("the writer takes nothing now")
        if not 0 < written <= len(rest):
            raise OSError(f"the writer took {written} of {len(rest)} bytes")
        rest = rest[written:]


def convert(reader: Any, writer: Any, to: str = "text", *, catalog: _Tables = b"", depth: int = 64, scalar: int = 1 << 20,
            symbols: int = 1 << 20, value: int = 1 << 24, input: int = 1 << 48, floats: bool = False, kept: _Bytes = b"",
            place: int = 0, hold: int = 1 << 26) -> int:
    """Reads a stream of any length, and writes what `Parts` gives, by `write(bytes)`; how many values it has. Before Refused is raised
    what stands before the fault is written, and the exception's `output` is b"". Where reader or writer raise, what was read is lost:
    to go on, use Parts."""
    parts = Parts(reader, to=to, catalog=catalog, depth=depth, scalar=scalar, symbols=symbols, value=value, input=input, floats=floats,
                  kept=kept, place=place, hold=hold)
    try:
        for output in parts:
            _write_all(writer, output)
    except Refused as refused:
        _write_all(writer, refused.output)
        refused.output = b""
        raise
    return parts.values


def version() -> str:
    """The version of the library, three numbers."""
    number: int = _library.cozgelt_version()
    return f"{number // 10000}.{number // 100 % 100}.{number % 100}"
