"""Turns C++ symbols, as Microsoft's compiler mangles them, into declarations.

    >>> import msvc_demangler
    >>> msvc_demangler.demangle("?x@ns@@3HA")
    'int ns::x'
    >>> msvc_demangler.filter(b"undefined: ?x@ns@@3HA")
    b'undefined: int ns::x'

The calls read symbols as today's compilers write them, and with grammar=Grammar.CRATE as the Rust crate msvc-demangler
does.

Symbols are str, or bytes, bytearray or memoryview in UTF-8. The calls keep nothing, release the GIL, and may run in any
number of threads.

The wheel has the library libmsvc_demangler.so.0 beside this file. Without it the library is the file that the
environment variable MSVC_DEMANGLER_LIBRARY names, or else what the system's loader finds under that name.
"""
from __future__ import annotations

import ctypes
import enum
import io
import operator
import os
from typing import IO, Any, List, Union, overload

__all__ = ["DEFAULT_BYTES", "DEFAULT_NODES", "UNLIMITED", "DemangleError", "Flags", "Grammar", "Status", "__version__",
           "demangle", "filter", "filter_stream", "symbol_length"]

DEFAULT_NODES = 10_000
DEFAULT_BYTES = 65_536
UNLIMITED = ctypes.c_size_t(-1).value  # no limit: unsafe for symbols that are not trusted

_Bytes = Union[bytes, bytearray, memoryview]
_Stream = Union[IO[bytes], io.BufferedIOBase]
_PIECE_SIZE = 65_536  # bytes of a stream that are read at once
_BUFFER_SIZE = 4_096  # bytes of the first buffer, enough for nearly all declarations
_Buffer = ctypes.c_char * _BUFFER_SIZE  # made once, since it takes longer than a call to make a type of another size
_FULL = 0x80000000  # the flag of the library for Grammar.FULL


class Grammar(enum.Enum):
    """Chooses how symbols are read.

    FULL is what today's compilers write; its texts follow the compilers. CRATE is the grammar of the Rust crate
    msvc-demangler 0.11.0; its texts never change, so a service that stores texts pins it.
    """

    FULL = "full"
    CRATE = "crate"


class Flags(enum.IntFlag):
    """Chooses how a declaration is printed. Flags are combined with |."""

    NO_MS_KEYWORDS = 0x2  # drops __cdecl and the like, of pointers to functions too
    NO_FUNCTION_RETURNS = 0x4  # drops everything before the name
    NO_MS_THISTYPE = 0x20  # changes nothing alone
    NO_CV_THISTYPE = 0x40  # changes nothing alone
    NO_THISTYPE = 0x60  # NO_MS_THISTYPE and NO_CV_THISTYPE: drops const and the like of member functions
    NO_ACCESS_SPECIFIERS = 0x80  # drops public and the like, of functions only
    NO_MEMBER_TYPE = 0x200  # drops static and virtual, of functions only
    MS_TYPENAMES = 0x400  # prints __int64 and __int128
    DECODE_32_BIT = 0x800  # changes nothing
    NAME_ONLY = 0x1000  # prints the name only
    NO_CLASS_TYPE = 0x100000  # drops class, struct, union and enum
    SPACE_AFTER_COMMA = 0x200000  # prints a space after each comma
    HUG_TYPE = 0x400000  # drops the space before * and &
    SPACE_BEFORE_POINTER = 0x800000  # drops the space after * and &; under HUG_TYPE prints one before them after a word
    WITH_PTR64 = 0x1000000  # prints __ptr64 after the parameters of a member function
    LLVM = 0xE00400  # four of these: spelling near that of llvm-undname


class Status(enum.IntEnum):
    """What a call ended with."""

    OK = 0
    INVALID = 1  # the input begins with no symbol of the grammar, under any limit
    NOT_UTF8 = 2  # the input is not UTF-8
    OUT_OF_MEMORY = 3  # a MemoryError, and no DemangleError
    TOO_MANY_NODES = 4  # the input begins with no symbol of at most max_nodes nodes
    TOO_LONG = 5  # the declaration has more than max_bytes bytes


class DemangleError(ValueError):
    """An error of a call. Its text is the message.

    status is one of Status. offset is the place in the symbol, in bytes of UTF-8: for INVALID where it is rejected, for
    NOT_UTF8 how much of it is UTF-8, for TOO_MANY_NODES where reading stopped, for TOO_LONG where it ends.
    """

    def __init__(self, message: str, status: Status, offset: int) -> None:
        super().__init__(message, status, offset)  # all three, so that the error can be pickled
        self.status = status
        self.offset = offset

    def __str__(self) -> str:
        return str(self.args[0])


class _Result(ctypes.Structure):
    _fields_ = [("status", ctypes.c_uint32), ("offset", ctypes.c_size_t), ("length", ctypes.c_size_t)]


def _load() -> ctypes.CDLL:
    name = "libmsvc_demangler.so.0"
    beside = os.path.join(os.path.dirname(os.path.abspath(__file__)), name)
    return ctypes.CDLL(beside if os.path.exists(beside) else os.environ.get("MSVC_DEMANGLER_LIBRARY", name))


def _call(name: str, result: Any, *arguments: Any) -> Any:
    call = getattr(_library, "msvc_demangler_" + name)
    call.restype, call.argtypes = result, arguments
    return call


_library = _load()
_input, _output = (ctypes.c_char_p, ctypes.c_size_t), (ctypes.c_char_p, ctypes.c_size_t)
_demangle = _call("demangle", _Result, *_input, ctypes.c_uint32, ctypes.c_size_t, ctypes.c_size_t, *_output)
_prefix = _call("prefix", _Result, *_input, ctypes.c_uint32, ctypes.c_size_t)
_filter = _call("filter", _Result, *_input, ctypes.c_uint32, *_output)
_version = _call("version", ctypes.c_size_t, *_output)


def _bytes(text: str | _Bytes) -> bytes:
    if isinstance(text, str):
        return text.encode("utf-8", "surrogatepass")
    if isinstance(text, (bytes, bytearray, memoryview)):
        return bytes(text)
    raise TypeError(f"expected str, bytes, bytearray or memoryview, not {type(text).__name__}")


def _limit(value: int) -> int:
    if not 0 <= operator.index(value) <= UNLIMITED:
        raise OverflowError(f"a limit is between 0 and UNLIMITED, not {value}")
    return value


def _word(flags: int, grammar: Grammar) -> int:
    """Returns the flags with that of the grammar, as the library takes them."""
    if not isinstance(grammar, Grammar):
        raise TypeError(f"expected a Grammar, not {type(grammar).__name__}")
    full = operator.index(flags) | _FULL
    return full if grammar is Grammar.FULL else full ^ _FULL


# The messages of the call that measures a symbol, which writes none.
_UNMEASURED = {
    Status.INVALID: b"no symbol",
    Status.NOT_UTF8: b"not UTF-8",
    Status.TOO_MANY_NODES: b"more nodes than allowed",
}


def _check(result: _Result, message: bytes) -> None:
    """Raises the error of a call that failed."""
    if result.status == Status.OUT_OF_MEMORY:
        raise MemoryError("out of memory")
    if result.status != Status.OK:
        raise DemangleError(message.decode(), Status(result.status), result.offset)


def _written(size: int, call: Any, *arguments: Any) -> bytes:
    """Returns the text that a call writes. If a buffer of this size is too small, the second suffices."""
    out: Any = _Buffer() if size <= _BUFFER_SIZE else ctypes.create_string_buffer(size)
    result = call(*arguments, out, len(out))
    if result.length >= len(out):
        out = ctypes.create_string_buffer(result.length + 1)
        result = call(*arguments, out, len(out))
    text: bytes = out[:result.length]
    _check(result, text)
    return text


def demangle(symbol: str | _Bytes, flags: int = Flags.LLVM, *, grammar: Grammar = Grammar.FULL,
             max_nodes: int = DEFAULT_NODES, max_bytes: int = DEFAULT_BYTES) -> str:
    """Returns the declaration of the symbol that the text begins with.

    max_nodes limits its tree, in which each name and each type is a node, and max_bytes the declaration in UTF-8. The
    default limits suit symbols that are not trusted; a call with them takes at most 1,000,000 bytes of stack. Raises
    DemangleError if there is no declaration, and MemoryError.
    """
    given = _bytes(symbol)
    size = min(4 * len(given) + 128, DEFAULT_BYTES)
    return _written(size, _demangle, given, len(given), _word(flags, grammar), _limit(max_nodes),
                    _limit(max_bytes)).decode()


@overload
def filter(text: str, flags: int = Flags.LLVM, *, grammar: Grammar = Grammar.FULL) -> str: ...


@overload
def filter(text: _Bytes, flags: int = Flags.LLVM, *, grammar: Grammar = Grammar.FULL) -> bytes: ...


def filter(text: str | _Bytes, flags: int = Flags.LLVM, *, grammar: Grammar = Grammar.FULL) -> str | bytes:
    """Returns the text with each symbol in it replaced by its declaration; all else stays.

    The result is a str for a str, and else bytes, which need not be UTF-8. A symbol that exceeds a default limit stays.
    Raises MemoryError.
    """
    given = _bytes(text)
    filtered = _written(3 * len(given) + 256, _filter, given, len(given), _word(flags, grammar))
    return filtered.decode("utf-8", "surrogatepass") if isinstance(text, str) else filtered


def filter_stream(reader: _Stream, writer: _Stream, flags: int = Flags.LLVM, *,
                  grammar: Grammar = Grammar.FULL) -> None:
    """Copies a stream of bytes to another, as sys.stdin.buffer to sys.stdout.buffer, and filters it as filter does.

    Before it waits for more it writes all lines that have ended, and flushes the writer. Memory grows with the longest
    line alone. Raises MemoryError, and what the streams raise.
    """
    read = getattr(reader, "read1", reader.read)  # read may wait for more than there is
    line: List[bytes] = []  # the pieces of the line that has not ended
    for piece in iter(lambda: read(_PIECE_SIZE), b""):
        if not isinstance(piece, bytes):
            raise TypeError(f"expected a stream of bytes, not of {type(piece).__name__}")
        lines, feed, rest = piece.rpartition(b"\n")
        if feed:
            writer.write(filter(b"".join([*line, lines, feed]), flags, grammar=grammar))
            writer.flush()
            line = []
        line.append(rest)
    writer.write(filter(b"".join(line), flags, grammar=grammar))
    writer.flush()


def symbol_length(text: str | _Bytes, *, grammar: Grammar = Grammar.FULL, max_nodes: int = DEFAULT_NODES) -> int:
    """Returns how long the symbol is that the text begins with: in characters of a str, else in bytes.

    Raises DemangleError if it begins with none of at most max_nodes nodes, and MemoryError.
    """
    given = _bytes(text)
    result = _prefix(given, len(given), _word(0, grammar), _limit(max_nodes))
    if result.status != Status.OK:
        _check(result, b"%s (offset: %d)" % (_UNMEASURED.get(result.status, b""), result.offset))
    return len(given[:result.length].decode()) if isinstance(text, str) else int(result.length)


def _library_version() -> str:
    out = ctypes.create_string_buffer(32)
    _version(out, len(out))
    return out.value.decode()


__version__ = _library_version()
