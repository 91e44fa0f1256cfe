"""Compares the Python module with rows, as rows.c does with the library. The module is that of packaging/wheel/src."""
import sys

from msvc_demangler import UNLIMITED, DemangleError, Grammar, Status, demangle

FULL = 0x80000000  # the flag of a row of Full


def result(symbol, flags):
    """Returns the status, the offset, and the declaration of a symbol or the error message."""
    grammar = Grammar.FULL if flags & FULL else Grammar.CRATE
    try:
        return Status.OK, 0, demangle(symbol, flags, grammar=grammar, max_nodes=UNLIMITED, max_bytes=UNLIMITED)
    except DemangleError as error:
        return error.status, error.offset, str(error)


def agrees(row):
    flags, symbol, kind, wanted = row.split(b"\t", 3)
    status, offset, text = result(symbol, int(flags, 16))
    if kind == b"ok":
        return (status, offset, text.encode()) == (Status.OK, 0, wanted)
    place, message = wanted.split(b"\t", 1)
    rejection = Status.NOT_UTF8 if message == b"not UTF-8" else Status.INVALID
    return (status, offset) == (rejection, int(place)) and text.encode().startswith(message)


rows = [line for line in sys.stdin.buffer.read().splitlines() if not line.startswith(b"# ")]
differing = [row for row in rows if not agrees(row)]
for row in differing:
    print(row)
print(f"{len(rows) - len(differing)} rows agree, {len(differing)} differ")
sys.exit(1 if differing else 0)
