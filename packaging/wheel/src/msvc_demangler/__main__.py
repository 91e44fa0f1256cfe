"""Filters standard input, or demangles symbols.

Without a SYMBOL the program copies standard input to standard output, with each symbol in it replaced by its
declaration. Otherwise it prints the declaration of each. A symbol that has none is printed unchanged, its error
goes to standard error, and the exit status is 1. That is also the status if a stream fails.
"""
import argparse
import os
import sys
from typing import List

from . import DemangleError, Grammar, demangle, filter_stream

# The program opens its streams anew: those of sys may be missing, and are flushed once more after a failure.


def show(symbols: List[str], grammar: Grammar) -> int:
    """Prints the declaration of each symbol, or the symbol if it has none. Returns the exit status."""
    status = 0
    with open(1, "wb", closefd=False) as out, open(2, "wb", 0, closefd=False) as errors:
        for symbol in map(os.fsencode, symbols):
            try:
                text = demangle(symbol, grammar=grammar).encode()
            except DemangleError as error:
                errors.write(f"error: {error}\n".encode())
                text, status = symbol, 1
            out.write(text + b"\n")
    return status


def main() -> int:
    parser = argparse.ArgumentParser(prog="python3 -m msvc_demangler", description=__doc__,
                                     formatter_class=argparse.RawDescriptionHelpFormatter)
    parser.add_argument("symbols", nargs="*", metavar="SYMBOL")
    parser.add_argument("--grammar", type=Grammar, default=Grammar.FULL,
                        help="full (default): what today's compilers write, or crate")
    given = parser.parse_args()
    if given.symbols:
        return show(given.symbols, given.grammar)
    with open(0, "rb", closefd=False) as reader, open(1, "wb", closefd=False) as writer:
        filter_stream(reader, writer, grammar=given.grammar)
    return 0


if __name__ == "__main__":
    try:
        sys.exit(main())
    except BrokenPipeError:
        sys.exit(1)
    except OSError as failure:
        sys.exit(f"msvc_demangler: {failure.strerror}")
    except MemoryError:
        sys.exit("msvc_demangler: out of memory")
