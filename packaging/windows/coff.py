#!/usr/bin/python3
"""Prints an object for Linux on x86-64 as lines for an assembler: that of Windows makes an object for Windows of them.

    /usr/bin/python3 packaging/windows/coff.py < OBJECT | x86_64-w64-mingw32-as -o RESULT -

Code and data stay as they are, but for what is relocated. The status is 1 if the object has anything that elf.py
doesn't know, which standard error names.
"""
import sys

import elf

BEGINNINGS = {".text": ".text", ".rdata": '.section .rdata,"dr"', ".data": ".data", ".bss": ".bss"}


def target(symbol):
    """Returns a symbol as the assembler knows it: those that only the object sees are places in their section."""
    return f'"{symbol.name}"' if symbol.binding == elf.GLOBAL else f".L{symbol.section}+{symbol.value}"


def octets(content):
    """Yields a line of these bytes."""
    if content:
        yield ".byte " + ",".join(map(str, content))


def relocated(section, symbols):
    """Yields the lines of a section with bytes."""
    at = 0
    for relocation in sorted(section.relocations, key=lambda relocation: relocation.offset):
        place = f"{target(symbols[relocation.symbol])}+{relocation.addend}"
        yield from octets(section.content[at : relocation.offset])
        yield f".quad {place}" if relocation.kind == elf.R_64 else f".long {place}-."
        at = relocation.offset + elf.RELOCATIONS[relocation.kind]
    yield from octets(section.content[at:])


def lines(object_):
    """Yields the lines of an object."""
    for number, section in object_.sections.items():
        yield from (BEGINNINGS[section.name], f".balign {section.align}", f".L{number}:")
        yield from relocated(section, object_.symbols) if section.content else [f".skip {section.size}"]
    for symbol in object_.symbols:
        if symbol.binding == elf.GLOBAL and symbol.section != elf.UNDEFINED:
            yield f'.globl "{symbol.name}"\n.set "{symbol.name}", .L{symbol.section}+{symbol.value}'


if __name__ == "__main__":
    try:
        print(*lines(elf.read(sys.stdin.buffer.read())), sep="\n")
    except elf.Unknown as unknown:
        sys.exit(f"coff: {unknown}")
