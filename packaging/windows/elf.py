"""Reads an object for Linux on x86-64, an ELF file of merge.ld, and rejects by name whatever it doesn't know. It needs
Debian's python3-pyelftools."""
import dataclasses
import io
from typing import Dict, List, Union

from elftools.common.exceptions import ELFError
from elftools.elf.elffile import ELFFile
from elftools.elf.enums import ENUM_RELOC_TYPE_x64

# What is known here, by its names in the ELF format.
KINDS = ("SHT_NULL", "SHT_PROGBITS", "SHT_NOBITS", "SHT_SYMTAB", "SHT_STRTAB", "SHT_RELA")
TYPES = ("STT_NOTYPE", "STT_OBJECT", "STT_FUNC", "STT_SECTION", "STT_FILE")
GLOBAL, UNDEFINED, R_64 = "STB_GLOBAL", "SHN_UNDEF", "R_X86_64_64"
WRITE, ALLOC, EXECUTE, MERGE, STRINGS = 1, 2, 4, 0x10, 0x20

# How many bytes each kind of relocation writes.
RELOCATIONS = {R_64: 8, "R_X86_64_PC32": 4, "R_X86_64_PLT32": 4}
NAMES = {number: name for name, number in ENUM_RELOC_TYPE_x64.items()}

# The sections that merge.ld leaves: the kind of each, and its flags, with or without the one for writing if what it
# contains is relocated.
SECTIONS = {
    ".text": ("SHT_PROGBITS", (ALLOC | EXECUTE,)),
    ".rdata": ("SHT_PROGBITS", (ALLOC, ALLOC | WRITE)),
    ".data": ("SHT_PROGBITS", (ALLOC | WRITE,)),
    ".bss": ("SHT_NOBITS", (ALLOC | WRITE,)),
}
MOST_ALIGNMENT = 8192


class Unknown(Exception):
    """What an object has that isn't known here."""


@dataclasses.dataclass
class Relocation:
    """A place in a section that is written when addresses are known: that of a symbol, and a number added to it."""

    offset: int
    kind: str
    symbol: int
    addend: int


@dataclasses.dataclass
class Section:
    """A section. One without bytes, as .bss, has a size alone."""

    name: str
    flags: int
    size: int
    align: int
    content: bytes
    relocations: List[Relocation]


@dataclasses.dataclass
class Symbol:
    """A symbol: in which section it stands, by number or name, and where there."""

    name: str
    binding: str
    section: Union[int, str]
    value: int


@dataclasses.dataclass
class Elf:
    """An object: the sections that have a size in memory, by their numbers, and all symbols."""

    sections: Dict[int, Section]
    symbols: List[Symbol]


def check(what, found, known):
    """Rejects what isn't known."""
    if found not in known:
        raise Unknown(f"{what}: {found}")


def read_section(section):
    """Returns a section that is in memory. Rejects one that Windows has no place for."""
    what, size, align = f"section {section.name}", section["sh_size"], section["sh_addralign"]
    check(what, section.name, SECTIONS)
    kind, flags = SECTIONS[section.name]
    check(f"{what}, its kind", section["sh_type"], (kind,))
    check(f"{what}, its flags", section["sh_flags"] & ~(MERGE | STRINGS), flags)
    if not 0 < align <= MOST_ALIGNMENT or align & (align - 1):
        raise Unknown(f"{what}, its alignment: {align}")
    content = b"" if kind == "SHT_NOBITS" else section.data()
    return Section(section.name, section["sh_flags"], size, align, content, [])


def read_symbol(symbol, sections):
    """Returns a symbol. Rejects one of an unknown kind, or that is in no section."""
    what, info, place = f"symbol {symbol.name}", symbol["st_info"], symbol["st_shndx"]
    check(f"{what}, its type", info["type"], TYPES)
    check(f"{what}, its binding", info["bind"], ("STB_LOCAL", GLOBAL))
    if not isinstance(place, int) and info["type"] != "STT_FILE":
        check(f"{what}, its place", place, (UNDEFINED,))
    if place in sections and symbol["st_value"] > sections[place].size:
        raise Unknown(f"{what}, its place: beyond the section")
    return Symbol(symbol.name, info["bind"], place, symbol["st_value"])


def read_relocation(relocation, section, object_):
    """Returns a relocation of a section. Rejects one of a local symbol outside of the sections."""
    what = f"section {section.name}, relocation at {relocation['r_offset']:#x}"
    kind, number = NAMES.get(relocation["r_info_type"]), relocation["r_info_sym"]
    check(f"{what}, its type", kind, RELOCATIONS)
    if relocation["r_offset"] + RELOCATIONS[kind] > len(section.content):
        raise Unknown(f"{what}: beyond the section")
    if not 0 < number < len(object_.symbols):
        raise Unknown(f"{what}: of no symbol")
    symbol = object_.symbols[number]
    if symbol.binding != GLOBAL:
        check(f"{what}, the section of its symbol {symbol.name}", symbol.section, object_.sections)
    return Relocation(relocation["r_offset"], kind, number, relocation["r_addend"])


def read(data):
    """Returns what an object has."""
    try:
        file = ELFFile(io.BytesIO(data))
    except ELFError as error:
        raise Unknown(f"the file: {error}") from None
    check("the file", (file.elfclass, file["e_type"], file["e_machine"]), ((64, "ET_REL", "EM_X86_64"),))
    parts = list(file.iter_sections())
    for section in parts:
        check(f"section {section.name}, its type", section["sh_type"], KINDS)
    loaded = {number: read_section(section) for number, section in enumerate(parts)
              if section["sh_flags"] & ALLOC and section["sh_size"]}
    check("sections of one name", len(loaded) - len({section.name for section in loaded.values()}), (0,))
    tables = [section for section in parts if section["sh_type"] == "SHT_SYMTAB"]
    check("tables of symbols", len(tables), (1,))
    object_ = Elf(loaded, [read_symbol(symbol, loaded) for symbol in tables[0].iter_symbols()])
    for section in parts:
        if section["sh_type"] == "SHT_RELA" and section["sh_info"] in loaded:
            target = loaded[section["sh_info"]]
            target.relocations += [read_relocation(relocation, target, object_)
                                   for relocation in section.iter_relocations()]
    return object_
