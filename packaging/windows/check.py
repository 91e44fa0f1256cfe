#!/usr/bin/python3
"""Checks what the packages for Windows rest on, and prints a line on what was seen; or what is wrong, with status 1.

    /usr/bin/python3 packaging/windows/check.py code OBJECT [FUNCTIONS]
    /usr/bin/python3 packaging/windows/check.py image OBJECT IMAGE

OBJECT is the object for Linux that is linked for Windows: its sections are those of merge.ld, and sysv_ stands before
its global names.

code: its code may run under Windows. No function has a frame of a page or more that it doesn't write in between, since
Windows needs each page of a stack to be touched in order; none moves the stack pointer by a number that isn't known
here, but by a loop that touches each page. None asks the kernel of Linux for anything, or uses a segment, as
thread-local data do. None reads or writes below the stack pointer, where Windows may write, but those of the file
FUNCTIONS, which are no part of the demangler's own crates.

image: IMAGE, a program or DLL that was linked of it, has its code and data once, with the same bytes but where they are
relocated; and each of these places leads to the one address that the symbol has.

It needs objdump, and Debian's python3-pyelftools and python3-pefile.
"""
import os
import re
import struct
import subprocess
import sys

import pefile

import elf

PAGE = 4096
PREFIX = "sysv_"
OWN_CRATES = re.compile(r"msvc_|undname::|msvcfilt::")
FUNCTION = re.compile(r"[0-9a-f]+ <(.*)>:$")
INSTRUCTION = re.compile(r" *[0-9a-f]+:\t(.*)$")

# How the stack pointer may be moved, beside push, pop, call and ret: by a number, or back to a frame's beginning.
MOVES = re.compile(
    r"(sub|add) +\$(0x[0-9a-f]+),%rsp$|lea +(-?0x[0-9a-f]+)\(%rsp\),%rsp$|"
    r"mov +%rbp,%rsp$|lea +-0x[0-9a-f]+\(%rbp\),%rsp$"
)
CHANGES_STACK = re.compile(r".*,%([re]?sp|spl)$|pop +%rsp$")
COMPARES = re.compile("(cmp|test)")
TOUCHES = re.compile(r"push|call|(mov[a-z]*|xorq) +[^(]*,\(%rsp\)$")

# How the compiler allocates a block of unknown size: a loop that lowers the stack pointer by less than a page
# at a time and writes there, down to the address in a register, which the stack pointer gets then.
TO_A_REGISTER = re.compile(r"mov +(%r[a-z0-9]+),%rsp$")
PROBES = (
    r"cmp %rsp,REGISTER;jge [0-9a-f]+;"
    r"xorq \$0x0,\(%rsp\);sub \$0x[0-9a-f]{1,3},%rsp;cmp %rsp,REGISTER;jl [0-9a-f]+"
)
SYSTEM = re.compile(r"^(syscall|sysenter|int +\$)|%[fg]s:")
BELOW = re.compile(r"-0x[0-9a-f]+\(%rsp(,[^)]*)?\)")
BELOW_FRAME = re.compile(r"-0x([0-9a-f]+)\(%rbp\)")
LISTED = re.compile("::<.*")

# The numbers of the PE format that are known here.
TO_64_BITS = 10
EXECUTABLE, ZEROS = 0x20000000, 0x80000080


class Wrong(Exception):
    """What is wrong with an object or an image."""


def functions(path):
    """Returns the functions of an object, each with its instructions, as objdump writes them."""
    listing = subprocess.run(
        ["objdump", "-d", "--no-show-raw-insn", path], check=True, stdout=subprocess.PIPE, encoding="utf-8"
    )
    found = {}
    code = []
    for line in listing.stdout.split("\n"):
        begin, instruction = FUNCTION.match(line), INSTRUCTION.match(line)
        if begin:
            code = found.setdefault(begin[1], [])
        elif instruction:
            code.append(re.sub(" *[<#].*", "", instruction[1]).strip())
    return found


def lowered(move):
    """Returns by how many bytes an instruction lowers the stack pointer. objdump writes -1 as 0xffffffffffffffff."""
    number = int(move[2] or move[3] or "0", 16)
    number = number - (1 << 64) if number >> 63 == 1 else number
    return number if move[1] == "sub" else -number


def frame(code):
    """Returns by how many bytes at most a function lowers the stack pointer before it writes there. The compiler writes
    a word after each 3,072 bytes of a frame."""
    most = untouched = 0
    for instruction in code:
        move = MOVES.match(instruction)
        if move:
            untouched += max(0, lowered(move))
            most = max(most, untouched)
        elif TOUCHES.match(instruction):
            untouched = 0
    return most


def moves_otherwise(instruction):
    """Returns whether an instruction moves the stack pointer otherwise than by a number that it has."""
    return CHANGES_STACK.match(instruction) and not MOVES.match(instruction) and not COMPARES.match(instruction)


def probed(code, at):
    """Returns whether an instruction gives the stack pointer the address in a register, after a loop that has written
    in each page on the way there."""
    move = TO_A_REGISTER.match(code[at])
    steps = ";".join(re.sub(" +", " ", instruction) for instruction in code[max(0, at - PROBES.count(";") - 1) : at])
    return move and re.fullmatch(PROBES.replace("REGISTER", move[1]), steps)


def below(code):
    """Returns the first instruction that reaches below the stack pointer, if there is one. Where a function calls
    others, the compiler keeps nothing there: an address with an index is that of an array that is written from its end,
    as digits are."""
    calls = any(instruction.startswith("call") for instruction in code)
    depth = None
    for instruction in code:
        found = BELOW.search(instruction)
        if found and not instruction.endswith(",%rsp") and not (found[1] and calls):
            return instruction
        if re.match("mov +%rsp,%rbp$", instruction):
            depth = 0
        elif depth is not None:
            move = MOVES.match(instruction)
            if move:
                depth += max(0, lowered(move))
            elif instruction.startswith("push"):
                depth += 8
            found = BELOW_FRAME.search(instruction)
            if found and int(found[1], 16) > depth:
                return instruction
    return None


def faults(name, code, listed):
    """Returns the faults of a function, and whether it reaches below the stack pointer, as those listed may."""
    found = [instruction for instruction in code if SYSTEM.search(instruction)]
    found += [
        f"moves the stack pointer by {instruction}"
        for at, instruction in enumerate(code)
        if moves_otherwise(instruction) and not probed(code, at)
    ]
    if frame(code) >= PAGE:
        found.append(f"a frame of {frame(code)} bytes")
    reaching = below(code)
    bare = LISTED.sub("", name)
    may_reach = bare in listed and not OWN_CRATES.match(bare)
    if reaching and not may_reach:
        found.append(f"reaches below the stack pointer: {reaching}")
    return found, bool(reaching)


def check_code(path, listed):
    """Checks the code of an object. Returns what was seen."""
    wrong, most, reaching = [], 0, 0
    found = functions(path)
    if not found:
        raise Wrong("no functions")
    for name, code in found.items():
        name = name[len(PREFIX):] if name.startswith(PREFIX) else name
        function_faults, reaches = faults(name, code, listed)
        wrong += [f"{name}: {fault}" for fault in function_faults]
        most = max(most, frame(code))
        reaching += reaches
    if wrong:
        raise Wrong("\n  ".join(["may not run under Windows:", *wrong]))
    return f"{len(found)} functions, frames of {most} bytes at most, {reaching} reach below the stack pointer"


class Image:
    """A program or DLL. At the addresses `moved` are the pointers that change if Windows loads it elsewhere."""

    def __init__(self, data):
        try:
            file = pefile.PE(data=data, fast_load=True)
            file.parse_data_directories([pefile.DIRECTORY_ENTRY["IMAGE_DIRECTORY_ENTRY_BASERELOC"]])
        except pefile.PEFormatError as error:
            raise Wrong(f"not a PE file: {error}") from None
        if (file.FILE_HEADER.Machine, file.OPTIONAL_HEADER.Magic) != (0x8664, 0x20B):
            raise Wrong("not for x86-64")
        self.base = file.OPTIONAL_HEADER.ImageBase
        self.moved = {entry.rva for page in getattr(file, "DIRECTORY_ENTRY_BASERELOC", []) for entry in page.entries
                      if entry.type == TO_64_BITS}
        self.sections = [(section.VirtualAddress, section.Misc_VirtualSize,
                          section.get_data()[: section.Misc_VirtualSize] if section.SizeOfRawData else b"",
                          section.Characteristics) for section in file.sections]

    def read(self, address, length):
        """Returns the bytes at an address from the beginning of the image."""
        for begin, _, content, _ in self.sections:
            if begin <= address and address + length <= begin + len(content):
                return content[address - begin : address - begin + length]
        raise Wrong(f"nothing is at {address:#x}")

    def is_part(self, flags, address, length=1):
        """Returns whether so many bytes from an address on are part of a section with these flags."""
        return any(begin <= address and address + length <= begin + size and found & flags == flags
                   for begin, size, _, found in self.sections)


def stretches(section):
    """Returns the parts of a section that aren't relocated, each with its offset."""
    found, at = [], 0
    for relocation in sorted(section.relocations, key=lambda relocation: relocation.offset):
        found.append((at, section.content[at : relocation.offset]))
        at = relocation.offset + elf.RELOCATIONS[relocation.kind]
    return found + [(at, section.content[at:])]


def located(section, image):
    """Returns the address at which a section stands, and that is the only one."""
    parts = stretches(section)
    longest = max(parts, key=lambda part: len(part[1]))
    found = []
    for begin, _, content, _ in image.sections:
        at = content.find(longest[1])
        while at >= 0:
            start = at - longest[0]
            if start >= 0 and all(content.startswith(part, start + offset) for offset, part in parts):
                found.append(begin + start)
            at = content.find(longest[1], at + 1)
    if len(found) != 1:
        raise Wrong(f"{section.name} occurs in the image {len(found)} times")
    return found[0]


class Linked:
    """An object, and the image that was linked of it."""

    def __init__(self, object_, image):
        self.symbols = object_.symbols
        self.sections = object_.sections
        self.image = image
        self.places = {number: self.placed(section) for number, section in self.sections.items() if section.content}
        self.outside = {}

    def placed(self, section):
        """Returns the address of a section. One of code has to be where code is."""
        place = located(section, self.image)
        if not self.image.is_part(EXECUTABLE if section.flags & elf.EXECUTE else 0, place, section.size):
            raise Wrong(f"{section.name} is not where code is")
        return place

    def address(self, relocation, at):
        """Returns the address of the symbol of a relocation, that the bytes there have."""
        if relocation.kind != elf.R_64:
            return struct.unpack("<i", self.image.read(at, 4))[0] - relocation.addend + at
        if at not in self.image.moved:
            raise Wrong(f"the pointer at {at:#x} stays as it is when the image is loaded elsewhere")
        return struct.unpack("<Q", self.image.read(at, 8))[0] - relocation.addend - self.image.base

    def wanted(self, symbol, address):
        """Returns the address of a symbol: of one that the object has not, or only as zeros, what the first relocation
        has, if a function is there, or zeros."""
        if symbol.section in self.places:
            return self.places[symbol.section] + symbol.value
        key = symbol.name if symbol.section == elf.UNDEFINED else symbol.section
        place = self.outside.setdefault(key, address - symbol.value)
        if symbol.section == elf.UNDEFINED and not self.image.is_part(EXECUTABLE, place):
            raise Wrong(f"{symbol.name} is no function")
        if symbol.section in self.sections and not self.image.is_part(ZEROS, place, self.sections[symbol.section].size):
            raise Wrong(f"{self.sections[symbol.section].name} is not where zeros are")
        return place + symbol.value

    def check(self):
        """Checks each relocation. Returns how many there are."""
        count = 0
        for number, begin in self.places.items():
            for relocation in self.sections[number].relocations:
                at = begin + relocation.offset
                symbol = self.symbols[relocation.symbol]
                address = self.address(relocation, at)
                if address != self.wanted(symbol, address):
                    raise Wrong(f"the relocation at {at:#x} leads to {address:#x}, and not to {symbol.name}")
                count += 1
        return count


def check_image(object_path, image_path):
    """Checks an image beside the object of which it was made. Returns what was seen."""
    with open(object_path, "rb") as file:
        object_ = elf.read(file.read())
    with open(image_path, "rb") as file:
        linked = Linked(object_, Image(file.read()))
    same = sum(len(part) for number in linked.places for _, part in stretches(linked.sections[number]))
    return f"{same} bytes as for Linux, and {linked.check()} relocations, which lead where they should"


def main(words):
    """Makes the check that the words name. Returns the exit status."""
    try:
        if words[0] == "code":
            listed = set()
            for path in words[2:]:
                with open(path) as file:
                    listed |= {line.strip() for line in file if not line.startswith("#")}
            print(f"{os.path.basename(words[1])}: {check_code(words[1], listed)}")
        else:
            print(f"{os.path.basename(words[2])}: {check_image(words[1], words[2])}")
    except (Wrong, elf.Unknown) as wrong:
        print(f"check: {words[-1] if words[0] == 'image' else words[1]}: {wrong}", file=sys.stderr)
        return 1
    return 0


if __name__ == "__main__":
    sys.exit(main(sys.argv[1:]))
