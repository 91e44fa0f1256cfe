#!/usr/bin/python3
"""Tests coff.py and check.py with small objects, which the assembler makes of a few lines: that what they know is linked
as it should be, and that they reject, by name, whatever else there is.

    /usr/bin/python3 tests/windows/tests.py

It needs binutils, and mingw to link.
"""
import contextlib
import io
import pathlib
import struct
import subprocess
import sys
import tempfile
import unittest

from elftools.elf.elffile import ELFFile

HERE = pathlib.Path(__file__).resolve().parents[2] / "packaging/windows"
sys.path.insert(0, str(HERE))
import check
import coff
import elf

MINGW = "x86_64-w64-mingw32-"

# What `object_of` makes of these lines has each kind of section and relocation.
WHOLE = """
.globl f, table
.text
nop
f: call g
   lea inner+5(%rip), %rax
   cmpb $0, zero+2(%rip)
   lea zero(%rip), %rax
   ret
.section .rodata.words, "a"
.byte 1, 2
inner: .byte 3, 4, 5, 6, 7, 8
.section .data.rel.ro.table, "aw"
table: .quad f+3, g, inner
.data
.quad table, 0x123456789abcdef
.bss
.zero 8
zero: .zero 8
"""

# A program that uses it.
PROGRAM = "extern void *table[]; void g(void) {} int main(void) { return !table[0]; }\n"

# Lines that the converter rejects, and what it then names.
REJECTED = {
    ".section .tdata,\"awT\",@progbits\n.long 1": "section .tdata: .tdata",
    ".text\nmov %fs:x@tpoff, %eax\n.section .tdata,\"awT\",@progbits\nx: .long 1": "section .tdata: .tdata",
    ".comm c, 8": "symbol c, its place: SHN_COMMON",
    ".section .init_array,\"aw\",@init_array\n.quad f\nf: ret": "section .init_array, its type: SHT_INIT_ARRAY",
    ".section .fini_array,\"aw\",@fini_array\n.quad 0": "section .fini_array, its type: SHT_FINI_ARRAY",
    ".section .ctors,\"aw\",@progbits\n.quad 0": "section .ctors: .ctors",
    ".section .other,\"a\",@progbits\n.quad 0": "section .other: .other",
    ".section .more,\"a\",@note\n.quad 0": "section .more, its type: SHT_NOTE",
    ".section .text.g,\"axG\",@progbits,g,comdat\nret": "its type: SHT_GROUP",
    ".section .text.g,\"axo\",@progbits,.text\nret": "section .text.g: .text.g",
    ".section .text.g,\"awx\",@progbits\nret": "section .text, its flags: 7",
    ".text\nmov f@GOTPCREL(%rip), %rax": "its type: R_X86_64_REX_GOTPCRELX",
    ".text\n.long f": "its type: R_X86_64_32",
    ".text\nmov $f, %rax": "its type: R_X86_64_32S",
    ".text\n.quad f - .": "its type: R_X86_64_PC64",
    ".text\n.byte f": "its type: R_X86_64_8",
    ".weak f\n.text\nf: ret": "symbol f, its binding: STB_WEAK",
    ".text\n.type f, @gnu_indirect_function\nf: ret": "symbol f, its type: STT_LOOS",
    ".globl five\nfive = 5": "symbol five, its place: SHN_ABS",
    ".data\n.balign 16384\n.quad 0": "section .data, its alignment: 16384",
}

# A block of unknown size, with the value that is written in each step, the bytes of a step, and the register
# that the stack pointer gets.
PROBED = (
    "f: push %%rbp\nmov %%rsp, %%rbp\npush %%rbx\nmov %%rsp, %%rsi\nsub %%rax, %%rsi\ncmp %%rsp, %%rsi\njge 2f\n"
    "1: xorq %s, (%%rsp)\nsub $%d, %%rsp\ncmp %%rsp, %%rsi\njl 1b\n2: mov %s, %%rsp\n"
    "lea -8(%%rbp), %%rsp\npop %%rbx\npop %%rbp\nret"
)

# Code that must not run under Windows, or only if listed, and the message of the check.
FORBIDDEN = {
    "f: sub $4096, %rsp\nadd $4096, %rsp\nret": "f: a frame of 4096 bytes",
    "f: lea -0x2000(%rsp), %rsp\nret": "f: a frame of 8192 bytes",
    "f: add $-0x1000, %rsp\nret": "f: a frame of 4096 bytes",
    "f: sub $2048, %rsp\nsub $2048, %rsp\nadd $4096, %rsp\nret": "f: a frame of 4096 bytes",
    "f: sub $2048, %rsp\nmov (%rsp), %rax\nsub $2048, %rsp\nret": "f: a frame of 4096 bytes",
    "f: sub $2048, %rsp\nmovq $0, 8(%rsp)\nsub $2048, %rsp\nret": "f: a frame of 4096 bytes",
    "f: sub %rax, %rsp\nret": "f: moves the stack pointer by sub",
    "f: and $-32, %rsp\nret": "f: moves the stack pointer by and",
    "f: mov %rax, %rsp\nret": "f: moves the stack pointer by mov",
    "f: mov 8(%rax), %rsp\nret": "f: moves the stack pointer by mov",
    PROBED % ("$0x0", 4096, "%rsi"): "f: moves the stack pointer by mov",
    PROBED % ("$0x1", 3072, "%rsi"): "f: moves the stack pointer by mov",
    PROBED % ("$0x0", 3072, "%rdi"): "f: moves the stack pointer by mov",
    "f: xchg %rax, %rsp\nret": "f: moves the stack pointer by xchg",
    "f: pop %rsp\nret": "f: moves the stack pointer by pop",
    "f: mov %fs:0x28, %rax\nret": "f: mov    %fs:0x28,%rax",
    "f: mov $1, %eax\nsyscall\nret": "f: syscall",
    "f: int $0x80\nret": "f: int    $0x80",
    "f: mov %rax, -8(%rsp)\nret": "f: reaches below the stack pointer: mov    %rax,-0x8(%rsp)",
    "f: movaps -0x18(%rsp), %xmm0\ncall g\nret": "f: reaches below the stack pointer",
    "f: movb %al, -1(%rsp,%rcx)\nret": "f: reaches below the stack pointer",
    "f: lea -0x20(%rsp), %rax\nret": "f: reaches below the stack pointer",
    "f: push %rbp\nmov %rsp, %rbp\nmov %rax, -8(%rbp)\npop %rbp\nret": "f: reaches below the stack pointer",
    '"msvc_print::own": mov %rax, -8(%rsp)\nret': "msvc_print::own: reaches below the stack pointer",
    "f: mov -8(%rsp), %rax\nret\n\"core::listed\": ret": "f: reaches below",
}

# Code that may.
ALLOWED = [
    "f: sub $4080, %rsp\nmov %rax, 8(%rsp)\nadd $4080, %rsp\nret",
    "f: sub $3072, %rsp\nmovq $0, (%rsp)\nsub $3072, %rsp\ncall g\nsub $4000, %rsp\nret",
    "f: lea -0x80(%rsp), %rsp\nlea 0x80(%rsp), %rsp\nret",
    "f: push %rbp\nmov %rsp, %rbp\npush %rbx\nsub $24, %rsp\nmov %rax, -0x20(%rbp)\nleave\nret",
    "f: push %rbp\nmov %rsp, %rbp\nleave\nret",
    PROBED % ("$0x0", 3072, "%rsi"),
    "f: sub $40, %rsp\nmovb %al, -1(%rsp,%rcx)\ncall g\nadd $40, %rsp\nret",
    "\"core::listed::<#12>\": mov %rax, -8(%rsp)\nret",
]
LISTED = "# A remark.\ncore::listed\nmsvc_print::own\n"


class Case(unittest.TestCase):
    """A test with a folder of its own."""

    def setUp(self):
        folder = tempfile.TemporaryDirectory()
        self.addCleanup(folder.cleanup)
        self.folder = pathlib.Path(folder.name)

    def run_in_folder(self, *words):
        """Runs a command."""
        subprocess.run(words, cwd=self.folder, check=True)

    def assembled(self, lines, *words):
        """Returns the object that the assembler makes of these lines."""
        (self.folder / "in.s").write_text(lines + "\n")
        self.run_in_folder("as", *words, "in.s", "-o", "in.o")
        return self.folder / "in.o"

    def merged(self, lines):
        """Returns this object, with the sections of merge.ld."""
        self.assembled(lines)
        self.run_in_folder("ld", "-r", "-T", str(HERE / "merge.ld"), "-o", "merged.o", "in.o")
        return self.folder / "merged.o"

    def converted(self, path):
        """Makes out.obj, what the assembler of Windows makes of an object."""
        (self.folder / "out.s").write_text("\n".join(coff.lines(elf.read(path.read_bytes()))) + "\n")
        self.run_in_folder(MINGW + "as", "out.s", "-o", "out.obj")

    def rejected(self, path):
        """Returns the error message for an object that is rejected."""
        with self.assertRaises(elf.Unknown) as rejection:
            elf.read(path.read_bytes())
        return str(rejection.exception)


class Objects(Case):
    def test_rejected(self):
        for lines, wanted in REJECTED.items():
            with self.subTest(lines):
                direct = "@note" in lines or "comdat" in lines or "axo" in lines
                self.assertIn(wanted, self.rejected(self.assembled(lines) if direct else self.merged(lines)))

    def test_other_files(self):
        self.assertIn("the file: (32, ", self.rejected(self.assembled("nop", "--32")))
        (self.folder / "in.o").write_bytes(b"!<arch>\n" + bytes(100))
        self.assertIn("the file: Magic number", self.rejected(self.folder / "in.o"))
        data = self.merged(WHOLE).read_bytes()
        for offset, value in ((18, 183), (16, 2)):
            (self.folder / "in.o").write_bytes(data[:offset] + struct.pack("<H", value) + data[offset + 2 :])
            self.assertIn("the file: (64, ", self.rejected(self.folder / "in.o"))

    def test_beyond(self):
        """Offsets that lead out of a section, which no assembler writes: of a relocation, and of a symbol."""
        data = self.merged(WHOLE).read_bytes()
        tried = 0
        for section in ELFFile(io.BytesIO(data)).iter_sections():
            place = {"SHT_RELA": 0, "SHT_SYMTAB": 24 * 3 + 8}.get(section["sh_type"])
            if place is not None:
                changed = bytearray(data)
                struct.pack_into("<Q", changed, section["sh_offset"] + place, 1 << 40)
                (self.folder / "in.o").write_bytes(changed)
                self.assertIn("beyond the section", self.rejected(self.folder / "in.o"))
                tried += 1
        self.assertEqual(tried, 4)


class Code(Case):
    def checked(self, lines):
        """Returns the status and the output of the check of the code of these lines."""
        (self.folder / "listed").write_text(LISTED)
        printed, wrong = io.StringIO(), io.StringIO()
        with contextlib.redirect_stdout(printed), contextlib.redirect_stderr(wrong):
            status = check.main(["code", str(self.merged(".text\n" + lines)), str(self.folder / "listed")])
        return status, printed.getvalue() + wrong.getvalue()

    def test_forbidden(self):
        for lines, wanted in FORBIDDEN.items():
            with self.subTest(lines):
                status, printed = self.checked(lines)
                self.assertIn(wanted, printed)
                self.assertEqual(status, 1)

    def test_allowed(self):
        for lines in ALLOWED:
            with self.subTest(lines):
                self.assertEqual(self.checked(lines)[0], 0)

    def test_no_code(self):
        self.assertEqual(self.checked("")[0], 1)


class Linked(Case):
    def setUp(self):
        super().setUp()
        self.object = self.merged(WHOLE)
        (self.folder / "main.c").write_text(PROGRAM)
        self.image = self.linked()

    def linked(self, *words, file="merged.o"):
        """Returns the program that is linked of the object, or of another file."""
        self.run_in_folder(MINGW + "gcc-win32", "-O1", "main.c", file, *words, "-o", "main.exe")
        return (self.folder / "main.exe").read_bytes()

    def checked(self, image):
        """Returns the status and the output of the check of an image."""
        (self.folder / "changed.exe").write_bytes(image)
        printed, wrong = io.StringIO(), io.StringIO()
        with contextlib.redirect_stdout(printed), contextlib.redirect_stderr(wrong):
            status = check.main(["image", str(self.object), str(self.folder / "changed.exe")])
        return status, printed.getvalue() + wrong.getvalue()

    def test_linked(self):
        """The object itself is linked as it should be, and what coff.py makes of it."""
        self.converted(self.object)
        for image in (self.image, self.linked(file="out.obj")):
            status, printed = self.checked(image)
            self.assertIn("28 bytes as for Linux, and 8 relocations", printed)
            self.assertEqual(status, 0)

    def test_converted(self):
        """What coff.py makes of an object is one for Windows, with the same names and alignments."""
        names = ["eightish", "nine_long", "x" * 5000, "msvc_print::text::write::<#1f>"]
        lines = "".join(f'.globl "{name}"\n"{name}": ret\n' for name in names)
        self.converted(self.merged(lines + ".data\n.balign 8192\n.quad 0"))
        printed = [subprocess.run([MINGW + "objdump", word, "out.obj"], cwd=self.folder, check=True, encoding="utf-8",
                                  stdout=subprocess.PIPE).stdout for word in ("-t", "-h")]
        self.assertIn("file format pe-x86-64", printed[0])
        for at, name in enumerate(names):
            self.assertIn(f"0x{at:016x} {name}\n", printed[0])
        self.assertRegex(printed[1], r"\.data .* 2\*\*13\n")

    def test_changed(self):
        """Each byte of the code, and of the pointers beside it, is seen if it is another one."""
        object_ = elf.read(self.object.read_bytes())
        image = check.Image(self.image)
        for section in object_.sections.values():
            if not section.content:
                continue
            begin = check.located(section, image)
            for offset in range(section.size):
                at = self.image.index(image.read(begin, section.size)) + offset
                changed = self.image[:at] + bytes([self.image[at] ^ 0x10]) + self.image[at + 1 :]
                with self.subTest(section=section.name, offset=offset):
                    self.assertEqual(self.checked(changed)[0], 1)

    def test_not_moved(self):
        """A program that can't be loaded elsewhere has no list of pointers."""
        status, printed = self.checked(self.linked("-Wl,--disable-dynamicbase,--disable-reloc-section"))
        self.assertIn("stays as it is", printed)
        self.assertEqual(status, 1)

    def test_no_image(self):
        with self.assertRaises(check.Wrong):
            check.Image(bytes(200))


if __name__ == "__main__":
    unittest.main()
