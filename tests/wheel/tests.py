"""Tests the module as a wheel has installed it.

    python3 -I tests/wheel/tests.py WHEEL

WHEEL is the file. -I keeps other modules than the installed one out. mypy checks the types of this file too.
"""
import base64
import concurrent.futures
import contextlib
import csv
import doctest
import gzip
import hashlib
import io
import os
import pathlib
import pickle
import re
import resource
import shutil
import subprocess
import sys
import tempfile
import unittest
import zipfile
from typing import Any, Dict, Iterator, List, Tuple

import msvc_demangler
from msvc_demangler import UNLIMITED, DemangleError, Flags, Grammar, Status

TOP = pathlib.Path(__file__).resolve().parents[2]
HEADER = (TOP / "include/msvc_demangler.h").read_text("utf-8")
VERSION = (TOP / "VERSION").read_text("utf-8").strip()
DEEP = "?x@@3" + 100_000 * "PEA" + "HEA"
# Each parameter has the one before twenty times: the declaration has more than 20 ** 9 bytes.
ENDLESS = "?f@@YAXPAH" + "".join(f"P6AX{20 * str(level)}@Z" for level in range(9)) + "@Z"
# A symbol that the crate's grammar rejects, and its declaration.
AUTO, DECLARATION = "?f@@YA?A?<auto>@@H@Z", "<auto> __cdecl f(int)"
# The file with the rows of each grammar.
ROWS = {Grammar.FULL: "crates/msvc_full_bench/stdin", Grammar.CRATE: "crates/msvc_bench/stdin"}
PROGRAM = (sys.executable, "-I", "-m", "msvc_demangler")
# Lengths with which a stream is read.
PIECES = (1, 2, 7, 4096, 1_000_000)
wheel = ""


class Pieces(io.BytesIO):
    """A stream that gives at most so many bytes at once."""

    def __init__(self, content: bytes, length: int) -> None:
        super().__init__(content)
        self.length = length

    def read1(self, size: "int | None" = -1) -> bytes:
        return self.read(self.length)


class Failing(Pieces):
    """A stream that fails where another ends."""

    def read1(self, size: "int | None" = -1) -> bytes:
        piece = super().read1(size)
        if not piece:
            raise OSError("no more")
        return piece


class Digest(io.BytesIO):
    """A stream that keeps the digest of its content alone."""

    def __init__(self) -> None:
        super().__init__()
        self.hash = hashlib.sha256()

    def write(self, content: Any) -> int:
        self.hash.update(content)
        return len(content)


def filtered_text() -> Tuple[bytes, bytes]:
    """Returns the documented text and what the filter makes of it."""
    document = (TOP / "docs/msvcfilt.md").read_text("utf-8").partition("<!-- file: text -->\n")[2]
    _, text, _, shown = document.split("```\n")[:4]
    return text.encode(), shown.partition("$ msvcfilt text\n")[2].encode()


def rows(grammar: Grammar) -> List[Tuple[int, str, str]]:
    """Returns the rows of a grammar that have a declaration: flags, symbol and declaration."""
    lines = [line.split("\t") for line in (TOP / ROWS[grammar]).read_text("utf-8").split("\n")]
    return [(int(line[0], 16), line[1], line[3]) for line in lines if line[2:3] == ["ok"]]


def defined(pattern: str) -> Dict[str, int]:
    """Returns the names in the header that a pattern finds after MSVC_DEMANGLER_, and their numbers."""
    return {name: int(number, 0) for name, number in re.findall("MSVC_DEMANGLER_" + pattern, HEADER)}


@contextlib.contextmanager
def little_memory() -> Iterator[None]:
    """Leaves the process 64 MB more than it has."""
    pages = int(pathlib.Path("/proc/self/statm").read_text().split()[0])
    before = resource.getrlimit(resource.RLIMIT_AS)
    resource.setrlimit(resource.RLIMIT_AS, (pages * resource.getpagesize() + 64_000_000, before[1]))
    try:
        yield
    finally:
        resource.setrlimit(resource.RLIMIT_AS, before)


class Module(unittest.TestCase):
    def rejected(self, symbol: "str | bytes", status: Status, offset: int, **options: Any) -> str:
        """Returns the message, after it has compared status and offset."""
        with self.assertRaises(DemangleError) as caught:
            msvc_demangler.demangle(symbol, **options)
        self.assertIs(caught.exception.status, status)
        self.assertEqual(caught.exception.offset, offset)
        return str(caught.exception)

    def test_header(self) -> None:
        self.assertEqual(defined(r"(FULL) (0x[0-9A-F]+)u"), {"FULL": msvc_demangler._FULL})
        self.assertEqual(defined(r"((?!FULL |CRATE )[A-Z0-9_]+) (0x[0-9A-F]+)u"),
                         {name: int(flag) for name, flag in Flags.__members__.items()})
        self.assertEqual(defined(r"([A-Z0-9_]+) = (\d+),?"), {status.name: int(status) for status in Status})
        self.assertEqual(defined(r"(DEFAULT_[A-Z]+) \(\(size_t\)(\d+)\)"),
                         {name: getattr(msvc_demangler, name) for name in ("DEFAULT_NODES", "DEFAULT_BYTES")})

    def test_documents(self) -> None:
        failed, tried = doctest.testmod(msvc_demangler)
        self.assertTrue(tried > 0 and not failed)
        failed, tried = doctest.testfile(str(TOP / "packaging/wheel/README.md"), module_relative=False,
                                        encoding="utf-8")
        self.assertTrue(tried > 0 and not failed)

    def test_version(self) -> None:
        self.assertEqual(msvc_demangler.__version__, VERSION)

    def test_errors(self) -> None:
        invalid = 'unknown primitive type (offset: 6, remaining: "")'
        self.assertEqual(self.rejected("?x@@3L", Status.INVALID, 6), invalid)
        self.assertEqual(self.rejected(b"?x\xff@@3HA", Status.NOT_UTF8, 2), "not UTF-8")
        self.assertEqual(self.rejected("?x\udcff@@3HA", Status.NOT_UTF8, 2), "not UTF-8")
        too_long = self.rejected("?x@ns@@3HA", Status.TOO_LONG, 10, max_bytes=8)
        self.assertTrue(too_long.startswith("longer than allowed"))
        with self.assertRaisesRegex(DemangleError, "^more nodes than allowed") as caught:
            msvc_demangler.demangle("?x@ns@@3HA", max_nodes=1)
        self.assertEqual(caught.exception.status, Status.TOO_MANY_NODES)
        with self.assertRaises(ValueError) as invalid_value:
            msvc_demangler.demangle("?x@@3L")
        error = pickle.loads(pickle.dumps(invalid_value.exception))
        self.assertEqual((str(error), error.offset), (invalid, 6))
        self.assertIs(error.status, Status.INVALID)

    def test_types(self) -> None:
        for grammar in Grammar:
            for flags, symbol, wanted in rows(grammar):
                for kind in (bytes, bytearray, memoryview):
                    text = msvc_demangler.demangle(kind(symbol.encode()), flags, grammar=grammar, max_nodes=UNLIMITED)
                    self.assertEqual(text, wanted)
        self.assertEqual(msvc_demangler.demangle(memoryview(b"AH3@@x?")[::-1]), "int x")
        self.assertEqual(msvc_demangler.symbol_length(bytearray("?äö@@3HA and more".encode())), 10)
        content: bytes = msvc_demangler.filter(memoryview(b"\xff ?x@ns@@3HA"))
        self.assertEqual(content, b"\xff int ns::x")
        self.assertIs(type(content), bytes)

    def test_wrong_types(self) -> None:
        calls: List[Any] = [msvc_demangler.demangle, msvc_demangler.filter, msvc_demangler.symbol_length]
        for call in calls:
            for wrong in (None, 3, 1.5, ["?x@@3HA"], object()):
                message = f"^expected str, bytes, bytearray or memoryview, not {type(wrong).__name__}$"
                with self.assertRaisesRegex(TypeError, message):
                    call(wrong)
        with self.assertRaises(TypeError):
            msvc_demangler.filter(None)  # type: ignore[call-overload]
        for wrong in (None, 1.5, "LLVM"):
            for arguments in ({"flags": wrong}, {"max_nodes": wrong}, {"max_bytes": wrong}):
                with self.assertRaisesRegex(TypeError, "as an integer$"):
                    calls[0]("?x@@3HA", **arguments)
        for wrong in (None, 0x80000000, "crate", Flags.LLVM):
            for call in calls:
                with self.assertRaisesRegex(TypeError, f"^expected a Grammar, not {type(wrong).__name__}$"):
                    call("?x@@3HA", grammar=wrong)

    def test_full(self) -> None:
        """Full is the default."""
        options: List[Dict[str, Any]] = [{}, {"grammar": Grammar.FULL}]
        for option in options:
            self.assertEqual(msvc_demangler.demangle(AUTO, **option), DECLARATION)
            self.assertEqual(msvc_demangler.filter(f"in {AUTO}", **option), f"in {DECLARATION}")
            self.assertEqual(msvc_demangler.symbol_length(f"{AUTO} and more", **option), len(AUTO))
            out = io.BytesIO()
            msvc_demangler.filter_stream(io.BytesIO(AUTO.encode()), out, **option)
            self.assertEqual(out.getvalue(), DECLARATION.encode())
            self.assertEqual(msvc_demangler.demangle("?f@@9", **option), 'extern "C" f')

    def test_crate(self) -> None:
        self.rejected(AUTO, Status.INVALID, 9, grammar=Grammar.CRATE)
        self.assertEqual(msvc_demangler.filter(f"in {AUTO}", grammar=Grammar.CRATE), f"in {AUTO}")
        with self.assertRaises(DemangleError):
            msvc_demangler.symbol_length(AUTO, grammar=Grammar.CRATE)
        out = io.BytesIO()
        msvc_demangler.filter_stream(io.BytesIO(AUTO.encode()), out, grammar=Grammar.CRATE)
        self.assertEqual(out.getvalue(), AUTO.encode())
        self.assertEqual(msvc_demangler.demangle("?f@@9", grammar=Grammar.CRATE), "f")

    def test_other_flags(self) -> None:
        """Bits without a name change nothing, also the one by which the library chooses a grammar."""
        for bit in (0x1, 0x40000000, 0x80000000):
            self.assertEqual(msvc_demangler.demangle(AUTO, Flags.LLVM | bit), DECLARATION)
            self.assertEqual(msvc_demangler.demangle("?f@@9", bit, grammar=Grammar.CRATE), "f")

    def test_limits(self) -> None:
        for symbol in (DEEP, ENDLESS):
            with self.assertRaises(DemangleError):
                msvc_demangler.demangle(symbol)
            self.assertEqual(msvc_demangler.filter(symbol), symbol)
        with self.assertRaises(DemangleError):
            msvc_demangler.symbol_length(DEEP)
        self.assertEqual(msvc_demangler.demangle("?x@@3HA", max_nodes=UNLIMITED, max_bytes=UNLIMITED), "int x")
        for limit in (-1, UNLIMITED + 1):
            with self.assertRaises(OverflowError):
                msvc_demangler.demangle("?x@@3HA", max_nodes=limit)

    def test_memory(self) -> None:
        with little_memory(), self.assertRaises(MemoryError):
            msvc_demangler.demangle(ENDLESS, max_nodes=UNLIMITED, max_bytes=UNLIMITED)

    def test_filter(self) -> None:
        text: str = msvc_demangler.filter("ä ?x@ns@@3HA")
        self.assertEqual(text, "ä int ns::x")
        content: bytes = msvc_demangler.filter(b"\0\xff ?x@ns@@3HA\0")
        self.assertEqual(content, b"\0\xff int ns::x\0")
        number: int = msvc_demangler.filter("")  # type: ignore[assignment]
        self.assertEqual(number, "")
        self.assertEqual(msvc_demangler.filter("\udcff\ud800 ?x@ns@@3HA"), "\udcff\ud800 int ns::x")
        self.assertEqual(msvc_demangler.filter("?x@ns@@3HA", Flags.NAME_ONLY), "ns::x")

    def test_stream(self) -> None:
        text, wanted = filtered_text()
        for content, filtered in ((text, wanted), (text[:-1], wanted[:-1]), (text + b"\xff", wanted + b"\xff"),
                                  (b"", b""), (3 * b"\n", 3 * b"\n")):
            for length in PIECES:
                out = io.BytesIO()
                msvc_demangler.filter_stream(Pieces(content, length), out)
                self.assertEqual(out.getvalue(), filtered)
        out = io.BytesIO()
        msvc_demangler.filter_stream(gzip.GzipFile(fileobj=io.BytesIO(gzip.compress(b"?x@ns@@3HA"))), out,
                                     Flags.NAME_ONLY)
        self.assertEqual(out.getvalue(), b"ns::x")

    def test_stream_faults(self) -> None:
        """The lines before a fault are written."""
        for length in PIECES:
            out = io.BytesIO()
            with self.assertRaisesRegex(OSError, "^no more$"):
                msvc_demangler.filter_stream(Failing(b"?x@ns@@3HA\n\n?x@@3HA", length), out)
            self.assertEqual(out.getvalue(), b"int ns::x\n\n")
        no_bytes: Any = io.StringIO("?x@@3HA")
        with self.assertRaisesRegex(TypeError, "^expected a stream of bytes, not of str$"):
            msvc_demangler.filter_stream(no_bytes, io.BytesIO())

    def test_stream_memory(self) -> None:
        """A text of 100 MB takes less than 64 MB, and so does one of lines of a megabyte."""
        for fill, count in ((b"", 9_000_000), (1_000_000 * b"x", 100)):
            out = Digest()
            with tempfile.TemporaryFile() as text:
                for _ in range(100):
                    text.write(count // 100 * (fill + b" ?x@ns@@3HA\n"))
                text.seek(0)
                with little_memory():
                    msvc_demangler.filter_stream(text, out)
                    text.seek(0)
                    with self.assertRaises(MemoryError):
                        msvc_demangler.filter(text.read())
            wanted = hashlib.sha256()
            for _ in range(100):
                wanted.update(count // 100 * (fill + b" int ns::x\n"))
            self.assertEqual(out.hash.hexdigest(), wanted.hexdigest())

    def test_long(self) -> None:
        """A filtered text needs a second buffer."""
        _, symbol, wanted = max((row for row in rows(Grammar.FULL) if row[0] == Flags.LLVM),
                                key=lambda row: len(row[2]) - 3 * len(row[1]))
        self.assertEqual(msvc_demangler.demangle(symbol), wanted)
        self.assertEqual(msvc_demangler.filter(1000 * (symbol + "\n")), 1000 * (wanted + "\n"))

    def test_length(self) -> None:
        self.assertEqual(msvc_demangler.symbol_length("?äö@@3HA and more"), 8)
        self.assertEqual(msvc_demangler.symbol_length("?äö@@3HA and more".encode()), 10)
        with self.assertRaises(DemangleError) as caught:
            msvc_demangler.symbol_length("?x@@3L")
        self.assertEqual((caught.exception.status, caught.exception.offset), (Status.INVALID, 6))

    def test_threads(self) -> None:
        given = [(grammar, *row) for grammar in Grammar for row in rows(grammar)]
        wanted = [declaration for _, _, _, declaration in given]
        with concurrent.futures.ThreadPoolExecutor(4) as pool:
            runs = [pool.submit(lambda: [msvc_demangler.demangle(symbol, flags, grammar=grammar, max_nodes=UNLIMITED)
                                         for grammar, flags, symbol, _ in given]) for _ in range(8)]
            for run in runs:
                self.assertEqual(run.result(), wanted)

    def test_without_wheel(self) -> None:
        """Of the module alone the environment names the library."""
        package = os.path.dirname(msvc_demangler.__file__)
        with tempfile.TemporaryDirectory() as folder:
            shutil.copy(os.path.join(package, "__init__.py"), os.path.join(folder, "msvc_demangler.py"))
            environment = {"PYTHONPATH": folder,
                           "MSVC_DEMANGLER_LIBRARY": os.path.join(package, "libmsvc_demangler.so.0")}
            program = "import msvc_demangler; print(msvc_demangler.__file__, msvc_demangler.demangle('?x@ns@@3HA'))"
            printed = subprocess.check_output([sys.executable, "-c", program], env=environment, text=True)
        self.assertEqual(printed, f"{folder}/msvc_demangler.py int ns::x\n")


class Program(unittest.TestCase):
    def runs(self, arguments: List[bytes], given: Any, out: bytes, errors: str, status: int, **streams: Any) -> None:
        """Runs the module as a program, over bytes or an open file, and compares its outputs and its status."""
        streams.setdefault("stdout", subprocess.PIPE)
        streams["input" if isinstance(given, bytes) else "stdin"] = given
        run = subprocess.run([*PROGRAM, *arguments], stderr=subprocess.PIPE, **streams)
        self.assertEqual((run.stdout or b"", run.stderr.decode(), run.returncode), (out, errors, status))

    def test_filter(self) -> None:
        text, wanted = filtered_text()
        self.runs([], text, wanted, "", 0)
        self.runs([], b"", b"", "", 0)

    def test_symbols(self) -> None:
        self.runs([b"?x@ns@@3HA"], b"", b"int ns::x\n", "", 0)
        self.runs([b"?x@ns@@3HA", b"?x@@3L", b"?x\xff@@3HA", b"?f@@"], b"", b"int ns::x\n?x@@3L\n?x\xff@@3HA\nf\n",
                  'error: unknown primitive type (offset: 6, remaining: "")\nerror: not UTF-8\n', 1)

    def test_grammars(self) -> None:
        for grammar, text in ((b"full", b'extern "C" f'), (b"crate", b"f")):
            self.runs([b"--grammar", grammar, b"?f@@9"], b"", text + b"\n", "", 0)
            self.runs([b"--grammar", grammar], b"in ?f@@9", b"in " + text, "", 0)
        self.runs([b"?f@@9"], b"", b'extern "C" f\n', "", 0)
        self.runs([], b"in ?f@@9", b'in extern "C" f', "", 0)
        wrong = subprocess.run([*PROGRAM, "--grammar", "llvm"], stdin=subprocess.DEVNULL, stderr=subprocess.PIPE)
        self.assertEqual(wrong.returncode, 2)

    def test_streams(self) -> None:
        """A stream that fails ends the program with a line and status 1."""
        full = "msvc_demangler: No space left on device\n"
        with open("/dev/full", "wb") as device:
            self.runs([b"?x@ns@@3HA"], b"", b"", full, 1, stdout=device)
            self.runs([], b"?x@ns@@3HA", b"", full, 1, stdout=device)
            self.runs([], device, b"", "msvc_demangler: Bad file descriptor\n", 1)
        closed, writes = os.pipe()
        os.close(closed)
        with open(writes, "wb") as pipe:
            self.runs([], b"?x@ns@@3HA", b"", "", 1, stdout=pipe)

    def test_lines(self) -> None:
        """Each line is answered before the next is given."""
        with subprocess.Popen(PROGRAM, stdin=subprocess.PIPE, stdout=subprocess.PIPE) as process:
            assert process.stdin and process.stdout
            for _ in range(3):
                process.stdin.write(b"?x@ns@@3HA\n")
                process.stdin.flush()
                self.assertEqual(process.stdout.readline(), b"int ns::x\n")


class Wheel(unittest.TestCase):
    def test_content(self) -> None:
        """The hashes of RECORD are right, and the documents and the marker of type hints are there."""
        info = f"msvc_demangler-{VERSION}.dist-info"
        with zipfile.ZipFile(wheel) as archive:
            record = list(csv.reader(archive.read(f"{info}/RECORD").decode().splitlines()))
            self.assertEqual([name for name, _, _ in record], archive.namelist())
            for name, digest, size in record[:-1]:
                content = archive.read(name)
                wanted = base64.urlsafe_b64encode(hashlib.sha256(content).digest()).rstrip(b"=").decode()
                self.assertEqual((digest, int(size)), ("sha256=" + wanted, len(content)))
            documents = ("PROVENANCE", "licenses/LICENSE-MIT", "licenses/LICENSE-NCSA", "licenses/THIRD-PARTY.md")
            self.assertLessEqual({f"{info}/{name}" for name in documents} | {"msvc_demangler/py.typed"},
                                 set(archive.namelist()))
            self.assertIn(b"\nRoot-Is-Purelib: false\n", archive.read(f"{info}/WHEEL"))


if __name__ == "__main__":
    wheel = sys.argv.pop()
    unittest.main()
