#!/usr/bin/env python3
"""Adds documents to a package, and checks those of a package.

    python3 packaging/guides/documents.py add FOLDER [SET..] [PATH..]
    python3 packaging/guides/documents.py check PACKAGE..

`add` copies each file of the repository below a PATH, or below those of a SET, to the same place below FOLDER, so that
a document and the files that it names stand to each other as in the repository. In the documents of FOLDER a link to a
file that is absent becomes its text.

`check` reads unpacked packages. Each link of a document must lead to a file. A package must have the files that its
documents, headers and examples name for readers, and a guide to each of its programs. It prints each fault, and ends
with status 1 if there is one.
"""
import pathlib
import re
import shutil
import subprocess
import sys

# Sets of guides, with the files that they name.
SETS = {
    "programs": ["docs/undname.md", "docs/msvcfilt.md", "docs/flags.md", "docs/limits.md", "docs/statuses.md",
                 "docs/DIFFERENCES.md", "docs/differences.txt"],
    "jobs": ["docs/scale.md", "examples/dask"],
    "library": ["docs/install.md", "docs/c.md", "examples/c", "examples/cpp", "examples/csharp", "examples/go",
                "examples/python", "examples/rust", "packaging/rust/crate", "packaging/wheel/README.md",
                "packaging/wheel/src"],
}

# Code, or a link to a file or a picture: its text, and the file.
PART = re.compile(r"^```.*?^```$|`[^`\n]*`|!?\[([^][]*)\]\(([^():#]+)(?:#[^()]*)?\)", re.MULTILINE | re.DOTALL)

# A path of the repository that readers of a package use, and in documents a file without its folder.
PATH = re.compile(r"(?<![\w.-])(?:docs|examples|packaging/(?:rust|wheel))/[\w/-]+(?:\.\w+)*")
FILE = re.compile(r"(?<![\w./-])(?:[\w-]+\.)+(?:c|cjs|cs|go|h|html|md|mjs|py|ts)\b(?![./])")

TEXTS = {".c", ".cpp", ".cs", ".go", ".h", ".md", ".py", ".rs", ".ts"}
PROGRAMS = {"undname", "msvcfilt"}


def is_document(path):
    """Tests whether a file is a document. The one of a Python module is its METADATA."""
    return path.suffix == ".md" or path.name == "METADATA"


def is_there(document, link):
    """Tests whether the file of a link is there."""
    return (document.parent / link[2]).exists()


def add(folder, *words):
    """Adds the files below these paths, or those of sets, to a folder."""
    top = pathlib.Path(folder)
    paths = [path for word in words for path in SETS.get(word, [word])]
    command = ["git", "ls-files", "-z", "--error-unmatch", "--", *paths]
    for name in subprocess.run(command, check=True, stdout=subprocess.PIPE, text=True).stdout.split("\0")[:-1]:
        (top / name).parent.mkdir(parents=True, exist_ok=True)
        shutil.copyfile(name, top / name)
    for document in filter(is_document, top.rglob("*")):
        changed = PART.sub(lambda part: part[1] if part[2] and not is_there(document, part) else part[0],
                           document.read_text(encoding="utf-8"))
        document.write_text(changed, encoding="utf-8")
    return 0


def demands(package):
    """Yields for each file that a package must have what demands it, its name, and whether it is there."""
    paths = ["/" + path.relative_to(package).as_posix() for path in package.rglob("*")]

    def demand(source, name):
        return source, name, any(path.endswith("/" + name) for path in paths)

    for path in sorted(package.rglob("*")):
        if path.parent.name == "bin" and path.stem in PROGRAMS:
            yield demand(path, f"docs/{path.stem}.md")
        if path.suffix in TEXTS or is_document(path):
            text = path.read_text(encoding="utf-8")
            yield from (demand(path, name) for name in PATH.findall(text.replace("\\", "/")))
        if is_document(path):
            yield from (demand(path, name) for name in FILE.findall(text.replace("\\", "/")))
            yield from ((path, link[2], is_there(path, link)) for link in PART.finditer(text) if link[2])


def check(*packages):
    """Prints the files that packages lack, or the number of those that they must have."""
    found = [row for package in packages for row in demands(pathlib.Path(package))]
    lacking = [row for row in found if not row[2]]
    for source, name, _ in lacking:
        print(f"guides: {source} wants {name}, which the package lacks")
    if not lacking:
        print(f"guides: {len(packages)} packages have the {len(found)} files that their documents name")
    return 1 if lacking else 0


if __name__ == "__main__":
    sys.exit({"add": add, "check": check}[sys.argv[1]](*sys.argv[2:]))
