#!/usr/bin/env python3
"""Puts the page and the ES module together, with the library inside.

    python3 web/assemble.py MODULE OUT

MODULE is the library as a WebAssembly module. OUT gets index.html, the page, and the folder msvc-demangler, which is
what npm installs: the ES module, and the same as a CommonJS module. All depend on the module and on the sources alone.
"""
import base64
import hashlib
import pathlib
import re
import sys

HERE = pathlib.Path(__file__).parent
PAGE = HERE / "page"

# The page may use its own style and script, compile WebAssembly, start a worker of its own bytes, and show its own
# icon. All else is forbidden, each request among it.
POLICY = ("default-src 'none'; base-uri 'none'; form-action 'none'; img-src data:; style-src '{style}'; "
          "script-src '{script}' 'wasm-unsafe-eval'; worker-src blob:")


def read(path):
    """Returns the text of a file."""
    return path.read_text("utf-8")


def filled(text, **values):
    """Returns the text with the values in place of @NAME@."""
    for name, value in values.items():
        text = text.replace(f"@{name.upper()}@", value)
    return text


def digest(text):
    """Returns the hash by which a policy allows a script or a style."""
    return "sha256-" + base64.b64encode(hashlib.sha256(text.encode()).digest()).decode()


# The worker is no module, since browsers start none for a page that is a file.
WORKER = """'use strict';
{{
{library}
{worker}
}}
"""

# Before version 22 node can't require an ES module.
COMMON = """'use strict';
{library}
module.exports = {{ {names} }};
"""


def script(library):
    """Returns the library for a script, which exports nothing."""
    return re.sub("^export ", "", library, flags=re.MULTILINE)


def common(library):
    """Returns the library as a CommonJS module."""
    names = re.findall(r"^export (?:class|const|function) (\w+)", library, re.MULTILINE)
    return COMMON.format(library=script(library), names=", ".join(names))


def page(library, version):
    """Returns the page."""
    worker = WORKER.format(library=script(library), worker=read(PAGE / "worker.mjs"))
    code = read(PAGE / "page.mjs")
    style = read(PAGE / "style.css")
    for text in (worker, code, style):
        assert "</" not in text, "the text of an element would end early"
    icon = base64.b64encode((PAGE / "icon.svg").read_bytes()).decode()
    return filled(read(PAGE / "index.html"), policy=POLICY.format(style=digest(style), script=digest(code)),
                  icon=f"data:image/svg+xml;base64,{icon}", version=version, style=style, worker=worker, script=code)


def main(module, out):
    """Writes the page and the folder."""
    out = pathlib.Path(out)
    version, revision = (read(HERE.parent / name).strip() for name in ("VERSION", "REVISION"))
    repository = re.search("^Vcs-Git: (.*)", read(HERE.parent / "packaging/deb/control"), re.MULTILINE)[1]
    encoded = base64.b64encode(pathlib.Path(module).read_bytes()).decode()
    library = filled(read(HERE / "msvc-demangler.mjs"), module=encoded, version=version)
    types = read(HERE / "msvc-demangler.d.ts")
    files = {
        "index.html": page(library, version),
        "msvc-demangler/index.mjs": library,
        "msvc-demangler/index.d.ts": types,
        "msvc-demangler/index.cjs": common(library),
        "msvc-demangler/index.d.cts": types,
        "msvc-demangler/package.json": filled(read(HERE / "package.json"), version=f"{version}-{revision}",
                                              repository=repository),
        "msvc-demangler/README.md": read(HERE / "README.md"),
    }
    for name, text in files.items():
        (out / name).parent.mkdir(parents=True, exist_ok=True)
        (out / name).write_text(text, "utf-8")


if __name__ == "__main__":
    main(*sys.argv[1:])
