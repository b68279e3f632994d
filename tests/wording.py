"""Hold the refusals of C, Rust, Python, docs/FORMATS.md and the man page against the list docs/refusals.tsv, and the versions of the faces
and of the built library against the header's. Run it after `make`: it says what differs, and then exits with 1."""

from __future__ import annotations

import ast
import ctypes
import re
import sys
from pathlib import Path
from typing import Any, Dict, Iterator, List

ROOT = Path(__file__).resolve().parents[1]
UNKNOWN = "not a number of this library"
STRING = r'"((?:[^"\\]|\\.)*)"'

Rows = List[List[str]]


def text_of(name: str) -> str:
    """Return the text of a file of the repository."""
    return (ROOT / name).read_text(encoding="utf-8")


def between(text: str, start: str, end: str) -> str:
    """Return what stands between two marks, nothing if the first does not."""
    return text.partition(start)[2].partition(end)[0]


def differing(where: str, wanted: Dict[Any, Any], found: Dict[Any, Any]) -> Iterator[str]:
    """Tell each key at which two tables differ."""
    for key in dict.fromkeys([*wanted, *found]):
        if wanted.get(key) != found.get(key):
            yield f"{where}, {key}: {found.get(key)!r} instead of {wanted.get(key)!r}"


def in_sequence(where: str, wanted: List[str], sources: List[List[str]]) -> Iterator[str]:
    """Tell what a source lacks of these words, and where it has all of them, which are first met out of sequence."""
    most: List[str] = max(([word for word in dict.fromkeys(source) if word in wanted] for source in sources), key=len, default=[])
    if len(most) == len(wanted):
        yield from differing(where, dict(enumerate(wanted, 1)), dict(enumerate(most, 1)))
    yield from (f"{where}: no {word!r}" for word in wanted if word not in most)


def sentences(face: str, rows: Rows, literals: List[List[str]]) -> Iterator[str]:
    """Look for the refusals' sentences among the literals of a binding's sources, and for the one of other numbers."""
    yield from in_sequence(f"{face}'s sentences", [row[3] for row in rows[1:]], literals)
    yield from in_sequence(f"{face}'s other numbers", [UNKNOWN], [[UNKNOWN for word in source if UNKNOWN in word] for source in literals])


def header(rows: Rows) -> Iterator[str]:
    """Compare the enumeration's names, numbers and comments, and the sentences, of which 0 has one too."""
    text = text_of("include/placer.h")
    told = re.findall(r"PLACER_(\w+) = (\d+),?(?: +/\* (.*) \*/)?", between(text, "enum placer_number {", "};"))
    comments = {number: f"{sentence} [{values}]" if values else sentence for number, _, values, sentence in rows[1:]}
    names = {number: (name, comments.get(number, "")) for number, name, _, _ in rows}
    yield from differing("placer.h's numbers", names, {number: (name, comment) for name, number, comment in told})
    words = [*re.findall(STRING, between(text, "sentences[] = {", "};")), between(text, '] : "', '"')]
    yield from differing("placer.h's sentences", dict(enumerate([*(row[3] for row in rows), UNKNOWN])), dict(enumerate(words)))


def tables(rows: Rows) -> Iterator[str]:
    """Compare the table of docs/FORMATS.md, and that of the man page."""
    wanted = {number: (sentence, values) for number, _, values, sentence in rows[1:]}
    table = between(text_of("docs/FORMATS.md"), "| Number | Sentence | Values |\n|---|---|---|\n", "\n\n")
    cells = [[cell.strip() for cell in line.split("|")[1:-1]] for line in table.splitlines()]
    yield from differing("FORMATS.md", wanted, {cell[0]: tuple(cell[1:]) for cell in cells})
    page = re.findall(r"^(\d+)\tT{\n(.*)\nT}\t?(.*)$", between(text_of("man/placer.3"), "\n.TS\n", "\n.TE\n"), re.M)
    yield from differing("placer.3", wanted, {number: (sentence.replace(r"\-", "-"), values) for number, sentence, values in page})


def rust(rows: Rows) -> Iterator[str]:
    """Look for the sentences and the names in camel case, in the sources less their tests, comments and broken lines."""
    paths = [path for path in sorted((ROOT / "bindings/rust/src").rglob("*.rs")) if "tests" not in [path.stem, path.parent.name]]
    sources = [re.sub(r"^\s*//.*$|'\"'|\\\n\s*", "", path.read_text(encoding="utf-8"), flags=re.M) for path in paths]
    yield from sentences("Rust", rows, [re.findall(STRING, source) for source in sources])
    names = [name.title().replace("_", "") for _, name, _, _ in rows[1:]]
    yield from in_sequence("Rust's names", names, [re.findall(r"\w+", source) for source in sources])


def python(rows: Rows) -> Iterator[str]:
    """Look for the sentences, and compare the names and numbers of the class Cause."""
    trees = [ast.parse(path.read_text(encoding="utf-8")) for path in sorted((ROOT / "bindings/python/placer").glob("*.py"))]
    words = [[node for node in ast.walk(tree) if isinstance(node, ast.Constant) and isinstance(node.value, str)] for tree in trees]
    in_lines = [sorted(nodes, key=lambda node: (node.lineno, node.col_offset)) for nodes in words]
    yield from sentences("Python", rows, [[str(node.value) for node in nodes] for nodes in in_lines])
    causes = [node for tree in trees for node in tree.body if isinstance(node, ast.ClassDef) and node.name == "Cause"]
    assigned = [node for cause in causes for node in cause.body if isinstance(node, ast.Assign)]
    found = {ast.unparse(node.targets[0]): re.findall(r"\d+", ast.unparse(node.value))[:1] for node in assigned}
    yield from differing("Python's Cause", {name: [number] for number, name, _, _ in rows[1:]}, found)


def versions() -> Iterator[str]:
    """Compare the versions of the faces and of the library with the header's PLACER_VERSION."""
    text = text_of("include/placer.h")
    package = "\n".join(path.read_text(encoding="utf-8") for path in sorted((ROOT / "bindings/python/placer").glob("*.py")))
    library = ctypes.CDLL(str(ROOT / "build/libplacer.so"))
    library.placer_version.restype = ctypes.c_uint32
    number = library.placer_version()
    found = {
        "the header's three numbers": ".".join(re.findall(r"#define PLACER_VERSION_(?:MAJOR|MINOR|PATCH) (\d+)", text)),
        "Cargo.toml": between(text_of("bindings/rust/Cargo.toml"), '\nversion = "', '"'),
        "Python's __version__": between(package, '\n__version__ = "', '"'),
        "build/libplacer.so": f"{number // 1000000}.{number // 1000 % 1000}.{number % 1000}",
    }
    yield from differing("version", dict.fromkeys(found, between(text, '#define PLACER_VERSION "', '"')), found)


def which_file() -> Iterator[str]:
    """Look for the three lines that tell the refused file in C, as tests/placer_files.c tries them, in the header and the man page."""
    lines = between(text_of("tests/placer_files.c"), "file_with_order(void)\n{", "return file;").split()
    for name in ("include/placer.h", "man/placer.3"):
        if " ".join(lines) not in " ".join(re.sub(r"^ \*", "", text_of(name), flags=re.M).split()):
            yield f"{name}: not the lines of tests/placer_files.c that tell which file was refused"


def main() -> int:
    """Print what differs, or that nothing does."""
    rows = [line.split("\t") for line in text_of("docs/refusals.tsv").splitlines()[1:]]
    lines = [*header(rows), *tables(rows), *rust(rows), *python(rows), *versions(), *which_file()]
    same = f"{len(rows) - 1} refusals, the same in C, Rust, Python, FORMATS.md and the man page, and one version"
    for line in lines or [same]:
        print(f"wording: {line}")
    return 1 if lines else 0


if __name__ == "__main__":
    sys.exit(main())
