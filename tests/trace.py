#!/usr/bin/env python3
"""Holds docs/TRACE.md to the repository: whatever it has in backticks is there, and it cites every must-fail edit.

Where the environment variable PAPERS names the folder of the papers, its quotations are held to them, too.
"""
import functools
import os
import pathlib
import re
import sys

ROOT = pathlib.Path(__file__).resolve().parent.parent
CRATES = ROOT / "crates"
CASES = {".script": CRATES / "script_cases/data", ".day": CRATES / "day_cases/data"}
QUOTE = re.compile(r'(?:(T-\d+): )?"([^"]*)"')
NAME = r"[^\s(){}.,;:=λ]+"


def files_of(path):
    """The files, or the folder, that a citation names by a path without ending."""
    ending = pathlib.PurePath(path).suffix
    if ending in CASES:
        return list(CASES[ending].glob(path))
    if "/" not in path:
        return []
    base = ROOT if path.startswith(("tests/", "docs/")) else CRATES
    return [file for end in ("", ".antt", ".rt", ".edit") if (file := base / (path + end)).exists()]


@functools.cache
def declared_in(file):
    """The names that a source file declares, fields and cases included; of a folder, those of its code."""
    if file.is_dir():
        return set().union(*(declared_in(code) for code in file.rglob("*.rt")))
    text = re.sub(r"(^|\s)(//|--).*", r"\1", file.read_text())
    if file.suffix == ".rt":
        names = re.findall(r"\b(?:fn|struct|enum|const)\s+(\w+)", text)
        for body in re.findall(r"\b(?:struct|enum)\s+\w+[^{;]*\{(.*?)\n\}", text, re.DOTALL):
            names += re.findall(r"^\s*(?:pub\s+)?(\w+)\s*[:,({]", body, re.MULTILINE)
    else:
        start = r"^\s*(?:(?:abbrev|unfoldable|pub)\s+)*"
        names = re.findall(rf"{start}(?:record|data)\s+({NAME})", text, re.MULTILINE)
        for several in re.findall(rf"{start}({NAME}(?: {NAME})*) :(?=\s)", text, re.MULTILINE):
            names += several.split()
    return set(names)


def fault_of(citation, path, name):
    files = files_of(path)
    if not files:
        return f"cites {citation}: there is no file {path}"
    if name and not any(name in declared_in(file) for file in files):
        return f"cites {citation}: {path} declares no {name}"
    return None


def cells_of(line):
    return line.split("|")[1:-1] if line.startswith("|") else [line]


def citations_in(cell):
    """Citation, path and name; `#name` is in the file cited last in the cell."""
    last = ""
    for citation in re.findall(r"`([^`]+)`", cell):
        path, _, name = citation.partition("#")
        last = path or last
        yield citation, last, name


def stands_in(quote, text):
    """Each part of the quotation stands in the text, one after another."""
    at = 0
    for part in re.split(r"(?:^| )\.\.(?: |$)", quote):
        found = text.find(part, at)
        if found < 0:
            return False
        at = found + len(part)
    return True


def papers(folder):
    """Document 01 under "", each request of document 02 under its number; white space normalised."""
    scope, requests = (" ".join((pathlib.Path(folder) / name).read_text().split())
                       for name in ("01-scope.md", "02-change-requests.md"))
    return {"": scope} | dict(re.findall(r"\*\*(T-\d+)\. (.*?)(?=\*\*T-|$)", requests))


def main():
    faults, cited, section = [], set(), ""
    texts = papers(os.environ["PAPERS"]) if os.environ.get("PAPERS") else None
    if texts is None:
        print("PAPERS names no folder: the quotations in docs/TRACE.md are not compared with the papers")
    for number, line in enumerate((ROOT / "docs/TRACE.md").read_text().splitlines(), 1):
        if line.startswith("#"):
            section = "".join(re.findall(r"^#+ (T-\d+):", line))
        cells, quotes = cells_of(line), []
        if line.startswith("|"):
            quotes = QUOTE.findall(cells[0])
            cells[0] = QUOTE.sub("", cells[0])
        for cell in cells:
            for citation, path, name in citations_in(cell):
                cited.add(path)
                if fault := fault_of(citation, path, name):
                    faults.append(f"docs/TRACE.md:{number} {fault}")
        for request, quote in quotes if texts else []:
            if not stands_in(quote, texts.get(request or section, "")):
                faults.append(f'docs/TRACE.md:{number} quotes "{quote}", which does not stand in the paper')
    for edit in sorted(CRATES.glob("*/must-fail/*.edit")):
        path = edit.relative_to(CRATES).with_suffix("").as_posix()
        if path not in cited:
            faults.append(f"docs/TRACE.md does not cite the must-fail edit {path}")
    for fault in faults:
        print(fault)
    sys.exit(1 if faults else 0)


main()
