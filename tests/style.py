#!/usr/bin/env python3
"""Checks the rules of docs/CONTRIBUTING.md that the gate does not: the layout of .rt and .antt files, and what they import.

usage: tests/style.py

- a line has at most 160 characters, a comment line at most 100;
- no proof goes back by more than ten `.before` in a row: the place gets a name;
- every imported name is used;
- crates.txt lists for a crate only crates that its files name (NAMELESS apart);
- every path of this repository that a document names exists;
- docs/PROMISES.md names every must-fail edit, and no other.

Prints each place that breaks a rule, and `style: ok` where none does. Exit status 1 if there is one.
"""
import pathlib
import re
import sys

ROOT = pathlib.Path(__file__).resolve().parent.parent
LINE, COMMENT = 160, 100
# listed although no file names it: the crate reaches a type that it declares
NAMELESS = {("test_sets", "answers")}
USE = re.compile(r"^(?:ghost )?use ([^\s{]+)\.\{(.*)\};?$")
SPLIT = re.compile(r"[\s(){}\[\],;.]+")
faults = []


def fault(path, line, what):
    faults.append(f"{path.relative_to(ROOT)}:{line}: {what}")


def code(line, path):
    """A line without its comment."""
    mark = r"//.*" if path.suffix == ".rt" else r"(^|\s)--(\s.*)?$"
    return re.sub(mark, "", line)


def words(lines, path):
    found = set()
    for line in lines:
        line = code(line, path)
        if "[]" in line:
            found.add("[]")
        found.update(word.strip("◌") or word for word in SPLIT.split(line))
    return found


def is_used(name, found):
    name = name.split(" as ")[-1].strip()
    parts = [p for p in name.split("◌") if p]
    return name in found or ("◌" in name and bool(parts) and all(p in found for p in parts))


def check_lines(path, lines):
    mark = "//" if path.suffix == ".rt" else "--"
    for i, line in enumerate(lines, 1):
        comment = line.lstrip().startswith(mark)
        if len(line) > (COMMENT if comment else LINE):
            fault(path, i, f"{len(line)} characters")
        if re.search(r"( ?\.before){11}", line):
            fault(path, i, "more than ten .before")


def check_imports(path, lines):
    uses = [(i, USE.match(line)) for i, line in enumerate(lines, 1)]
    uses = [(i, m) for i, m in uses if m]
    at = {i for i, _ in uses}
    found = words([line for i, line in enumerate(lines, 1) if i not in at], path)
    for i, m in uses:
        # a group within a group brings in what it names: A.{B.{C}} brings in C
        for name in re.sub(r"[^\s,{]+\.\{([^{}]*)\}", r"\1", m.group(2)).split(","):
            if not is_used(name.strip(), found):
                fault(path, i, f"{name.strip()} is imported and not used")


def check_crates():
    listed = {}
    for line in (ROOT / "crates.txt").read_text().splitlines():
        if ":" in line and not line.startswith("#"):
            name, needs = line.split(":", 1)
            listed[name.split()[0]] = needs.split()
    for name, needs in listed.items():
        parts = [ROOT / "crates" / name / part for part in ("src", "specs", "proofs")]
        files = [p for part in parts for p in part.rglob("*") if p.suffix in (".rt", ".antt")]
        text = "\n".join(code(line, p) for p in files for line in p.read_text().splitlines())
        named = set(re.findall(r"Rattle\.([a-z_0-9]+)", text)) | set(re.findall(r"\b([a-z_0-9]+)::", text))
        for need in needs:
            if need not in named and (name, need) not in NAMELESS:
                fault(ROOT / "crates.txt", 1, f"{name} lists {need} and names it nowhere")


def check_documents():
    roots = ("crates/", "docs/", "tests/", "tools/", "bench/", "samples/", "include/", "rust/", "examples/")
    for path in [ROOT / "README.md", *sorted((ROOT / "docs").rglob("*.md"))]:
        for i, line in enumerate(path.read_text().splitlines(), 1):
            for name in re.findall(r"[A-Za-z_0-9./-]+", line):
                name = name.rstrip(".")
                if name.startswith(roots) and "NAME" not in name and "N.md" not in name and not list(ROOT.glob(name.rstrip("/"))):
                    fault(path, i, f"{name} is not there")


def check_edits():
    page = ROOT / "docs" / "PROMISES.md"
    there = {f"{p.parent.parent.name}/{p.stem}" for p in ROOT.glob("crates/*/must-fail/*.edit")}
    named = {n for n in re.findall(r"`([a-z_0-9]+/[a-z_0-9]+)`", page.read_text()) if (ROOT / "crates" / n.split("/")[0]).is_dir()}
    for name in sorted(there - named):
        fault(page, 1, f"{name} is in no row")
    for name in sorted(named - there):
        fault(page, 1, f"{name} is not there")


for file in sorted(ROOT.glob("crates/*/*/**/*")):
    # out/ is what rt keeps
    if file.suffix in (".rt", ".antt") and file.relative_to(ROOT).parts[2] != "out":
        content = file.read_text().splitlines()
        check_lines(file, content)
        check_imports(file, content)
check_crates()
check_documents()
check_edits()
print("\n".join(faults) if faults else "style: ok")
sys.exit(1 if faults else 0)
