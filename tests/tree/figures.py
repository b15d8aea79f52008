"""Figures in documents that a machine can count. Each stands in its document in these words, or the check fails; a
figure that nobody counts has no place there."""
import importlib.machinery
import importlib.util
import pathlib
import re

import versions

PROVE = str(pathlib.Path(__file__).resolve().parents[2] / "tools" / "prove")
loader = importlib.machinery.SourceFileLoader("prove", PROVE)
prove = importlib.util.module_from_spec(importlib.util.spec_from_loader("prove", loader))
loader.exec_module(prove)

USE = re.compile(r"^use Rattle\.(\w+)\.specs\.([A-Za-z_.]+?)(?:\.\{| as |\s|$)", re.M)
# a list of names may be laid out over several lines
IMPORT = re.compile(r"^use [^{\n]*(?:\{[^}]*\})?.*$", re.M)
STATEMENTS = "crates/promises/specs/{}.antt"
# of planner's definitions, those that the promises are said with (specs/Lib.antt there); the others say what the
# operations do, as `model` does
PROMISED = {"Results", "Numbers", "Answers", "File", "Times"}


def reached_files(root, starts):
    """The files of definitions that statements reach by `use`, each with its lines. Comments, imports and blank lines
    do not count, nor do the types that the toolchain makes of the code (`declared`)."""
    lines, todo = {}, [root / STATEMENTS.format(name) for name in starts]
    while todo:
        path = todo.pop()
        if path in lines or not path.exists():
            continue
        text = path.read_text()
        for crate, name in USE.findall(text):
            if not name.startswith("declared"):
                todo.append(root / "crates" / crate / "specs" / (name.replace(".", "/") + ".antt"))
        rest = IMPORT.sub("", text).splitlines()
        lines[path] = sum(bool(line.strip()) and not line.strip().startswith("--") for line in rest)
    return lines


def reached(root, starts):
    """How many lines of definitions in how many files statements reach."""
    lines = reached_files(root, starts)
    return sum(lines.values()), len(lines)


def coded(root):
    """The files that say what our code does, and that the statements of the demands and of trim reach all the same."""
    for path in sorted(reached_files(root, ["PriceList", "Demands", "Trim"])):
        crate, *inside = path.relative_to(root / "crates").with_suffix("").parts
        if "model" in inside or (crate == "planner" and inside[-1] not in PROMISED):
            yield path.relative_to(root)


def edits(root):
    """How many wrong versions there are, and how many wrong answers are in them."""
    found = [versions.replacements(edit)[0] for edit in sorted(root.glob("crates/*/must-fail/*.edit"))]
    return len(found), sum(len(one.names) for version in found for one in version)


def crates(root):
    return len(prove.listed(root))


def wanted(root):
    """Each document with the words that have to stand in it."""
    lines, files = reached(root, ["PriceList"])
    yield "README.md", f"{lines} lines of definitions in {files} files"
    yield "docs/PROMISES.md", f"Demand 3 reaches {lines} lines of definitions in {files} files"
    lines, files = reached(root, ["Demands"])
    yield "docs/PROMISES.md", f"the demands together {lines} in {files}"
    lines, files = reached(root, ["Trim"])
    yield "docs/PROMISES.md", f"{lines} lines in {files} files, most of them those of the demands"
    wrong, answers = edits(root)
    yield "README.md", f"proving report and what it rests on, {len(prove.rests_on('report', root))} crates;"
    yield "README.md", f"{crates(root)} crates, {wrong} wrong versions with {answers} wrong answers"


def faults(root):
    for document, words in wanted(root):
        if words not in " ".join((root / document).read_text().split()):
            yield f"{document} does not say: {words}"
    for path in coded(root):
        yield f"{path} says what our code does, and the promises reach it"
