#!/usr/bin/env python3
"""Spells the definitions and lemmas of this repository as Rattle's guide does: in snake case, types and modules aside.

usage: tools/respell.py        at the top of the repository, once, right after port.py of the kit

It goes by the names that specs/ and proofs/ declare (a function's own proof files declare none for others) and turns each
in .antt files, in the clauses and `ghost use` lines of .rt files, in what must-fail edits say in them, and in the code
spans of documents. A lemma that would have its function's name, or one of the library's that stands beside it, gets
`_lem`. It prints what it turned, a name to a line."""
import collections
import pathlib
import re
import sys

ROOT = pathlib.Path(__file__).resolve().parents[1]
NAME = r"[^\s(){}.;,@\"«»]+"
SIGNATURE = re.compile(
    rf"(?m)^ *(?:(?:pub|abbrev|unfoldable|record|data|pattern|instance) )*({NAME})(?: [({{][^:\n]*[)}}])*(?: {NAME})* :(?: |$)"
)
COMMENT = re.compile(r"(?m)(?:^|(?<=\s))--.*$")
WORD = re.compile(r"[a-z][\w'₀-₉]*(?:-[\w'₀-₉]+)*")
# A name ends where none of its characters follows; behind a dot it is a field or stands in a module.
TOKEN = re.compile(r"(?<![\w'₀-₉◌-])[a-z][\w'₀-₉]*(?:-[\w'₀-₉]+)*(?![\w'₀-₉◌-])")
CLAUSE = re.compile(r"^ *(?:requires|ensures)\b|^ghost use |^ *ghost ")
# Fields of records in specs/ whose name a function has: a word of their own reads better there than an ending.
FIELDS = {
    "accepts-all": "accepting_all",
    "refuses-all": "refusing_all",
    "empty-flow": "empty_flows",
    "available-as-need": "available_needs",
    "seven-unweighed": "unweighed_seven",
    "at-work": "an_activity",
    "started-by": "begun_by",
    "finished-no-sooner": "unfinished_at",
}
SPAN = re.compile(r"`[^`\n]+`")


def texts(pattern):
    return sorted(p for p in ROOT.glob(pattern) if "/out/" not in str(p))


def in_snake_case(name):
    return re.sub(r"(?<=[A-Za-z0-9])[A-Z]", lambda m: "_" + m[0].lower(), name).replace("-", "_")


def library_words():
    """The names that the files import from outside the repository."""
    own = {p.name for p in (ROOT / "crates").iterdir()}
    found = set()
    for path in texts("crates/**/*.antt") + texts("crates/**/*.rt"):
        for module, names in re.findall(r"use ([\w.'◌-]+)\.\{([^}]*)\}", path.read_text()):
            steps = module.split(".")
            if steps[0] != "Rattle" or steps[1] not in own:
                found |= {n.strip() for n in names.split(",")}
    return found


def spellings():
    declared = collections.defaultdict(set)
    for path in texts("crates/*/specs/**/*.antt") + texts("crates/*/proofs/**/*.antt"):
        if path.name == "Proof.antt":
            continue
        for name in SIGNATURE.findall(COMMENT.sub("", path.read_text())):
            declared[name].add(path)
    taken = library_words()
    turned = {}
    # definitions first: in them, a capital inside the name
    for name in sorted(n for n in declared if WORD.fullmatch(n) and "-" not in n and re.search("[A-Z]", n)):
        turned[name] = in_snake_case(name)
    for name in list(turned.values()):
        if name in declared:  # a lemma has the name that its function gets
            turned[name] = name + "_lem"
    used = set(turned.values()) | (set(declared) - set(turned)) | taken
    for name in sorted(n for n in declared if WORD.fullmatch(n) and "-" in n):
        new = in_snake_case(name)
        turned[name] = FIELDS.get(name) or (new + "_lem" if new in used else new)
    fell = [n for n, k in collections.Counter(turned.values()).items() if k > 1]
    if fell:
        sys.exit(f"these names fall together: {fell}")
    return turned


def main():
    turned = spellings()

    def turn(text):
        return TOKEN.sub(lambda m: turned.get(m[0], m[0]), text)

    def walk(text):
        """In the proof of a function, what stands behind a step is a field, and never a lemma."""

        def one(found):
            if found[0] not in turned:
                return found[0]
            if re.search(r"(?<![\w'₀-₉.-])[a-zκ][\w'₀-₉-]*(?:\.[\w'₀-₉-]+)*\.$|\)\.$", text[: found.start()][-200:]):
                return in_snake_case(found[0])
            return turned[found[0]]

        return TOKEN.sub(one, text)

    def clauses(text):
        """A line of a clause, and what it goes on with until its braces close."""
        out, depth = [], 0
        for line in text.split("\n"):
            if depth > 0 or CLAUSE.match(line):
                depth += line.count("{") - line.count("}")
                out.append(turn(line))
            elif line.lstrip().startswith("//"):
                out.append(SPAN.sub(lambda m: turn(m[0]), line))
            else:
                out.append(line)
        return "\n".join(out)

    def spans(text):
        return SPAN.sub(lambda m: turn(m[0]), text)

    walks = [p for p in texts("crates/**/*.antt") if p.name == "Proof.antt"]
    laws = [p for p in texts("crates/**/*.antt") if p.name != "Proof.antt"]
    work = [(laws, turn), (walks, walk), (texts("crates/**/*.rt"), clauses)]
    work.append((texts("crates/*/must-fail/*.edit"), turn))
    work.append(([p for p in texts("*.md") + texts("docs/**/*.md") + texts("*/README.md") if p.name != "CHANGES.md"], spans))
    for paths, change in work:
        for path in paths:
            old = path.read_text()
            new = change(old)
            if new != old:
                path.write_text(new)
    for old, new in sorted(turned.items()):
        print(f"{old}\t{new}")


if __name__ == "__main__":
    main()
