#!/usr/bin/env python3
"""Places in crates/*/src that docs/DESIGN-PASS.md counts, by its points: python3 tools/places.py [--list] [FOLDER]."""
import re
import sys
from collections import Counter, defaultdict
from pathlib import Path

NONE = re.compile(r"(where there is none|where none is|; none where|NEVER where|\bor (m|8|0|ELEMENTS)\.|none of these)")
NUMBER = r"(u8|u16|u32|u64|usize)"


def functions(text):
    """The functions of a file: name, line, the comment above, the head up to its body, the body."""
    lines = text.split("\n")
    for i, line in enumerate(lines):
        head = re.match(r'^(\s*)(?:pub )?(?:extern "C" )?fn (\w+)', line)
        if not head:
            continue
        end = next(j for j in range(i, len(lines)) if lines[j] == head.group(1) + "}")
        begin = next(j for j in range(i, end + 1) if lines[j] == head.group(1) + "{" or lines[j].endswith(" {"))
        above = i
        while above and lines[above - 1].strip().startswith(("//", "#[")):
            above -= 1
        yield (head.group(2), i + 1, "\n".join(lines[above:i]), "\n".join(lines[i : begin + 1]), lines[begin + 1 : end])


def block(lines, i):
    """The lines of the block that line i opens."""
    indent = len(lines[i]) - len(lines[i].lstrip())
    end = next((j for j in range(i + 1, len(lines)) if lines[j].startswith(" " * indent + "}")), len(lines))
    return "\n".join(lines[i + 1 : end])


def options(text):
    """Point 1: what has the shape of Option or Result, and numbers that stand for a kind."""
    for enum in re.finditer(r"enum (\w+) \{\n(.*?)\n\}", text, re.S):
        variants = re.findall(r"^    (?!//)(\w+)", re.sub(r"\{.*?\}", "", enum.group(2), flags=re.S), re.M)
        if len(variants) == 2:
            yield enum.start(), f"enum {enum.group(1)} of two variants"
    for struct in re.finditer(r"struct (\w+) \{\n(.*?)\n\}", text, re.S):
        for field in re.findall(r"(values: usize|at: usize|answer: Answer|fault: Fault),", struct.group(2)):
            if struct.group(1) != "Page":
                yield struct.start(), f"{struct.group(1)}.{field}: which of the others count"
    for test in re.finditer(r"\[(?:0|24 \* i)\] [!=]= (?:of|\d+)", text):
        yield test.start(), f"a record's type as a number: {test.group(0)}"
    for number in re.finditer(r"\b(?:of|mark): u8", text):
        yield number.start(), f"a number for a kind: {number.group(0)}"


def sentinels(name, comment, head):
    if NONE.search(comment) and re.search(r"-> (?:%s|Overload|\[usize; RECORDS\])\b" % NUMBER, head):
        yield f"{name}: a number or a value for none"


def loops(name, body):
    """Point 3: loops that count an index, or take a set apart, by hand."""
    for k, line in enumerate(body):
        loop = re.match(r"^\s*(while|for)\b (.*) \{$", line)
        if not loop:
            continue
        inner = block(body, k)
        ranged = re.match(r"(\w+) in .*\.\.", loop.group(2))
        if loop.group(1) == "while" and "lowest" in inner:
            yield f"{name}: a set by hand: while {loop.group(2)}"
        elif loop.group(1) == "while" and re.search(r"\b\w+ (\+|-)= 1;", inner):
            yield f"{name}: counted by hand: while {loop.group(2)}"
        elif ranged and re.search(r"\[[^\]]*\b%s\b" % ranged.group(1), inner):
            yield f"{name}: an index over a slice: for {loop.group(2)}"
        elif ranged and re.search(r"row\([^)]*\b%s\b" % ranged.group(1), inner):
            yield f"{name}: an index over rows: for {loop.group(2)}"


def by_hand(name, body):
    """Point 4: conversions, copies, larger and smaller by hand."""
    text = "\n".join(line.strip() for line in body)
    if re.fullmatch(r"\w+ as %s" % NUMBER, text):
        yield f"{name}: a conversion: {text}"
    if re.fullmatch(r"if a < b \{ (a|b) \} else \{ (a|b) \}|if n < \d+ \{ n \} else \{ \d+ \}", text):
        yield f"{name}: the larger or the smaller: {text}"
    for copied in re.finditer(r"^(\w+)\[(?:at \+ )?(\w)\] = \w+\[(?:ELEMENTS \* k \+ )?\2\];$", text, re.M):
        yield f"{name}: a copy: {copied.group(0)}"
    for shift in re.finditer(r"^let (\w+) = [^;]*;\n\*\w+ = \1;$", text, re.M):
        yield f"{name}: an answer by way of a name: {shift.group(0).splitlines()[1]}"
    for call in re.finditer(r"std::num::wrapping_\w+|u64::(?:count_ones|trailing_zeros)\(", text):
        yield f"{name}: a method by its path: {call.group(0)}"
    if re.search(r"256 \* \w+\(", text):
        yield f"{name}: bytes to a number by hand"
    if re.search(r"% 256\) as u8", text):
        yield f"{name}: a number to bytes by hand"


def twins(bodies):
    """Point 2, as far as a program sees it: functions with the same body but for names, types and numbers."""
    groups = defaultdict(list)
    for where, name, body in bodies:
        text = re.sub(r"\b[a-z_]\w*\b", "x", re.sub(r"\b\d+\w*\b", "0", " ".join(line.strip() for line in body)))
        if len(text) > 20 or " as " in text:
            groups[text].append(f"{where} {name}")
    return [group for group in groups.values() if len(group) > 1]


def pairs(name, head):
    """Point 6: a buffer and a length or a place beside it."""
    flat = re.sub(r"\s+", " ", head)
    if re.search(r": &mut \[u\d+\],[^)]*\b(?:at|n): usize|(?:flow|records|s|t): &\[u8\],[^)]*\b[nm]: usize", flat):
        yield f"{name}: a slice, and beside it a length or a place"


def travellers(heads):
    """Point 5: facts in the contracts of three or more functions of a crate, and parameters that go together there."""
    facts, triples, together = defaultdict(list), defaultdict(list), defaultdict(set)
    for crate, name, head in heads:
        flat = re.sub(r"\s+", " ", head)
        for clause in re.findall(r"requires (?:\w+ )?\{(.*?)\} (?=requires|ensures|\{)", flat):
            for fact in clause.split("×"):
                facts[crate, re.sub(r"\.(?:now|old)\b", "", fact).strip(" ()")].append(name)
        names = re.findall(r"(\w+): (?!Self)", re.split(r" (?:requires|ensures) ", flat)[0])
        for i, a in enumerate(names):
            for j in range(i + 1, len(names)):
                for c in names[j + 1 :]:
                    triples[crate, a, names[j], c].append(name)
    for (crate, *three), names in triples.items():
        if len(names) > 2:
            together[crate, tuple(names)].update(three)
    found = [(crate, fact, names) for (crate, fact), names in facts.items() if len(names) > 2]
    return found + [(crate, ", ".join(sorted(them)) + " together", names) for (crate, names), them in together.items()]


def places(root):
    bodies, heads = [], []
    for file in sorted(root.glob("crates/*/src/**/*.rt")):
        text, where = file.read_text(), file.relative_to(root / "crates")
        for at, what in options(text):
            yield 1, f"{where}:{text.count(chr(10), 0, at) + 1} {what}"
        for name, line, comment, head, body in functions(text):
            bodies.append((f"{where}:{line}", name, body))
            heads.append((where.parts[0], name, head))
            for point, found in (
                (1, sentinels(name, comment, head)),
                (3, loops(name, body)),
                (4, by_hand(name, body)),
                (6, pairs(name, head)),
            ):
                for what in found:
                    yield point, f"{where}:{line} {what}"
            if re.search(r": (?:fn\(|&dyn|Box<dyn)", head):
                yield 7, f"{where}:{line} {name}: a function by a pointer"
    for group in twins(bodies):
        yield 2, "; ".join(group)
    for crate, fact, names in sorted(travellers(heads), key=lambda found: -len(found[2])):
        yield 5, f"{crate}: {fact}: {' '.join(names)}"


def main(words):
    listed = "--list" in words
    folders = [word for word in words if not word.startswith("-")]
    counts = Counter()
    for point, what in places(Path(folders[0] if folders else ".")):
        counts[point] += 1
        if listed:
            print(point, what)
    print("places by point:", ", ".join(f"{point}: {counts[point]}" for point in range(1, 8)))


if __name__ == "__main__":
    main(sys.argv[1:])
