"""How wide lines may be, by what a file is, and where there are wider ones. tests/tree/wide.txt lists those places,
with the number of their lines that are too wide: a place that has more fails, and one that has fewer does too, until
the list says so. So the list can only get shorter."""
import collections

DOCUMENT, DEFINITION, CODE = 100, 110, 120
CODE_NAMES = {".antt", ".rt", ".py", ".rs", ".c", ".h", ".cpp", ".sh", ".sbatch", ""}


def widest(name):
    """How wide a line of this file may be, in characters; None where nobody reads it as text (data, stored outputs, and
    wrong versions, whose replacements are one line each)."""
    parts = name.parts
    if name.suffix == ".md":
        return DOCUMENT
    if name.suffix not in CODE_NAMES or {"expected", "cases", "stdin", "stdout", ".gitignore"} & set(parts):
        return None
    return DEFINITION if parts[0] == "crates" and parts[2] == "specs" else CODE


def place(name):
    """Where the list counts a file: crates by their folders src, specs and proofs, all else by its folder."""
    parts = name.parts[:3] if name.parts[0] == "crates" else name.parts[:-1]
    return "/".join(parts) or "."


def wide(root, names):
    """The number of lines that are too wide, place by place, and the first of each."""
    counts, first = collections.Counter(), {}
    for name in names:
        most = widest(name)
        if most is None:
            continue
        for number, line in enumerate((root / name).read_text(errors="replace").splitlines(), 1):
            if len(line) > most:
                counts[place(name)] += 1
                first.setdefault(place(name), f"{name}:{number}")
    return counts, first


def faults(root, names, listed):
    """Where the list does not say what is so."""
    counts, first = wide(root, names)
    allowed = {where: int(count) for count, where in (line.split() for line in listed.splitlines() if line)}
    for where in sorted(set(counts) | set(allowed)):
        have, may = counts[where], allowed.get(where, 0)
        if have > may:
            yield f"{where}: {have} lines are too wide, and {may} may be, one of them {first[where]}"
        elif have < may:
            yield f"{where}: {have} lines are too wide, and the list still has {may}: lower it"
