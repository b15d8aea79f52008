"""A crate with wrong versions that show nothing, and what has to be said of each: the check of wrong versions is itself
seen to fail where it must."""
import pathlib
import tempfile

import versions

SOURCE = "pub fn low(x: u8) -> u8 {\n    x / 2\n}\n\npub fn high(x: u8) -> u8 {\n    low(x) + 1\n}\n"
EDIT = "file: src/lib.rt\n\nrefuses: sample::{name}\nwrong: the number itself\nold:     {old}\nnew:     {old} + 0\n"
FACT = "./proofs/{name}/Answers.antt:9:13: error: `returns`: `omega`: the goal does not follow from what it read\n"
UNFIT = "./proofs/{name}/Answers.antt:9:13: error: `returns`: record `Start` has no field `before`\n"
BROKEN = "./proofs/{name}/Answers.antt:9:13: error: `returns`: record `Start`\n  has no field `before`\n"
GONE = (
    "./proofs/{name}/Answers.antt:7:5: error: `returns-then-x-eq0`: `goal.returns-then-x-eq0`: module"
    " `Rattle.sample.proofs.{name}.Goals` has no `returns-then-x-eq0` that can be named from here\n"
)
FOLLOWS = (
    "./proofs/{name}/Proof.antt:12:5: error: `{name}_spec`: `returns` was not admitted, so this cannot be checked\n"
    "./proofs/{name}/Proof.antt:12:5: error: 1 declaration that depends on `returns`, which was rejected, was not"
    " checked: {name}_spec\n"
)
SEARCH = "no proof: expected answers in ./proofs/low/Answers.antt; `search` did not prove `returns`"
FALSE = (
    "note: src/lib.rt:1:1: it is not proved that what the function ensures holds when it returns (`returns`); the facts"
    " known there allow values at which this goal is false\n"
)
LOW = "fn sample::low: not proved\nfn sample::high: not proved; it calls `sample::low`, which is not proved\n"
ALONE = "fn sample::low: not proved\nfn sample::high: proved\n"

# a name, the text that is replaced, the log, and what is said of each function that is not as it should be
CASES = [
    ("low", "x / 2", FACT + FOLLOWS + LOW, []),
    ("low", "x / 2", f"fn sample::low: {SEARCH}\nfn sample::high: proved\n", []),
    ("low", "x / 2", GONE + ALONE, ["low"]),
    ("low", "x / 2", GONE + FALSE + ALONE, ["low"]),
    ("low", "x / 2", GONE + FACT + ALONE, ["low"]),
    ("low", "x / 2", "fn sample::low: proved\nfn sample::high: proved\n", ["low"]),
    ("low", "x / 2", UNFIT + FOLLOWS + ALONE, ["low"]),
    ("low", "x / 2", BROKEN + FOLLOWS + ALONE, ["low"]),
    ("low", "x / 2", FOLLOWS + ALONE, ["low"]),
    ("high", "low(x) + 1", FACT + LOW, ["high", "low"]),
    ("high", "x / 2", FACT + "fn sample::low: proved\nfn sample::high: not proved\n", ["high"]),
    ("none", "x / 2", "fn sample::low: proved\nfn sample::high: proved\n", ["none"]),
    ("low", "x / 3", FACT + FOLLOWS + LOW, ["the file"]),
]


# the end of a library's check, and whether it is one without axioms
ENDS = [
    ("logic=proved functions=5 sum=0 native=nat\nrt: note: a line of rt's own\n", True),
    ("logic=proved functions=5 target=x86_64 cpu=x86-64-v2 sum=0 native=nat,char statements=trusted\n", True),
    ("logic=proved functions=5 axioms=1 target=x86_64 sum=0\n", False),
    ("logic=not-proved\n", False),
    ("logic=proved functions=5 sum=0\nlogic=proved functions=5 axioms=2 sum=0\n", False),
    ("", False),
]


def mistaken():
    """The cases in which something else is said than it should be."""
    yield from (f"{log!r} is taken for another end" for log, good in ENDS if (versions.assumed(log) is None) != good)
    with tempfile.TemporaryDirectory() as room:
        crate = pathlib.Path(room)
        (crate / "src").mkdir()
        (crate / "src" / "lib.rt").write_text(SOURCE)
        for name, old, log, wanted in CASES:
            (crate / "version.edit").write_text(EDIT.format(name=name, old=old))
            (crate / "version.log").write_text(log.format(name=name))
            faults = versions.faults(crate, crate / "version.edit", crate / "version.log")
            said = [who.split("::")[-1] for who, fault in faults if fault]
            if said != wanted:
                yield f"{name}, {log!r}: said of {said}, wanted of {wanted}"
