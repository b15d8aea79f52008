"""A small tree with documents, figures and widths that are wrong, and what has to be said of each: these checks are
themselves seen to fail where they must."""
import pathlib
import tempfile

import documents
import figures
import widths

WIDE = "x" * 101
FILES = {
    "README.md": f"# A tree\n\n[map](docs/MAP.md#words), [gone](docs/GONE.md), [no](docs/MAP.md#none)\n{WIDE}\n",
    "docs/MAP.md": "# Map\n\n## Words\n\n`words`\n",
    "docs/CHANGES.md": "# Changes\n\n## One\n" + "line\n" * 20 + "\n## Two\n" + "line\n" * 19,
    "docs/DECISIONS.md": "[one](decisions/one.md)\n",
    "docs/decisions/one.md": "",
    "docs/decisions/two.md": "",
    "docs/PROMISES.md": "",
    "crates.txt": "words:\norder staticlib: words\n",
    "crates/words/specs/Wide.antt": f"-- {WIDE}{WIDE[:10]}\nnarrow : 1\n",
    "crates/words/proofs/Wide.antt": f"-- {WIDE}{WIDE[:10]}\n",
    "crates/words/must-fail/a.edit": f"refuses: words::a, words::b\nwrong: x\nfile: src/a.rt\nold: a\nnew: {WIDE * 2}",
    "crates/promises/specs/PriceList.antt": "-- why\nuse Rattle.words.specs.Few.{\n  a,\n}\n\none : 1\none = 1\n",
    "crates/words/specs/Few.antt": "use Rattle.planner.specs.Faults.{a}\ntwo : 2\n",
    "crates/planner/specs/Faults.antt": "",
    "tests/old/run": "",
    "tests/command/expected/list": WIDE * 2,
}
# what each check says of this tree, by the beginnings
SAID = {
    "dangling": ["README.md: there is no docs/GONE.md", "README.md: docs/MAP.md has no heading"],
    "long": ["docs/CHANGES.md, ## One: 21 lines"],
    "unlisted": [
        "docs/MAP.md does not name the crate order",
        "docs/MAP.md does not name tests/old",
        "docs/DECISIONS.md does not link to decisions/two.md",
    ],
    "counted": ["(3, 3)", "(1, 2)", "2", "1"],
    "figures": ["README.md does not say: 3 lines of definitions in 3 files"],
    "coded": ["crates/planner/specs/Faults.antt says what our code does"],
    "widths": [
        "crates/words/proofs: 0 lines are too wide, and the list still has 1",
        "crates/words/specs: 1 lines are too wide, and 0 may be",
    ],
}


def said(root, names):
    yield "dangling", documents.dangling(root, names)
    yield "long", documents.long(root)
    yield "unlisted", documents.unlisted(root)
    counts = figures.reached(root, ["PriceList"]), figures.edits(root), figures.crates(root)
    yield "counted", map(str, (*counts, len(figures.prove.rests_on("words", root))))
    found = list(figures.faults(root))
    yield "figures", found[:1]
    yield "coded", found[-1:]
    yield "widths", widths.faults(root, names, "1 .\n1 crates/words/proofs\n")


def mistaken():
    """The checks that say something else than they should."""
    with tempfile.TemporaryDirectory() as room:
        root = pathlib.Path(room)
        for name, text in FILES.items():
            (root / name).parent.mkdir(parents=True, exist_ok=True)
            (root / name).write_text(text)
        names = [path.relative_to(root) for path in sorted(root.rglob("*")) if path.is_file()]
        for what, told in said(root, names):
            told, wanted = list(told), SAID[what]
            if len(told) != len(wanted) or not all(one.startswith(start) for one, start in zip(told, wanted)):
                yield f"{what}: said {told}, wanted {wanted}"
