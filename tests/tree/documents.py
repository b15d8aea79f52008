"""What can be seen of documents: how long they are, that their links lead somewhere, and what their indexes name."""
import re

README_LINES, ENTRY_LINES = 120, 20
LINK = re.compile(r"\[[^\]]*\]\(([^)\s]+)\)")
HEADING = re.compile(r"^#+ (.*)$", re.M)


def anchors(text):
    """The headings of a document, as links name them."""
    return {re.sub(r"[^\w\- ]", "", head.lower()).replace(" ", "-") for head in HEADING.findall(text)}


def dangling(root, names):
    """Links that lead nowhere: to no file of the tree, or to no heading of it."""
    for name in names:
        if name.suffix != ".md":
            continue
        for link in LINK.findall((root / name).read_text()):
            if "://" in link:
                continue
            file, _, anchor = link.partition("#")
            target = (root / name).parent / file if file else root / name
            if not target.exists():
                yield f"{name}: there is no {link}"
            elif anchor and anchor not in anchors(target.read_text()):
                yield f"{name}: {file or name} has no heading for {link}"


def entries(text):
    """The entries of docs/CHANGES.md, each its heading and its lines without blank ones at the end."""
    for part in re.split(r"^(?=## )", text, flags=re.M)[1:]:
        yield part.splitlines()[0], len(part.rstrip().splitlines())


def long(root):
    """Documents that are longer than who reads them has time for."""
    lines = len((root / "README.md").read_text().splitlines())
    if lines > README_LINES:
        yield f"README.md: {lines} lines, and it may have {README_LINES}"
    for heading, lines in entries((root / "docs" / "CHANGES.md").read_text()):
        if lines > ENTRY_LINES:
            yield f"docs/CHANGES.md, {heading}: {lines} lines, and an entry may have {ENTRY_LINES}"


def unlisted(root):
    """Crates and tests that docs/MAP.md does not name, and sections of decisions that docs/DECISIONS.md does not."""
    told = (root / "docs" / "MAP.md").read_text()
    for line in (root / "crates.txt").read_text().splitlines():
        # a static library is so called before the colon
        if ":" in line and f"`{line.split(':')[0].split()[0]}`" not in told:
            yield f"docs/MAP.md does not name the crate {line.split(':')[0].split()[0]}"
    for test in sorted(root.glob("tests/*/run")):
        if f"`tests/{test.parent.name}`" not in told:
            yield f"docs/MAP.md does not name tests/{test.parent.name}"
    index = (root / "docs" / "DECISIONS.md").read_text()
    for section in sorted(root.glob("docs/decisions/*.md")):
        if f"(decisions/{section.name})" not in index:
            yield f"docs/DECISIONS.md does not link to decisions/{section.name}"
