"""Laws that nobody cites and no reader is told of, and imports that nobody uses."""
import functools
import re

from versions import PROOFS

# a word of code, between blanks and brackets: a name, or names that points join
WORD = re.compile(r"\[\]|==|[^\s(){}\[\],;:=`⌜⌝]+")
# a list of names may be laid out over several lines
USE = re.compile(
    r"^(?:ghost )?use (?P<module>[^\s{;]+?)(?:\.\{(?P<names>[^}]*)\}| as (?P<alias>[^\s;]+))?;?$", re.M
)
# the lemmas that an attribute of a function names, `crate` for those of its own crate
USING = re.compile(r"\busing\(([\w:, ]+)\)")
LAW = re.compile(
    r"(?:(?:abbrev|unfoldable) )?(?:pub )?"
    r"(?:(?:record|data) (?P<type>[^\s(){}]+)|(?P<name>[^\s(){}]+)(?: \{[^}]*\})* :(?: |$))"
)
TOLD = re.compile(r"`([^`]+)`")
COMMENT = {".antt": "--", ".rt": "//"}


def parts(word):
    """A word with fields behind it, as `c.args.n`: it says the names before each point too."""
    names = word.split(".")
    return [".".join(names[: count + 1]) for count in range(len(names))] if names[0] else [word]


class Law:
    """A declaration: its name, and the lines from `first` on, before `end`, that it takes with its helpers."""

    def __init__(self, name, first):
        self.name, self.first, self.end = name, first, first + 1


@functools.cache
def read(path):
    """A file, read once for all checks."""
    return File(path)


class File:
    """A file of antt or of code: what it imports, on which lines the words of its code stand, and its comments."""

    def __init__(self, path):
        self.path, self.names, self.modules, self.words, self.comments = path, [], [], {}, []
        self.lines = USE.sub(self.take, path.read_text()).splitlines()
        for number, line in enumerate(self.lines):
            code = line.lstrip()
            comment = code.startswith(COMMENT[path.suffix])
            self.comments.append(code[2:] if comment else "")
            for word in [] if comment else WORD.findall(line):
                for said in parts(word.rstrip(".")):
                    self.words.setdefault(said, set()).add(number)

    def take(self, use):
        """Notes what a `use` line brings in: a module with its name here, or a name of a module with that name here."""
        if use["names"] is None:
            self.modules.append((use["module"], use["alias"] or use["module"].split(".")[-1]))
        for one in (use["names"] or "").split(","):
            name, _, here = one.strip().partition(" as ")
            if name:
                self.names.append((use["module"], name, here or name))
        return ""

    def says(self, name):
        """Whether the code has a name, or, where it has places for arguments, all of its parts."""
        return name in self.words or "◌" in name and all(part in self.words for part in name.split("◌") if part)

    def cites(self):
        """What the code cites of other files: pairs of a module and a name of it."""
        found = {(module, name) for module, name, here in self.names if self.says(here)}
        for lemma in ",".join(USING.findall("\n".join(self.lines))).split(","):
            crate, _, rest = lemma.strip().partition("::")
            crate = self.path.parts[self.path.parts.index("crates") + 1] if crate == "crate" else crate
            *names, law = rest.split("::")
            found.add((".".join(["Rattle", crate, *names]), law))
        known = {here: module for module, here in self.modules}
        for word in self.words:
            here, _, name = word.rpartition(".")
            if here in known:
                found.add((known[here], name))
        return found

    def unused(self):
        """The names that it imports and does not say."""
        yield from (here for _, _, here in self.names if not self.says(here))
        yield from (here for _, here in self.modules if not any(word.startswith(f"{here}.") for word in self.words))

    def laws(self):
        """The declarations at the top of the file and of its sections. What stands deeper than its name is its own."""
        found, indent = [], None
        for number, line in enumerate(self.lines):
            text = line.lstrip()
            deep = len(line) - len(text)
            if not text or text.startswith("--"):
                continue
            inside = indent is not None and deep > indent
            if not inside and (law := LAW.match(text)):
                found.append(Law(law["name"] or law["type"], number))
                indent = deep
            elif not inside and (text.startswith("module ") or indent is not None and deep < indent):
                indent = None
            if indent is not None:
                found[-1].end = number + 1
        return found


def module(root, path):
    """The name of a law file in imports."""
    return ".".join(["Rattle", *path.relative_to(root / "crates").with_suffix("").parts])


def told(root):
    """The names in backquotes where a reader looks: in documents, and in comments of definitions and of code."""
    documents = [root / "README.md", root / "CONTRIBUTING.md", *root.glob("docs/**/*.md"), *root.glob("include/*.h")]
    texts = [path.read_text() for path in documents if path.exists()]
    for path in [*root.glob("crates/*/specs/**/*.antt"), *root.glob("crates/*/src/**/*.rt")]:
        texts.append("\n".join(read(path).comments))
    return {name for text in texts for part in re.split(r"\n\s*\n", text) for name in TOLD.findall(part)}


def uncited(root):
    """The laws that no other law, function's proof or code cites, and of which no reader is told."""
    found = [root.glob(f"crates/*/{part}") for part in ("*/**/*.antt", "src/**/*.rt")]
    made = [path for some in found for path in sorted(some) if path.relative_to(root).parts[2] != "out"]
    files = [read(path) for path in made]
    cited, ends = {one for file in files for one in file.cites()}, told(root)
    for file in files:
        if "proofs" not in file.path.relative_to(root).parts or file.path.name in (*PROOFS, "Lib.antt"):
            continue
        for law in file.laws():
            here = file.words.get(law.name, set()) - set(range(law.first, law.end))
            there = (module(root, file.path), law.name) in cited
            if not here and not there and law.name not in ends:
                yield f"{file.path.relative_to(root)}: {law.name}"


def unused(root):
    """The names that a file of definitions or proofs imports and does not say."""
    for kind in ("specs", "proofs"):
        for path in sorted(root.glob(f"crates/*/{kind}/**/*.antt")):
            for name in read(path).unused():
                yield f"{path.relative_to(root)}: {name}"
