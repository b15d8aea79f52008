"""Wrong versions of a crate: crates/NAME/must-fail/*.edit, and what their logs say. docs/PROVING.md says how one is
written."""
import re

# an error that only follows from another one; and one of a proof that no longer fits the code or the statement,
# whatever that says
FOLLOWS = re.compile(r"was not admitted|was not checked")
UNFIT = re.compile(
    r"has no `Need-|has no field|that can be named from here|is not in scope|expected type `(?:tie|goal)\."
    r"|but this has type `(?:tie|goal)\.|has no argument|too many arguments"
)
ERROR = re.compile(r"^(?P<file>\S+\.antt):(?P<line>\d+):\d+: error: `(?P<law>[^`]+)`: (?P<said>.*)")
STATUS = re.compile(r"^(?:fn|struct|enum) (?P<name>[\w:+]+): (?P<said>.*)")
# what is said of a proved method that calls a closure
CALLERS = "proved where its callers give what it asks"
CALLS = re.compile(r"it calls (?P<names>`.*`), which (?:is|are) not proved")
# the files of a function's proof
PROOFS = ("Proof.antt", "Answers.antt", "Invariants.antt")
# the field of a record that a line of a proof begins
FIELD = re.compile(r"^\s+([\w-]+) = ")
HEAD = re.compile(r"\bfn (\w+)")
# the last line of a crate's check, where all is proved and no axiom is assumed
PROVED = re.compile(r"logic=proved (?!.*axioms=)")


def assumed(log):
    """What the check of a library says last of it, where that is not that all is proved without an axiom; else None."""
    said = ([line for line in log.splitlines() if line.startswith("logic=")] or ["it has no log"])[-1]
    return None if PROVED.match(said) else said


class Replacement:
    """One `old:` and `new:` pair, with the names of its `refuses:` line and the text of its `wrong:` line."""

    def __init__(self, names, wrong, file, old, new):
        self.names, self.wrong, self.file, self.old, self.new = names, wrong, file, old, new


def replacements(edit):
    """The replacements of an edit file, and the first thing that is not as it should be, or None."""
    found, names, wrong, file, old = [], None, None, None, None
    for line in edit.read_text().splitlines():
        word, _, rest = line.partition(": ")
        if word == "refuses":
            if names:
                return found, f"'refuses: {rest}' stands before the replacement for {', '.join(names)}"
            names = [name.strip() for name in rest.split(",")]
        elif word == "wrong":
            wrong = rest.strip()
        elif word == "file":
            file = rest
        elif word == "old":
            old = rest
        elif line.startswith("new:"):
            if not names or not wrong:
                return found, f"the replacement of '{old}' has no 'refuses:' line, or no 'wrong:' line"
            found.append(Replacement(names, wrong, file, old, line.removeprefix("new:").removeprefix(" ")))
            names = wrong = old = None
    return found, None if found else "it has no replacement"


def edited(crate, edit):
    """The texts of the files that an edit changes, by their paths in the crate; and why it cannot be applied, or None.
    """
    texts = {}
    for one in replacements(edit)[0]:
        if one.file not in texts and not (crate / str(one.file)).is_file():
            return {}, f"there is no file {one.file}"
        text = texts.get(one.file) or (crate / one.file).read_text()
        if not one.old or text.count(one.old) != 1:
            return {}, f"'{one.old}' stands in {one.file} {text.count(one.old) if one.old else 0} times, and not once"
        texts[one.file] = text.replace(one.old, one.new)
    return texts, None


def places(crate, found):
    """What is wrong with where each replacement of code stands, or None: it belongs into the function that it names."""
    texts = {}
    for one in found:
        text = texts.get(one.file) or (crate / one.file).read_text()
        heads = HEAD.findall(text[: text.find(one.old)])
        texts[one.file] = text.replace(one.old, one.new, 1)
        if not one.file.startswith("src/"):
            yield f"'{one.old}' is not code"
        elif len(one.names) != 1 or not heads or heads[-1] != one.names[0].split("::")[-1]:
            yield f"'{one.old}' is not in the function {', '.join(one.names)}"
        else:
            yield None


def field_at(lines):
    """The field of a record whose text the last of these lines of a proof stands in, or None."""
    for line in reversed(lines):
        if got := FIELD.match(line):
            return got[1]
        if line and not line.startswith(" "):
            return None
    return None


class Log:
    """What the check of a wrong version said: the errors that are a law's own, by law and by field, and the state of
    each function. `texts` are the files that the version changes."""

    def __init__(self, log, crate, texts):
        self.own, self.unfit, self.states = {}, {}, {}
        self.crate, self.texts = crate, texts
        lines = log.splitlines()
        for line, after in zip(lines, lines[1:] + [""]):
            if error := ERROR.match(line):
                # a long name breaks the line: what is said of it stands on the next one
                self.error(error, error["said"] + (after if after.startswith("  has no ") else ""))
            elif status := STATUS.match(line):
                said = status["said"]
                self.states[status["name"]] = "proved" if said == CALLERS else said

    def error(self, error, said):
        """An error counts for the function whose proof it stands in, or else for the law, and for the law's field."""
        if FOLLOWS.search(said):
            return
        path = error["file"].removeprefix("./")
        parts = path.split("/")
        if parts[-1] in PROOFS:
            names = ["::".join(parts[1:-1])]
        else:
            text = self.texts.get(path) or (self.crate / path).read_text()
            field = field_at(text.splitlines()[: int(error["line"])])
            names = [error["law"], f"{error['law']}.{field}"] if field else [error["law"]]
        for name in names:
            (self.unfit if UNFIT.search(said) else self.own).setdefault(name, said)

    def function(self, name):
        """Why a function does not count as refused at a fact of its own, or None where it does."""
        said = self.states.get(name)
        if said is None:
            return "there is no such function"
        if said == "proved":
            return "it is still proved"
        if got := CALLS.search(said):
            return f"it hides behind {got['names']}, not proved either"
        inner = name.split("::", 1)[1]
        if inner in self.unfit:
            return f"its proof only stopped fitting: {self.unfit[inner]}"
        if inner in self.own or "`search` did not prove" in said:
            return None
        return f"no fact of its own fails: {said}"

    def law(self, name):
        """The same of a law, or of a field of one."""
        if name in self.unfit:
            return f"its proof only stopped fitting: {self.unfit[name]}"
        return None if name in self.own else "no fact of its own fails"

    def others(self, names):
        """Functions that are not proved, though they neither are named nor call one that is not proved."""
        for name, said in self.states.items():
            if name not in names and said != "proved" and not CALLS.search(said):
                yield name, said


def faults(crate, edit, log_file):
    """The checks of one wrong version, each a pair of a name and what is wrong with it, or None."""
    found, bad = replacements(edit)
    texts, lost = edited(crate, edit)
    if bad or lost:
        return [("the file", bad or lost)]
    if not log_file.exists():
        return [("the file", "it has no log: was it tried?")]
    log = Log(log_file.read_text(errors="replace"), crate, texts)
    checks, named = [], {name for one in found for name in one.names}
    for one, misplaced in zip(found, places(crate, found)):
        for name in one.names:
            fault = (misplaced or log.function(name)) if log.states else log.law(name)
            checks.append((name, fault))
    for name, said in log.others(named):
        checks.append((name, f"it is not proved, and no line names it: {said}"))
    if not log.states:
        for name in sorted(set(log.own) | set(log.unfit)):
            law, _, field = name.partition(".")
            if not ({name, law} & named or (not field and any(n.startswith(f"{law}.") for n in named))):
                checks.append((name, "it is refused, and no line names it"))
    return checks


def public(crate):
    """The public functions of a library crate, by name: those of its root file, and those that it hands on from its
    modules."""
    text = (crate / "src" / "lib.rt").read_text()
    holder, names = "", []
    for line in text.splitlines():
        if got := re.match(r"impl(?:<[^>]*>)? (\w+)(?:<[^>]*>)? \{", line):
            holder = f"{got[1]}::"
        elif line == "}":
            holder = ""
        elif got := re.match(r'\s*pub (?:extern "C" )?fn (\w+)', line):
            names.append(f"{crate.name}::{holder}{got[1]}")
        elif got := re.match(r"pub use ([\w:]+);", line):
            names.append(f"{crate.name}::{got[1]}")
        elif got := re.match(r"pub use ([\w:]+)::\{([\w, ]+)\};", line):
            names += [f"{crate.name}::{got[1]}::{name.strip()}" for name in got[2].split(",")]
    return names
