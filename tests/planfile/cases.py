"""The cases of tests/planfile/run, which starts this in the project's root."""
import importlib.machinery
import importlib.util
import pathlib
import random
import re
import struct
import subprocess
import sys
import tempfile
import traceback

import outputs
from checks import TOOL, check, counts, run

EXAMPLES = pathlib.Path("examples")
SEED = 20261115


def load():
    """The tool as a module: thousands of round trips would take minutes as commands."""
    loader = importlib.machinery.SourceFileLoader("planfile", str(TOOL))
    module = importlib.util.module_from_spec(importlib.util.spec_from_loader("planfile", loader))
    loader.exec_module(module)
    return module


# Plans made here by struct, apart from the tool's own way of making bytes, each with its text.


def activity(i, duration, demands):
    return struct.pack("<BBH8H4x", 1, i, duration, *demands, *[0] * (8 - len(demands)))


def crew(available):
    return struct.pack("<BB2x8H4x", 2, len(available), *available, *[0] * (8 - len(available)))


def arc(kind, i, j, wait=0):
    return struct.pack("<BBBxH18x", kind, i, j, wait)


def random_plan(chance):
    """The lines of a plan and its bytes. Nothing but the fields' sizes is kept, as in the text form."""
    lines, content = [], b""
    for _ in range(chance.randrange(12)):
        i, duration = chance.randrange(256), chance.choice([0, chance.randrange(65536)])
        demands = [chance.choice([0, 1, chance.randrange(65536)]) for _ in range(chance.randrange(9))]
        listed = " demands " + " ".join(map(str, demands)) if demands else ""
        milestone = not duration and not any(demands) and chance.random() < 0.5
        lines.append(f"milestone {i}" if milestone else f"activity {i} duration {duration}{listed}")
        content += activity(i, duration, demands)
    available = [chance.choice([0, 65535, chance.randrange(65536)]) for _ in range(chance.randrange(9))]
    lines.append(" ".join(map(str, ["crew", *available])))
    content += crew(available)
    for _ in range(chance.randrange(12)):
        kind, i, j = chance.choice([3, 4]), chance.randrange(256), chance.randrange(256)
        wait = chance.choice([0, 0, 1, 255, 256, 65535, chance.randrange(65536)])
        written = f" wait {wait}" if wait or chance.random() < 0.1 else ""
        lines.append(f"{'job' if kind == 3 else 'extra'} {i} -> {j}{written}")
        content += arc(kind, i, j, wait)
    order = list(range(len(lines)))
    if chance.random() < 0.5:
        chance.shuffle(order)
    return [lines[n] for n in order], b"".join(content[24 * n : 24 * n + 24] for n in order)


def same(tool, content, what):
    text, told = tool.show(content, "x")
    check(tool.pack(text, "x") == content, f"{what}: packing what is shown gives other bytes for {content.hex()}")
    check((told is None) == (len(content) % 24 == 0), f"{what}: of the length {len(content)} is said {told}")
    return text


def round_trips(tool, chance):
    for _ in range(300):
        lines, content = random_plan(chance)
        dressed = "\r\n".join(f"\t{line} # why 1 -> 2" for line in ["", *lines, ""]).replace(" -> ", chance.choice(["->", " ->  "]))
        check(tool.pack("\n".join(lines), "x") == content, f"packing {lines}")
        check(tool.pack(dressed, "x") == content, f"packing with comments and blanks {lines}")
        check("record" not in same(tool, content, "a random plan"), f"a plain plan is shown as records: {lines}")
    check(tool.pack("milestone 3", "x") == tool.pack("activity 3 duration 0", "x") == activity(3, 0, []), "a milestone is an activity of duration 0")
    pasted, content = "job 1 -> 2\njob 2 -> 3\njob 1 -> 2\nextra 1 -> 2\nextra 1 -> 2\n", arc(3, 1, 2) + arc(3, 2, 3) + arc(3, 1, 2) + 2 * arc(4, 1, 2)
    check(tool.pack(pasted, "x") == content, "an arc that is written twice is packed twice")
    check(same(tool, content, "repeated arcs") == pasted, "repeated arcs are shown as they stand")
    every_wait(tool)
    for _ in range(300):
        same(tool, chance.randbytes(24 * chance.randrange(5)), "random records")
        same(tool, chance.randbytes(chance.randrange(100)), "random bytes")
        same(tool, bytes([chance.randrange(6)]) + chance.randbytes(23), "a random record of a known type")
    plain = [activity(1, 3, [2]), activity(1, 0, []), crew([4, 0]), arc(3, 1, 2), arc(4, 2, 1), arc(3, 1, 2, 258), bytes(24), bytes([255]) * 24]
    for record in plain:
        for place in range(24):
            for value in (0, 1, 9, 255):
                same(tool, record[:place] + bytes([value]) + record[place + 1 :], "one byte changed")


def every_wait(tool):
    """No wait is a wait of 0, and is shown so; every other wait is shown and packed as it is."""
    for kind, word in ((3, "job"), (4, "extra")):
        for text in (f"{word} 1 -> 2", f"{word} 1 -> 2 wait 0", f"{word} 1->2 wait 000"):
            check(tool.pack(text, "x") == arc(kind, 1, 2), f"{text} is an arc of wait 0")
        text = f"{word} 1 -> 2\n" + "".join(f"{word} 1 -> 2 wait {wait}\n" for wait in range(1, 65536))
        content = b"".join(arc(kind, 1, 2, wait) for wait in range(65536))
        check(tool.pack(text, "x") == content, f"{word}: every wait is packed")
        check(tool.show(content, "x") == (text, None), f"{word}: every wait is shown")


def shown(tool):
    """The plain form wherever a record fits it, and the raw form wherever it does not."""
    for content, text in [
        (b"", ""),
        (activity(0, 0, []), "milestone 0\n"),
        (activity(255, 0, []) + activity(1, 256, []), "milestone 255\nactivity 1 duration 256\n"),
        (activity(3, 0, [0, 1]), "activity 3 duration 0 demands 0 1\n"),
        (activity(3, 0, [0] * 7 + [256]), "activity 3 duration 0 demands 0 0 0 0 0 0 0 256\n"),
        (b"\x01\x03" + bytes(18) + b"\x01\0\0\0", "record 0103" + "00" * 18 + "01000000\n"),
        (activity(255, 65535, [0, 65535]), "activity 255 duration 65535 demands 0 65535\n"),
        (activity(1, 1, [1] * 8), "activity 1 duration 1 demands 1 1 1 1 1 1 1 1\n"),
        (crew([]), "crew\n"),
        (crew([4, 0, 0]), "crew 4 0 0\n"),
        (arc(3, 0, 255) + arc(4, 2, 2), "job 0 -> 255\nextra 2 -> 2\n"),
        (b"\x03\x01\x02\0\x02\x01" + bytes(18), "job 1 -> 2 wait 258\n"),
        (b"\x04\x01\x02\0\x01\0" + bytes(18) + b"\x04\x02\x03\0\0\x01" + bytes(18), "extra 1 -> 2 wait 1\nextra 2 -> 3 wait 256\n"),
        (arc(3, 1, 2, 65535) + arc(4, 1, 2, 7), "job 1 -> 2 wait 65535\nextra 1 -> 2 wait 7\n"),
        (b"\x02\x09" + bytes(22), "record 0209" + "00" * 22 + "\n"),
        (b"\x02\x00\0\0\x01" + bytes(19), "record 0200000001" + "00" * 19 + "\n"),
        (b"\x03\x01\x02\x01" + bytes(20), "record 03010201" + "00" * 20 + "\n"),
        (b"\x04\x01\x02\x01\x05" + bytes(19), "record 0401020105" + "00" * 19 + "\n"),
        (b"\x04\x01\x02\0\x05\0\x01" + bytes(17), "record 04010200050001" + "00" * 17 + "\n"),
        (b"\x03\x01\x02\0\x05" + bytes(18) + b"\x01", "record 0301020005" + "00" * 18 + "01\n"),
        (bytes(24), "record " + "00" * 24 + "\n"),
        (bytes(24) + b"\xab", "record " + "00" * 24 + "\nrest ab\n"),
    ]:
        check(tool.show(content, "x")[0] == text, f"{content.hex()} is shown as {tool.show(content, 'x')[0]!r}")


JOB_FORM = "an arc is written 'job FROM -> TO' or 'job FROM -> TO wait PERIODS'"
EXTRA_FORM = "an arc is written 'extra FROM -> TO' or 'extra FROM -> TO wait PERIODS'"
LINE_FAULTS = [
    ("plan 1", "a line begins with activity, milestone, crew, job, extra, record, rest, not 'plan'"),
    ("activity 1", "an activity is written 'activity NUMBER duration PERIODS demands NUMBER ..'"),
    ("activity 1 lasts 3", "an activity is written 'activity NUMBER duration PERIODS demands NUMBER ..'"),
    ("activity 1 duration 3 2", "an activity is written 'activity NUMBER duration PERIODS demands NUMBER ..'"),
    ("activity one duration 3", "an activity's number is a number, not 'one'"),
    ("activity 256 duration 3", "an activity's number is 0 to 255, not 256"),
    ("activity 1 duration 65536", "a duration is 0 to 65535, not 65536"),
    ("activity 1 duration +3", "a duration is a number, not '+3'"),
    ("activity 1 duration 3 demands 1_0", "each of the demands is a number, not '1_0'"),
    ("activity 1 duration 3 demands 65536", "each of the demands is 0 to 65535, not 65536"),
    ("activity 1 duration 3 demands 1 1 1 1 1 1 1 1 1", "at most 8 demands, not 9"),
    ("milestone", "a milestone is written 'milestone NUMBER'"),
    ("milestone 1 2", "a milestone is written 'milestone NUMBER'"),
    ("milestone 1 duration 0", "a milestone is written 'milestone NUMBER'"),
    ("milestone 256", "an activity's number is 0 to 255, not 256"),
    ("milestone x", "an activity's number is a number, not 'x'"),
    ("crew -1", "each of the availabilities is a number, not '-1'"),
    ("crew 65536", "each of the availabilities is 0 to 65535, not 65536"),
    ("crew " + "9" * 5000, "each of the availabilities is 0 to 65535, not " + "9" * 5000),
    ("crew 1 1 1 1 1 1 1 1 1", "at most 8 availabilities, not 9"),
    ("job 1 2", JOB_FORM),
    ("extra 1 -> 2 -> 3", EXTRA_FORM),
    ("job 1 wait 3", JOB_FORM),
    ("job wait 3", JOB_FORM),
    ("job 1 -> 2 3", JOB_FORM),
    ("job 1 -> 2 wait", JOB_FORM),
    ("job 1 -> 2 wait 3 4", JOB_FORM),
    ("job 1 -> 2 wait 3 periods", JOB_FORM),
    ("job wait 3 1 -> 2", JOB_FORM),
    ("extra 1 -> 2 Wait 3", EXTRA_FORM),
    ("extra 1 -> 2 lag 3", EXTRA_FORM),
    ("extra 1 -> 2 wait -> 3", EXTRA_FORM),
    ("extra 1 -> 2 wait 3 wait 3", EXTRA_FORM),
    ("job 1 -> 2 wait 65536", "a wait is 0 to 65535, not 65536"),
    ("extra 1 -> 2 wait " + "9" * 5000, "a wait is 0 to 65535, not " + "9" * 5000),
    ("extra 1 -> 2 wait -1", "a wait is a number, not '-1'"),
    ("job 1 -> 2 wait +3", "a wait is a number, not '+3'"),
    ("job 1 -> 2 wait 1.5", "a wait is a number, not '1.5'"),
    ("extra 1 -> 2 wait long", "a wait is a number, not 'long'"),
    ("extra 1 -> 256 wait 3", "an arc's end is 0 to 255, not 256"),
    ("extra 1 -> 256", "an arc's end is 0 to 255, not 256"),
    ("job x -> 2", "an arc's end is a number, not 'x'"),
    ("record 00", "'record' takes 48 hexadecimal digits, not 2"),
    ("record " + "0" * 49, "'record' takes 48 hexadecimal digits, not 49"),
    ("record 0g", "'record' takes hexadecimal digits, not '0g'"),
    ("rest", "'rest' takes an even number of 2 to 46 hexadecimal digits, not 0"),
    ("rest 012", "'rest' takes an even number of 2 to 46 hexadecimal digits, not 3"),
    ("rest " + "0" * 48, "'rest' takes an even number of 2 to 46 hexadecimal digits, not 48"),
    ("rest 00\n\ncrew 4", "'rest' is the last line, and nothing follows it"),
]


def messages(folder):
    """Each message names the file and the line, the exit status is 2, and nothing is written."""
    file, made = folder / "faulty.txt", folder / "made.plan"
    for lines, message in LINE_FAULTS:
        text = f"# a fault\n\n{lines}"
        place = text.count("\n") + 1
        file.write_text(text + "\ncrew 4\n" if not lines.startswith("rest 00\n") else text)
        said = run("pack", file, "-o", made)
        check(said == (2, b"", f"{file}:{place}: {message}\n"), f"of {lines[:60]!r} is said {said}")
        check(not made.exists(), f"something is written for {lines[:60]!r}")
    said = run("pack", given=b"crew\nplan\njob\n")
    check(said[0] == 2 and [line.split(": ")[0] for line in said[2].splitlines()] == ["standard input:2", "standard input:3"], f"of two faults is said {said}")
    for given in (b"crew 4\n\xff", b"crew 4\ncrew\0"):
        said = run("pack", given=given)
        check(said == (2, b"", "standard input:2: this is not text; plan bytes are for 'planfile show'\n"), f"of {given} is said {said}")
    said = run("pack", folder / "none")
    check(said == (2, b"", f"{folder / 'none'}: cannot be read: No such file or directory\n"), f"of a missing file is said {said}")
    said = run("pack", "-o", folder / "none" / "x", given=b"crew 4")
    check(said == (2, b"", f"{folder / 'none' / 'x'}: cannot be written: No such file or directory\n"), f"of a missing folder is said {said}")
    for words in ([], ["check"], ["pack", "a", "b"]):
        said = run(*words)
        check(said[0] == 2 and said[1] == b"" and said[2].startswith("usage: planfile"), f"of the words {words} is said {said}")


def lengths(folder):
    """A length that is not a multiple of 24: all is shown, what is wrong is said, and the status is 2."""
    file = folder / "odd.plan"
    for size in (1, 23, 25, 47, 49):
        file.write_bytes(bytes(size))
        status, text, said = run("show", file)
        expected = f"{file}: the length {size} is not a multiple of 24: whole records {size // 24}, bytes after them {size % 24}, shown as 'rest'\n"
        check((status, said) == (2, expected), f"of {size} bytes is said, with status {status}: {said}")
        check(run("pack", given=text) == (0, bytes(size), ""), f"{size} bytes are packed otherwise")
    for size in (0, 24, 24 * 2049):
        status, text, said = run("show", given=bytes(size))
        check((status, said) == (0, ""), f"of {size} bytes is said, with status {status}: {said}")
        check(run("pack", given=text) == (0, bytes(size), ""), f"{size} bytes are packed otherwise")


def examples(folder):
    texts, plans = sorted(EXAMPLES.glob("*.txt")), sorted(EXAMPLES.glob("*.plan"))
    names = {path.stem for path in texts}
    check(names >= {"a", "b", "c", "d", "e", "e_job", "f", "f5", "briefed", "comfort", "cured", "handed_back", "pasted"}, f"examples are missing: {sorted(names)}")
    check(names == {path.stem for path in plans}, "each text in examples/ has its plan, and each plan its text")
    for text in texts:
        plan, made = text.with_suffix(".plan"), folder / "made.plan"
        if not plan.exists():
            continue  # said above
        check(run("pack", text) == (0, plan.read_bytes(), ""), f"{plan} is not what {text} packs to")
        check(run("pack", text, "-o", made) == (0, b"", "") and made.read_bytes() == plan.read_bytes(), f"{text} packed with -o")
        lines = [line for line in text.read_text().splitlines() if not line.startswith("#")]
        check(run("show", plan) == (0, "".join(line + "\n" for line in lines).encode(), ""), f"{plan} is not shown as {text} without its comments")
        check(text.read_text().startswith("# "), f"{text} says what it shows")


def named(folder):
    """The tool calls itself what it is called, and says in which order a file's records stand."""
    other = folder / "yaffledesk-planfile"
    other.symlink_to(TOOL)
    for tool in (TOOL, other):
        for words in ([], ["pack"], ["show"]):
            said = subprocess.run([tool, *words, "--help"], capture_output=True, text=True, timeout=60)
            start = " ".join([f"usage: {tool.name}", *words, "[-h]"])
            check(said.returncode == 0 and said.stdout.startswith(start), f"{tool.name} {words} --help begins {said}")
        said = subprocess.run([tool, "pack"], input=b"\0", capture_output=True, timeout=60)
        check(said.stderr.endswith(f"plan bytes are for '{tool.name} show'\n".encode()), f"{tool.name}: {said.stderr}")
    order = "first the activities, numbered from 1,.* then the crew, .* then the job arcs; then the extra arcs"
    check(re.search(order, " ".join(run("--help")[1].decode().split())), "--help says the file's order")


def main():
    tool, chance = load(), random.Random(SEED)
    with tempfile.TemporaryDirectory() as name:
        folder = pathlib.Path(name)
        groups = [(round_trips, (tool, chance)), (shown, (tool,)), (messages, (folder,)), (lengths, (folder,))]
        groups += [(examples, (folder,)), (named, (folder,)), *outputs.groups(tool, folder)]
        for group, words in groups:
            try:
                group(*words)
            except Exception:  # the count must come last, whatever the tool does
                traceback.print_exc(file=sys.stdout)
                check(False, f"{group.__name__} comes to its end")
    print(f"{counts[True]} passed, {counts[False]} failed")
    return 1 if counts[False] else 0


if __name__ == "__main__":
    sys.exit(main())
