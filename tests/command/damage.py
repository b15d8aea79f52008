"""damage.py COMMAND: plans of examples/ with bytes changed, records exchanged, and parts cut off or added, always the same ones, are listed; what each sentence of a
refusal says of a record stands in its bytes. Which refusal a plan gets is the library's matter, and tests/reference tries that. The last line is 'N passed, M failed'."""
import json
import pathlib
import random
import re
import subprocess
import sys

PLANS, RECORD = 3000, 24
TYPES = {"an activity": 1, "the crew": 2, "a job arc": 3, "an extra arc": 4}
ARC = "(a job arc|an extra arc)"


def number(record, at):
    return record[at] + 256 * record[at + 1]


def of_kind(record, kind):
    return number(record, 2 + 2 * kind)


def is_spare(record, byte):
    return byte in {1: range(20, 24), 2: (2, 3, *range(20, 24)), 3: (3, *range(6, 24)), 4: (3, *range(6, 24))}[record[0]]


def crew(records):
    return next(place for place, record in enumerate(records) if record[0] == 2)


def beyond(records, place, arc):
    return records[place][0] in (3, 4) and tuple(records[place][1:3]) == arc and not all(1 <= end <= crew(records) for end in arc)


# What is said of the record at a place, and whether it is true of all records, the place, and the words and numbers in it.
TRUE = {
    r"type (\d+) is unknown": lambda file, at, kind: file[at][0] == kind and kind not in TYPES.values(),
    r"a second crew record": lambda file, at: file[at][0] == 2 and crew(file) < at,
    ARC + r" stands before the crew record": lambda file, at, kind: file[at][0] == TYPES[kind] and all(record[0] != 2 for record in file[:at]),
    r"(an activity|a job arc) stands after (the crew|a job arc|an extra arc)": lambda file, at, kind, before: (file[at][0], file[at - 1][0]) == (TYPES[kind], TYPES[before]),
    r"the activity's number is (\d+) and not (\d+)": lambda file, at, is_, due: file[at][0] == 1 and file[at][1] == is_ != due == at + 1,
    r"this would be activity (\d+), and a plan has at most 64": lambda file, at, due: file[at][0] == 1 and due == at + 1 == 65,
    r"the count of kinds is (\d+) and not 1 to 8": lambda file, at, kinds: file[at][:2] == bytes([2, kinds]) and not 1 <= kinds <= 8,
    r"(\d+) are available of kind (\d+), but the count of kinds is (\d+)": lambda file, at, many, kind, kinds: file[at][:2] == bytes([2, kinds])
    and 0 < many == of_kind(file[at], kind) and kind > kinds,
    r"activity (\d+) demands (\d+) of kind (\d+), but the count of kinds is (\d+)": lambda file, at, i, many, kind, kinds: file[at][:2] == bytes([2, kinds])
    and file[i - 1][:2] == bytes([1, i]) and 0 < many == of_kind(file[i - 1], kind) and kind > kinds,
    r"the arc leads from (\d+) to itself": lambda file, at, end: file[at][0] in (3, 4) and file[at][1] == file[at][2] == end,
    r"the arc leads from (\d+) to (\d+), and the activities are 1 to (\d+)": lambda file, at, i, j, most: beyond(file, at, (i, j)) and crew(file) == most > 0,
    r"the arc leads from (\d+) to (\d+), and there are no activities": lambda file, at, i, j: beyond(file, at, (i, j)) and crew(file) == 0,
    r"activity (\d+) takes no time and demands (\d+) of kind (\d+)": lambda file, at, i, many, kind: file[at][:4] == bytes([1, i, 0, 0])
    and 0 < many == of_kind(file[at], kind),
    r"spare byte (\d+) is not zero": lambda file, at, byte: file[at][byte] != 0 and is_spare(file[at], byte),
    ARC + r" from (\d+) to (\d+), which record (\d+) \(place (\d+)\) names already": lambda file, at, kind, i, j, record, place: place < at
    and record == place + 1 and file[at][:3] == file[place][:3] == bytes([TYPES[kind], i, j]),
}


def damaged(plan, others, chance):
    """A plan with one thing wrong, or a few."""
    plan, how = bytearray(plan), chance.randrange(6)
    for _ in range(chance.choice((1, 1, 1, 2, 3))):
        place = RECORD * chance.randrange(len(plan) // RECORD)
        plan[place + chance.choice((0, 1, 2, 3, 4, 5, 20, 23, chance.randrange(RECORD)))] = chance.choice((0, 1, 2, 3, 4, 5, 255, chance.randrange(256)))
    records = [plan[at : at + RECORD] for at in range(0, len(plan), RECORD)]
    if how == 1:
        i, j = chance.randrange(len(records)), chance.randrange(len(records))
        records[i], records[j] = records[j], records[i]
    whole = b"".join(records)
    return whole[: chance.randrange(len(whole))] if how == 0 else whole + chance.choice(others) if how == 2 else bytes(whole)


def is_true(sentence, plan):
    """Whether what is said of a record stands there; of sentences that name no record, which other tests try, whether they are ones that there are."""
    got = re.fullmatch(r"record (\d+) \(place (\d+)\): (.*)", sentence)
    if not got:
        return re.match(r"the file |kind \d needs |the job arcs lead |job arcs and extra arcs lead ", sentence)
    place, records = int(got[2]), [plan[at : at + RECORD] for at in range(0, len(plan), RECORD)]
    for pattern, true in TRUE.items():
        if said := re.fullmatch(pattern, got[3]):
            return int(got[1]) == place + 1 and true(records, place, *(int(word) if word.isdigit() else word for word in said.groups()))
    return False


def main():
    chance, folder, failed = random.Random(20261117), pathlib.Path("damaged"), 0
    plans = [path.read_bytes() for path in sorted(pathlib.Path("examples").glob("*.plan"))]
    folder.mkdir()
    for i in range(PLANS):
        (folder / f"{i:04}.plan").write_bytes(damaged(chance.choice(plans), plans, chance))
    lines = [json.loads(line) for line in subprocess.run([sys.argv[1], "list", "--json", folder], capture_output=True).stdout.splitlines()]
    for line in lines:
        if not line["accepted"] and not is_true(line["refusal"], pathlib.Path(line["plan"]).read_bytes()):
            print(f"FAIL: {line['plan']}: {line['refusal']}")
            failed += 1
    print(f"{len(lines) - failed} passed, {failed + PLANS - len(lines)} failed")


main()
