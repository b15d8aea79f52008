"""agree.py LISTS REPORTS: LISTS.table, LISTS.csv and LISTS.json are lists of the same plans. Each line says in all three what the others say, and what the report
of the plan, REPORTS/*.txt, says. The last line is 'N passed, M failed'."""
import csv
import json
import pathlib
import re
import sys

from counts import check, last_line

LISTS, REPORTS = sys.argv[1], pathlib.Path(sys.argv[2])
FIELDS = 20
LINE = re.compile(r"(?P<name>\S+) +(?P<verdict>accepted|refused) (?P<number>[ \d]+?) *(?P<kinds>(  kind \d: need +\d+ of \d+\b *)*)(  (?P<why>\S.*))?")
KIND = re.compile(r"  kind (\d): need +(\d+) of (\d+)\b")


def of_json(line):
    said = json.loads(line)
    check(list(said) == ["plan", "accepted", "number"] + ["refusal"] * (not said["accepted"]) + ["kinds"], f"the keys of {line}")
    return said["plan"], said["number"], said.get("refusal", ""), [(kind["need"], kind["available"]) for kind in said["kinds"]], said["accepted"]


def of_csv(row):
    check(len(row) == FIELDS, f"the fields of {row}")
    pairs = [(need, available) for need, available in zip(row[4::2], row[5::2]) if need or available]
    return row[0], int(row[2]), row[3], [(int(need), int(available)) for need, available in pairs], row[1] == "accepted"


def of_table(line):
    got = LINE.fullmatch(line)
    check(got, f"the table's line {line}")
    if not got:
        return None
    kinds = KIND.findall(got["kinds"])
    check([int(kind) for kind, _, _ in kinds] == list(range(1, len(kinds) + 1)), f"the kinds of {line}")
    return got["name"], int(got["number"].strip() or 0), got["why"] or "", [(int(need), int(available)) for _, need, available in kinds], got["verdict"] == "accepted"


def agrees(said, report):
    """Whether a line says what the lines of a report do."""
    _, number, why, kinds, accepted = said
    lines = [line.split() for line in report.splitlines()]
    if lines[0][0] == "plan":
        needs = [(int(need), int(available)) for word, *rest in lines if word == "need" for _, need, available in [rest]]
        return accepted and number == 0 and why == "" and kinds == needs and len(kinds) == int(lines[0][2])
    refused, values = int(lines[0][1]), lines[0][2:]
    if accepted or number != refused or why == "":
        return False
    if refused == 7:
        kind, need, *members = values
        available = kinds[int(kind) - 1][1] if len(kinds) >= int(kind) else None
        words = f"activities {', '.join(members)} may be at work at once" if len(members) > 1 else f"activity {members[0]} alone demands that many"
        lower_fit = all(need <= available for need, available in kinds[: int(kind) - 1])
        return kinds[int(kind) - 1][0] == int(need) > available and lower_fit and why == f"kind {kind} needs {need} and has {available}: {words}"
    if refused in (5, 6):
        return kinds == [] and why.endswith(f"lead activity {values[0]} back to itself") and ("extra" in why) == (refused == 6)
    if refused == 1:
        return kinds == [] and values == []
    place = int(values[0])
    return kinds == [] and (why.startswith(f"record {place + 1} (place {place}): ") or why == f"the file ends after record {place} without a crew record")


def lines(ending):
    return pathlib.Path(f"{LISTS}.{ending}").read_text().splitlines()


def main():
    with open(f"{LISTS}.csv", newline="") as file:
        by_csv = [of_csv(row) for row in csv.reader(file, strict=True)]
    by_json, by_table = [of_json(line) for line in lines("json")], [of_table(line) for line in lines("table")]
    check(len(by_json) == len(by_csv) == len(by_table) > 50, f"the lists have as many lines: {len(by_json)}, {len(by_csv)}, {len(by_table)}")
    for said, *others in zip(by_json, by_csv, by_table):
        check(others == [said, said], f"{said} is {others[0]} as CSV, and {others[1]} in the table")
        report = REPORTS / (pathlib.Path(said[0]).stem + ".txt")
        check(agrees(said, report.read_text()), f"{said} is not {report}")
    last_line()


main()
