"""names.py COMMAND FOLDER: the names in lists of the plans in FOLDER, read back, are those of the files, in their order; and those in a table stand in a column,
however wide it is. The plans are accepted, with one kind. The last line is 'N passed, M failed'."""
import csv
import json
import os
import re
import subprocess
import sys

COMMAND, FOLDER = sys.argv[1:]
BEHIND = "  accepted    kind 1: need     4 of 4"
BACKSLASH = re.compile(rb"\\(\\|x[0-9a-f]{2})")


def there():
    return [os.fsencode(FOLDER) + b"/" + name for name in sorted(os.listdir(os.fsencode(FOLDER)))]


def lines(*words):
    return subprocess.run([COMMAND, "list", *words, FOLDER], capture_output=True, check=True).stdout.decode().split("\n")[:-1]


def shown():
    return [row[0] for row in csv.reader(lines("--csv"), strict=True)]


def read_back(name):
    """A byte that is written \\xNN, and a backslash that is written as two."""
    return BACKSLASH.sub(lambda got: b"\\" if got[1] == b"\\" else bytes.fromhex(got[1][1:].decode()), name.encode())


def main():
    checks = {"as CSV": [read_back(name) for name in shown()] == there()}
    checks["as JSON"] = [json.loads(line)["plan"] for line in lines("--json")] == [name.decode(errors="replace") for name in there()]
    for width in (1, 7, 32, 60, 4096):
        checks[f"in a column of {width}"] = lines("--width", str(width)) == [name.ljust(width) + BEHIND for name in shown()]
    for what, true in checks.items():
        if not true:
            print(f"FAIL: the names of the files {what}")
    good = sum(checks.values())
    print(f"{good} passed, {len(checks) - good} failed")


main()
