"""What the parts of this test share: counting, and running the tool."""
import pathlib
import subprocess

TOOL = pathlib.Path("tools/planfile").resolve()
counts = {True: 0, False: 0}


def check(holds, what):
    """One check: what is told is what holds where all is well, or what was found."""
    counts[bool(holds)] += 1
    if not holds:
        print(f"FAIL: {what}")


def run(*words, given=b"", **more):
    """The tool with these words: its status, what it printed, and what it said."""
    done = subprocess.run([TOOL, *words], input=given, capture_output=True, timeout=60, **more)
    return done.returncode, done.stdout, done.stderr.decode()
