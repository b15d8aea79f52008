"""signals.py COMMAND: a signal that ends the command while it writes to a file leaves the old file, and nothing beside
it. Run where examples/ is. The last line is 'N passed, M failed'."""
import contextlib
import os
import signal
import subprocess
import sys
import time

from counts import check, last_line

COMMAND = sys.argv[1]
LONGEST = 20  # seconds that anything here may take
ENDINGS = (signal.SIGINT, signal.SIGTERM, signal.SIGHUP)
# A disk that takes its time: the command has written all, and waits until that is safe.
SLOW_DISK = "#include <unistd.h>\nint fsync(int file) { return (int)sleep(60) * 0 * file; }\n"


def beside():
    """What is written beside the output."""
    return [name for name in os.listdir("to") if name != "out"]


def wait_for(true):
    """Waits until something is so, or for too long."""
    until = time.monotonic() + LONGEST
    while not true() and time.monotonic() < until:
        time.sleep(0.005)


@contextlib.contextmanager
def writing(words, **more):
    """The command while it writes to to/out, which holds an old text; a file is beside it."""
    with open("to/out", "w") as old:
        old.write("old\n")
    given = {"stdin": subprocess.DEVNULL, "stderr": subprocess.PIPE, **more}
    process = subprocess.Popen([COMMAND, *words, "-o", "to/out"], **given)
    wait_for(lambda: beside() or process.poll() is not None)
    check(beside(), f"{words}: a file is written beside the output")
    yield process
    if process.poll() is None:
        process.kill()
    process.communicate()


def ended(words, number, **more):
    """A signal ends the command, as itself, and leaves nothing."""
    with writing(words, **more) as process:
        process.send_signal(number)
        said = process.communicate(timeout=LONGEST)[1]
        with open("to/out") as out:
            left = (process.returncode, said, out.read(), beside())
        check(left == (-number, b"", "old\n", []), f"{words}, ended by {number.name}: {left}")
    for name in beside():
        os.unlink(f"to/{name}")


def one_plan():
    """The commands on one plan, on a slow disk."""
    subprocess.run(["gcc", "-shared", "-fPIC", "-x", "c", "-", "-o", "slow.so"], input=SLOW_DISK, text=True, check=True)
    slow = {**os.environ, "LD_PRELOAD": os.path.abspath("slow.so")}
    for number in ENDINGS:
        for words in (["starts", "examples/a.plan"], ["trim", "examples/a.plan"], ["draw", "examples/b.plan"]):
            ended(words, number, env=slow)
    ended(["starts", "examples/a.plan"], signal.SIGQUIT, env=slow)


def lists():
    """Lists, which wait for a plan that comes by a pipe; on several processors any of their threads gets the signal."""
    os.mkfifo("slow.plan")
    for number in ENDINGS:
        for words in ([], ["-j", "3"], ["-j", "2", "--heading", "--csv"]):
            ended(["list", *words, "examples", "slow.plan"], number)
    with writing(["list", "-j", "2", "examples", "slow.plan"]) as process:
        process.kill()
        process.wait(timeout=LONGEST)
        with open("to/out") as out:
            check(out.read() == "old\n", "a list that is killed leaves the old edition")
    for name in beside():
        os.unlink(f"to/{name}")
    os.unlink("slow.plan")


def ignored():
    """Who is told to ignore a signal ignores it, as nohup does."""
    slow = {**os.environ, "LD_PRELOAD": os.path.abspath("slow.so")}
    signal.signal(signal.SIGHUP, signal.SIG_IGN)
    with writing(["starts", "examples/a.plan"], env=slow) as process:
        process.send_signal(signal.SIGHUP)
        time.sleep(0.1)
        check(process.poll() is None and len(beside()) == 1, "a signal that is ignored stays ignored")
        process.send_signal(signal.SIGTERM)
        check(process.wait(timeout=LONGEST) == -signal.SIGTERM and beside() == [], "and another one ends the command")
    signal.signal(signal.SIGHUP, signal.SIG_DFL)


def main():
    os.mkdir("to")
    for number in (*ENDINGS, signal.SIGQUIT):  # whoever runs this may have had them ignored
        signal.signal(number, signal.SIG_DFL)
    for part in (one_plan, lists, ignored):
        part()
    last_line()


main()
