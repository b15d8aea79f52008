"""watch.py COMMAND: what is seen only at a terminal, or while the command runs: binary output that is refused there, the line that tells how far a long list is,
and how much memory lists of any length take. Run where examples/ and the folders of folders.sh are. The last line is 'N passed, M failed'."""
import errno
import os
import pty
import re
import select
import signal
import subprocess
import sys
import tempfile
import time

from counts import check, last_line

COMMAND = sys.argv[1]
LONGEST = 20  # seconds that anything here may take
ABOUT = 1024  # KB: the kernel counts a process's memory on each processor, and adds that up now and then
TO_TERMINAL = "yaffledesk: {}: binary output does not go to a terminal: -o FILE names a file\n"


def read_all(file):
    """What a terminal was shown, until nobody writes to it any more."""
    shown = b""
    while select.select([file], [], [], LONGEST)[0]:
        try:
            more = os.read(file, 65536)
        except OSError:  # the other end is closed
            break
        if not more:
            break
        shown += more
    os.close(file)
    return shown


def at_terminal(words, streams, meanwhile=lambda process: None, **more):
    """Runs the command with these streams at a terminal. Gives its status, what the terminal was shown, and what the
    other stream, a file, was given."""
    mine, its = pty.openpty()
    with tempfile.TemporaryFile() as other:
        ends = {name: its if name in streams else other for name in ("stdout", "stderr")}
        process = subprocess.Popen([COMMAND, *words], stdin=subprocess.DEVNULL, **{**ends, **more})
        os.close(its)
        meanwhile(process)
        process.wait(timeout=LONGEST)
        other.seek(0)
        return process.returncode, read_all(mine), other.read()


def binary():
    """Plans and records do not go to a terminal, by whichever name; text does."""
    for words in (["trim", "examples/a.plan"], ["flow", "--binary", "examples/a.plan"], ["overload", "--binary", "examples/b.plan"]):
        for more in ([], ["-o", "-"]):
            status, shown, said = at_terminal(words + more, ["stdout"])
            check((status, shown, said.decode()) == (2, b"", TO_TERMINAL.format("standard output")), f"{words + more} to a terminal: {status} {shown} {said}")
        mine, its = pty.openpty()
        done = subprocess.run([COMMAND, *words, "-o", os.ttyname(its)], capture_output=True, timeout=LONGEST)
        check((done.returncode, done.stderr.decode()) == (2, TO_TERMINAL.format(os.ttyname(its))), f"{words} to a terminal by its name: {done}")
        os.close(its)
        os.close(mine)
    for words in (["flow", "examples/a.plan"], ["overload", "examples/b.plan"], ["sheet", "examples/a.plan"], ["starts", "examples/a.plan"], ["--help"]):
        status, shown, said = at_terminal(words, ["stdout"])
        check((status, said) == (0, b"") and shown.replace(b"\r\n", b"\n") == subprocess.run([COMMAND, *words], capture_output=True).stdout, f"{words} at a terminal")


def reader_gone():
    """Where nobody reads on, each command ends as others do, and complains of nothing."""
    with open("crew", "w") as crew:
        crew.write("1 0 1\n2 1 2\n3 0 3\n4 3 1\n")
    for words in (*([name] for name in ("list", "report", "starts", "flow", "overload", "sheet", "trim", "draw")), ["list", "--heading"], ["crew"], ["--help"]):
        end, its = os.pipe()
        os.close(end)
        names = ["examples/a.plan"] * (words != ["--help"]) + ["crew"] * (words == ["crew"])
        done = subprocess.run([COMMAND, *words, *names], stdin=subprocess.DEVNULL, stdout=its, stderr=subprocess.PIPE, timeout=LONGEST)
        os.close(its)
        check((done.returncode, done.stderr) == (-signal.SIGPIPE, b""), f"{words}, and a reader that goes away: {done}")


def open_pipe(process, name):
    """Opens a pipe that the command reads, when it has come to it."""
    until = time.monotonic() + LONGEST
    while time.monotonic() < until and process.poll() is None:
        try:
            return os.open(name, os.O_WRONLY | os.O_NONBLOCK)
        except OSError as trouble:
            if trouble.errno != errno.ENXIO:
                raise
            time.sleep(0.005)
    return None


def slow(names, wait):
    """Plans that come by pipes, each after some seconds: so a list is long."""

    def meanwhile(process):
        for name in names:
            file = open_pipe(process, name)
            time.sleep(wait)
            if file is None:
                check(False, f"the list comes to {name}")
                return
            with open("examples/a.plan", "rb") as plan:
                os.write(file, plan.read())
            os.close(file)

    return meanwhile


def progress():
    """A line on standard error, from the first second on, where that is a terminal and the list goes to a file. A
    complaint is not written behind it."""
    os.mkfifo("slow")
    lines = subprocess.run([COMMAND, "list", "fewer", "examples/a.plan", "examples/a.plan", "fewer"], capture_output=True).stdout
    expected = lines.replace(b"examples/a.plan", b"slow" + 11 * b" ", 1)
    for jobs in ("1", "2"):
        status, shown, out = at_terminal(["list", "-j", jobs, "fewer", "slow", "examples/a.plan", "fewer", "none"], ["stderr"], slow(["slow"], 1.1))
        check(status == 2 and out == expected, f"the list of which a terminal is told, -j {jobs}: {status}")
        *told, complaint = shown.decode().replace("\r\n", "\n").split("yaffledesk: ")
        steps = re.fullmatch(r"((?:\r\d+ of 4003 plans, \d+ a second\033\[K)+)\r\033\[K", "".join(told))
        check(steps and complaint.startswith("none: cannot be read: No such file or directory\n"), f"how far a list is, -j {jobs}: {shown}")
        done = [int(step) for step in re.findall(r"\r(\d+) of", steps[1] if steps else "")]
        check(done == sorted(done) and done and 2001 <= done[-1] <= 4003, f"the steps of a long list, -j {jobs}: {done}")
    status, shown, _ = at_terminal(["list", "slow", "examples/a.plan"], ["stdout", "stderr"], slow(["slow"], 1.1))
    check(status == 0 and len(shown.split(b"\r")) == 3, f"nothing is told between the lines: {shown}")
    os.unlink("slow")
    status, shown, _ = at_terminal(["list", "examples"], ["stderr"])
    check((status, shown) == (1, b""), f"nothing is told of a short list: {shown}")
    status, shown, err = at_terminal(["list", "examples"], ["stdout"])
    plain = subprocess.run([COMMAND, "list", "examples"], capture_output=True).stdout
    check((status, err, shown.replace(b"\r\n", b"\n")) == (1, b"", plain), "the lines of a list at a terminal are those in a file")


STEPS = re.compile(rb"(\r\d+ of 2 plans, \d+ a second\033\[K)+\r\033\[K")


def asked():
    """Whether it is told how far a list is, by where its lines go, by the terminal, and by what is asked for."""
    os.mkfifo("slow")

    def shown(*words, **more):
        """What the terminal that is standard error was shown of a list that takes a second."""
        return at_terminal(["list", *words, "slow", "examples/a.plan"], ["stderr"], slow(["slow"], 1.1), **more)[1]

    dumb = {**os.environ, "TERM": "dumb"}
    check(STEPS.fullmatch(shown()), "a list that goes to a file, at a terminal")
    check(shown("--quiet") == b"" and shown("--progress", "--quiet") == b"", "the same, and --quiet")
    check(shown(env=dumb) == b"", "the same, and a terminal that is dumb")
    lines = shown("--progress", env=dumb)
    check(re.fullmatch(rb"(\d+ of 2 plans, \d+ a second\r\n)+", lines), f"the same, and --progress: {lines}")
    for words in ([], ["-j", "2"]):
        reader = subprocess.Popen(["cat"], stdin=subprocess.PIPE, stdout=subprocess.DEVNULL)
        check(shown(*words, stdout=reader.stdin) == b"", f"a list that goes to a pipe, with {words}")
        steps = shown("--quiet", "--progress", *words, stdout=reader.stdin)
        check(STEPS.fullmatch(steps), f"the same, and --progress, {words}: {steps}")
        reader.stdin.close()
        reader.wait(timeout=LONGEST)
    check(shown(stdout=subprocess.DEVNULL) == b"", "a list that goes to a device")
    _, lines, said = at_terminal(["list", "--progress", "slow", "examples/a.plan"], ["stdout"], slow(["slow"], 1.1))
    check(lines.count(b"accepted") == 2 and re.fullmatch(rb"(\d+ of 2 plans, \d+ a second\n)+", said),
          f"--progress where standard error is no terminal: {said}")
    os.unlink("slow")


def peak_of(words, **more):
    """The most memory, in KB, that a list took until it came to its last plan, the pipe `last`."""
    given = {"stdin": subprocess.DEVNULL, "stdout": subprocess.DEVNULL, **more}
    process = subprocess.Popen([COMMAND, "list", *words], **given)
    file = open_pipe(process, "last")
    if file is None:
        raise SystemExit(f"the list {words} does not come to its last plan")
    with open(f"/proc/{process.pid}/status") as status:
        found = re.search(r"^VmHWM:\s+(\d+) kB$", status.read(), re.MULTILINE)
    os.close(file)
    process.wait(timeout=LONGEST)
    os.unlink("last")
    return int(found[1])


def peak(folder, *words):
    """The same of a folder, with the pipe behind it."""
    os.mkfifo("last")
    return peak_of([*words, folder, "last"])


def peak_below(folder):
    """The same of a folder that stands in another, three folders deep."""
    os.makedirs("outer/b/c")
    os.rename(folder, f"outer/b/c/{folder}")
    found = peak("outer", "-r")
    os.rename(f"outer/b/c/{folder}", folder)
    os.removedirs("outer/b/c")
    return found


def peak_text(count):
    """The same of so many names in a text, the last of which is the pipe, and as many lines that are no names."""
    os.mkfifo("last")
    with open("text", "w") as text:
        text.write(count * ("examples/a.plan\n" + 5000 * "x" + "\n") + "last\n")
    with open("text") as text:
        found = peak_of(["--files-from", "-"], stdin=text, stderr=subprocess.DEVNULL)
    os.unlink("text")
    return found


def memory():
    """Memory does not grow with the number of plans, nor with the length of their names."""
    if os.environ.get("SANITIZED"):
        print("not asked under a sanitizer, which takes memory of its own: whether it grows with the number of plans")
        return
    for words in ([], ["-j", "2"], ["--json"]):
        fewer, many, longs = (peak(folder, *words) for folder in ("fewer", "many", "longs"))
        check(max(many, longs) <= fewer + ABOUT, f"2,000 plans take {fewer} KB, 20,000 {many} KB, 9,000 with long names {longs} KB, with {words}")
    fewer, many, longs = (peak_below(folder) for folder in ("fewer", "many", "longs"))
    check(max(many, longs) <= fewer + ABOUT, f"below others, 2,000 take {fewer} KB, 20,000 {many}, 9,000 long {longs}")
    fewer, many = (peak_text(count) for count in (1000, 10000))
    check(many <= fewer + ABOUT, f"1,000 names in a text take {fewer} KB, 10,000 {many} KB")


def main():
    os.environ["TERM"] = "xterm"
    for part in (binary, reader_gone, progress, asked, memory):
        part()
    last_line()


main()
