"""Where planfile's output goes: files that are replaced when all is there, descriptors, devices and pipes; disks that
are full, and signals at every step."""
import functools
import os
import resource
import shutil
import signal
import stat
import subprocess
import sys
import time

from checks import TOOL, check, run

TEXT, NEW, OLD = b"crew 4\n", bytes([2, 1, 0, 0, 4]).ljust(24, b"\0"), b"old\n"
STEPS = 3000  # more than there are
NOT_REACHED = 77


def lies(file, content, what):
    """The file has these bytes, and nothing is beside it."""
    found = sorted(os.listdir(file.parent))
    check(found == [file.name], f"{what}: {found} is there")
    check(file.exists() and file.read_bytes() == content, f"{what}: the file has other bytes")


def rights(file):
    """What chmod and chown set."""
    was = file.stat()
    return stat.S_IMODE(was.st_mode), was.st_uid, was.st_gid


def files(room):
    """A new file has the rights that the mask leaves, an old one keeps its own, and is another file than before."""
    out = room / "out"
    check(run("pack", "-o", out, given=TEXT, umask=0o027) == (0, b"", ""), "a new file is written")
    lies(out, NEW, "a new file")
    check(rights(out)[0] == 0o640, f"a new file has the rights {rights(out)[0]:o}")
    owner = (12345, 54321) if os.getuid() == 0 else (os.getuid(), os.getgid())  # others may not give files away
    for mode in (0o600, 0o644, 0o755, 0o666):
        out.write_bytes(OLD)
        os.chown(out, *owner)
        out.chmod(mode)
        with open(out, "rb") as before:
            check(run("pack", "-o", out, given=TEXT, umask=0o077) == (0, b"", ""), f"mode {mode:o}: it is written")
            check(before.read() == OLD, f"mode {mode:o}: whoever reads the old file reads on in it")
        check(rights(out) == (mode, *owner), f"mode {mode:o}: rights and owner are then {rights(out)}")
        lies(out, NEW, f"a file of mode {mode:o}")
    out.unlink()
    longest = room / ("x" * 255)
    check(run("pack", "-o", longest, given=TEXT) == (0, b"", ""), "a file with the longest name is written")
    lies(longest, NEW, "a file with the longest name")


def links(room):
    """A link stays a link, and its file is replaced; a link to nothing is not written through, nor replaced."""
    (room / "to").mkdir()
    out, link, twice, none = room / "to" / "out", room / "link", room / "twice", room / "none"
    link.symlink_to("to/out")
    twice.symlink_to("link")
    none.symlink_to("nowhere")
    for name in (link, twice):
        out.write_bytes(OLD)
        check(run("pack", "-o", name, given=TEXT) == (0, b"", ""), f"{name.name}: what it leads to is written")
        check(name.is_symlink() and not out.is_symlink(), f"{name.name} stays a link")
        lies(out, NEW, name.name)
    said = run("pack", "-o", none, given=TEXT)
    check(said == (2, b"", f"{none}: cannot be written: No such file or directory\n"), f"a link to nothing: {said}")
    check(none.is_symlink() and not (room / "nowhere").exists(), "a link to nothing stays one")


def others(room):
    """Devices and pipes are written to as they are; folders, and names of none, cannot be."""
    pipe = room / "pipe"
    os.mkfifo(pipe)
    with subprocess.Popen(["cat", pipe], stdout=subprocess.PIPE) as reader:
        check(run("pack", "-o", pipe, given=TEXT) == (0, b"", ""), "a pipe is written to")
        check(reader.stdout.read() == NEW and stat.S_ISFIFO(pipe.stat().st_mode), "a pipe stays one, and gets all")
    check(run("pack", "/dev/null", "-o", "/dev/null") == (0, b"", ""), "/dev/null may be read and written")
    check(stat.S_ISCHR(os.stat("/dev/null").st_mode), "a device stays a device")
    none = {"/dev/full": "No space left on device", room: "Is a directory", room / "pipe" / "x": "Not a directory"}
    none |= {"": "No such file or directory", "/dev/fd/99": "Bad file descriptor"}
    for name, why in none.items():
        said = run("pack", "-o", name, given=TEXT)
        check(said == (2, b"", f"{name}: cannot be written: {why}\n"), f"{name!r} cannot be written: {said}")
    check(sorted(os.listdir(room)) == ["pipe"], f"these are left: {os.listdir(room)}")


def descriptors(room):
    """What goes to a descriptor, by whichever name, goes behind what is there, and the rest follows."""
    log, link = room / "log", room / "link"
    link.symlink_to("/dev/stdout")
    first = ("-", "/dev/stdout", "/dev/fd/1", "/proc/self/fd/1", link)
    for name, fd in (*((name, 1) for name in first), ("/dev/stderr", 2), ("/dev/fd/7", 7)):
        log.write_bytes(b"head\n")
        line = f'exec {fd}>>"$1"; "$2" pack -o "$3" && printf "tail\\n" >&{fd}'
        done = subprocess.run(["bash", "-c", line, "bash", log, TOOL, name], input=TEXT, timeout=60)
        check(done.returncode == 0 and log.read_bytes() == b"head\n" + NEW + b"tail\n", f"{name}: {log.read_bytes()}")
    check(sorted(os.listdir(room)) == ["link", "log"], f"these are left: {os.listdir(room)}")
    said = run("pack", "-", "-o", "-", given=TEXT)
    check(said == (0, NEW, ""), f"- is standard input, and standard output: {said}")


def itself(room):
    """The file that is read is no output, by whichever name, for a plan and for a text."""
    for task, content in (("pack", TEXT), ("show", NEW)):
        given, link, hard = room / "given", room / "link", room / "hard"
        given.write_bytes(content)
        link.symlink_to("given")
        os.link(given, hard)
        around = room / ".." / room.name / "given"
        for read, out in ((given, given), (given, link), (link, given), (hard, given), (given, around)):
            said = run(task, read, "-o", out)
            told = f"{out}: cannot be written: it is the file that is read\n"
            check(said == (2, b"", told), f"{task} to itself: {said}")
        for line in ("-o given <given", "given >>given", "given -o - >>hard", "- -o /dev/fd/7 <given 7>>link"):
            words = ["bash", "-c", f'"$1" {task} {line}', "bash", TOOL]
            done = subprocess.run(words, cwd=room, capture_output=True, timeout=60)
            check(done.returncode == 2 and b"it is the file that is read" in done.stderr, f"{task} {line}: {done}")
        check(given.read_bytes() == content and given.samefile(hard), f"{task}: what is read stays what it was")
        for name in (given, link, hard):
            name.unlink()


def limited(room):
    """A file that may not grow so far: the old one stays, and no part of a new one."""
    out = room / "to" / "out"
    out.parent.mkdir()
    limit = functools.partial(resource.setrlimit, resource.RLIMIT_FSIZE, (3072, 3072))
    many = b"crew 4\n" + 200 * b"job 1 -> 2\n"  # 4,824 bytes, of which 3,072 would be whole records
    for old in (OLD, None):
        if old:
            out.write_bytes(old)
        said = run("pack", "-o", out, given=many, preexec_fn=limit)
        check(said == (2, b"", f"{out}: cannot be written: File too large\n"), f"a file that grows too large: {said}")
        check(os.listdir(out.parent) == ["out"] * bool(old), f"beside it is then {os.listdir(out.parent)}")
        check(not old or out.read_bytes() == old, "a file that grows too large: the old one stays")
        out.unlink(missing_ok=True)


def disk(room):
    """A disk that is really full, where one can be mounted; else that is said, and the limit above stands for it."""
    for flags in ("-m", "-rm"):
        if subprocess.run(["unshare", flags, "true"], capture_output=True).returncode == 0:
            script = [TOOL.parents[1] / "tests" / "planfile" / "disk.sh", TOOL]
            words = ["unshare", flags, "bash", *script]
            done = subprocess.run(words, cwd=room, capture_output=True, text=True, timeout=60)
            if done.returncode != 3:
                check(done.returncode == 0, f"a full disk: {done.stdout}{done.stderr}")
                return
    print("note: no disk can be mounted here: a limit on files stands for a full one")


def step_into(tool, step, number, words):
    """The tool in a process of its own, to which a signal comes at one step of what writes: how it ended."""
    child = os.fork()
    if child:
        return os.waitpid(child, 0)[1]
    done = 0

    def each(frame, event, _):
        nonlocal done
        done += event == "opcode"
        if event == "opcode" and done == step:
            os.kill(os.getpid(), number)
        return each

    def enter(frame, *_):
        frame.f_trace_opcodes = frame.f_code.co_name in ("write", "replace", "put")
        return each if frame.f_trace_opcodes and frame.f_code.co_filename == tool.__file__ else None

    plain_signals()
    sys.argv = ["planfile", *map(str, words)]
    sys.settrace(enter)
    status = tool.main()
    os._exit(status if done >= step else NOT_REACHED)


def stopped(tool, room):
    """A signal at every step of what writes: the file is the old one or the whole new one, and nothing is beside it."""
    text, out = room / "text", room / "to" / "out"
    text.write_bytes(TEXT)
    out.parent.mkdir()
    for number in (signal.SIGINT, signal.SIGTERM):
        seen, ends, left = set(), set(), set()
        for step in range(1, STEPS):
            out.write_bytes(OLD)
            ended = step_into(tool, step, number, ["pack", text, "-o", out])
            if os.waitstatus_to_exitcode(ended) == NOT_REACHED:
                break
            seen.add(out.read_bytes())
            ends.add(os.waitstatus_to_exitcode(ended))
            left.update(os.listdir(out.parent))
            shutil.rmtree(out.parent)
            out.parent.mkdir()
        check(50 < step < STEPS - 1, f"{number}: there are {step - 1} steps")
        check(seen == {OLD, NEW}, f"{number}: after some step the file has {seen}")
        check(left == {"out"}, f"{number}: after some step these are left: {left}")
        check(ends == {-number}, f"{number}: it ends with {ends}")


def waiting(room):
    """A signal while it waits for its input: it ends by that signal, without words. One that is ignored stays so."""
    for number in (signal.SIGINT, signal.SIGTERM):
        words = [TOOL, "pack", "-o", room / "out"]
        ends = {"stdin": subprocess.PIPE, "stderr": subprocess.PIPE}
        with subprocess.Popen(words, **ends, preexec_fn=plain_signals) as process:
            until_caught(process.pid, signal.SIGTERM)
            process.send_signal(number)
            said = process.wait(60), process.stderr.read()
            check(said == (-number, b""), f"{number} while it waits: {said}")
    words = ["nohup", TOOL, "pack"]
    with subprocess.Popen(words, stdin=subprocess.PIPE, stdout=subprocess.PIPE, preexec_fn=plain_signals) as process:
        until_caught(process.pid, signal.SIGTERM)
        process.send_signal(signal.SIGHUP)
        check(process.communicate(TEXT, 60)[0] == NEW and process.returncode == 0, "a signal that is ignored stays so")
    check(os.listdir(room) == [], f"these are left: {os.listdir(room)}")


def plain_signals():
    """As a terminal has them: whoever started this test may have had some ignored."""
    for number in (signal.SIGINT, signal.SIGTERM, signal.SIGHUP):
        signal.signal(number, signal.SIG_DFL)


def until_caught(process, number):
    """Waits until the process catches the signal; where it never does, for some seconds."""
    until = time.monotonic() + 5
    while time.monotonic() < until:
        with open(f"/proc/{process}/status") as status:
            lines = dict(line.split(":", 1) for line in status)
        if int(lines.get("SigCgt", "0"), 16) >> (number - 1) & 1:
            return
        time.sleep(0.01)


def groups(tool, folder):
    """Each with a folder of its own."""
    for group in (files, links, others, descriptors, itself, limited, disk, waiting, stopped):
        room = folder / group.__name__
        room.mkdir()
        yield group, (tool, room) if group is stopped else (room,)
