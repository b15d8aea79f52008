"""list.py COMMAND PLANS [COUNT]: how fast the command makes a price list of a folder of COUNT plans (100,000), which the program PLANS writes (plans.c), and how much
memory it takes. Wanted: 10,000 plans a second on one processor; the same bytes on two; and memory that does not grow with the number of plans.
Exit status 1 where that is not reached."""
import hashlib
import pathlib
import subprocess
import sys
import tempfile
import time

WANTED, MORE_KB = 10_000, 1024
FORMATS = ([], ["--csv"], ["--json"])


def peak(pid):
    """The most memory that a process has held so far, in kB; 0 where it has ended."""
    try:
        lines = pathlib.Path(f"/proc/{pid}/status").read_text().splitlines()
    except OSError:
        return 0
    return next((int(line.split()[1]) for line in lines if line.startswith("VmHWM:")), 0)


def measure(command, *words):
    """Runs the command: seconds, the most memory in kB, and a digest of what it prints."""
    began, most, digest = time.monotonic(), 0, hashlib.sha256()
    with subprocess.Popen([command, "list", *words], stdout=subprocess.PIPE) as process:
        while some := process.stdout.read1(1 << 14): # less than a pipe holds: while there is more to come, the process is there
            digest.update(some)
            most = max(most, peak(process.pid))
    if process.returncode not in (0, 1):
        sys.exit(f"{command} list {' '.join(words)}: exit status {process.returncode}")
    return time.monotonic() - began, most, digest.hexdigest()


def main():
    command, plans, count = sys.argv[1], sys.argv[2], int(sys.argv[3]) if len(sys.argv) > 3 else 100_000
    met = True
    with tempfile.TemporaryDirectory(dir="target/bench") as folder:
        few = pathlib.Path(folder, "few")
        many = pathlib.Path(folder, "many")
        for place, size in ((few, count // 10), (many, count)):
            place.mkdir()
            subprocess.run([plans, place, str(size)], check=True)
        few_memory = measure(command, str(few))[1]
        print(f"{count} plans of 64 activities, 8 kinds and 100 arcs in one folder")
        for words in FORMATS:
            runs = {jobs: [measure(command, *words, "-j", jobs, str(many)) for _ in range(3)] for jobs in ("1", "2")}
            same = len({digest for of_jobs in runs.values() for *_, digest in of_jobs}) == 1
            rates = {jobs: [count / seconds for seconds, *_ in of_jobs] for jobs, of_jobs in runs.items()}
            memory = max(kb for _, kb, _ in runs["1"])
            fits = same and min(rates["1"]) >= WANTED and memory <= few_memory + MORE_KB
            met &= fits
            said = "; ".join(f"-j {jobs}: {min(of_jobs):.0f} to {max(of_jobs):.0f} a second" for jobs, of_jobs in rates.items())
            print(f"{' '.join(words) or 'table':8}{said}; {memory} kB ({few_memory} for {count // 10} plans); {'same bytes' if same else 'OTHER BYTES'}")
    print("met" if met else f"NOT MET: {WANTED} a second on one processor, the same bytes, no more memory")
    return 0 if met else 1


if __name__ == "__main__":
    sys.exit(main())
