"""pictures.py COMMAND PLAN ..: what the pictures of plans show is what the plans say, by starts and loads that are worked out here; the needs and the set shown are
those that the command lists. Where things stand is read back from the picture: bars, milestones, arcs by their type, the steps of each kind's load, and
its two lines. Plans that are refused for more than an overload are passed over; some large ones, made here, are added. The last line is 'N passed, M failed'."""
import json
import pathlib
import random
import re
import struct
import subprocess
import sys
import xml.etree.ElementTree as tree

from counts import check, last_line

COMMAND, PLANS = sys.argv[1], sys.argv[2:]
SVG = "{http://www.w3.org/2000/svg}"
NUMBER = r"(\d+(?:,\d{3})*)"
BAR = re.compile(rf"(activity|milestone) (\d+)(?:: start {NUMBER}, finish| at) {NUMBER}(.*)")
ARC = re.compile(rf"(job|extra) arc (\d+) to (\d+)(?:, wait {NUMBER})?")
KIND = re.compile(rf"kind (\d): need {NUMBER}, available {NUMBER}, this timetable occupies at most {NUMBER}")
JOB, EXTRA, ORANGE, DASHED = 3, 4, "#b86200", "stroke-dasharray"
THINNEST = 1.5 # pixels: so wide are a bar and a load at least, however short they last


def number(digits):
    return int(digits.replace(",", ""))


def near(place, wanted):
    return abs(place - wanted) < 0.03 # two decimals are printed


class Plan:
    """What a plan's bytes say, and its earliest starts by going over its arcs until nothing moves."""

    def __init__(self, name):
        data = pathlib.Path(name).read_bytes()
        records = [data[i : i + 24] for i in range(0, len(data), 24)]
        self.crew = next(record for record in records if record[0] == 2)
        activities = [record for record in records if record[0] == 1]
        self.kinds = self.crew[1]
        self.available = struct.unpack_from("<8H", self.crew, 4)
        self.durations = [struct.unpack_from("<H", record, 2)[0] for record in activities]
        self.demands = [struct.unpack_from("<8H", record, 4) for record in activities]
        self.arcs = [(record[0], record[1], record[2], struct.unpack_from("<H", record, 4)[0]) for record in records if record[0] in (JOB, EXTRA)]
        self.starts = [0] * len(activities)
        for _ in activities:
            for _, i, j, wait in self.arcs:
                self.starts[j - 1] = max(self.starts[j - 1], self.starts[i - 1] + self.durations[i - 1] + wait)
        self.finishes = [start + duration for start, duration in zip(self.starts, self.durations)]
        self.end = max(self.finishes, default=0)

    def steps(self, kind):
        """What is occupied of a kind from each time on at which that changes."""
        times, steps = sorted({*self.starts, *self.finishes}), []
        for time in times:
            load = sum(d[kind] for d, s, f in zip(self.demands, self.starts, self.finishes) if s <= time < f)
            if load != (steps[-1][1] if steps else 0):
                steps.append((time, load))
        return steps


def titled(root, pattern):
    """The elements with a title of this form, with what it says."""
    for element in root.iter():
        title = element.find(SVG + "title")
        if title is not None and title.text and (said := pattern.fullmatch(title.text)):
            yield element, said


def bars(plan, root, shown, place, name):
    found = {}
    for element, said in titled(root, BAR):
        i = int(said[2])
        start, finish = plan.starts[i - 1], plan.finishes[i - 1]
        found[i] = (number(said[3] or said[4]), number(said[4]))
        check((said[1] == "milestone") == (plan.durations[i - 1] == 0), f"{name}: activity {i} is a bar or a diamond")
        check(("all be at work" in said[5]) == (i in shown), f"{name}: activity {i} is marked where it is shown")
        if start < finish:
            rect = element.find(SVG + "rect")
            left, width = float(rect.get("x")), float(rect.get("width"))
            ends = near(left + width, place(finish)) or width == THINNEST
            check(near(left, place(start)) and ends, f"{name}: where the bar of activity {i} stands")
            check((rect.get("fill") == "url(#hatched)") == (i in shown), f"{name}: how activity {i} is filled")
    check(found == {i + 1: times for i, times in enumerate(zip(plan.starts, plan.finishes))}, f"{name}: starts and finishes")


def arcs(plan, root, name):
    found = []
    for group in root.iter(SVG + "g"):
        for element, said in titled(group, ARC) if "marker-end" in group.keys() else ():
            found.append((JOB if said[1] == "job" else EXTRA, int(said[2]), int(said[3]), number(said[4] or "0")))
            check((DASHED in group.keys()) == (found[-1][0] == EXTRA), f"{name}: extra arcs alone are dashed")
    check(sorted(found) == sorted(plan.arcs), f"{name}: all arcs, with their types and waits")


def seen(load, place):
    """The steps of a load as they are seen: each lasts for THINNEST at least, and the highest of a place is seen."""
    ends = [place(time) for time, _ in load[1:]]
    lasting = [(place(time), max(end, place(time) + THINNEST), step) for (time, step), end in zip(load, ends)]
    steps = []
    for at in sorted({edge for left, right, _ in lasting for edge in (left, right)}):
        height = max((step for left, right, step in lasting if left <= at < right), default=0)
        if height != (steps[-1][1] if steps else 0):
            steps.append((at, height))
    return steps


def chart(plan, element, said, need, place, name):
    kind, load = int(said[1]), plan.steps(int(said[1]) - 1)
    most = max((step for _, step in load), default=0)
    check([number(word) for word in said.groups()[1:]] == [need, plan.available[kind - 1], most], f"{name}: the numbers of kind {kind}")
    lines = [line for line in element.iter(SVG + "line") if line.get("stroke-width") in ("3.2", "1.5")]
    heights = {line.get("stroke") == ORANGE: float(line.get("y1")) for line in lines}
    path = next((path for path in element.iter(SVG + "path") if path.get("fill") == "#cddff0"), None)
    check((path is None) == (not load) and len(heights) == 2, f"{name}: kind {kind} has a load and two lines")
    if path is None or need == 0:
        return
    points = [tuple(map(float, point.split())) for point in re.split("[ML]", path.get("d").rstrip("z"))[1:]]
    bottom, rise = points[0][1], (points[0][1] - heights[True]) / need
    drawn = [after for before, after in zip(points[::2], points[1::2]) if before[1] != after[1]] # from a step to the same height there is nothing to see
    wanted = [(at, bottom - rise * step) for at, step in seen(load, place)]
    check(len(drawn) == len(wanted) and all(near(a[0], b[0]) and abs(a[1] - b[1]) < 0.1 for a, b in zip(drawn, wanted)), f"{name}: the load of kind {kind}, step by step")
    wide = [a[1] for a, b in zip(drawn, drawn[1:]) if b[0] - a[0] > THINNEST - 0.03]
    check(abs(min(wide, default=bottom) - (bottom - rise * most)) < 0.1, f"{name}: the most of kind {kind} is seen")
    torn = any("torn" in (text.text or "") for text in element.iter(SVG + "text"))
    check(torn or abs(heights[False] - (bottom - rise * plan.available[kind - 1])) < 0.2, f"{name}: the line of what is available of kind {kind}")


def picture(name):
    listed = json.loads(subprocess.run([COMMAND, "list", "--json", name], capture_output=True, check=False).stdout)
    if listed["number"] not in (0, 7):
        return
    plan, root = Plan(name), tree.fromstring(subprocess.run([COMMAND, "draw", name], capture_output=True, check=True).stdout)
    shown = {int(i) for i in re.findall(r"\d+", listed.get("refusal", ":").split(":")[1])}
    axis = next(line for line in root.iter(SVG + "line") if line.get("stroke") == "#7c8793")
    left, right = float(axis.get("x1")), float(axis.get("x2"))
    place = lambda time: left + (right - left) * time / max(plan.end, 1)
    words = " ".join(text.text or "" for text in root.iter(SVG + "text"))
    refusal = re.sub(r"\d{5,}", lambda digits: f"{int(digits[0]):,}", listed.get("refusal", "")) # as all numbers here
    check(("refused 7: " + refusal if shown else "accepted: ") in root.find(SVG + "desc").text, f"{name}: its sentence")
    head = f"{pathlib.Path(name).name} {'refused 7: ' if shown else 'accepted: '}"
    check(words.startswith(head), f"{name}: its head")
    check(re.search(rf"\bend {plan.end:,}\b", words.replace(f"end {plan.end} ", f"end {plan.end:,} ")), f"{name}: its end")
    bars(plan, root, shown, place, name)
    arcs(plan, root, name)
    charts = list(titled(root, KIND))
    check([int(said[1]) for _, said in charts] == list(range(1, plan.kinds + 1)), f"{name}: a chart for each kind")
    for (element, said), quoted in zip(charts, listed["kinds"]):
        chart(plan, element, said, quoted["need"], place, name)


def large(name, seed):
    """64 activities, 8 kinds and many arcs along their numbers; every other plan is overloaded."""
    draw = random.Random(seed)
    records = [struct.pack("<BBH8H4x", 1, i, draw.randrange(1, 200), *(draw.randrange(6) for _ in range(8))) for i in range(1, 65)]
    records.append(struct.pack("<BBH8H4x", 2, 8, 0, *([draw.randrange(5, 20) if seed % 2 else 384] * 8)))
    for kind in (JOB, EXTRA):
        pairs = sorted({tuple(sorted(draw.sample(range(1, 65), 2))) for _ in range(10 ** (1 + seed % 3))})
        records += [struct.pack("<BBBBH18x", kind, i, j, 0, draw.choice((0, 0, 30))) for i, j in pairs]
    pathlib.Path(name).write_bytes(b"".join(records))
    return name


def short(name, *jobs, available=65535):
    """Jobs of one kind, each a duration, a demand, and whether it comes after the one before it."""
    records = [struct.pack("<BBHH18x", 1, i, length, demand) for i, (length, demand, _) in enumerate(jobs, 1)]
    records.append(struct.pack("<BBHH18x", 2, 1, 0, available))
    records += [struct.pack("<BBBB20x", JOB, i, i + 1, 0) for i, job in enumerate(jobs[1:], 1) if job[2]]
    pathlib.Path(name).write_bytes(b"".join(records))
    return name


def shorts():
    """Peaks and gaps of one period in thousands: at the beginning, amid and at the end, and close to each other."""
    yield short("short_first.plan", (5000, 1, 0), (1, 18, 0))
    yield short("short_amid.plan", (5000, 1, 0), (2500, 0, 0), (1, 18, 1), (1, 0, 1), (1, 9, 1))
    yield short("short_last.plan", (5000, 1, 0), (4999, 3, 0), (1, 18, 1))
    yield short("short_alone.plan", (5000, 0, 0), (3000, 0, 0), (1, 18, 1))
    yield short("short_gap.plan", (2500, 7, 0), (1, 0, 1), (2500, 7, 1), (5001, 2, 0))
    yield short("short_stairs.plan", (60000, 5, 0), *((1, 3 * (i % 5) + i, 1) for i in range(1, 30)))
    yield short("short_overload.plan", (60000, 65535, 0), *((1, 65535, 0) for _ in range(24)))
    draw = random.Random(11)
    jobs = [(draw.choice((1, 2, 60, 2000)), draw.randrange(9), draw.random() < 0.8) for _ in range(64)]
    yield short("short_random.plan", *jobs, available=30)


for plan_name in PLANS + [*shorts()] + [large(f"large{seed}.plan", seed) for seed in range(6)]:
    picture(plan_name)
last_line()
