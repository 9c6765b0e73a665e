"""Reads timelines and SVG pictures back, and holds them to the list and to the table that sleep_plan gives."""

import re
import xml.etree.ElementTree as ElementTree
from fractions import Fraction

IDLE, ASLEEP = 254, 255
SVG = "{http://www.w3.org/2000/svg}"


class Wrong(Exception):
    pass


def need(holds, what):
    if not holds:
        raise Wrong(what)


def stretches(table):
    """(first, end, byte) for each longest stretch of equal bytes."""
    found = []
    for slot, byte in enumerate(table):
        if found and found[-1][2] == byte:
            found[-1][1] = slot + 1
        else:
            found.append([slot, slot + 1, byte])
    return [tuple(f) for f in found]


class Answer:
    """A list with what sleep_plan says of it."""

    def __init__(self, slots, wake, jobs, said):
        self.slots, self.wake, self.jobs = slots, wake, jobs
        self.returned, self.numbers, self.table = said[0], said[1:5], said[5:]
        self.stretches = stretches(self.table)

    @property
    def planned(self):
        return self.returned == 0

    def label(self, job):
        name = self.jobs[job][3]
        return f"{job} {name}" if name else f"job {job}"

    def inside(self):
        a, b = self.numbers[:2]
        return [j for j, (release, deadline, _, _) in enumerate(self.jobs) if a <= release and deadline <= b]

    def runs(self):
        """The stretches of each run, and how many slots slept before it."""
        found, slept = [], 0
        for stretch in self.stretches:
            if stretch[2] == ASLEEP:
                slept = stretch[1] - stretch[0]
            elif found and found[-1][0][-1][1] == stretch[0]:
                found[-1][0].append(stretch)
            else:
                found.append(([stretch], slept))
        return found

    def facts(self):
        def s(n):
            return "" if n == 1 else "s"
        jobs, units = len(self.jobs), sum(job[2] for job in self.jobs)
        facts = [f"{self.slots} slot{s(self.slots)}, wake cost {self.wake}, {jobs} job{s(jobs)} with {units} unit{s(units)} of work"]
        if self.planned:
            energy, awake, runs, _ = self.numbers
            idle, asleep = self.table.count(IDLE), self.table.count(ASLEEP)
            busy = self.slots - idle - asleep
            facts += [f"energy {energy} = {awake} awake slot{s(awake)} + {runs} run{s(runs)} x wake cost {self.wake}",
                      f"{busy} slot{s(busy)} busy, {idle} idle, {asleep} asleep"]
        else:
            a, b = self.numbers[:2]
            volume = sum(self.jobs[j][2] for j in self.inside())
            facts += [f"overloaded: slots {a}..{b} have room for {b - a} unit{s(b - a)}, the jobs inside need {volume}", "no plan exists"]
        return facts


# ---- timelines

def timeline_rows(lines, width):
    """Each row as (first slot, {label: cells}), sleeping rows as (first, end). Checks that slot numbers stand above their slots."""
    rows, i = [], 0
    while i < len(lines) and re.match(r"slot  |\d+\.\.\d+ +asleep", lines[i]):
        asleep = re.fullmatch(r"(\d+)\.\.(\d+) +asleep throughout", lines[i])
        if asleep:
            rows.append((int(asleep[1]), int(asleep[2])))
        else:
            numbers = list(re.finditer(r"\d+", lines[i]))
            left, first = numbers[0].start(), int(numbers[0][0])
            for number in numbers:
                need(number.start() - left == int(number[0]) - first, f"ruler: {lines[i]}")
            lanes = {}
            while lines[i + 1]:
                i += 1
                need(len(lines[i]) <= width, f"line longer than {width}: {lines[i]}")
                lanes[lines[i][:left].strip()] = lines[i][left:]
            rows.append((first, lanes))
        need(lines[i + 1] == "", "a row ends with an empty line")
        i += 2
    return rows, lines[i:]


def cells_at(cells, signs):
    return {i for i, c in enumerate(cells) if c in signs}


def check_row(answer, first, lanes):
    cells = lanes.pop("processor")
    table = answer.table[first:first + len(cells)]
    for i, byte in enumerate(table):
        slot = first + i
        wakes = byte != ASLEEP and (slot == 0 or answer.table[slot - 1] == ASLEEP)
        need(cells[i] == ("^" if wakes else "." if byte == ASLEEP else "=" if byte == IDLE else "#"), f"processor in slot {slot}: {cells[i]}")
    labels = {answer.label(j): j for j in range(len(answer.jobs))}
    for label, lane in lanes.items():
        job = labels[label]
        release, deadline = answer.jobs[job][:2]
        need(cells_at(lane, "#") == {i for i, byte in enumerate(table) if byte == job}, f"{label}: runs in the row from {first}")
        need(cells_at(lane, "#-") == {i for i in range(len(table)) if release <= first + i < deadline}, f"{label}: span in the row from {first}")
    return len(cells)


def row_jobs(answer, first, count):
    """The labels of the jobs whose spans meet a row, and of those that run in it."""
    meet = {answer.label(j) for j, job in enumerate(answer.jobs) if job[0] < first + count and job[1] > first}
    return meet, {answer.label(byte) for byte in answer.table[first:first + count] if byte < IDLE}


def check_plan_lines(answer, text, width):
    lines = text.split("\n")
    need(lines[:4] == answer.facts() + [""], f"facts: {lines[:4]}")
    rows, rest = timeline_rows(lines[4:], width)
    slot, lanes = 0, []
    for first, content in rows:
        need(first == slot, f"row from {first}, not {slot}")
        if isinstance(content, dict):
            slot += check_row(answer, first, content)
            lanes.append((set(content), *row_jobs(answer, first, slot - first)))
        else:
            need(set(answer.table[first:content]) == {ASLEEP}, f"asleep from {first} to {content}")
            slot = content
    need(slot == answer.slots, f"rows end at {slot}")
    few = sum(3 + len(meet) for _, meet, _ in lanes) <= 120
    need(all(own == (meet if few else run) for own, meet, run in lanes), "lanes of all spans, or of all that run if there were too many")
    need(rest.pop(0) == "processor: ^ wakes, # busy, = idle, . asleep; job: # runs, - may run", "legend")
    if answer.runs():
        need(rest[:2] == ["", "run         awake  idle  slept  what it does"], "runs")
        rest = check_runs(answer, rest[2:])
    if answer.jobs:
        need(rest.pop(0) == "" and rest.pop(0).split() == ["job", "span", "volume", "first", "done", "spare", "pieces"], "jobs")
        rest = check_jobs(answer, rest)
    need(rest == [""], f"left over: {rest}")


def check_runs(answer, lines):
    for stretches, slept in answer.runs():
        line = lines.pop(0)
        while lines[0].startswith("    "):
            line += lines.pop(0)
        head = re.match(r"(\d+)\.\.(\d+) +(\d+) +(\d+) +(\d+)  ", line)
        first, end = stretches[0][0], stretches[-1][1]
        idle = sum(b - a for a, b, byte in stretches if byte == IDLE)
        need([int(n) for n in head.groups()] == [first, end, end - first, idle, slept], f"run: {line}")
        items = re.findall(r"(idle|\S+ \S+): (\d+)\.\.(\d+),?(?=\s|$)", line[head.end():])
        wanted = [("idle" if byte == IDLE else answer.label(byte), str(a), str(b)) for a, b, byte in stretches]
        need(items == wanted, f"run: {line}")
    return lines


def check_jobs(answer, lines):
    for j, (release, deadline, volume, _) in enumerate(answer.jobs):
        own = [(a, b) for a, b, byte in answer.stretches if byte == j]
        done = own[-1][1]
        wanted = answer.label(j).split() + [f"{release}..{deadline}"] + [str(n) for n in (volume, own[0][0], done, deadline - done, len(own))]
        need(lines[0].split() == wanted, f"job: {lines[0]}")
        lines.pop(0)
    return lines


def check_overload_lines(answer, text, width):
    a, b = answer.numbers[:2]
    lines = text.split("\n")
    need(lines[:4] == answer.facts() + [""], f"facts: {lines[:4]}")
    rows, rest = timeline_rows(lines[4:], width)
    marked, spans = set(), {answer.label(j): set() for j in answer.inside()}
    for first, lanes in rows:
        marked |= {first + i for i in cells_at(lanes.pop("overload"), "!")}
        for label, lane in lanes.items():
            spans[label] |= {first + i for i in cells_at(lane, "-")}
    if rows:
        need(marked == set(range(a, b)), "overloaded slots")
        for j in answer.inside():
            need(spans[answer.label(j)] == set(range(*answer.jobs[j][:2])), f"span of {answer.label(j)}")
        need(rest[:2] == ["! overloaded, - a job inside may run", ""], "legend")
        rest = rest[2:]
    wanted = [answer.label(j).split() + [f"{answer.jobs[j][0]}..{answer.jobs[j][1]}", str(answer.jobs[j][2])] for j in answer.inside()]
    need([line.split() for line in rest] == [["inside", "span", "volume"]] + wanted + [[]], "jobs inside")


def check_timeline(answer, text, width=80):
    (check_plan_lines if answer.planned else check_overload_lines)(answer, text, width)


# ---- SVG

def merge(pieces):
    """Half-open stretches, which bands may have cut, put together; none may share a slot."""
    merged = []
    for a, b in sorted(pieces):
        need(a < b and (not merged or merged[-1][1] <= a), f"stretches share slots before {b}")
        if merged and merged[-1][1] == a:
            merged[-1][1] = b
        else:
            merged.append([a, b])
    return [tuple(m) for m in merged]


class Picture:
    """An SVG's stretches in slots: of the processor by state, of each job by its lane's label, and where slot numbers and wakes stand."""

    def __init__(self, text):
        self.root = ElementTree.fromstring(text)
        self.width, self.height = int(self.root.get("width")), int(self.root.get("height"))
        self.stretches, self.wakes, self.bands, self.bold = {}, [], [], set()
        numbers, labels = [], []
        for element in self.root:
            kind = element.get("class")
            if kind == "slot":
                numbers.append((int(element.text), Fraction(element.get("x"))))
            elif kind == "label":
                labels.append((Fraction(element.get("y")), element.text))
                if element.get("font-weight") == "bold":
                    self.bold.add(element.text)
            elif kind == "band":
                self.read_band(element, numbers, labels)
                numbers, labels = [], []
            elif kind == "wake":
                x = Fraction(re.match(r"M(-?[\d.]+) ", element.get("d"))[1])
                self.wakes.append((x - self.shift) / self.scale)

    def read_band(self, band, numbers, labels):
        transform = re.fullmatch(r"translate\((-?[\d.]+) 0\) scale\(([\d.]+) 1\)", band.get("transform"))
        self.shift, self.scale = Fraction(transform[1]), Fraction(transform[2])
        for slot, at in numbers:
            need(at == self.shift + slot * self.scale, f"slot number {slot} stands at {at}")
        self.bands.append((numbers[0][0], numbers[-1][0]))
        ends = set()
        for rect in band:
            first, size, top, height = (int(rect.get(name)) for name in ("x", "width", "y", "height"))
            need(numbers[0][0] <= first and first + size <= numbers[-1][0], "a rectangle leaves its band")
            need(self.shift + (first + size) * self.scale <= self.width and top + height <= self.height, "a rectangle leaves the picture")
            kind = rect.get("class")
            if kind in ("span", "run"):
                middle = top + Fraction(height, 2)
                lane = [text for at, text in labels if at - 4 == middle]
                need(len(lane) == 1, f"{len(lane)} labels beside a lane")
                key = (kind, lane[0])
            else:
                key = (kind, None)
            need((key, first) not in ends, f"{key}: two rectangles where one would do, at {first}")
            ends.add((key, first + size))
            self.stretches.setdefault(key, []).append((first, first + size))
            told = re.search(r" (\d+)\.\.(\d+)$", rect.find(SVG + "title").text)
            a, b = int(told[1]), int(told[2])
            need(max(a, numbers[0][0]) == first and min(b, numbers[-1][0]) == first + size, f"words of {key}: {a}..{b}")

    def merged(self, kind, label=None):
        return merge(self.stretches.get((kind, label), []))


def check_svg(answer, text):
    picture = Picture(text)
    words = [element.text for element in picture.root.iter(SVG + "text")]
    wanted = answer.facts()
    need(words[:3] == wanted, f"facts: {words[:3]}")
    need(picture.bands[0][0] == 0 and picture.bands[-1][1] == answer.slots, "the bands' ends")
    need(all(a[1] == b[0] for a, b in zip(picture.bands, picture.bands[1:])), "bands follow each other")
    for j, (release, deadline, _, _) in enumerate(answer.jobs):
        need(picture.merged("span", answer.label(j)) == [(release, deadline)], f"span of {answer.label(j)}")
    if answer.planned:
        check_svg_plan(answer, picture)
    else:
        a, b = answer.numbers[:2]
        need(picture.merged("overload") == [(a, b)], "overloaded slots")
        need(picture.bold == {answer.label(j) for j in answer.inside()}, "jobs inside")
        need({kind for kind, _ in picture.stretches} <= {"span", "overload"}, "an overload has no plan")


def check_svg_plan(answer, picture):
    states = {"busy": lambda byte: byte < IDLE, "idle": lambda byte: byte == IDLE, "asleep": lambda byte: byte == ASLEEP}
    for state, holds in states.items():
        need(picture.merged(state) == merge([(t, t + 1) for t, byte in enumerate(answer.table) if holds(byte)]), f"{state} slots")
    for j in range(len(answer.jobs)):
        need(picture.merged("run", answer.label(j)) == [(a, b) for a, b, byte in answer.stretches if byte == j], f"runs of {answer.label(j)}")
    need(picture.wakes == [stretches[0][0] for stretches, _ in answer.runs()], "wakes")
