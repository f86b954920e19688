#!/usr/bin/env python3
"""Tests the pictures and the sittings of the command upload-planner.

    python3 tests/pictures.py COMMAND EXAMPLES [--store]

COMMAND is the built command and EXAMPLES the directory examples. A line is printed for each check
that fails, and in the end how many passed and how many failed.

The pictures are read as XML. This program knows the rules of a plan from the README, follows each
plan by itself and compares the numbers with the places in the picture, by the picture's own scale
lines. Besides, some pictures are compared with stored ones; --store writes those anew.
"""
import math
import os
import pathlib
import re
import resource
import struct
import subprocess
import sys
import tempfile
import xml.etree.ElementTree as ElementTree

COMMAND = str(pathlib.Path(sys.argv[1]).resolve())
EXAMPLES = pathlib.Path(sys.argv[2]).resolve()
STORE = "--store" in sys.argv[3:]
SVG = "{http://www.w3.org/2000/svg}"
PANELS = ["decoder", "buckets", "sent", "choices", "distortion"]

GREYS = {f"#{digit * 3}" for digit in "0123456789abcdef"} | {f"#{of * 3}" for of in ("d4", "e4")}

# Frames, and where the first interval begins in them.
LEFT, FIRST, RIGHT = 85.0, 95.0, 905.0

# A place has one decimal, and two of them make an error of a tenth.
NEAR = 0.11

passed = failed = 0


def check(name, found, expected):
    """Counts a check, and prints it where it fails."""
    global passed, failed
    if found == expected:
        passed += 1
    else:
        failed += 1
        print(f"{name}: {found!r}, and {expected!r} is due")


def check_near(name, found, expected, near=NEAR):
    """The same of lists of places."""
    fits = len(found) == len(expected)
    pairs = enumerate(zip(found, expected))
    far = [(i, f, e) for i, (f, e) in pairs if f is None or abs(f - e) > near]
    check(name, (fits, far[:3]), (True, []))


def run(*arguments, text="", status=0):
    """What the command prints; its status is checked."""
    arguments = [COMMAND, *map(str, arguments)]
    ended = subprocess.run(arguments, input=text, capture_output=True, text=True, cwd=EXAMPLES)
    check(f"status of {arguments[1:]} {ended.stderr}", ended.returncode, status)
    return ended.stdout


# Jobs and plans, by the README.


class Job:
    """A job's header and lists, read from its bytes."""

    def __init__(self, data):
        kind = struct.unpack_from("<H", data, 2)[0]
        fields = struct.unpack_from("<12H" if kind == 8 else "<9H", data, 4)
        self.units, self.delay, self.decoder, self.bucket, self.drain = fields[:5]
        self.level, self.fill, rates, self.choices = fields[5:9]
        self.second = fields[9:]
        place = 4 + 2 * len(fields) + 4
        self.rates = struct.unpack_from(f"<{rates}H", data, place)
        place += 2 * rates
        self.coding = []
        for _ in range(self.units):
            codings = struct.iter_unpack("<HI", data[place + 4:place + 4 + 6 * self.choices])
            self.coding.append(list(codings))
            place += 4 + 6 * self.choices
        self.intervals = self.units + self.delay


def job_bytes(delay, decoder, bucket, drain, rates, coding, level=0, fill=0, second=()):
    """The bytes of a job."""
    fields = [len(coding), delay, decoder, bucket, drain, level, fill, len(rates), len(coding[0])]
    fields += second
    data = struct.pack("<HH", 2 + 2 * len(fields), 8 if second else 1)
    data += struct.pack(f"<{len(fields)}H", *fields)
    data += struct.pack(f"<HH{len(rates)}H", 2 + 2 * len(rates), 2, *rates)
    for unit in coding:
        data += struct.pack("<HH", 2 + 6 * len(unit), 3)
        data += b"".join(struct.pack("<HI", *choice) for choice in unit)
    return data


class Course:
    """What a plan does, interval by interval, up to its first violation."""

    def __init__(self, job, entries, pins):
        self.sent = [job.rates[entries[place]] for place in range(0, len(entries), 3)]
        choices = [entries[place] + 256 * entries[place + 1] for place in range(1, len(entries), 3)]
        self.choices = choices[job.delay:]
        self.distortions = [unit[c][1] for unit, c in zip(job.coding, self.choices)]
        self.peaks, self.decoder, self.bucket, self.second = [], [], [], []
        self.source = self.unused = 0
        # The violation in words, the numbers that make it, and a value that is marked for it.
        self.violation, self.reason, self.mark = None, None, None
        levels = (job.level, job.fill, job.second[2] if job.second else 0)
        for t in range(1, job.intervals + 1):
            levels = self.step(job, t, levels, pins)
            if levels is None:
                return
            for series, level in zip((self.decoder, self.bucket, self.second), levels):
                series.append(level)

    def step(self, job, t, levels, pins):
        """The levels after an interval, or None where it has a violation."""
        held, full, second = levels
        sent, unit = self.sent[t - 1], t - job.delay
        takes = job.coding[unit - 1][self.choices[unit - 1]][0] if unit > 0 else 0
        peak = held + sent
        self.peaks.append(peak)
        self.unused += max(job.drain - full - sent, 0)
        self.source += takes
        left = [max(full + sent - job.drain, 0), 0]
        if job.second:
            left[1] = max(second + sent - job.second[1], 0)
        if peak > job.decoder:
            reason = f"a level of {held} and {sent} sent are {peak}, size {job.decoder}"
            return self.violated("decoder over", t, reason, ("decoder", peak, job.decoder))
        if peak < takes:
            reason = f"unit {unit} takes {takes} and {peak} are there"
            return self.violated("decoder short", t, reason, ("decoder", takes, job.decoder))
        lines = [("bucket over", full, job.drain, left[0], job.bucket)]
        if job.second:
            lines.append(("second bucket over", second, job.second[1], left[1], job.second[0]))
        for name, level, drain, leaves, size in lines:
            if leaves > size:
                reason = f"a level of {level} and {sent} sent, less a drain of {drain}, "
                reason += f"leave {leaves}, size {size}"
                return self.violated(name, t, reason, ("buckets", leaves, size))
        if unit in pins and pins[unit] != self.choices[unit - 1]:
            reason = f"unit {unit} is pinned at choice {pins[unit]} "
            reason += f"and has choice {self.choices[unit - 1]}"
            return self.violated("pin not held", t, reason, None)
        return peak - takes, left[0], left[1]

    def violated(self, name, t, reason, mark):
        self.violation, self.reason, self.mark = f"{name} in interval {t}", reason, mark


# Pictures.


def numbers_of(path):
    """The corners of a path."""
    x = y = 0.0
    corners = []
    steps = path.split()
    while steps:
        step = steps.pop(0)
        kind, first = step[0], step[1:]
        if kind == "Z":
            break
        if kind in "ML":
            x, y = float(first), float(steps.pop(0))
        elif kind == "H":
            x = float(first)
        else:
            y = float(first)
        corners.append((x, y))
    return corners


def height_at(corners, x):
    """Where a line of steps is at this place across."""
    for (x1, y1), (x2, y2) in zip(corners, corners[1:]):
        if y1 == y2 and min(x1, x2) <= x <= max(x1, x2) and x1 != x2:
            return y1
    return None


class Panel:
    """One panel of a picture."""

    def __init__(self, group):
        self.parts = [part for part in group if part.get("class") != "legend"]
        legend = next(part for part in group if part.get("class") == "legend")
        self.legend = [text.text for text in legend.iter(SVG + "text")]
        places = [float(line.get("y1")) for line in self.of("scale", "line")]
        values = [int(text.text.replace(",", "")) for text in self.of("scale", "text")]
        self.scale = list(zip(values, places))

    def of(self, name, tag):
        """The elements of a class, those in groups too."""
        named = [part for part in self.parts if name in (part.get("class") or "").split()]
        return [each for part in named for each in part.iter(SVG + tag)]

    def place(self, value):
        """Where a value stands by two lines of the scale, equal differences equally far apart."""
        (v1, y1), (v2, y2) = self.scale[0], self.scale[-1]
        return y1 + (value - v1) * (y2 - y1) / (v2 - v1) if value != v1 else y1

    def place_by_ratio(self, value):
        """The same, equal ratios equally far apart, and 0 at its own place."""
        if value == 0:
            return dict(self.scale)[0]
        (v1, y1), (v2, y2) = next(line for line in self.scale if line[0] > 0), self.scale[-1]
        return y1 + math.log(value / v1) * (y2 - y1) / math.log(v2 / v1)


class Picture:
    """A picture as XML; that it is plain SVG is checked."""

    def __init__(self, name, text):
        self.name = name
        self.root = ElementTree.fromstring(text)
        check(f"{name}: root", self.root.tag, SVG + "svg")
        tags = {element.tag.removeprefix(SVG) for element in self.root.iter()}
        plain = {"svg", "g", "rect", "line", "path", "text", "title"}
        check(f"{name}: elements", tags - plain, set())
        long = re.findall(r"-?[0-9]+\.[0-9]{2,}", re.sub(r"<(title|text)[^>]*>[^<]*</", "", text))
        check(f"{name}: places of one decimal", long, [])
        check(f"{name}: greys", set(re.findall("#[0-9a-f]{3,6}", text)) - GREYS, set())
        groups = {group.get("id"): group for group in self.root.findall(SVG + "g")}
        names = [key for key in groups if key not in (None, "head", "axes")]
        self.panels = {key: Panel(groups[key]) for key in names}
        self.head = [text.text for text in groups["head"]]
        self.axes = groups["axes"]
        self.title = self.root.find(SVG + "title").text

    def numbers(self):
        """The intervals that are numbered, and where."""
        texts = list(self.axes.iter(SVG + "text"))
        row = [text for text in texts if text.get("y") == texts[0].get("y")]
        return [(int(text.text), float(text.get("x"))) for text in row if text.text.isdigit()]

    def middles(self, count, left):
        """The middles of so many intervals, which share the width evenly."""
        return [left + (RIGHT - left) * (t - 0.5) / count for t in range(1, count + 1)]


def check_apart(picture):
    """The numbers of a scale do not stand in each other's way."""
    for key, panel in picture.panels.items():
        places = [place for _, place in panel.scale]
        close = [(low, high) for low, high in zip(places, places[1:]) if low - high < 14.0]
        check(f"{picture.name}: scale of {key}", close, [])


def check_linear(picture, key):
    """The lines of a scale are as far apart as their values."""
    panel = picture.panels[key]
    places = [place for _, place in panel.scale]
    check_near(f"{picture.name}: scale of {key}", places, [panel.place(v) for v, _ in panel.scale])


def check_bars(picture, key, name, values, middles, count):
    """Each bar is as high as its value, by the scale, and stands over its interval; narrow ones
    are joined to an outline."""
    panel = picture.panels[key]
    expected = [panel.place(value) for value in values]
    bars = panel.of(name, "rect")
    if bars:
        check(f"{picture.name}: number of {name}", len(bars), count)
        feet = [float(bar.get("y")) + float(bar.get("height")) for bar in bars]
        check_near(f"{picture.name}: feet of {name}", feet, [panel.place(0)] * count)
        tops = [float(bar.get("y")) for bar in bars]
        places = [float(bar.get("x")) + float(bar.get("width")) / 2 for bar in bars]
        check_near(f"{picture.name}: {name} across", places, middles[:count])
    else:
        corners = [numbers_of(path.get("d")) for path in panel.of(name, "path")]
        check(f"{picture.name}: outline of {name}", len(corners), 1)
        tops = [height_at(corners[0][1:-1], x) for x in middles[:count]]
    check_near(f"{picture.name}: {name}", tops[:len(values)], expected)


def check_steps(picture, key, name, values, middles, place=None):
    """A line of steps is at each value's height in the middle of its interval."""
    panel = picture.panels[key]
    paths = panel.of(name, "path")
    corners = numbers_of(paths[0].get("d")) if paths else []
    found = [height_at(corners, x) for x in middles[:len(values)]]
    expected = [(place or panel.place)(value) for value in values]
    check_near(f"{picture.name}: {name}", found, expected)
    if corners and values:
        past = [x for x in middles[len(values):] if height_at(corners, x) is not None]
        check(f"{picture.name}: {name} ends", past, [])


def check_plan(picture, job, course, pins):
    """A picture of one plan has the plan's numbers."""
    check(f"{picture.name}: panels", list(picture.panels), PANELS)
    check_apart(picture)
    for key in PANELS[:4]:
        check_linear(picture, key)
    check_across(picture, job)
    check_series(picture, job, course)
    check_limits(picture, job)
    check_pins(picture, job, pins)
    check_found(picture, job, course)


def check_across(picture, job):
    """The numbers of intervals are in their middles, and the delay is shaded in each panel."""
    middles = picture.middles(job.intervals, FIRST)
    numbers = picture.numbers()
    places = [x for _, x in numbers]
    check_near(f"{picture.name}: numbers", places, [middles[t - 1] for t, _ in numbers])
    expected = [(RIGHT - FIRST) * job.delay / job.intervals] if job.delay else []
    for key, panel in picture.panels.items():
        shades = [float(shade.get("width")) for shade in panel.of("shade", "rect")]
        check_near(f"{picture.name}: shade of {key}", shades, expected)


def check_series(picture, job, course):
    """What is drawn interval by interval."""
    middles = picture.middles(job.intervals, FIRST)
    # The peak of a violation is cut where it is far over the size.
    cut = max(course.peaks) > 2 * job.decoder
    peaks = course.peaks[:-1] if cut else course.peaks
    check_bars(picture, "decoder", "peaks", peaks, middles, len(course.peaks))
    check_steps(picture, "decoder", "level", course.decoder, middles)
    check_steps(picture, "buckets", "first", course.bucket, middles)
    if job.second:
        check_bars(picture, "buckets", "second", course.second, middles, len(course.second))
    check_bars(picture, "sent", "sent", course.sent, middles, job.intervals)
    behind = middles[job.delay:]
    check_steps(picture, "choices", "choice", course.choices, behind)
    panel = picture.panels["distortion"]
    place = panel.place_by_ratio if "logarithmic" in panel.legend[0] else panel.place
    check_steps(picture, "distortion", "distortion", course.distortions, behind, place)


def check_limits(picture, job):
    """Sizes and drains have a line at their value and are named with it."""
    names = [["size"], ["size"], ["drain"]]
    values = [[job.decoder], [job.bucket], [job.drain]]
    if job.second:
        names[1:] = [["first", "second"]] * 2
        values[1:] = [[job.bucket, job.second[0]], [job.drain, job.second[1]]]
    for key, named, limits in zip(PANELS, names, values):
        panel = picture.panels[key]
        texts = sorted(text.text.removeprefix("\u2191 ") for text in panel.of("limit", "text"))
        expected = sorted(f"{name} {value:,}" for name, value in zip(named, limits))
        check(f"{picture.name}: limits of {key}", texts, expected)
        off = [t for t in panel.of("limit", "text") if t.text.startswith("\u2191")]
        lines = sorted(float(line.get("y1")) for line in panel.of("limit", "line"))
        check(f"{picture.name}: lines of limits of {key}", len(lines), len(limits) - len(off))
        if not off:
            check_near(f"{picture.name}: limits of {key}", lines, sorted(map(panel.place, limits)))


def check_pins(picture, job, pins):
    """Each pin is marked at its unit and its choice."""
    panel = picture.panels["choices"]
    middles = picture.middles(job.intervals, FIRST)
    marks = [numbers_of(path.get("d")) for path in panel.of("pin", "path")]
    found = sorted((corners[1][0], corners[0][1]) for corners in marks)
    expected = sorted((middles[u + job.delay - 1], panel.place(c)) for u, c in pins.items())
    for side in (0, 1):
        check_near(f"{picture.name}: pins", [f[side] for f in found], [e[side] for e in expected])


def check_found(picture, job, course):
    """The head has the totals, or the violation is named and marked in each panel."""
    groups = [group for group in picture.root.iter(SVG + "g") if group.get("class") == "violation"]
    names = [group.find(SVG + "text").text for group in groups]
    marks = [panel.of("violated", "rect") for panel in picture.panels.values()]
    if course.violation is None:
        totals = f"distortion {sum(course.distortions):,}; grains: source {course.source:,}, "
        totals += f"channel {sum(course.sent):,}, unused {course.unused:,}"
        check(f"{picture.name}: totals", picture.head[2].startswith(totals), True)
        check(f"{picture.name}: no violation", (names, sum(map(len, marks))), ([], 0))
        return
    check(f"{picture.name}: violation", names, [course.violation])
    told = f"{course.violation}: {course.reason}"
    check(f"{picture.name}: violation in the head", picture.head[2], told)
    check_mark(picture, course)
    check(f"{picture.name}: a mark in each panel", [len(each) for each in marks], [1] * 5)
    middle = picture.middles(job.intervals, FIRST)[len(course.decoder)]
    places = [float(each[0].get("x")) + float(each[0].get("width")) / 2 for each in marks]
    check_near(f"{picture.name}: marks", places, [middle] * 5)


def check_mark(picture, course):
    """What would be taken or left in the interval of a violation is marked."""
    found = {key: panel.of("wanted", "line") for key, panel in picture.panels.items()}
    marked = [key for key, lines in found.items() if lines]
    check(f"{picture.name}: marked", marked, [course.mark[0]] if course.mark else [])
    # One that is far over the size is off the scale.
    if course.mark and course.mark[1] <= 2 * course.mark[2]:
        key, value, _ = course.mark
        places = [float(line.get("y1")) for line in found[key]]
        check_near(f"{picture.name}: mark", places, [picture.panels[key].place(value)])


# What is tried.


def film(units, choices, seed):
    """Codings that rise and fall, each finer one larger and better."""
    state = seed
    coding = []
    for unit in range(units):
        state = (state * 1664525 + 1013904223) % 2**32
        scene = 2 + (unit // 11) % 5 + state // 2**30
        sizes = [max(1, scene * 6 // (2 + c)) for c in range(choices)]
        distortions = [min(scene * (c + 1) ** 2 * 7, 10**6) for c in range(choices)]
        coding.append(list(zip(sizes, distortions)))
    return coding


def trial_jobs():
    """Jobs of every shape."""
    zeros = film(30, 5, 3)
    for unit in (4, 11, 12):
        zeros[unit] = [(3, 0)] * 5
    rates = [0, 3, 6, 9, 18, 24]
    two = job_bytes(3, 40, 40, 8, rates, film(57, 8, 4), second=(10, 12, 2))
    return {
        "twenty": (job_bytes(2, 24, 16, 6, [0, 2, 4, 6, 8, 12], film(18, 6, 1)), {5: 1, 12: 4}),
        "longest": (job_bytes(64, 60, 60, 9, rates, film(512, 8, 2)), {9: 2, 500: 3}),
        "two buckets": (two, {7: 3}),
        "zeros": (job_bytes(1, 40, 30, 9, [0, 4, 9, 16], zeros, level=5, fill=4), {}),
        "one unit": (job_bytes(0, 10, 5, 4095, [0, 4], [[(4, 7), (2, 9)]], level=2), {}),
        "nothing": (job_bytes(0, 0, 0, 1, [0], [[(0, 0)]]), {}),
        "many choices": (job_bytes(1, 60, 30, 9, [0, 4, 9, 16], film(10, 1000, 5)), {4: 999}),
    }


def picture_of(name, work, *arguments):
    """The picture that a command draws, drawn twice, and its text."""
    texts = []
    for place in ("first.svg", "second.svg"):
        run(*arguments, "--picture", work / place)
        texts.append((work / place).read_bytes())
    check(f"{name}: the same each time", texts[0] == texts[1], True)
    return Picture(name, texts[0].decode())


def pin_arguments(pins):
    return [word for unit, choice in pins.items() for word in ("--pin", f"{unit}={choice}")]


def check_job(name, data, pins, work):
    """The plan of a job, drawn, and plans with a violation."""
    file = work / "job.bin"
    file.write_bytes(data)
    job = Job(data)
    entries = work / "entries.bin"
    pinned = pin_arguments(pins)
    picture = picture_of(name, work, "plan", file, *pinned, "--entries", entries)
    plan = entries.read_bytes()
    check_plan(picture, job, Course(job, plan, pins), pins)
    check_violations(name, job, file, plan, work)


def check_violations(name, job, file, plan, work):
    """Wrong plans: the largest rate, or the first choice, or the last rate, from an interval on."""
    seen = set()
    for t in range(1, job.intervals + 1, max(1, job.intervals // 7)):
        for rate, choice in [(len(job.rates) - 1, None), (0, None), (None, 0)]:
            wrong = bytearray(plan)
            if rate is not None:
                wrong[3 * t - 3] = rate
            if choice is not None and t > job.delay:
                wrong[3 * t - 2:3 * t] = bytes(2)
            course = Course(job, bytes(wrong), {})
            kind = course.violation and course.violation.split(" in ")[0]
            if kind is None or kind in seen:
                continue
            seen.add(kind)
            (work / "wrong.bin").write_bytes(wrong)
            title = f"{name}, {course.violation}"
            picture = picture_of(title, work, "replay", file, work / "wrong.bin")
            check_plan(picture, job, course, {})
    if job.delay < job.intervals and job.choices > 1:
        check_pin_not_held(name, job, file, plan, work)


def check_pin_not_held(name, job, file, plan, work):
    """A pin that the plan does not hold."""
    unit = (job.units + 1) // 2
    has = Course(job, plan, {}).choices[unit - 1]
    pins = {unit: 0 if has else 1}
    (work / "plan.bin").write_bytes(plan)
    arguments = ["replay", file, work / "plan.bin", *pin_arguments(pins)]
    picture = picture_of(f"{name}, pin", work, *arguments)
    course = Course(job, plan, pins)
    check(f"{name}: pin not held", course.violation, f"pin not held in interval {unit + job.delay}")
    check_plan(picture, job, course, pins)


def check_sizes(name, data, pins, none, work):
    """The picture of sizes has the totals of the list, of which so many have no plan."""
    file = work / "job.bin"
    file.write_bytes(data)
    arguments = ["sizes", file, *pin_arguments(pins), "--picture", work / "sizes.svg"]
    listed = [line.split() for line in run(*arguments).splitlines()[1:]]
    totals = [int(total) for _, total in listed if total != "-"]
    picture = Picture(f"{name}: sizes", (work / "sizes.svg").read_text())
    check(f"{name}: panels of sizes", list(picture.panels), ["sizes"])
    check(f"{name}: sizes without a plan", len(listed) - len(totals), none)
    panel = picture.panels["sizes"]
    shades = [float(shade.get("width")) for shade in panel.of("shade", "rect")]
    expected = [(RIGHT - LEFT) * none / len(listed)] if none else []
    check_near(f"{name}: shade of sizes without a plan", shades, expected)
    check_linear(picture, "sizes")
    if len(panel.scale) > 1:
        middles = picture.middles(len(listed), LEFT)[none:]
        check_steps(picture, "sizes", "total", totals, middles)
    check(f"{name}: what is said of sizes", picture.head[1:], told_of_sizes(listed[none:]))
    remark = "" if min(totals, default=0) == 0 else " (axis not from 0)"
    check(f"{name}: name of the panel", panel.legend[0], f"Distortion{remark}")


def told_of_sizes(planned):
    """The first total, and from where on nothing is gained: one line where that is the same."""
    if not planned:
        return ["no plan with a bucket of any of these sizes"]
    first, last = planned[0], planned[-1]
    enough = next(size for size, total in planned if total == last[1])
    larger = " and larger" if enough != last[0] else ""
    lines = [f"size {first[0]}: total {int(first[1]):,}"] if enough != first[0] else []
    return [*lines, f"size {enough}{larger}: total {int(last[1]):,}"]


def check_all_sizes(work):
    """Totals that fall, that stay, and that begin late or never."""
    jobs = trial_jobs()
    check_sizes("twenty", jobs["twenty"][0], {5: 1}, 0, work)
    check_sizes("nothing", jobs["nothing"][0], {}, 0, work)
    # One grain drains: four for unit 1 and two for unit 2 need a bucket of three.
    coding = [[(4, 10), (2, 30)], [(5, 12), (2, 40)]]
    check_sizes("late", job_bytes(1, 4, 1, 1, [0, 2, 4], coding), {1: 0}, 2, work)
    check_sizes("never", job_bytes(1, 4, 250, 1, [0, 2, 4], coding), {2: 0}, 6, work)
    check_sizes("one size", job_bytes(1, 4, 255, 1, [0, 2, 4], coding), {}, 0, work)
    # The rates are so small that every bucket holds them.
    check_sizes("all equal", job_bytes(1, 4, 1, 4, [0, 2, 4], coding), {}, 0, work)


def check_too_large(work):
    """A unit that takes 16 grains of a decoder of ten, of which eight are there."""
    data = job_bytes(1, 10, 9, 4, [0, 4, 8], [[(16, 5), (2, 9)]])
    (work / "job.bin").write_bytes(data)
    plan = bytes([2, 255, 255, 0, 0, 0])
    (work / "plan.bin").write_bytes(plan)
    picture = picture_of("too large", work, "replay", work / "job.bin", work / "plan.bin")
    course = Course(Job(data), plan, {})
    check("too large", course.mark, ("decoder", 16, 10))
    check_plan(picture, Job(data), course, {})


def check_distortions(work):
    """The scale of distortions with 0 among them and without: its lines, and its name."""
    foot = "Distortion (logarithmic, 0 at the foot)"
    ratios = "Distortion (logarithmic)"
    million = [0, 100_000, 200_000, 500_000, 1_000_000]
    for distortions, name, lines in [
        ((0, 0, 1_000_000), foot, million),
        ((0, 12), foot, [0, 1, 2, 5, 10, 20]),
        ((0, 30, 5_000), foot, [0, 10, 100, 1_000]),
        ((0, 1, 1_000_000), foot, [0, *(10**power for power in range(7))]),
        ((0, 0), "Distortion", [0, 1]),
        ((0, 1), "Distortion", [0, 1]),
        ((0, 3), "Distortion", [0, 1, 2, 3]),
        ((3, 400), ratios, [2, 5, 10, 20, 50, 100, 200, 500]),
    ]:
        data = job_bytes(0, 0, 0, 1, [0], [[(0, distortion)] for distortion in distortions])
        (work / "job.bin").write_bytes(data)
        arguments = ["plan", work / "job.bin", "--entries", work / "entries.bin"]
        picture = picture_of(f"distortions {distortions}", work, *arguments)
        panel = picture.panels["distortion"]
        check(f"{picture.name}: name", panel.legend[0], name)
        check(f"{picture.name}: lines", [value for value, _ in panel.scale], lines)
        job, plan = Job(data), (work / "entries.bin").read_bytes()
        check_plan(picture, job, Course(job, plan, {}), {})


def check_title(work):
    """A name with all that XML has a meaning for, and a character that it does not allow. A long
    one is whole as the picture's title, and what is drawn of it are its two ends."""
    data = (EXAMPLES / "job_a.bin").read_bytes()
    for name in ["a&b<c>\"d'.bin", "\u00e9\u4e16.bin", "bell\x07.bin", "x" * 120 + ".bin"]:
        (work / name).write_bytes(data)
        picture = picture_of(f"title {name!r}", work, "plan", work / name)
        title = picture.title.replace("\ufffd", "\x07")
        check(f"title {name!r}", title.endswith(name), True)
        short = f"{title[:27]}\u2026{title[-27:]}" if len(title) > 55 else title
        check(f"title {name!r}, drawn", picture.head[0].replace("\ufffd", "\x07"), short)


def read_compared(text, pins, first, second):
    """Two plans over each other."""
    job = Job((EXAMPLES / "programme.job").read_bytes())
    picture = Picture("two plans", text)
    check("two plans: panels", list(picture.panels), PANELS)
    middles = picture.middles(job.intervals, FIRST)
    behind = middles[job.delay:]
    for name, course in (("before", first), ("after", second)):
        heights = [("decoder", "peaks", course.peaks), ("sent", "sent", course.sent)]
        for key, what, values in heights:
            bars = [g for g in picture.panels[key].parts if g.get("class") == f"{what} {name}"]
            tops = [float(bar.get("y")) for bar in bars[0]]
            expected = [picture.panels[key].place(value) for value in values]
            check_near(f"two plans: {what} {name}", tops, expected)
        for key, what, values, over in [
            ("decoder", "level", course.decoder, middles),
            ("buckets", "first", course.bucket, middles),
            ("choices", "choice", course.choices, behind),
        ]:
            line = [p for p in picture.panels[key].parts if p.get("class") == f"{what} {name}"]
            corners = numbers_of(line[0].get("d"))
            found = [height_at(corners, x) for x in over]
            expected = [picture.panels[key].place(value) for value in values]
            check_near(f"two plans: {what} {name}", found, expected)
    differ = [x for x, a, b in zip(behind, first.choices, second.choices) if a != b]
    ticks = [float(line.get("x1")) for line in picture.panels["choices"].of("differs", "line")]
    check_near("two plans: units that differ", ticks, differ)
    legend = picture.panels["choices"].legend
    check("two plans: their number", f"units that differ: {len(differ)}" in legend, True)
    check_pins(picture, job, pins)
    more = sum(second.distortions) - sum(first.distortions)
    difference = f"difference: distortion +{more:,};"
    check("two plans: difference", picture.head[4].startswith(difference), True)


def check_compare(work):
    """A sitting's pictures of the plans before and after a pin."""
    job = Job((EXAMPLES / "programme.job").read_bytes())
    courses = []
    for pins in ({}, {48: 18}):
        run("plan", "programme.job", *pin_arguments(pins), "--entries", work / "entries.bin")
        courses.append(Course(job, (work / "entries.bin").read_bytes(), pins))
    lines = f"pin 48 18\ncompare {work / 'two.svg'}\npicture {work / 'one.svg'}\n"
    run("sit", "programme.job", text=lines)
    read_compared((work / "two.svg").read_text(), {48: 18}, *courses)
    check_plan(Picture("one plan", (work / "one.svg").read_text()), job, courses[1], {48: 18})


def check_sitting(work):
    """The stored sitting; its totals are those of planning; what goes wrong is told."""
    told = run("sit", "programme.job", text=(EXAMPLES / "sit.in").read_text())
    if STORE:
        (EXAMPLES / "sit.txt").write_text(told)
    check("sit.in", told, (EXAMPLES / "sit.txt").read_text())
    check("sit: the total without pins", told.splitlines()[0].endswith("total 2266161"), True)
    for pins, line in [({20: 4}, 1), ({20: 4, 48: 18}, 3)]:
        run("plan", "programme.job", *pin_arguments(pins), "--entries", work / "entries.bin")
        job = Job((EXAMPLES / "programme.job").read_bytes())
        total = sum(Course(job, (work / "entries.bin").read_bytes(), pins).distortions)
        found = told.splitlines()[line].split(",")[0]
        check(f"sit: the total with {pins}", found, f"total {total}")
    opening = "units 1 to 2, choices 0 to 1; total 50\n"
    check("sit: no line", run("sit", "job_a.bin", text=""), opening)
    check("sit: quit", run("sit", "job_a.bin", text="quit\nplan\n").count("\n"), 1)
    check_job_a()
    nowhere = run("sit", "job_a.bin", text=f"picture {work}/none/a.svg\nlist\n").splitlines()
    unwritten = f"{work}/none/a.svg cannot be written: "
    check("sit: a file that cannot be written", nowhere[1].startswith(unwritten), True)
    check("sit: goes on", nowhere[2], "no pins")
    unchanged = run("sit", "job_a.bin", text="compare a.svg").splitlines()
    check("sit: no change yet", unchanged[1:], ["no pin was set or lifted yet"])
    run("sit", "never_drains.bin", status=1)
    check_one_plan(work)
    check_entries(work)
    check_comments(work)
    check_streams()
    check_room(work)


def check_job_a():
    """Job A, as the README works it: unit 1 at choice 1 costs 20, and is lifted again."""
    told = run("sit", "job_a.bin", text="pin 1 1\nplan\nundo").splitlines()
    check("sit: Job A", told[0], "units 1 to 2, choices 0 to 1; total 50")
    check("sit: Job A, pinned", told[1], "total 70, 20 more than before")
    check("sit: Job A, what changed", told[2], "changed: unit 1 from 0 to 1")
    check("sit: Job A, unit 1", told[4].split(), ["1", "1", "*", "2", "30"])
    check("sit: Job A, unit 2", told[5].split(), ["2", "1", "-", "2", "40"])
    totals = [["total", "distortion", "70"], ["source", "grains", "4"]]
    totals += [["channel", "grains", "6"], ["unused", "grains", "0"]]
    check("sit: Job A, totals", [line.split() for line in told[7:11]], totals)
    lifted = ["unit 1 lifted", "total 50, 20 less than before", "changed: unit 1 from 1 to 0"]
    check("sit: Job A, lifted", told[11:], lifted)


def check_one_plan(work):
    """Where one of two plans is not there, or neither, the answer says so."""
    job, compare = work / "job.bin", f"compare {work / 'none.svg'}"
    # One grain is there and one comes: units 1 and 2 cannot both have their choice of two.
    coding = [[(2, 5), (1, 9)]] * 3
    job.write_bytes(job_bytes(0, 2, 2, 2, [0, 1], coding, level=1))
    lines = ["pin 1 0", "pin 2 0", compare, f"entries {work / 'none.bin'}"]
    lines += ["pin 3 1", compare, "lift 1", compare]
    told = run("sit", job, text="\n".join(lines)).splitlines()
    expected = [
        "there is no plan after the last change",
        "there is no plan before the last change, nor after",
        "there was no plan before the last change",
    ]
    found = [line for line in told if line.startswith("there ")]
    check("sit: one of two plans, or neither", found, expected)
    check("sit: no plan to write", "no plan to write" in told, True)
    files = [name for name in ("none.svg", "none.bin") if (work / name).exists()]
    check("sit: nothing is written without a plan", files, [])


def check_entries(work):
    """The plan that a sitting writes is that of planning with the pins that it lists."""
    lines = f"pin 20 4\npin 48 18\nlist\nentries {work / 'sat.bin'}\nentries\n"
    told = run("sit", "programme.job", text=lines).splitlines()
    check("sit: written", told[-2:], [f"written: {work / 'sat.bin'}", "due: entries FILE"])
    check("sit: pins as options", told[-3], "--pin 20=4 --pin 48=18")
    run("plan", "programme.job", *told[-3].split(), "--entries", work / "planned.bin")
    same = (work / "sat.bin").read_bytes() == (work / "planned.bin").read_bytes()
    check("sit: the plan that is written", same, True)


def check_comments(work):
    """A comment may follow a command; a file may have # in its name."""
    lines = f"pin 1 1 # dear\nlist# no\n  # all\nundo #\nentries {work}/a#1.bin # kept\nlist #\n"
    told = run("sit", "job_a.bin", text=lines).splitlines()
    check("sit: pin with a comment", told[1], "total 70, 20 more than before")
    check("sit: # within a word", told[3], '"list#" is no command; help lists them')
    check("sit: undo with a comment", told[4], "unit 1 lifted")
    check("sit: # in the name of a file", told[7:], [f"written: {work}/a#1.bin", "no pins"])


def check_room(work):
    """A job for whose tables there is no memory is refused in words like those of plan."""
    job = work / "wide.bin"
    job.write_bytes(job_bytes(64, 255, 255, 20, list(range(16)), [[(1, 1)]] * 512))
    arguments = [COMMAND, "sit", str(job)]
    less = lambda: resource.setrlimit(resource.RLIMIT_AS, (64000000, 64000000))
    ended = subprocess.run(arguments, input=b"", capture_output=True, preexec_fn=less)
    told = f"upload-planner: {job}: there is no memory for two tables of 37814272 words: refused 11: "
    told += "the table has fewer words than planning needs\n"
    check("sit: tables that do not fit", (ended.returncode, ended.stderr.decode()), (1, told))


def check_streams():
    """Input that is no text is answered; output that cannot be written is an error."""
    arguments = [COMMAND, "sit", "job_a.bin"]
    lines = b"\xff\xfe\nlist\n"
    ended = subprocess.run(arguments, input=lines, capture_output=True, cwd=EXAMPLES)
    check("sit: bytes that are no text", ended.stdout.splitlines()[-1], b"no pins")
    if not os.path.exists("/dev/full"):
        return
    with open("/dev/full", "w") as full:
        streams = {"stdin": subprocess.DEVNULL, "stdout": full, "stderr": subprocess.PIPE}
        ended = subprocess.run(arguments, cwd=EXAMPLES, **streams)
    told = b"upload-planner: standard output cannot be written: "
    found = (ended.returncode, ended.stderr[:len(told)])
    check("sit: output that cannot be written", found, (1, told))


def check_stored(work):
    """Pictures are the stored ones, to the byte."""
    run("plan", "job_a.bin", "--entries", work / "job_a.entries")
    wrong = bytearray((work / "job_a.entries").read_bytes())
    wrong[3] = 2
    (work / "wrong.entries").write_bytes(wrong)
    lines = f"pin 48 18\ncompare {work / 'programme_pinned.svg'}\n"
    drawn = {
        "job_a.svg": ["plan", "job_a.bin", "--picture"],
        "job_a_over.svg": ["replay", "job_a.bin", work / "wrong.entries", "--picture"],
        "two_buckets.svg": ["plan", "two_buckets.bin", "--picture"],
        "programme.svg": ["plan", "programme.job", "--picture"],
        "programme_sizes.svg": ["sizes", "programme.job", "--picture"],
    }
    for name, arguments in drawn.items():
        run(*arguments, work / name)
    run("sit", "programme.job", text=lines)
    for name in [*drawn, "programme_pinned.svg"]:
        if STORE:
            (EXAMPLES / name).write_bytes((work / name).read_bytes())
        check(f"stored {name}", (work / name).read_bytes() == (EXAMPLES / name).read_bytes(), True)


def main():
    with tempfile.TemporaryDirectory() as directory:
        work = pathlib.Path(directory)
        for name, (data, pins) in trial_jobs().items():
            check_job(name, data, pins, work)
        check_job("programme", (EXAMPLES / "programme.job").read_bytes(), {20: 4}, work)
        check_too_large(work)
        check_all_sizes(work)
        check_distortions(work)
        check_title(work)
        check_compare(work)
        check_sitting(work)
        check_stored(work)
    print(f"{passed} passed, {failed} failed")
    return 1 if failed else 0


if __name__ == "__main__":
    sys.exit(main())
