#!/usr/bin/env python3
"""Runs the command upload-planner and compares what it prints, writes and answers with what documents 01 and 02, the
header file and the worked examples of the README say. Nothing here was taken over from what the command prints.

    python3 tests/command.py COMMAND EXAMPLES

COMMAND is the built command, EXAMPLES the directory with the examples' jobs. A line is printed for each check that
fails, and in the end 'N passed, M failed'.
"""
import itertools
import os
import pathlib
import random
import re
import resource
import shlex
import struct
import subprocess
import sys
import tempfile
import xml.etree.ElementTree

COMMAND = pathlib.Path(sys.argv[1]).resolve()
EXAMPLES = pathlib.Path(sys.argv[2]).resolve()
TOP = pathlib.Path(__file__).resolve().parent.parent

NO_UNIT = 65535
NEVER_DRAINS = "refused 17: the drain of a bucket is 0, so that the line never drains"
OUT_OF_RANGE = (
    "refused 3: a field of the header or a number of a contract is out of range, or there are more or fewer than are due"
)

passed, failed = 0, 0


def check(name, found, expected):
    global passed, failed
    if found == expected:
        passed += 1
        return
    failed += 1
    print(f"FAILED: {name}: found {shortened(found)}, where {shortened(expected)} is due")


def shortened(value):
    words = repr(value)
    return words if len(words) < 600 else words[:600] + "..."


class Answer:
    def __init__(self, done):
        self.status = done.returncode
        self.bytes = done.stdout
        self.out = done.stdout.decode(errors="replace")
        self.error = done.stderr.decode(errors="replace")

    def rows(self):
        """The cells of the table without its head, up to the blank line behind it."""
        return [line.split() for line in self.out.split("\n\n")[0].splitlines()[1:]]

    def totals(self):
        """The lines behind the table."""
        behind = self.out.split("\n\n")[1:]
        return [" ".join(line.split()) for part in behind for line in part.splitlines()]


def run(*arguments, given=b"", **other):
    words = [str(COMMAND)] + [str(argument) for argument in arguments]
    return Answer(subprocess.run(words, input=given, capture_output=True, timeout=60, **other))


LITTLE_MEMORY = 64000000


def limited(most):
    """Holds a process that is started to so many bytes of memory."""
    return lambda: resource.setrlimit(resource.RLIMIT_AS, (most, most))


def run_within(most, *arguments):
    """The same, with so many bytes of memory at most."""
    return run(*arguments, preexec_fn=limited(most))


def run_behind(file, *arguments):
    """The same, with a file as standard input and bytes without end behind it."""
    words = " ".join(shlex.quote(str(argument)) for argument in [COMMAND, *arguments])
    shell = ["sh", "-c", f"cat {shlex.quote(str(file))} /dev/zero | {words}"]
    return Answer(subprocess.run(shell, capture_output=True, timeout=60, preexec_fn=limited(LITTLE_MEMORY)))


def refused(name, answer, words, status=1):
    """The command ends with this status, prints nothing, and says these words."""
    error = f"upload-planner: {words}\n"
    check(name, (answer.status, answer.bytes, answer.error), (status, b"", error))


def misused(name, command, answer, words):
    """The command ends with status 2, and says these words, what is due and where there is more."""
    lines = answer.error.splitlines()
    check(name, (answer.status, answer.out, lines[:1]), (2, "", [f"upload-planner: {words}"]))
    named = ["upload-planner", command] if command else ["upload-planner"]
    due, more = ["usage:", *named], ["more:", *named, "--help"]
    found = [line.split()[: len(due)] for line in lines[1:2]] + [line.split() for line in lines[2:]]
    check(f"{name}: what is due", found, [due, more])


NOT_A_JOB = "not the bytes of a job (make TEXT JOB makes one of a text)"


def noted(name, behind, hint=""):
    """What is said of bytes behind a job."""
    if behind == 0:
        return ""
    words = "1 byte behind the job is" if behind == 1 else f"{behind} bytes behind the job are"
    return f"upload-planner: {name}: {words} not looked at{hint}\n"


# Jobs, by document 01 and, for two buckets, E5.


class Job:
    def __init__(self, units, delay=0, decoder=0, bucket=0, drain=1, level=0, fill=0, rates=(0,), second=None):
        self.units, self.delay, self.decoder, self.bucket, self.drain = units, delay, decoder, bucket, drain
        self.level, self.fill, self.rates, self.second = level, fill, list(rates), second

    def bytes(self):
        choices = len(self.units[0])
        header = [len(self.units), self.delay, self.decoder, self.bucket, self.drain, self.level, self.fill]
        header += [len(self.rates), choices] + list(self.second or [])
        out = record(8 if self.second else 1, u16(*header)) + record(2, u16(*self.rates))
        return out + b"".join(record(3, b"".join(struct.pack("<HI", *of) for of in unit)) for unit in self.units)

    def header_lines(self):
        lines = [f"units {len(self.units)}", f"delay {self.delay}", f"decoder {self.decoder}"]
        lines += [f"bucket {self.bucket}", f"drain {self.drain}"]
        lines += [f"decoder-level {self.level}", f"bucket-level {self.fill}"]
        if self.second:
            names = ["second-bucket", "second-drain", "second-level"]
            lines += [f"{name} {number}" for name, number in zip(names, self.second)]
        return lines + [f"choices {len(self.units[0])}", "rates " + " ".join(map(str, self.rates))]

    def table_lines(self):
        codings = [(u + 1, c, *coding) for u, unit in enumerate(self.units) for c, coding in enumerate(unit)]
        return [" ".join(map(str, coding)) for coding in codings]

    def lines(self):
        return self.header_lines() + [HEAD] + self.table_lines()


HEAD = "unit choice grains distortion"


def u16(*numbers):
    return struct.pack(f"<{len(numbers)}H", *numbers)


def record(kind, body):
    return u16(2 + len(body), kind) + body


def read_job(data):
    """The job at the beginning of the bytes."""
    records, at = [], 0
    while at < len(data):
        length, kind = struct.unpack_from("<HH", data, at)
        if kind in (6, 7):
            break
        records.append((kind, data[at + 4 : at + 2 + length]))
        at += 2 + length
    (kind, head), (_, rates), *units = records
    fields = struct.unpack(f"<{len(head) // 2}H", head)
    codings = [[struct.unpack_from("<HI", body, 6 * c) for c in range(fields[8])] for _, body in units]
    second = list(fields[9:]) if kind == 8 else None
    return Job(codings, *fields[1:7], rates=struct.unpack(f"<{fields[7]}H", rates), second=second)


def entries(*pairs):
    return b"".join(struct.pack("<BH", rate, choice) for rate, choice in pairs)


def pairs_of(data):
    return [struct.unpack_from("<BH", data, at) for at in range(0, len(data), 3)]


UNITS_A = [[(4, 10), (2, 30)], [(5, 12), (2, 40)]]


def job_a(**other):
    return Job(UNITS_A, **{**dict(delay=1, decoder=4, bucket=3, drain=2, rates=(0, 2, 4)), **other})


# The best plan, without pins: 4, 0 and 4 grains; in the late order 0, 4 and 2.
PLAN_A = entries((2, NO_UNIT), (0, 0), (2, 1))
LATE_A = entries((0, NO_UNIT), (2, 0), (1, 1))

COLUMNS = ["interval", "rate", "sent", "unit", "choice", "pin", "grains", "distortion", "peak", "decoder", "bucket"]


def table(*rows):
    return [row.split() for row in rows]


TABLE_A = table(
    "1 2 4 - - - - - 4 4 2",
    "2 0 0 1 0 - 4 10 4 0 0",
    "3 2 4 2 1 - 2 40 4 2 2",
)


def totals(distortion, source, channel, unused, second=None):
    lines = [f"total distortion {distortion}", f"source grains {source}", f"channel grains {channel}"]
    lines += [f"unused grains {unused}"]
    return lines + ([] if second is None else [f"second unused grains {second}"])


def follow(job, data, first=None, contract=None):
    """The rows of a plan without violation, and its totals; behind interval `first` a new contract holds."""
    decoder, fills = job.level, [job.fill] + ([job.second[2]] if job.second else [])
    old = [[job.drain] + ([job.second[1]] if job.second else []), job.rates]
    rows, sums, unused = [], [0, 0, 0], [0] * len(fills)
    for t, (rate, choice) in enumerate(pairs_of(data), 1):
        drains, rates = contract if first is not None and t > first else old
        sent, taken = rates[rate], (0, 0)
        cells = ["-"] * 5
        if t > job.delay:
            taken = job.units[t - job.delay - 1][choice]
            cells = [t - job.delay, choice, "-", *taken]
        unused = [was + max(drain - fill - sent, 0) for was, drain, fill in zip(unused, drains, fills)]
        fills = [max(fill + sent - drain, 0) for fill, drain in zip(fills, drains)]
        peak, decoder = decoder + sent, decoder + sent - taken[0]
        sums = [sums[0] + taken[1], sums[1] + taken[0], sums[2] + sent]
        rows.append([str(cell) for cell in [t, rate, sent, *cells, peak, decoder, *fills]])
    return rows, totals(*sums, *unused)


# The checks.


def check_text(work):
    for example in sorted(EXAMPLES.glob("*.bin")):
        data = example.read_bytes()
        job = read_job(data)
        shown = run("show", example)
        cells = [" ".join(line.split()) for line in shown.out.splitlines() if line]
        note = noted(example, len(data) - len(job.bytes()))
        check(f"show {example.name}", (shown.status, cells, shown.error), (0, job.lines(), note))
        made = run("make", "-", "-", given=shown.bytes)
        if job.drain == 0:
            refused(f"make {example.name}", made, f"standard input: line 5: drain 0: {NEVER_DRAINS}")
            continue
        check(f"show and make {example.name}", (made.status, made.bytes), (0, data[: len(job.bytes())]))

    job = job_a(second=[1, 2, 0])
    text, made = work / "job.txt", work / "job.bin"
    text.write_text("\n".join(job.lines()))
    answer = run("make", text, made)
    check("make of two files", (answer.status, answer.out, made.read_bytes()), (0, "", job.bytes()))
    answer = run("make", text, work / "none" / "job.bin")
    check("make without a place to write", (answer.status, "cannot be written" in answer.error), (1, True))

    forms = {
        "as it stands": "\n".join(job.lines()) + "\n",
        "CSV": "\n".join(line.replace(" ", ",") for line in job.lines()),
        "CSV with semicolons and CRLF": "\r\n".join(line.replace(" ", ";") for line in job.lines()),
        "CSV with empty cells and a mark": "\ufeff" + ",,,\n".join(["# Job A", ""] + comma(job.lines())) + ",,,\n",
        "CSV with quotes": "\n".join(",".join(f'"{cell}"' for cell in line.split()) for line in job.lines()),
        "a quoted comment": '"# Job A, with two buckets",,,\n' + "\n".join(comma(job.lines())),
        "tabs": "\n".join(line.replace(" ", "\t") for line in job.lines()),
        "blanks and commas": "\n".join("  " + line.replace(" ", " ,  ") for line in job.lines()),
        "comments": "\n\n".join(f"{line} # {line}" for line in job.lines()),
        "in another order": "\n".join(job.header_lines()[::-1] + [HEAD] + job.table_lines()[::-1]),
        "without levels": "\n".join(line for line in job.lines() if "level" not in line),
        "capitals": "\n".join(job.lines()).upper(),
        "a capital each": "\n".join(job.lines()).title(),
    }
    for name, form in forms.items():
        answer = run("make", "-", "-", given=form.encode())
        check(f"make, {name}", (answer.error, answer.bytes), ("", job.bytes()))
    latin = b"# Fran\xe7ois\n" + "\n".join(job.lines()).encode()
    check("make, a comment of other bytes", run("make", "-", "-", given=latin).bytes, job.bytes())

    most = Job(
        [[(4095, 1000000)] * 1000] * 2, 64, 255, 255, 4095, 255, 255, list(range(4080, 4096)), second=[63, 4095, 63]
    )
    answer = run("make", "-", "-", given="\n".join(most.lines()).encode())
    check("make at the limits", (answer.error, answer.bytes), ("", most.bytes()))


def comma(lines):
    return [line.replace(" ", ",") for line in lines]


def with_line(job, name, line):
    """The job's text with another line for a name, and where that stands."""
    lines = job.lines()
    at = [place for place, old in enumerate(lines) if old.split()[0] == name][0]
    return lines[:at] + [line] + lines[at + 1 :], at + 1


def check_text_errors(work):
    def wrong(lines, words):
        answer = run("make", "-", "-", given="\n".join(lines).encode())
        refused(f"make: {words}", answer, f"standard input: {words}")

    two = job_a(second=[1, 2, 0])
    numbers = [
        ("units", "0", "under 1"),
        ("units", "513", "over 512"),
        ("delay", "65", "over 64"),
        ("decoder", "256", "over 255"),
        ("bucket", "256", "over 255"),
        ("drain", "4096", "over 4095"),
        ("decoder-level", "256", "over 255"),
        ("decoder-level", "5", "over 4, the size of the decoder"),
        ("bucket-level", "256", "over 255"),
        ("bucket-level", "4", "over 3, the size of the bucket"),
        ("second-bucket", "64", "over 63"),
        ("second-drain", "4096", "over 4095"),
        ("second-level", "64", "over 63"),
        ("second-level", "2", "over 1, the size of the second-bucket"),
        ("choices", "0", "under 1"),
        ("choices", "1001", "over 1000"),
        ("choices", "65536", "over 1000"),
        ("units", "18446744073709551617", "over 512"),
    ]
    for name, number, words in numbers:
        lines, at = with_line(two, name, f"{name} {number}")
        wrong(lines, f"line {at}: {name} {number} is {words}")
    for name in ["drain", "second-drain"]:
        lines, at = with_line(two, name, f"{name} 0")
        wrong(lines, f"line {at}: {name} 0: {NEVER_DRAINS}")

    for word in ["-1", "1.5", "one", "+1", "0x1"]:
        lines, at = with_line(two, "delay", f"delay {word}")
        wrong(lines, f'line {at}: delay "{word}" is no whole number from 0')
    lines, at = with_line(two, "delay", "delay")
    wrong(lines, f"line {at}: delay takes one number, and 0 are there")
    lines, at = with_line(two, "delay", "delay 1 2")
    wrong(lines, f"line {at}: delay takes one number, and 2 are there")
    wrong(["units 2", "delay 1", "units 2"] + two.lines(), "line 3: units was given before, in line 1: units 2")
    wrong(["rates 0"] + two.lines(), "line 13: rates was given before, in line 1: the number of rates 1")
    names = "units, delay, decoder, bucket, drain, decoder-level, bucket-level, second-bucket, second-drain, "
    names += f"second-level, choices, rates, and the head of the table is: {HEAD}"
    wrong(["unitz 2"], f'line 1: "unitz" is none of the names {names}')
    wrong(["# a job", "", "unit choice size distortion"], f'line 3: "unit" is none of the names {names}')
    wrong(["\x1b[2J 2"], f'line 1: "\\u{{1b}}[2J" is none of the names {names}')

    due = ["units", "delay", "decoder", "bucket", "drain", "choices", "rates"]
    for name in due + ["second-bucket", "second-drain"]:
        lines = [line for line in two.lines() if line.split()[0] != name]
        wrong(lines, f"line {len(two.header_lines())}: the table begins, and {name} is missing above it")
    for text in [[], two.header_lines()]:
        wrong(text, f"the table is missing; its head is: {HEAD}")

    rates = [
        ("rates", "the number of rates 0 is under 1"),
        ("rates " + " ".join(map(str, range(17))), "the number of rates 17 is over 16"),
        ("rates 0 2 4096", "rate 2: 4096 is over 4095"),
        ("rates 0 4 2", "rate 2: 2 is not over 4, the rate before it"),
        ("rates 2 2 4", "rate 1: 2 is not over 2, the rate before it"),
        ("rates 0 two 4", 'rate 1: "two" is no whole number from 0'),
        ("rates 0,,4", 'rate 1: "" is no whole number from 0'),
    ]
    for line, words in rates:
        lines, at = with_line(two, "rates", line)
        wrong(lines, f"line {at}: {words}")

    above = two.header_lines() + [HEAD]
    at = len(above) + 1
    rows = [
        ("0 0 4 10", "unit 0 is under 1"),
        ("3 0 4 10", "unit 3 is over 2"),
        ("x 0 4 10", 'unit "x" is no whole number from 0'),
        ("1 2 4 10", "unit 1, choice 2 is over 1"),
        ("1 -1 4 10", 'unit 1, choice "-1" is no whole number from 0'),
        ("1 0 4096 10", "unit 1, choice 0: grains 4096 is over 4095"),
        ("2 1 4 1000001", "unit 2, choice 1: distortion 1000001 is over 1000000"),
        ("2 1 4 4294967297", "unit 2, choice 1: distortion 4294967297 is over 1000000"),
        ("2 1 4.0 10", 'unit 2, choice 1: grains "4.0" is no whole number from 0'),
        ("2,1,,10", 'unit 2, choice 1: grains "" is no whole number from 0'),
        ("2 1 4 ten", 'unit 2, choice 1: distortion "ten" is no whole number from 0'),
        ("1", "4 columns are due, unit, choice, grains, distortion, and 1 is there"),
        ("1 0 4", "4 columns are due, unit, choice, grains, distortion, and 3 are there"),
        ("1 0 4 10 5", "4 columns are due, unit, choice, grains, distortion, and 5 are there"),
    ]
    for row, words in rows:
        wrong(above + [row], f"line {at}: {words}")
    wrong(above + ["1 0 4 10", "1 1 2 30", "1 0 4 10"], f"line {at + 2}: unit 1, choice 0 stands in line {at} already")
    size = "it is to have 2 units with 2 choices"
    wrong(two.lines()[:-1], f"unit 2, choice 1 is missing in the table: {size}")
    wrong(above + ["2 1 4 10"], f"unit 1, choice 0 is missing in the table, and 2 more: {size}")

    text, kept = work / "wrong.txt", work / "kept.bin"
    text.write_text("units 513\n" + HEAD)
    kept.write_bytes(b"kept")
    refused("make of a file", run("make", text, kept), f"{text}: line 2: the table begins, and delay is missing above it")
    check("a text that is no job writes nothing", kept.read_bytes(), b"kept")


def check_plans(work):
    job = EXAMPLES / "job_a.bin"
    written = work / "plan_a.bin"
    answer = run("plan", job, "--entries", written)
    check("plan of Job A", (answer.status, answer.error), (0, ""))
    check("head of the table", answer.out.splitlines()[0].split(), COLUMNS)
    check("table of Job A", answer.rows(), TABLE_A)
    check("totals of Job A", answer.totals(), totals(50, 6, 8, 0))
    check("entries of Job A", written.read_bytes(), PLAN_A)
    check("columns are aligned", len({len(line) for line in answer.out.splitlines()[:4]}), 1)

    late = run("plan", job, "--late")
    # What waits in the bucket behind interval 2 is 0 + 4 - 2.
    rows = table("1 0 0 - - - - - 0 0 0", "2 2 4 1 0 - 4 10 4 0 2", "3 1 2 2 1 - 2 40 2 0 2")
    check("plan of Job A, late", (late.rows(), late.totals()), (rows, totals(50, 6, 6, 2)))

    pinned = run("plan", "--pin", "1=1", job)
    rows = table("1 2 4 - - - - - 4 4 2", "2 0 0 1 1 * 2 30 4 2 0", "3 1 2 2 1 - 2 40 4 2 0")
    check("plan of Job A, pinned", (pinned.rows(), pinned.totals()), (rows, totals(70, 4, 6, 0)))
    both = run("plan", job, "--pin", "1=1", "--pin", "2=1")
    check("plan with two pins", [row[5] for row in both.rows()], ["-", "*", "*"])

    two = run("plan", EXAMPLES / "two_buckets.bin")
    rows = table("1 1 2 - - - - - 2 2 0 0", "2 1 2 1 0 - 4 10 4 0 0 0", "3 1 2 2 1 - 2 40 2 0 0 0")
    check("plan with two buckets", (two.rows(), two.totals()), (rows, totals(50, 6, 6, 0, 0)))
    check("head with two buckets", two.out.splitlines()[0].split(), COLUMNS + ["second"])

    # Two units share four grains: all for one lose 90 in total, two for each lose 50 and 50.
    shared = Job([[(4, 0), (2, 50), (0, 90)]] * 2, decoder=4, level=4).bytes()
    least = run("plan", "-", given=shared)
    check("the least total", ([row[4] for row in least.rows()], least.totals()[0]), (["0", "2"], "total distortion 90"))
    even = run("plan", "-", "--even", given=shared)
    check("even pictures", ([row[4] for row in even.rows()], even.totals()[0]), (["1", "1"], "total distortion 100"))

    check("plan from standard input", run("plan", "-", given=job.read_bytes()).bytes, answer.bytes)
    check("bytes behind a job", run("plan", EXAMPLES / "job_a_pinned.bin").bytes, answer.bytes)
    channel = read_job((EXAMPLES / "channel.bin").read_bytes())
    answer = run("plan", EXAMPLES / "channel.bin", "--entries", written)
    check("levels of another job", (answer.rows(), answer.totals()), follow(channel, written.read_bytes()))

    refused("no plan", run("plan", job, "--pin", "2=0"), f"{job}: refused 13: no plan is admissible")
    pin = f"{job}: --pin {{}} (units 1 to 2, choices 0 to 1): refused"
    for word, words in [("3=0", "7: the job has no such unit"), ("0=0", "7: the job has no such unit")]:
        refused(f"pin {word}", run("plan", job, "--pin", word), f"{pin.format(word)} {words}")
    for word in ["1=2", "1=65536", "1=99999999999999999999"]:
        answer = run("plan", job, "--pin", word)
        refused(f"pin {word}", answer, f"{pin.format(word)} 8: the unit has no such choice")
    answer = run("plan", job, "--pin", "1=0", "--pin", "1=0")
    refused("pinned twice", answer, f"{pin.format('1=0')} 9: the unit is pinned already")


def check_refused_jobs(_):
    data = job_a().bytes()
    never = job_a(drain=0).bytes()
    cases = [
        (b"", 1),
        (data[:-1], 1),
        (u16(20, 9) + data[4:], 2),
        (job_a(delay=65).bytes(), 3),
        (job_a(rates=(0, 2, 2)).bytes(), 4),
        (Job([[(0, 1000001)]]).bytes(), 5),
        (never, 17),
    ]
    for (given, number), command in itertools.product(cases, ["plan", "sizes"]):
        answer = run(command, "-", given=given)
        named = f"{NOT_A_JOB}: " if number < 3 else ""
        words = f"upload-planner: standard input: {named}refused {number}: "
        check(f"{command} refuses {number}", (answer.status, answer.out, answer.error[: len(words)]), (1, "", words))
    for given, number in cases[:-1]:
        answer = run("show", "-", given=given)
        check(f"show refuses {number}", (answer.status, f"refused {number}: " in answer.error), (1, True))


def check_replay(work):
    job, plan = EXAMPLES / "job_a.bin", work / "plan.bin"

    def replayed(data, *more, of=job):
        plan.write_bytes(data)
        return run("replay", of, plan, *more)

    answer = replayed(PLAN_A)
    check("replay", (answer.status, answer.rows(), answer.totals()), (0, TABLE_A, totals(50, 6, 8, 0)))
    check("replay, pin held", replayed(PLAN_A, "--pin", "1=0").totals(), totals(50, 6, 8, 0))
    check("replay, job from standard input", run("replay", "-", plan, given=job.read_bytes()).bytes, answer.bytes)
    check("replay, plan from standard input", run("replay", job, "-", given=PLAN_A).bytes, answer.bytes)

    empty = "1 0 0 - - - - - 0 0 0"
    cases = [
        # Four grains are there, and four more come; the bucket would be over too.
        ("decoder over", 2, entries((2, NO_UNIT), (2, 1), (0, 0)), [], TABLE_A[:1] + table("2 2 4 1 1 - 2 30 8 - -")),
        ("decoder short", 2, entries((0, NO_UNIT), (0, 1), (0, 1)), [], table(empty, "2 0 0 1 1 - 2 30 0 - -")),
        # Two are in the bucket, and 2 + 4 - 2 would be over its three.
        (
            "bucket over",
            3,
            entries((0, NO_UNIT), (2, 0), (2, 1)),
            [],
            table(empty, "2 2 4 1 0 - 4 10 4 0 2", "3 2 4 2 1 - 2 40 4 - -"),
        ),
        ("pin not held", 2, PLAN_A, ["--pin", "1=1"], TABLE_A[:1] + table("2 0 0 1 0 * 4 10 4 - -")),
    ]
    for words, interval, data, more, rows in cases:
        answer = replayed(data, *more)
        end = [f"violation in interval {interval}: {words}"]
        check(words, (answer.status, answer.error, answer.rows(), answer.totals()), (0, "", rows, end))
    answer = replayed(PLAN_A, of=EXAMPLES / "two_buckets.bin")
    found = (answer.status, answer.rows(), answer.totals())
    row = table("1 2 4 - - - - - 4 - - -")
    check("second bucket over", found, (0, row, ["violation in interval 1: second bucket over"]))

    never = EXAMPLES / "never_drains.bin"
    answer = replayed(entries((1, NO_UNIT), (0, 1), (0, 1)), of=never)
    rows = table("1 1 2 - - - - - 2 2 2", "2 0 0 1 1 - 2 30 2 0 2", "3 0 0 2 1 - 2 40 0 - -")
    check("replay of a line that never drains", (answer.status, answer.rows()), (0, rows))
    refused("a pin of a line that never drains", replayed(PLAN_A, "--pin", "1=0", of=never), f"{never}: {NEVER_DRAINS}")

    no_plan = "refused 14: the entries are not a plan of this job"
    for size in [0, 8, 10]:
        answer = replayed((PLAN_A + PLAN_A)[:size])
        refused(f"a plan of {size} bytes", answer, f"{plan}: {size} bytes, where 3 intervals have 9: {no_plan}")
    cases = [
        (1, entries((3, NO_UNIT), (0, 0), (2, 1))),
        (1, entries((2, 0), (0, 0), (2, 1))),
        (2, entries((2, NO_UNIT), (0, NO_UNIT), (2, 1))),
        (3, entries((2, NO_UNIT), (0, 0), (2, 2))),
    ]
    for interval, data in cases:
        words = f"{plan}: interval {interval}, of 3 rates and 2 choices: {no_plan}"
        refused(f"an entry out of range in interval {interval}", replayed(data), words)
        refused(f"the same for report, interval {interval}", run("report", job, plan), words)


def check_report(work):
    job, plan = EXAMPLES / "job_a.bin", work / "plan.bin"
    plan.write_bytes(PLAN_A)
    answer = run("report", job, plan)
    found = (answer.status, answer.out.splitlines()[0].split(), answer.rows())
    check("report of Job A", found, (0, ["i", "sum"], [["0", "4"], ["1", "0"], ["2", "4"]]))
    plan.write_bytes(entries((0, NO_UNIT), (0, 1), (0, 1)))
    check("report of a plan with a violation", run("report", job, plan).rows(), [["0", "0"], ["1", "0"], ["2", "0"]])
    check("report of a line that never drains", run("report", EXAMPLES / "never_drains.bin", plan).status, 0)


def check_sizes(work):
    # From each bucket one grain drains. One of nothing takes none. With one of 1 the intervals can send 2, 0 and 2,
    # and unit 1 loses 30; the six grains of the best plan leave 3 in it.
    job = work / "sizes.bin"
    job.write_bytes(job_a(bucket=0, drain=1).bytes())
    answer = run("sizes", job)
    rows = [["0", "-"], ["1", "70"], ["2", "70"]] + [[str(size), "50"] for size in range(3, 256)]
    check("sizes", (answer.status, answer.out.splitlines()[0].split(), answer.rows()), (0, ["size", "total"], rows))
    rows = [["0", "-"]] + [[str(size), "70"] for size in range(1, 256)]
    check("sizes with a pin", run("sizes", job, "--pin", "1=1").rows(), rows)
    rows = [[str(size), "-"] for size in range(256)]
    check("sizes where there is no plan", run("sizes", job, "--pin", "2=0").rows(), rows)


def check_change(work):
    job, plan, new = EXAMPLES / "job_a.bin", work / "plan.bin", work / "new.bin"
    plan.write_bytes(PLAN_A)

    def changed(after, *more, rates="0,1,3", sizes="2", drains="1", of=job):
        contract = ["--rates", rates, "--sizes", sizes, "--drains", drains]
        return run("change", of, plan, "--after", after, *contract, *more)

    # Interval 2 leaves 2 + 0 - 1 in the bucket, and interval 3 sends one more.
    answer = changed(1, "--entries", new)
    rows = TABLE_A[:1] + table("2 0 0 1 1 - 2 30 4 2 1", "3 1 1 2 1 - 2 40 3 1 1")
    found = (answer.status, answer.rows(), answer.totals())
    check("a contract that changes after 1", found, (0, rows, totals(70, 4, 5, 0)))
    check("its entries", new.read_bytes(), entries((2, NO_UNIT), (0, 1), (1, 1)))
    late = changed(1, "--late")
    rows = TABLE_A[:1] + table("2 0 0 1 1 - 2 30 4 2 1", "3 0 0 2 1 - 2 40 2 0 0")
    check("the same, late", (late.rows(), late.totals()), (rows, totals(70, 4, 4, 0)))
    # Both buffers are empty behind interval 2.
    answer = changed(2)
    rows = TABLE_A[:2] + table("3 2 3 2 1 - 2 40 3 1 2")
    check("a contract that changes after 2", (answer.rows(), answer.totals()), (rows, totals(50, 6, 7, 0)))

    channel, data = EXAMPLES / "channel.bin", (EXAMPLES / "channel.bin").read_bytes()
    run("plan", channel, "--entries", plan)
    for after in [1, 2, 3, 13, 25]:
        answer = run(
            "change", channel, plan, "--after", after, "--rates", "2,4,6,7", "--sizes", "20", "--drains", "6",
            "--entries", new,
        )
        found = (answer.status, answer.rows(), answer.totals())
        rows, sums = follow(read_job(data), new.read_bytes(), after, [[6], [2, 4, 6, 7]])
        check(f"levels of a contract that changes after {after}", found, (0, rows, sums))
        kept = new.read_bytes()[: 3 * after] == plan.read_bytes()[: 3 * after]
        check(f"entries before a contract that changes after {after}", kept, True)

    two = EXAMPLES / "two_buckets.bin"
    run("plan", two, "--entries", plan)
    answer = changed(1, "--entries", new, rates="1,2", sizes="3,2", drains="2,1", of=two)
    rows, sums = follow(read_job(two.read_bytes()), new.read_bytes(), 1, [[2, 1], [1, 2]])
    check("two buckets that change", (answer.status, answer.rows(), answer.totals()), (0, rows, sums))

    plan.write_bytes(PLAN_A)
    one = "--rates takes 1 to 16 numbers, --sizes one, at most 255, --drains one, 1 to 4095"
    over = "refused 20: the level of a bucket is over its size in the new contract or the next programme"
    rates = "refused 4: a rate is over 4,095, or the rates do not rise"
    within = "refused 18: the contract does not change within the programme"
    cases = [
        ("after 0", changed(0), f"--after 0 is not from 1 to 2: {within}"),
        ("after 3", changed(3), f"--after 3 is not from 1 to 2: {within}"),
        ("after much", changed("99999999999"), f"--after 99999999999 is not from 1 to 2: {within}"),
        ("a small bucket", changed(1, sizes="1"), f"--sizes 1, where 2 grains are in the bucket: {over}"),
        ("a large bucket", changed(1, sizes="256"), f"{one}: {OUT_OF_RANGE}"),
        ("two sizes", changed(1, sizes="2,2"), f"{one}: {OUT_OF_RANGE}"),
        ("two drains", changed(1, drains="1,1"), f"{one}: {OUT_OF_RANGE}"),
        ("many rates", changed(1, rates=",".join(map(str, range(17)))), f"{one}: {OUT_OF_RANGE}"),
        ("rates that fall", changed(1, rates="3,1"), f"--rates 3,1: {rates}"),
        ("no drain", changed(1, drains="0"), f"--drains 0: {NEVER_DRAINS}"),
        ("no plan", changed(1, "--pin", "1=0"), f"{job}: refused 13: no plan is admissible"),
        (
            "a pin too late",
            changed(2, "--pin", "1=1"),
            "violation in interval 2: pin not held: "
            "refused 19: the old plan has a violation before the contract changes",
        ),
    ]
    for name, answer, words in cases:
        refused(f"a new contract with {name}", answer, words)


def check_playlist(work):
    # Sent twice: as 0, 4 and 2 grains, which leave 4 in the bucket, then as 0, 2 and 2. A third time there is no plan.
    job, small, behind, two = [work / name for name in ["five.bin", "three.bin", "behind.bin", "two.bin"]]
    job.write_bytes(job_a(bucket=5, drain=1).bytes())
    small.write_bytes(job_a(drain=1).bytes())
    behind.write_bytes(job.read_bytes() + b"\0")
    two.write_bytes(job_a(bucket=5, drain=1, second=[5, 1, 0]).bytes())
    plans = work / "plans.bin"
    head = ["programme", "planned", "distortion", "source", "channel", "unused", "second-unused"]
    head += ["bucket", "second", "file"]

    answer = run("playlist", job, "--entries", plans, job)
    # Of 0 + 6 grains 2 drain, for the third drain goes by; of 4 + 4 then 3.
    first, second = f"1 yes 50 6 6 1 - 4 - {job}", f"2 yes 70 4 4 0 - 5 - {job}"
    found = (answer.status, answer.out.splitlines()[0].split(), answer.rows())
    check("a playlist", found, (0, head, table(first, second)))
    again = entries((0, NO_UNIT), (1, 1), (1, 1))
    check("entries of a playlist", plans.read_bytes(), LATE_A + again)
    answer = run("playlist", two)
    check("a playlist with two buckets", answer.rows(), table(f"1 yes 50 6 6 1 1 4 4 {two}"))
    # The levels at the end are those of the plans, followed one after another.
    parts = [
        job_a(bucket=200, drain=2, fill=9, second=[60, 3, 20]),
        job_a(bucket=100, drain=1, fill=50, second=[50, 1, 1], delay=2),
        job_a(bucket=90, drain=4, second=[40, 2, 0]),
    ]
    names = [work / f"part{place}.bin" for place in range(3)]
    for name, part in zip(names, parts):
        name.write_bytes(part.bytes())
    answer = run("playlist", *names, "--entries", plans)
    left, fills, ends = plans.read_bytes(), [9, 20], []
    for part in parts:
        length = 3 * (len(part.units) + part.delay)
        part.fill, part.second = fills[0], part.second[:2] + fills[1:]
        rows, _ = follow(part, left[:length])
        fills, left = [int(level) for level in rows[-1][-2:]], left[length:]
        ends.append([str(level) for level in fills])
    check("levels at the ends of a playlist", ([row[7:9] for row in answer.rows()], left), (ends, b""))
    check("a playlist from standard input", run("playlist", "-", given=job.read_bytes()).rows()[0][:6], first.split()[:6])

    over = "the level of a bucket is over its size in the new contract or the next programme"
    other = "an entry passes the bytes, bytes are left behind its job, or it has another number of buckets than the first"
    cut = "the bytes end before a record that is due is whole, or the last call is cut"
    empty = work / "empty.bin"
    empty.write_bytes(b"")
    cases = [
        ([job, small, job], 2, 20, over),
        ([job, behind], 2, 22, other),
        ([job, two], 2, 22, other),
        ([job, empty], 2, 1, cut),
        ([job, job, job], 3, 13, "no plan is admissible"),
        ([behind], 1, 22, other),
    ]
    for names, place, number, words in cases:
        plans.write_bytes(b"kept")
        answer = run("playlist", *names, "--entries", plans)
        rows = table(first, second)[: place - 1]
        rows += [f"{at + 1} no - - - - - - - {name}".split() for at, name in enumerate(names) if at + 1 >= place]
        named = f"{NOT_A_JOB}: " if number < 3 else ""
        error = f"upload-planner: {names[place - 1]}: {named}refused {number}: programme {place}: {words}\n"
        found = (answer.status, answer.error, answer.rows(), plans.read_bytes())
        check(f"a playlist that is refused at {place} with {number}", found, (1, error, rows, b"kept"))
    answer = run("playlist", *[job] * 65)
    words = "refused 21: the playlist has no entry, more than 64, or an odd count of numbers"
    refused("a playlist of 65", answer, words)


def trial(fields, state, second=None):
    """A trial job by the generator of document 02, E11."""
    units, delay, decoder, bucket, drain, level, fill, count, choices = fields

    def draw():
        nonlocal state
        state = (state * 1664525 + 1013904223) % 2**32
        return state // 65536

    rates = [draw() % 4]
    while len(rates) < count:
        rates.append(rates[-1] + 1 + draw() % 4)
    codings = [[(draw() % 64, draw()) for _ in range(choices)] for _ in range(units)]
    return Job(codings, delay, decoder, bucket, drain, level, fill, rates, second)


TRIAL_OPTIONS = "--units --delay --decoder --bucket --drain --decoder-level --bucket-level --rates --choices".split()
SECOND_OPTIONS = ["--second-bucket", "--second-drain", "--second-level"]


def trial_arguments(fields, state, second=()):
    pairs = list(zip(TRIAL_OPTIONS, fields)) + list(zip(SECOND_OPTIONS, second)) + [("--state", state)]
    return [word for pair in pairs for word in pair]


def check_trial(work):
    fields = [2, 0, 8, 8, 4, 0, 0, 3, 2]
    # The first eleven draws from state 5 are worked out in the README.
    by_hand = Job([[(26, 46950), (0, 32696)], [(6, 3365), (57, 4283)]], 0, 8, 8, 4, rates=(1, 3, 6))
    check("a trial job by hand", run("trial", *trial_arguments(fields, 5), "-").bytes, by_hand.bytes())
    cases = [
        (fields, 0, None),
        ([8, 2, 20, 10, 5, 3, 10, 3, 4], 7, None),
        ([1, 64, 0, 0, 4095, 0, 0, 16, 1000], 2**32 - 1, [63, 4095, 63]),
        ([512, 0, 255, 255, 1, 255, 0, 1, 1], 2**31, [0, 1, 0]),
    ]
    for fields, state, second in cases:
        job = work / "trial.bin"
        answer = run("trial", *trial_arguments(fields, state, second or ()), job)
        found = (answer.status, answer.out, answer.error, job.read_bytes())
        check(f"a trial job from {state}", found, (0, "", "", trial(fields, state, second).bytes()))
    left_out = [word for pair in zip(TRIAL_OPTIONS, fields) if "level" not in pair[0] for word in pair]
    expected = trial(fields[:5] + [0, 0] + fields[7:], 9).bytes()
    check("levels that are left out", run("trial", "-", *left_out, "--state", 9).bytes, expected)

    fields = [2, 0, 8, 8, 4, 0, 0, 3, 2]
    cases = [
        ("--units", 513, "is over 512"),
        ("--units", 0, "is under 1"),
        ("--choices", 1001, "is over 1000"),
        ("--rates", 17, "is over 16"),
        ("--bucket-level", 9, "is over 8, the size of the bucket"),
        ("--delay", 70000, "is over 64"),
    ]
    for option, number, words in cases:
        other = [number if name == option else field for name, field in zip(TRIAL_OPTIONS, fields)]
        answer = run("trial", *trial_arguments(other, 1), "-")
        refused(f"a trial job with {option} {number}", answer, f"{option} {number} {words}: {OUT_OF_RANGE}")
    other = fields[:4] + [0] + fields[5:]
    refused("a trial job that never drains", run("trial", *trial_arguments(other, 1), "-"), f"--drain 0: {NEVER_DRAINS}")
    answer = run("trial", *trial_arguments(fields, 1, [1, 0]), "-")
    refused("one whose second bucket never drains", answer, f"--second-drain 0: {NEVER_DRAINS}")

    def wrong(arguments, words):
        misused(f"trial: {words}", "trial", run("trial", *arguments, "-"), words)

    wrong(trial_arguments(fields, 2**32), '--state "4294967296" is no number from 0 to 4294967295')
    wrong(trial_arguments(fields, -1), '--state "-1" is no number from 0 to 4294967295')
    wrong(trial_arguments(["two"] + fields[1:], 1), '--units "two" is no whole number from 0')
    wrong(trial_arguments(fields, 1)[:-2], "--state is missing")
    wrong(trial_arguments(fields, 1)[2:], "--units is missing")
    wrong(trial_arguments(fields, 1, [1]), "--second-drain is missing")


def check_large(work):
    """512 units and the longest delay, and the job with the most bytes."""
    job, text, plan = work / "large.bin", work / "large.txt", work / "large.plan"
    fields = [512, 64, 60, 60, 20, 0, 0, 16, 31]
    run("trial", *trial_arguments(fields, 1), job)
    planned = run("plan", job, "--entries", plan)
    rows, sums = follow(read_job(job.read_bytes()), plan.read_bytes())
    check("plan of 512 units", (planned.status, len(rows), planned.rows() == rows), (0, 576, True))
    check("totals of 512 units", planned.totals(), sums)
    check("replay of 512 units", run("replay", job, plan).bytes, planned.bytes)
    check("report of 512 units", len(run("report", job, plan).rows()), 513)
    # The table has four bytes for each word, which is more than the command may have in all.
    wide = work / "wide.bin"
    run("trial", *trial_arguments([512, 64, 255, 255, 20, 0, 0, 16, 1], 1), wide)
    for command, tables in [("plan", "a table"), ("sizes", "a table"), ("sit", "two tables")]:
        told = f"{wide}: there is no memory for {tables} of 37814272 words: refused 11: "
        told += "the table has fewer words than planning needs"
        refused(f"a table that does not fit, {command}", run_within(LITTLE_MEMORY, command, wide), told)

    most = work / "most.bin"
    run("trial", *trial_arguments([512, 64, 255, 255, 4095, 0, 0, 16, 1000], 3, [63, 1, 0]), most)
    text.write_bytes(run("show", most).bytes)
    check("lines of the largest job", len(text.read_bytes().splitlines()), 14 + 512000)
    made = run("make", text, "-")
    check("the largest job, shown and made", (len(made.bytes), made.bytes == most.read_bytes()), (3074112, True))


COMMANDS = ["show", "make", "plan", "replay", "report", "trial", "sizes", "change", "playlist", "sit"]


def check_usage(work):
    help_of_all = run("--help")
    check("help", (help_of_all.status, help_of_all.error), (0, ""))
    for command in COMMANDS:
        check(f"help has {command}", f"\n    {command} " in help_of_all.out, True)
        for arguments in [["--help"], ["x", "--help", "y", "--none"]]:
            answer = run(command, *arguments)
            first = answer.out.splitlines()[0]
            check(f"help of {command}", (answer.status, first.split()[:3]), (0, ["usage:", "upload-planner", command]))
            check(f"example of {command}", f"\n    upload-planner {command} " in answer.out.split("Example")[1], True)
            widest = max(len(line) for line in answer.out.splitlines()[1:])
            check(f"width of the help of {command}", widest <= 80, True)

    job = EXAMPLES / "job_a.bin"
    plan = work / "plan.bin"
    plan.write_bytes(PLAN_A)
    misused("no command", "", run(), "a command is missing")
    misused("another command", "", run("plans"), '"plans" is no command')
    cases = [
        (["plan"], "the file JOB is missing"),
        (["replay", job], "the file ENTRIES is missing"),
        (["make", job], "the file JOB is missing"),
        (["playlist"], "the file JOB is missing"),
        (["show", job, "more"], '"more" is one argument too many'),
        (["plan", "--evens", job], 'plan has no option "--evens"'),
        (["plan", "-e", job], 'plan has no option "-e"'),
        (["report", job, plan, "--pin", "1=0"], 'report has no option "--pin"'),
        (["plan", job, "--pin"], "the value of --pin is missing"),
        (["plan", job, "--entries", "--late"], "the value of --entries is missing"),
        (["plan", job, "--even", "--even"], "--even is given more than once"),
        (["plan", job, "--entries", "a", "--entries", "b"], "--entries is given more than once"),
        (["plan", job, "--pin", "1"], '--pin "1" is not U=C, a unit and a choice'),
        (["plan", job, "--pin", "1=a"], '--pin "1=a" is not U=C, a unit and a choice'),
        (["replay", "-", "-"], "standard input can be read once only"),
        (["playlist", "-", job, "-"], "standard input can be read once only"),
        (["sit", "-"], "the lines of a sitting come from standard input, so that JOB is a file"),
    ]
    taken = "takes the name of a file: standard output has what the command prints"
    for option in ["--entries", "--picture"]:
        cases.append((["plan", job, option, "-"], f"{option} {taken}"))
    contract = ["--rates", "0", "--sizes", "2", "--drains", "1"]
    for at in [0, 2, 4]:
        arguments = ["change", job, plan, "--after", "1"] + contract[:at] + contract[at + 2 :]
        cases.append((arguments, f"{contract[at]} is missing"))
    cases.append((["change", job, plan] + contract, "--after is missing"))
    cases.append((["change", job, plan, "--after", "soon"] + contract, '--after "soon" is no whole number from 0'))
    lists = "is no list of whole numbers, such as 0,2,4"
    cases.append((["change", job, plan, "--after", "1", "--rates", "0,,2"] + contract[2:], f'--rates "0,,2" {lists}'))
    for arguments, words in cases:
        misused(" ".join(map(str, arguments[:1])) + f": {words}", arguments[0], run(*arguments), words)

    os.symlink(job, work / "--late")
    words = [str(COMMAND), "plan", "--", "--late"]
    found = subprocess.run(words, cwd=work, capture_output=True, timeout=60).stdout
    check("a file behind --", found, run("plan", job).bytes)
    check("an option before the file", run("plan", "--late", job).bytes, run("plan", job, "--late").bytes)


def check_files(work):
    job = EXAMPLES / "job_a.bin"
    none = work / "none"
    refused("a file that is not there", run("plan", none), f"{none} cannot be read: No such file or directory (os error 2)")
    for option in ["--entries", "--picture"]:
        answer = run("plan", job, option, none / "file")
        words = f"{none / 'file'} cannot be written: No such file or directory (os error 2)"
        refused(f"{option} without a place to write", answer, words)
    reader, writer = os.pipe()
    os.close(reader)
    done = subprocess.run([COMMAND, "plan", job], stdout=writer, stderr=subprocess.PIPE, timeout=60)
    os.close(writer)
    words = b"upload-planner: standard output cannot be written: Broken pipe (os error 32)\n"
    check("a closed pipe", (done.returncode, done.stderr), (1, words))
    with open("/dev/full", "wb") as full:
        for arguments in [["plan", job], ["show", job], ["--help"]]:
            done = subprocess.run([COMMAND, *arguments], stdout=full, stderr=subprocess.PIPE, timeout=60)
            words = b"upload-planner: standard output cannot be written: No space left on device (os error 28)\n"
            check(f"a full disk, {arguments[0]}", (done.returncode, done.stderr), (1, words))
    name = bytes(work) + b"/job\xff.bin"
    with open(name, "wb") as copy:
        copy.write(job.read_bytes())
    found = subprocess.run([COMMAND, "plan", name], capture_output=True, timeout=60).stdout
    check("a file whose name is no text", found, run("plan", job).bytes)


def check_behind(work):
    """Bytes behind a job are not looked at, and the command says so."""
    job, plan = EXAMPLES / "job_a.bin", work / "plan.bin"
    plan.write_bytes(PLAN_A)
    contract = ["--after", "1", "--rates", "0,1,3", "--sizes", "2", "--drains", "1"]
    cases = [
        (["show"], [], ""),
        (["plan"], [], "; pins are given with --pin"),
        (["replay"], [plan], "; pins are given with --pin"),
        (["report"], [plan], ""),
        (["sizes"], [], "; pins are given with --pin"),
        (["change"], [plan, *contract], "; pins are given with --pin"),
        (["sit"], [], "; pins are given in the sitting"),
    ]
    behind = work / "behind.bin"
    for (command, more, hint), count in itertools.product(cases, [0, 1, 16]):
        behind.write_bytes(job.read_bytes() + b"\0" * count)
        answer = run(*command, behind, *more)
        expected = (0, run(*command, job, *more).bytes, noted(behind, count, hint))
        found = (answer.status, answer.bytes, answer.error)
        check(f"{command[0]} of a job with {count} bytes behind it", found, expected)
    behind.write_bytes(job.read_bytes() + b"\0" * 16)
    answer = run("plan", behind, "--pin", "2=0")
    error = noted(behind, 16, "; pins are given with --pin") + f"upload-planner: {behind}: "
    error += "refused 13: no plan is admissible\n"
    check("a note before a refusal", (answer.status, answer.error), (1, error))

    for command, more, hint in [(["show"], [], ""), (["plan"], [], "; pins are given with --pin")]:
        answer = run_behind(job, *command, "-", *more)
        note = noted("standard input", "more", hint)
        found = (answer.status, answer.bytes, answer.error)
        check(f"{command[0]} without an end", found, (0, run(*command, job, *more).bytes, note))
    answer = run_behind(job, "playlist", "-")
    check("a playlist without an end", (answer.status, "refused 22: programme 1: " in answer.error), (1, True))


def check_without_end(work):
    """No file is read further than is needed."""
    job, zero = EXAMPLES / "job_a.bin", "/dev/zero"
    kind = "refused 2: a record, an aim, an order or a call of another kind or length than the one due"
    for command in ["show", "plan", "sizes", "sit"]:
        answer = run_within(LITTLE_MEMORY, command, zero)
        refused(f"{command} of zeros", answer, f"{zero}: {NOT_A_JOB}: {kind}")
    answer = run_within(LITTLE_MEMORY, "playlist", job, zero)
    words = f"upload-planner: {zero}: {NOT_A_JOB}: refused 2: programme 2: "
    check("a playlist of zeros", (answer.status, answer.error.startswith(words)), (1, True))
    most = "more than 1728 bytes, where 3 intervals have 9"
    for command in ["replay", "report"]:
        answer = run_within(LITTLE_MEMORY, command, job, zero)
        refused(f"{command} of zeros", answer, f"{zero}: {most}: refused 14: the entries are not a plan of this job")
    made = work / "made.bin"
    answer = run_within(512000000, "make", zero, made)
    refused("a text of zeros", answer, f"{zero}: the text is longer than 64000000 bytes")
    check("a text of zeros writes nothing", made.exists(), False)


def check_texts_as_jobs(work):
    text, plan = work / "paper.txt", work / "plan.bin"
    text.write_text("\n".join(job_a().lines()) + "\n")
    plan.write_bytes(PLAN_A)
    kind = "refused 2: a record, an aim, an order or a call of another kind or length than the one due"
    contract = ["--after", "1", "--rates", "0,1,3", "--sizes", "2", "--drains", "1"]
    cases = [["show"], ["plan"], ["replay", plan], ["report", plan], ["sizes"], ["change", plan, *contract], ["sit"]]
    for command, *more in cases:
        refused(f"{command} of a text", run(command, text, *more), f"{text}: {NOT_A_JOB}: {kind}")


def check_overwriting(work):
    """An output is no input and no other output."""
    job, plan, link = work / "job.bin", work / "plan.bin", work / "link.bin"
    text, other = work / "job.txt", work / ".." / work.name / "job.bin"
    job.write_bytes(job_a().bytes())
    plan.write_bytes(PLAN_A)
    text.write_text("\n".join(job_a().lines()))
    os.symlink(job, link)
    contract = ["--after", "1", "--rates", "0,1,3", "--sizes", "2", "--drains", "1"]
    cases = [
        (["plan", job, "--entries", job], "--entries and JOB"),
        (["plan", job, "--picture", job], "--picture and JOB"),
        (["plan", job, "--entries", other], "--entries and JOB"),
        (["plan", job, "--entries", link], "--entries and JOB"),
        (["plan", link, "--picture", job], "--picture and JOB"),
        (["plan", job, "--entries", work / "new", "--picture", work / "new"], "--entries and --picture"),
        (["plan", work / "none", "--entries", work / "none"], "--entries and JOB"),
        (["replay", job, plan, "--picture", plan], "--picture and ENTRIES"),
        (["report", job, plan, "--picture", job], "--picture and JOB"),
        (["sizes", job, "--picture", job], "--picture and JOB"),
        (["change", job, plan, *contract, "--entries", plan], "--entries and ENTRIES"),
        (["playlist", work / "none", job, "--entries", job], "--entries and JOB"),
        (["make", text, text], "TEXT and JOB"),
    ]
    kept = [job.read_bytes(), plan.read_bytes(), text.read_bytes()]
    for arguments, names in cases:
        misused(f"{arguments[0]}: {names}", arguments[0], run(*arguments), f"{names} name the same file")
    check("nothing is written over", [job.read_bytes(), plan.read_bytes(), text.read_bytes()], kept)
    check("nothing is written", (work / "new").exists(), False)
    done = run("plan", job, "--entries", plan, "--picture", work / "new.svg")
    check("outputs of their own", (done.status, plan.read_bytes()), (0, PLAN_A))
    check("a job read twice", run("playlist", job, job).status, 0)


def check_help(work):
    """What the help says, and the example of trial."""

    def said(command):
        return " ".join(run(command, "--help").out.split())

    example = said("trial").split("Example:")[1].replace("\\", " ").split()
    words = "--units 8 --delay 2 --decoder 60 --bucket 20 --drain 15 --rates 10 --choices 4 --state 7 trial.bin"
    check("the example of trial", example, ["upload-planner", "trial", *words.split()])
    check("the example of trial makes a job", run(*example[1:], cwd=work).status, 0)
    check("the example of trial has a plan", run("plan", work / "trial.bin").status, 0)
    words = "interval S they have indices of the new rates, so that replay, report and change, which go by the job's own "
    check("help of change about its entries", f"behind {words}contract, do not take them" in said("change"), True)
    check("help of replay", "draws the plan, its levels up to a violation" in said("replay"), True)
    check("help of report", "draws the plan itself, as replay does" in said("report"), True)

    for word in ["-h", "help"]:
        check(f"help by {word}", run(word).bytes, run("--help").bytes)
    for command in COMMANDS:
        check(f"help of {command} by -h", run(command, "-h").bytes, run(command, "--help").bytes)
    header = re.search(r'^#define UPLOAD_VERSION "(.*)"$', (TOP / "include/upload.h").read_text(), re.MULTILINE)
    package = re.search(r'^version = "(.*)"$', (TOP / "bindings/rust/Cargo.toml").read_text(), re.MULTILINE)
    answer = run("--version")
    found = (answer.status, answer.error, answer.out, f"upload-planner {package.group(1)}\n")
    check("version", found, (0, "", *[f"upload-planner {header.group(1)}\n"] * 2))


def title_of(picture):
    root = xml.etree.ElementTree.parse(picture).getroot()
    return root.find("{http://www.w3.org/2000/svg}title").text


def check_titles(work):
    job, plan, picture = EXAMPLES / "job_a.bin", work / "plan.bin", work / "picture.svg"
    plan.write_bytes(PLAN_A)
    for command, *more in [["plan"], ["replay", plan], ["report", plan], ["sizes"]]:
        for title, options in [("job_a.bin", []), ("Trial & error", ["--title", "Trial & error"])]:
            picture.unlink(missing_ok=True)
            run(command, job, *more, "--picture", picture, *options)
            check(f"title of {command}", title_of(picture), title)
        words = "--title is given without --picture"
        misused(f"{command}: {words}", command, run(command, job, *more, "--title", "x"), words)
    run("plan", "-", "--picture", picture, given=job.read_bytes())
    check("title of a picture of standard input", title_of(picture), "standard input")


def check_pictures(work):
    job, plan, wrong = EXAMPLES / "job_a.bin", work / "plan.bin", work / "wrong.bin"
    plan.write_bytes(PLAN_A)
    wrong.write_bytes(entries((0, NO_UNIT), (0, 1), (0, 1)))
    cases = [
        ["plan", job, "--pin", "1=1"],
        ["plan", EXAMPLES / "channel.bin"],
        ["plan", EXAMPLES / "two_buckets.bin"],
        ["replay", job, plan],
        ["replay", job, wrong],
        ["report", job, plan],
        ["sizes", job],
        ["sizes", job, "--pin", "2=0"],
    ]
    for place, arguments in enumerate(cases):
        picture = work / f"{place}.svg"
        answer = run(*arguments, "--picture", picture)
        check(f"a picture of {arguments[0]} prints the same", answer.bytes, run(*arguments).bytes)
        try:
            root = xml.etree.ElementTree.parse(picture).getroot().tag
        except xml.etree.ElementTree.ParseError as error:
            root = str(error)
        check(f"picture {place + 1}, of {arguments[0]}", root, "{http://www.w3.org/2000/svg}svg")


def check_random(work):
    """Small trial jobs with random texts: what is shown is made again, and what is planned replays."""
    draw = random.Random(1)
    job, plan = work / "random.bin", work / "random.plan"
    for state in range(40):
        decoder, bucket, second = draw.randrange(256), draw.randrange(256), draw.randrange(64)
        fields = [draw.randint(1, 9), draw.randrange(4), decoder, bucket, draw.randint(1, 40)]
        fields += [draw.randint(0, decoder), draw.randint(0, bucket), draw.randint(1, 16), draw.randint(1, 12)]
        second = [second, draw.randint(1, 40), draw.randint(0, second)] if state % 2 else []
        run("trial", *trial_arguments(fields, state, second), job)
        shown = run("show", job)
        check(f"show and make, state {state}", run("make", "-", "-", given=shown.bytes).bytes, job.read_bytes())
        answer = run("plan", job, "--entries", plan, *(["--late"] if state % 3 else []))
        if answer.status == 0:
            expected = follow(read_job(job.read_bytes()), plan.read_bytes())
            check(f"plan, state {state}", (answer.rows(), answer.totals()), expected)
        else:
            refused(f"plan, state {state}", answer, f"{job}: refused 13: no plan is admissible")


GROUPS = [
    check_text,
    check_text_errors,
    check_plans,
    check_refused_jobs,
    check_replay,
    check_report,
    check_sizes,
    check_change,
    check_playlist,
    check_trial,
    check_large,
    check_usage,
    check_files,
    check_behind,
    check_without_end,
    check_texts_as_jobs,
    check_overwriting,
    check_help,
    check_titles,
    check_pictures,
    check_random,
]


def main():
    with tempfile.TemporaryDirectory() as directory:
        for group in GROUPS:
            work = pathlib.Path(directory) / group.__name__
            work.mkdir()
            try:
                group(work)
            except Exception as error:
                check(f"{group.__name__} comes to its end", repr(error), "")
    print(f"{passed} passed, {failed} failed")
    return failed > 0


if __name__ == "__main__":
    sys.exit(main())
