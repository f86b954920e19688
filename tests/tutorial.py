#!/usr/bin/env python3
"""Does what a document tells its reader to do, and compares what comes of it with what is printed there.

    python3 tests/tutorial.py COMMAND DOCUMENT EXAMPLES MODULE

COMMAND is the built command upload-planner, DOCUMENT a text in Markdown, EXAMPLES the directory with the examples, and
MODULE the one with the Python module, whose library UPLOAD_PLANNER_LIB names. A line is printed for each difference,
and in the end 'N passed, M failed'.

A fenced block that begins with '$ ' has commands for sh, each with its output below it; one that begins with '>>> ' is
Python. Other blocks are passed over. All of them are run in turn in one fresh directory, in which the directory
'examples' is a copy of EXAMPLES. A picture that the document shows has to be there, and to be the one that was
drawn in this directory, if one of its name was.
"""
import doctest
import os
import pathlib
import re
import shutil
import subprocess
import sys
import tempfile

COMMAND, DOCUMENT, EXAMPLES, MODULE = [pathlib.Path(argument).resolve() for argument in sys.argv[1:5]]

SHELL, PYTHON = "$ ", ">>> "
BLOCK = re.compile(r"^```[a-z]*\n(.*?)^```$", re.MULTILINE | re.DOTALL)
PICTURE = re.compile(r"!\[[^\]]*\]\(([^)]+)\)")
# The word that ends the lines which a command is given, as in: cat > paper.txt <<'END'
GIVEN = re.compile(r"<<'(\w+)'")

passed, failed = 0, 0


def check(line, name, found, expected):
    """Counts a check, and prints it where it fails."""
    global passed, failed
    if found == expected:
        passed += 1
        return
    failed += 1
    print(f"FAILED: {DOCUMENT.name}, line {line}: {name}: found {found!r}, where {expected!r} is due")


def line_of(text, place):
    """The line, counted from 1, in which a place of the document lies."""
    return text.count("\n", 0, place) + 1


def command_in(lines, first):
    """Where the command that begins in this line ends: behind what it is given, or behind the lines that go on."""
    given = GIVEN.search(lines[first])
    if given:
        return lines.index(given.group(1), first) + 1
    last = first
    while lines[last].endswith("\\"):
        last += 1
    return last + 1


def commands_of(block):
    """Each command of a block: its line in the block, counted from 0, its text and the output that is printed."""
    lines = block.splitlines()
    first = 0
    while first < len(lines):
        behind = command_in(lines, first)
        after = behind
        while after < len(lines) and not lines[after].startswith(SHELL):
            after += 1
        command = "\n".join(lines[first:behind])[len(SHELL):]
        yield first, command, "".join(f"{line}\n" for line in lines[behind:after])
        first = after


def run_commands(block, line):
    """Runs the commands of a block, output and errors together, as a terminal shows them."""
    for place, command, expected in commands_of(block):
        streams = {"stdin": subprocess.DEVNULL, "stdout": subprocess.PIPE, "stderr": subprocess.STDOUT}
        done = subprocess.run(["sh", "-c", command], timeout=60, **streams)
        check(line + place, command.splitlines()[0], done.stdout.decode(errors="replace"), expected)


def run_python(block, line):
    """Runs the examples of a block, which has names of its own."""
    global passed, failed
    test = doctest.DocTestParser().get_doctest(block, {}, DOCUMENT.name, str(DOCUMENT), line - 1)
    results = doctest.DocTestRunner(verbose=False).run(test)
    passed += results.attempted - results.failed
    failed += results.failed


def run_blocks(text):
    for found in BLOCK.finditer(text):
        block, line = found.group(1), line_of(text, found.start(1))
        if block.startswith(SHELL):
            run_commands(block, line)
        if block.startswith(PYTHON):
            run_python(block, line)


def check_pictures(text):
    for found in PICTURE.finditer(text):
        shown = DOCUMENT.parent / found.group(1)
        drawn = pathlib.Path(shown.name)
        same = shown.is_file() and (not drawn.exists() or drawn.read_bytes() == shown.read_bytes())
        name = f"whether {found.group(1)} is there, and as it was drawn"
        check(line_of(text, found.start()), name, same, True)


def main():
    text = DOCUMENT.read_text()
    os.environ["PATH"] = f"{COMMAND.parent}{os.pathsep}{os.environ['PATH']}"
    sys.path.insert(0, str(MODULE))
    with tempfile.TemporaryDirectory() as work:
        shutil.copytree(EXAMPLES, pathlib.Path(work) / "examples")
        os.chdir(work)
        run_blocks(text)
        check_pictures(text)
    check(1, "whether there is a command", passed + failed > 0, True)
    print(f"{passed} passed, {failed} failed")
    return failed > 0


if __name__ == "__main__":
    sys.exit(main())
