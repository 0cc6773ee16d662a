#!/usr/bin/env python3
"""Runs the examples of Markdown pages, and compares what they print.

  doc_examples.py PAGE..       the pages; the status is 1 where an example prints something else
  doc_examples.py --selftest

An example stands in a fenced block marked `console`: each line that begins with `$ ` is a command, and the lines after
it, up to the next command or the end of the block, are exactly what it prints, standard output and standard error
together. A command is run by bash at the top of the repository, with no input, and with the programs of
crates/NAME/out/NAME on PATH by their plain names. Differences go to standard error. A block in which nothing can be
run is at fault too, and so are pages that have no example at all.
"""

import argparse
import contextlib
import difflib
import io
import os
import re
import signal
import subprocess
import sys
import tempfile
from pathlib import Path
from typing import NamedTuple

from checking import run_selftest

TOP = Path(__file__).resolve().parent.parent
SECONDS = 60
FENCE = re.compile(r"^( {0,3})(`{3,}|~{3,})\s*([^\s`]*)[^`]*$")
PROMPT = "$ "


class BadPage(Exception):
    """A page whose blocks cannot be read."""


class Example(NamedTuple):
    """A command, the number of its line, and what it prints."""

    line: int
    command: str
    text: str


# ---- pages ----------------------------------------------------------------------------------------------------


def blocks_of(page):
    """The blocks of a page that are marked `console`: of each the number of its first line, and its lines."""
    fence, blocks, lines = None, [], None
    for number, line in enumerate(page.splitlines(), 1):
        if fence is None:
            opening = FENCE.match(line)
            if opening:
                indent, fence, mark = opening.groups()
                lines = [] if mark == "console" else None
                if lines is not None:
                    blocks.append((number + 1, lines))
        elif re.fullmatch(rf" {{0,3}}{re.escape(fence[0])}{{{len(fence)},}}\s*", line):
            fence = None
        elif lines is not None:
            lines.append(line[len(indent) :] if line.startswith(indent) else line.lstrip(" "))
    if fence is not None and lines is not None:
        raise BadPage(f"the block at line {blocks[-1][0]} has no end")
    return blocks


def examples_of(page):
    """The examples of a page."""
    examples = []
    for first, lines in blocks_of(page):
        if not lines or not lines[0].startswith(PROMPT):
            raise BadPage(f"the block at line {first} begins with no command")
        for number, line in enumerate(lines, first):
            if line.startswith(PROMPT):
                examples.append(Example(number, line.removeprefix(PROMPT), ""))
            else:
                last = examples.pop()
                examples.append(last._replace(text=last.text + line + "\n"))
    return examples


# ---- running --------------------------------------------------------------------------------------------------


def link_programs(directory):
    """Links each program that is built into a folder."""
    for path in sorted(TOP.glob("crates/*/out/*")):
        if path.name == path.parent.parent.name and path.is_file() and os.access(path, os.X_OK):
            (directory / path.name).symlink_to(path)


def run(command, directory):
    """What a command prints."""
    environment = os.environ | {"PATH": f"{directory}:{os.environ['PATH']}"}
    started = subprocess.Popen(
        ["bash", "-c", command],
        cwd=TOP,
        env=environment,
        stdin=subprocess.DEVNULL,
        stdout=subprocess.PIPE,
        stderr=subprocess.STDOUT,
        start_new_session=True,
    )
    try:
        told, _ = started.communicate(timeout=SECONDS)
    except subprocess.TimeoutExpired:
        os.killpg(started.pid, signal.SIGKILL)
        told, _ = started.communicate()
        told += f"\nit had not ended after {SECONDS} seconds\n".encode()
    return told.decode(errors="backslashreplace")


def difference(name, example, told):
    """How what was printed differs from the page, as lines."""
    head = f"{name}:{example.line}: {example.command}\n"
    wanted, found = (text.splitlines(keepends=True) for text in (example.text, told))
    lines = list(difflib.unified_diff(wanted, found, "the page", "the command"))
    return head + "".join(line if line.endswith("\n") else line + "\n(with no end of line)\n" for line in lines)


def faults_of(name, page, directory):
    """What is wrong with a page's examples, and how many there are."""
    try:
        examples = examples_of(page)
    except BadPage as error:
        return [f"{name}: {error}\n"], 0
    faults = []
    for example in examples:
        told = run(example.command, directory)
        if told != example.text:
            faults.append(difference(name, example, told))
    return faults, len(examples)


def check_pages(pages):
    """Runs the examples of pages; the status."""
    count, faults = 0, []
    with tempfile.TemporaryDirectory() as room:
        link_programs(Path(room))
        for path in pages:
            found, run_here = faults_of(path, path.read_text(encoding="utf-8"), Path(room))
            faults += found
            count += run_here
    for fault in faults:
        print(fault, end="", file=sys.stderr)
    print(f"doc_examples: {count} examples on {len(pages)} pages, {len(faults)} at fault")
    return 0 if count and not faults else 1


# ---- the self-test --------------------------------------------------------------------------------------------

PAGE = """# A page

```sh
$ this is not run
```

```console
$ printf 'a\\nb\\n'
a
b
$ true
$ echo one >&2; echo two
one
two
```

   ~~~~ console
   $ echo '~~~'
   ~~~
   ~~~~

````
```console
$ within another block
````
"""
WRONG = (
    ("a\nb\n$ true", "a\nc\n$ true", "-c\n+b\n"),
    ("a\nb\n$ true", "a\n$ true", "+b\n"),
    ("one\ntwo\n", "one\ntwo\n\n", "-\n"),
    ("'a\\nb\\n'", "'a\\nb'", "(with no end of line)"),
    ("$ printf", "text\n$ printf", "begins with no command"),
    ("$ printf 'a\\nb\\n'\na\nb\n$ true\n$ echo one >&2; echo two\none\ntwo\n", "", "begins with no command"),
    ("   ~~~~\n", "   ~~~\n", "has no end"),
    ("$ true", "$ no-such-program", "no-such-program"),
)


def selftest(checks):
    """The examples of a page, run; and that each wrong page is at fault."""
    examples = examples_of(PAGE)
    checks.same([example.line for example in examples], [8, 11, 12, 18])
    checks.same([example.command for example in examples][2:], ["echo one >&2; echo two", "echo '~~~'"])
    checks.same([example.text for example in examples], ["a\nb\n", "", "one\ntwo\n", "~~~\n"])
    with tempfile.TemporaryDirectory() as room:
        checks.same(faults_of("page", PAGE, Path(room)), ([], 4))
        for old, new, fault in WRONG:
            checks.holds(old in PAGE, f"{old} is on the page")
            found, _ = faults_of("page", PAGE.replace(old, new, 1), Path(room))
            checks.same(len(found), 1, f"{new}: {found}")
            checks.holds(fault in found[0], f"{fault} in {found}")
        checks.same(faults_of("page", "# No examples\n", Path(room)), ([], 0))
        checks.same(run("ls tools/doc_examples.py; cat", Path(room)), "tools/doc_examples.py\n")
        program = Path(room, "a-program-by-its-name")
        program.write_text("#!/bin/sh\necho here\n")
        program.chmod(0o755)
        checks.same(run("a-program-by-its-name", Path(room)), "here\n")
        for name, page, status in (("good", PAGE, 0), ("bad", PAGE.replace("one", "ten", 1), 1), ("none", "", 1)):
            path = Path(room, name)
            path.write_text(page)
            with contextlib.redirect_stdout(io.StringIO()), contextlib.redirect_stderr(io.StringIO()):
                checks.same(check_pages([path]), status, f"the status of the {name} page")


def main():
    """Checks pages."""
    parser = argparse.ArgumentParser(
        description=__doc__, formatter_class=argparse.RawDescriptionHelpFormatter
    )
    parser.add_argument("pages", metavar="PAGE", type=Path, nargs="*")
    parser.add_argument("--selftest", action="store_true")
    asked = parser.parse_args()
    if asked.selftest:
        run_selftest(selftest)
        return 0
    if not asked.pages:
        parser.error("a PAGE is needed")
    return check_pages(asked.pages)


if __name__ == "__main__":
    sys.exit(main())
