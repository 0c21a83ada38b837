"""Looks whether the docs say what is there: docs/DEFINITIONS.md is what docs/definitions.py writes, the table of promises in
README.md names functions of the crates, and each command that stands behind "$ " in a page prints what stands below it.
Usage: python3 docs/check.py [PROGRAM]"""

import os
import pathlib
import re
import subprocess
import sys
import tempfile

import definitions

TOP = pathlib.Path(__file__).resolve().parent.parent
PAGES = ["README.md", "docs/FORMAT.md", "docs/LIBRARY.md", "docs/ARCHITECTURE.md", "docs/rewrite.1", "examples/README.md"]


def unkept():
    """The names in the table of promises that are no function and no clause of their crate."""
    for line in (TOP / "README.md").read_text().splitlines():
        if row := re.match(r"\| .+ \| (.+) \| `(\w+)` \|$", line):
            code = "".join(file.read_text() for file in TOP.glob(f"crates/{row[2]}/src/**/*.rt"))
            for name in re.findall(r"`(\w+)`", row[1]):
                if not re.search(rf"\b(?:fn|ensures) {name}\b", code):
                    yield name, row[2]


def commands(page):
    """The commands of a page, each with the lines below it, up to the next command or the end of the block."""
    text = (TOP / page).read_text()
    fence = r"^\.EX\n(.*?)^\.EE" if page.endswith(".1") else r"^```\w*\n(.*?)^```"
    for block in re.findall(fence, text, re.M | re.S):
        parts = re.split(r"^\$ ", block, flags=re.M)
        for part in parts[1:]:
            command, _, printed = part.partition("\n")
            yield command, printed


def run(command, program):
    """What the command prints, with the program under its name in the search path."""
    with tempfile.TemporaryDirectory() as folder:
        os.symlink(program, os.path.join(folder, "rewrite"))
        path = folder + os.pathsep + os.environ["PATH"]
        done = subprocess.run(["sh", "-c", command], cwd=TOP, env=os.environ | {"PATH": path}, capture_output=True, text=True)
        return done.stdout


def main():
    program = pathlib.Path(sys.argv[1] if len(sys.argv) > 1 else TOP / "crates/rewrite/out/rewrite").resolve()
    failed = False
    if definitions.PAGE.read_text() == definitions.page():
        print("docs/DEFINITIONS.md: as the definitions say")
    else:
        print("docs/DEFINITIONS.md: not what `python3 docs/definitions.py` writes")
        failed = True
    for name, crate in unkept():
        print(f"README.md: {name} is no function of {crate}")
        failed = True
    for page in PAGES:
        count = 0
        for command, printed in commands(page):
            count += 1
            if run(command, program) != printed:
                print(f"{page}: other lines than those below: $ {command}")
                failed = True
        print(f"{page}: {count} commands were run")
    sys.exit(failed)


main()
