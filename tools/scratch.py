"""A program that is built in a scratch copy of some crates of the repository, for the tools that measure."""

import pathlib
import shutil
import subprocess
import sys

ROOT = pathlib.Path(__file__).resolve().parent.parent


def crate_lines():
    """Returns the line of each crate of the repository, by its name."""
    lines = (ROOT / "crates.txt").read_text(encoding="utf-8").splitlines()
    return {line.split(":")[0].split()[0]: line for line in lines if line.strip() and not line.startswith("#")}


def needed_crates(name, lines):
    """Returns the names of a crate of the repository and of those below it, the crate last."""
    names = []
    for below in lines[name].split(":")[1].split():
        if below in lines:
            names += [other for other in needed_crates(below, lines) if other not in names]
    return names + [name]


def built_program(room, crates, name, program, stop):
    """Builds a program over these crates in a scratch copy, and returns its path. `rt run` proves the copy first."""
    copy = room / "copy"
    lines = crate_lines()
    names = list(dict.fromkeys(below for crate in crates for below in needed_crates(crate, lines)))
    for below in names:
        shutil.copytree(ROOT / "crates" / below, copy / "crates" / below, ignore=shutil.ignore_patterns("out", "must-fail"))
    shutil.copy(ROOT / "HANDLES", copy / "HANDLES")
    texts = [lines[below] for below in names] + [f"{name}: {' '.join(names)}"]
    (copy / "crates.txt").write_text("".join(f"{text}\n" for text in texts), encoding="utf-8")
    source = copy / "crates" / name / "src" / "main.rt"
    source.parent.mkdir(parents=True)
    source.write_text(program, encoding="utf-8")
    crate = copy / "crates" / name
    built = subprocess.run(["rt", "run"], cwd=crate, stdin=subprocess.DEVNULL, stdout=subprocess.PIPE, stderr=subprocess.STDOUT)
    path = crate / "out" / name
    if built.returncode != 0 or not path.is_file():
        sys.stderr.buffer.write(built.stdout[-4000:])
        stop("the program was not built")
    return path
