#!/usr/bin/env python3
"""Refuses each request for memory of some commands in turn, and then each and all after it.

The answer must be status 9 with a prefix of the text, status 11 with nothing, or the status, text
and line of the run that is refused nothing. Prints for each command how many requests it makes and
how often each answer came; ends with status 1 where another answer came. Needs a C compiler and
glibc; give the program's path, or it is proved and built."""
import os
import subprocess
import sys
import tempfile
from collections import Counter

from ldp_program import FAR, HERE, JOB, ONE_CELL, THREE_SCALES, ZONE, program

THREE = ["zone", "heights", "grids"]
COMMANDS = [
    ["eval", "heights", "-105", "1.00001"],
    ["design", *THREE],
    ["design", *THREE, "--budget", "5", "--share", "5"],
    ["check", *THREE, "job"],
    ["check", *THREE, "named"],
    ["upgrade", *THREE, "job"],
    ["table", *THREE, "job"],
    ["table", *THREE, "job", "--json"],
    ["wkt", "grids", "job"],
    ["sample", "1"],
    ["check", *THREE, "wrong"],
    ["check", *THREE, "cut"],
    ["design", "empty", "heights", "grids"],
    ["design", "zone", "heights", "far"],
    ["design", *THREE, "--budget", "4"],
    ["eval", "absent", "-105", "1"],
    ["eval"],
]
FILES = {
    "zone": ZONE,
    "heights": ONE_CELL,
    "grids": THREE_SCALES,
    "job": JOB,
    "wrong": JOB.replace("s k0 1", "s k0 2"),
    "cut": JOB.removesuffix("end\n"),
    "empty": "POLYGON EMPTY\n",
    "far": FAR,
}


def run(path, words, folder, **environment):
    """The status, the output and the error output of a run."""
    names = {**os.environ, **environment}
    done = subprocess.run([path, *words], cwd=folder, env=names, capture_output=True, timeout=60)
    return done.returncode, done.stdout, done.stderr


def answer(got, whole):
    """The name of an answer, where it is one of those that may come."""
    status, out, err = got
    if got == whole:
        return "same"
    if status == 9 and err == b"out of memory\n" and whole[1].startswith(out):
        return "9"
    if got == (11, b"", b""):
        return "11"
    return f"WRONG {got}"


def refuse_each(path, words, folder, library):
    """How many requests a command makes, and how often each answer came."""
    count = os.path.join(folder, "count")
    whole = run(path, words, folder, LD_PRELOAD=library, COUNT_FILE=count)
    assert whole == run(path, words, folder), words
    with open(count, encoding="ascii") as file:
        requests = int(file.read())
    answers = Counter()
    for number in range(1, requests + 1):
        refused = {"LD_PRELOAD": library, "REFUSED_REQUEST": str(number)}
        answers["once " + answer(run(path, words, folder, **refused), whole)] += 1
        refused["REFUSED_ONWARDS"] = "1"
        answers["onwards " + answer(run(path, words, folder, **refused), whole)] += 1
    return whole[0], requests, answers


def main():
    path = program()
    wrong = False
    with tempfile.TemporaryDirectory() as folder:
        library = os.path.join(folder, "refused_memory.so")
        compiler = os.environ.get("CC", "cc")
        source = os.path.join(HERE, "refused_memory.c")
        subprocess.run([compiler, "-O1", "-shared", "-fPIC", "-o", library, source], check=True)
        for name, text in FILES.items():
            with open(os.path.join(folder, name), "w", encoding="ascii") as file:
                file.write(text)
        with open(os.path.join(folder, "named"), "wb") as file:
            file.write(run(path, ["upgrade", *THREE, "job"], folder)[1])
        for words in COMMANDS:
            status, requests, answers = refuse_each(path, words, folder, library)
            told = ", ".join(f"{name}: {count}" for name, count in sorted(answers.items()))
            print(f"{' '.join(words)}: status {status}, {requests} requests; {told}", flush=True)
            wrong = wrong or any("WRONG" in name for name in answers)
    sys.exit(1 if wrong else 0)


if __name__ == "__main__":
    main()
