#!/usr/bin/env python3
"""Runs `design`, `check` and `eval` over the problem of a folder: measure.py PROGRAM FOLDER NAME.
"""
import hashlib
import resource
import subprocess
import sys

program, folder, name = sys.argv[1:]
problem = [f"{folder}/zone.wkt", f"{folder}/heights.asc", f"{folder}/designs.toml"]
certificate = f"{folder}/design.job"


def spent():
    used = resource.getrusage(resource.RUSAGE_CHILDREN)
    return used.ru_utime + used.ru_stime, used.ru_maxrss // 1024


def run(*words):
    before = spent()[0]
    done = subprocess.run([program, *words], capture_output=True)
    seconds, peak = spent()
    used = f"{seconds - before:.2f} s, {peak} MB at most so far"
    print(f"{name} {words[0]}: status {done.returncode}, {used}")
    return done.stdout


found = run("design", *problem)
with open(certificate, "wb") as out:
    out.write(found)
told = ("nodes", "cells", "worst")
lines = [line for line in found.decode().splitlines() if line.startswith(told)]
print("  " + ", ".join(lines) + ", text " + hashlib.sha256(found).hexdigest()[:16])
run("check", *problem, certificate)
run("eval", problem[1], "-105.2", "1.00025")
