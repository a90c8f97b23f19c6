"""The built program, and the small files that the scripts of this folder run it on."""
import os
import subprocess
import sys

HERE = os.path.dirname(os.path.abspath(__file__))
CRATE = os.path.join(HERE, "..", "crates", "ldp")

ZONE = "POLYGON ((-106 39, -104 39, -104 41, -106 41, -106 39))\n"
ONE_CELL = "ncols 1\nnrows 1\nxllcenter -105\nyllcenter 40\ncellsize 1\n0\n"
FAMILY = '[[family]]\nkind = "tm"\nlat = "0"\n'
THREE_SCALES = FAMILY + 'lon = "-105"\nk0 = { from = "0.99999", step = "0.00001", count = 3 }\n'
FAR = FAMILY + 'lon = "-95"\nk0 = "1"\n'
REPORT = "kind tm\nlat 0\nlon -105\nazimuth 0\nk0 1\nppm 0.000000000\nat 0 0\ncells 1 missing 0\n"
JOB_HEAD = "ldp job 1\ndesign 1 0 0 0 1\nworst 0\n" + REPORT
JOB = JOB_HEAD + "nodes 5\ntree 1\ns k0 1\ns k0 0\nc 0\nc 0\nc 0\nend\n"


def program():
    """The path of the program: the one that an argument names, else the one of this clone, which is
    proved and built first."""
    if len(sys.argv) > 1:
        return os.path.abspath(sys.argv[1])
    done = subprocess.run(["rt", "run"], cwd=CRATE, capture_output=True)
    if done.returncode != 0:
        sys.exit("rt run in crates/ldp: " + done.stderr.decode()[-2000:])
    return os.path.join(CRATE, "out", "ldp")
