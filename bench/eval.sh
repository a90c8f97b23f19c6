#!/usr/bin/env bash
# Wall time and peak memory of `eval` on a grid of 447 x 447 cells, and on one of 4,000,000 places
# of which one in 21 has a height.
# Build the program first: (cd crates/ldp && rt run -- eval ../../examples/front_range.asc -105 1)
set -eu
here=$(cd "$(dirname "$0")" && pwd)
program=$here/../crates/ldp/out/ldp
folder=$(mktemp -d)
trap 'rm -rf "$folder"' EXIT
python3 "$here/make_grid.py" 447 447 0.002 1 > "$folder/cells.asc"
python3 "$here/make_grid.py" 2000 2000 0.0005 21 > "$folder/places.asc"
for grid in cells places; do
  python3 - "$program" "$folder/$grid.asc" <<'P'
import resource, subprocess, sys, time
program, grid = sys.argv[1:]
start = time.time()
words = [program, "eval", grid, "-105", "1.0003"]
done = subprocess.run(words, capture_output=True, text=True)
wall = time.time() - start
memory = resource.getrusage(resource.RUSAGE_CHILDREN).ru_maxrss // 1024
name = grid.rsplit("/", 1)[1]
print(f"{name}: status {done.returncode}, {wall:.2f} s, {memory} MB\n{done.stdout}", end="")
P
done
nproc --all | sed 's/$/ processors/'
