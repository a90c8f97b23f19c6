#!/usr/bin/env bash
# Processor time and peak memory of `design`, `check` and `eval` on one zone cut into more and more
# cells, over hills and over heights that jump from cell to cell. Give the program, or take the one
# of crates/ldp, built before: (cd crates/ldp && rt run -- sample 1)
set -eu
here=$(cd "$(dirname "$0")" && pwd)
program=${1:-$here/../crates/ldp/out/ldp}
folder=$(mktemp -d)
trap 'rm -rf "$folder"' EXIT
for shape in smooth wild; do
  for size in 28x24 35x29 61x51 122x102 244x204 488x408; do
    python3 "$here/make_zone.py" "$folder" "${size%x*}" "${size#*x}" "$shape"
    python3 "$here/measure.py" "$program" "$folder" "$shape $size"
  done
done
