#!/usr/bin/env python3
"""Writes an Esri ASCII grid to standard output: make_grid.py COLUMNS ROWS CELLSIZE EVERY, where one
place in EVERY has a height."""
import sys

columns, rows, cellsize, every = int(sys.argv[1]), int(sys.argv[2]), sys.argv[3], int(sys.argv[4])
out = sys.stdout
out.write(f"ncols {columns}\nnrows {rows}\nxllcorner -105.5\nyllcorner 39\n")
out.write(f"cellsize {cellsize}\nNODATA_value -9999\n")
for row in range(rows):
    line = []
    for column in range(columns):
        place = row * columns + column
        height = f"{1500 + (37 * row + 53 * column) % 1501}.{place % 1000:03d}"
        line.append(height if place % every == 0 else "-9999")
    out.write(" ".join(line) + "\n")
