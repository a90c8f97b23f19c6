#!/usr/bin/env python3
"""Writes a problem into a folder: make_zone.py FOLDER COLUMNS ROWS smooth|wild.

zone.wkt is a rectangle of 0.6 by 0.5 degrees, heights.asc a grid of so many places over it, whose
heights are hills, or jump from place to place, and designs.toml two families of 4,221 designs each.
"""
import math
import sys

folder, columns, rows, shape = sys.argv[1], int(sys.argv[2]), int(sys.argv[3]), sys.argv[4]
spacing = 0.58333333333 / columns


def hills(row, column):
    x, y = column / columns, row / rows
    return 1500 + 500 * math.sin(5 * x + 1) * math.cos(4 * y) + 150 * math.sin(23 * x - 17 * y)


def jumps(row, column):
    return 900 + (37 * row + 53 * column) % 1501


height = hills if shape == "smooth" else jumps
with open(f"{folder}/heights.asc", "w") as out:
    out.write(f"ncols {columns}\nnrows {rows}\nxllcorner -105.5\nyllcorner 39.5\n")
    out.write(f"cellsize {spacing:.15f}\n")
    for row in range(rows):
        out.write(" ".join(f"{height(row, column):.3f}" for column in range(columns)) + "\n")
with open(f"{folder}/zone.wkt", "w") as out:
    out.write("POLYGON ((-105.5 39.5, -104.9 39.5, -104.9 40, -105.5 40, -105.5 39.5))\n")
with open(f"{folder}/designs.toml", "w") as out:
    out.write("""[[family]]
kind = "tm"
lat = "39.75"
lon = { from = "-105.7", step = "0.05", count = 21 }
k0 = { from = "1", step = "0.000005", count = 201 }

[[family]]
kind = "lambert"
lat = { from = "39.25", step = "0.05", count = 21 }
lon = "-105.2"
k0 = { from = "1", step = "0.000005", count = 201 }
""")
