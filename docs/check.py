#!/usr/bin/env python3
"""Holds the pages to the tree. Run by hand at the top of a clone: python3 docs/check.py

It prints a line for each page that says what the tree does not have, and exits with 1 where there
is one. With a built program (crates/ldp/out/ldp), GDAL and PROJ it also runs the commands of
README.md and docs/GUIDE.md in a copy, and compares what they print; `--no-commands` leaves that out.
"""

import filecmp
import pathlib
import re
import shutil
import subprocess
import sys
import tempfile

TOP = pathlib.Path(__file__).resolve().parent.parent
WIDEST = 140
faults = []


def fault(page, text):
    faults.append(f"{page}: {text}")


def pages():
    found = [TOP / "README.md"]
    for folder in ("docs", "examples", "bench"):
        found += sorted((TOP / folder).glob("*.md"))
    return found


def name_of(page):
    return str(page.relative_to(TOP))


def crates_listed():
    lines = (TOP / "crates.txt").read_text().splitlines()
    return [line.split(":")[0].split()[0] for line in lines if line and not line.startswith("#")]


def specs_of(crate):
    files = (TOP / "crates" / crate / "specs").glob("*.antt")
    return sorted(file.stem for file in files if file.stem != "Lib")


def lines_of(file):
    return len(file.read_text().splitlines())


def check_theorem():
    """The files and line counts of the list of what a reader has to believe, and their sum."""
    page = "docs/THEOREM.md"
    text = (TOP / page).read_text()
    row = re.compile(r"^- `(ldp\w*)`, (\d+) lines: (.*?)(?=^- |^$)", re.M | re.S)
    total = 0
    for crate, said, rest in row.findall(text):
        count = 0
        names = rest[rest.rindex(". "):] if ". " in rest else rest[rest.rindex(".\n"):]
        for name in re.findall(r"`(\w+)`", names):
            file = TOP / "crates" / crate / "specs" / f"{name}.antt"
            if file.is_file():
                count += lines_of(file)
            else:
                fault(page, f"{crate} has no definitions {name}")
        if count != int(said):
            fault(page, f"{crate} has {count} lines, not {said}")
        total += count
    sums = re.search(r"some ([\d,]+) lines with their comments", text)
    if not total or sums is None:
        fault(page, "no list of files, or no sum of their lines")
    elif abs(int(sums.group(1).replace(",", "")) - total) > 50:
        fault(page, f"the files have {total} lines, not some {sums.group(1)}")


def specs_named(text):
    """The files of definitions that a page names: `crate/specs/File.antt`, and more after it."""
    named = set()
    crate = None
    for folder, name in re.findall(r"`(?:crates/)?(?:(ldp\w*)/specs/)?(\w+)\.antt`", text):
        crate = folder or crate
        named.add((crate, name))
    return named


def check_architecture():
    """Each file of definitions has its place in the architecture, and each crate its row."""
    page = "docs/ARCHITECTURE.md"
    text = (TOP / page).read_text()
    named = specs_named(text)
    there = {(crate, name) for crate in crates_listed() for name in specs_of(crate)}
    for crate, name in sorted(there - named):
        fault(page, f"does not name {crate}/specs/{name}.antt")
    for crate, name in sorted(named - there, key=str):
        fault(page, f"names {crate}/specs/{name}.antt, which is not there")
    rows = set(re.findall(r"`(ldp\w*)`", "".join(re.findall(r"^- ([^:]*):", text, re.M))))
    for crate in sorted(set(crates_listed()) - rows):
        fault(page, f"has no row for {crate}")
    for crate in sorted(rows - set(crates_listed())):
        fault(page, f"has a row for {crate}, which crates.txt does not list")


def check_crates():
    """Each crate that a page names is listed, and each folder of crates/ too."""
    listed = set(crates_listed())
    for folder in sorted(path.name for path in (TOP / "crates").iterdir() if path.is_dir()):
        if folder not in listed:
            fault("crates.txt", f"does not list {folder}")
    for page in pages():
        for crate in sorted(set(re.findall(r"`(ldp_\w+)`", page.read_text())) - listed):
            if not crate.endswith("_"):
                fault(name_of(page), f"names {crate}, which is no crate")


def check_copies():
    """The copies of the example that programs of the gate read are those of examples/."""
    for copy in sorted(TOP.glob("crates/*/data/*")):
        example = TOP / "examples" / copy.name
        if example.is_file() and not filecmp.cmp(copy, example, shallow=False):
            fault(name_of(copy), f"differs from examples/{copy.name}")


def anchors_of(page):
    heads = re.findall(r"^#+ (.*)$", page.read_text(), re.M)
    kept = [re.sub(r"[^\w\- ]", "", head.lower()) for head in heads]
    return {head.replace(" ", "-") for head in kept}


def check_links():
    """What a page links to or names by its path is there."""
    for page in pages():
        text = page.read_text()
        for target in re.findall(r"\]\(([^)\s]+)\)", text):
            if target.startswith(("http:", "https:", "mailto:")):
                continue
            path, _, anchor = target.partition("#")
            file = (page.parent / path).resolve() if path else page
            if not file.exists():
                fault(name_of(page), f"links to {target}, which is not there")
            elif anchor and file.suffix == ".md" and anchor not in anchors_of(file):
                fault(name_of(page), f"links to {target}, a heading that is not there")
        for path in re.findall(r"`((?:docs|examples|bench|crates)/[\w./-]+\.\w+)`", text):
            if "/out/" not in path and not (TOP / path).exists():
                fault(name_of(page), f"names {path}, which is not there")


def check_widths():
    for page in pages():
        for number, line in enumerate(page.read_text().splitlines(), 1):
            if len(line) > WIDEST:
                fault(name_of(page), f"line {number} has {len(line)} columns")


def blocks_of(page):
    """The shell blocks of a page, each with what has to come: the block behind it, or None."""
    blocks = []
    folder = "."
    for match in re.finditer(r"^```(\w*)\n(.*?)^```\n|commands are run in `examples/`", page,
                             re.M | re.S):
        if match.group(2) is None:
            folder = "examples"
        elif match.group(1) == "sh":
            blocks.append([folder, match.group(2), None, match.end()])
        elif not match.group(1) and blocks and not page[blocks[-1][3]:match.start()].strip():
            blocks[-1][2] = match.group(2)
    return blocks


def run_page(name, copy, program):
    """Runs the shell blocks of a page one after the other, and compares what they print."""
    path = f"{program.parent}:/usr/local/bin:/usr/bin:/bin"
    for folder, commands, wanted, _ in blocks_of((TOP / name).read_text()):
        if re.search(r"\brt |\.ci/run|apt-get|install -D|^export", commands, re.M):
            continue
        done = subprocess.run(["bash", "-c", commands], cwd=copy / folder, text=True,
                              stdout=subprocess.PIPE, stderr=subprocess.STDOUT, timeout=600,
                              env={"PATH": path, "HOME": str(copy)})
        if wanted is not None and done.stdout.strip() != wanted.strip():
            fault(name, f"prints something else: {commands.splitlines()[0]}")
        elif wanted is None and done.returncode != 0:
            fault(name, f"fails: {commands.splitlines()[0]}")


def check_commands():
    """The commands of README and GUIDE print what the pages say."""
    program = TOP / "crates/ldp/out/ldp"
    tools = ("gdalwarp", "ogr2ogr", "projinfo", "cs2cs")
    missing = [tool for tool in tools if shutil.which(tool) is None]
    if not program.is_file() or missing:
        print("commands not run: no built program" if not program.is_file()
              else f"commands not run: no {', '.join(missing)}")
        return
    with tempfile.TemporaryDirectory() as folder:
        copy = pathlib.Path(folder) / "ldp"
        copy.mkdir()
        shutil.copytree(TOP / "examples", copy / "examples")
        for name in ("README.md", "docs/GUIDE.md"):
            run_page(name, copy, program)


def main():
    check_theorem()
    check_architecture()
    check_crates()
    check_copies()
    check_links()
    check_widths()
    if "--no-commands" not in sys.argv:
        check_commands()
    for line in faults:
        print(line)
    print(f"{len(faults)} faults in {len(pages())} pages")
    sys.exit(1 if faults else 0)


if __name__ == "__main__":
    main()
