#!/usr/bin/env python3
"""Draws the layers of the crates from crates.txt, as the text that opens docs/ARCHITECTURE.md.

    python3 bench/layers.py            prints the picture
    python3 bench/layers.py --check    fails where the page shows another one

A crate stands in the row above the highest one that it stands on. Crates of tests are left out.
"""
import pathlib
import re
import sys

ROOT = pathlib.Path(__file__).resolve().parent.parent
PAGE = ROOT / "docs" / "ARCHITECTURE.md"
WIDTH = 112


def crates() -> dict[str, list[str]]:
    """What each crate of crates.txt stands on, of this repository."""
    found = {}
    for line in (ROOT / "crates.txt").read_text(encoding="utf-8").splitlines():
        name, colon, below = line.partition(":")
        if colon and not line.startswith("#") and not name.startswith("trials_"):
            found[name.split()[0]] = below.split()
    return {name: [low for low in below if low in found] for name, below in found.items()}


def height(name: str, below: dict[str, list[str]], known: dict[str, int]) -> int:
    """In which row a crate stands, the lowest being 0."""
    if name not in known:
        known[name] = 1 + max((height(low, below, known) for low in below[name]), default=-1)
    return known[name]


def picture() -> str:
    below = crates()
    known: dict[str, int] = {}
    rows: dict[int, list[str]] = {}
    for name in below:
        rows.setdefault(height(name, below, known), []).append(name)
    lines = []
    for row in sorted(rows, reverse=True):
        shown = "   ".join(sorted(rows[row]))
        lines.append(f"{row:2} |  {shown}".rstrip())
    assert all(len(line) <= WIDTH for line in lines), max(map(len, lines))
    return "\n".join(lines)


def shown_in_page() -> str:
    found = re.search(r"<!-- layers -->\n```text\n(.*?)\n```", PAGE.read_text(encoding="utf-8"), re.S)
    return found[1] if found else ""


def main() -> None:
    drawn = picture()
    if "--check" in sys.argv[1:]:
        if drawn != shown_in_page():
            sys.exit("docs/ARCHITECTURE.md: its picture of the layers is not what bench/layers.py draws from crates.txt")
    else:
        print(drawn)


main()
