#!/usr/bin/env python3
"""The definition files on which the headline stands: the index in docs/DEFINITIONS.md, written and checked.

    python3 bench/definitions.py            prints each file with its lines, and a sum
    python3 bench/definitions.py all        the same of the clause as it is written, which speaks of a log's stores too
    python3 bench/definitions.py --write    writes the index into the page
    python3 bench/definitions.py --check    fails where the page has another one

It follows the imports of specs/ files from those that the headline is read by: the transcript of a session of no log,
by the law that says what the one of the clause `done` of sz_session::serve is, and the job and the summary line. Lines
of comments, imports and blank lines do not count.
"""
import pathlib
import re
import sys

ROOT = pathlib.Path(__file__).resolve().parent.parent
PAGE = ROOT / "docs" / "DEFINITIONS.md"
WIDTH = 120
ALL = ["sz_feed/specs/Serving"]
PLAIN = [
    "sz_feed/specs/Plain",
    "sz_outside/specs/Outside",
    "sz_words/specs/Job",
    "sz_gen/specs/Session",
    "sz_gen/specs/Summary",
]


def path_of(name: str) -> pathlib.Path:
    return ROOT / "crates" / f"{name}.antt"


def file_of(module: str) -> str | None:
    """The file of a module of specs/ of this repository, as CRATE/specs/NAME, or None."""
    found = re.match(r"Rattle\.(sz_\w+)\.specs\.(.+)$", module)
    if not found or found[2].startswith("declared"):
        return None
    name = f"{found[1]}/specs/{found[2].replace('.', '/')}"
    return name if path_of(name).exists() else None


def imports_of(name: str) -> set[str]:
    lines = path_of(name).read_text(encoding="utf-8").splitlines()
    matches = (re.match(r"\s*use (Rattle\.[\w.]+?)(?:\.\{| as |\s|$)", line) for line in lines)
    modules = [found[1] for found in matches if found]
    files = (file_of(module) or file_of(module.rpartition(".")[0]) for module in modules)
    return {file for file in files if file}


def lines_of(name: str) -> int:
    lines = path_of(name).read_text(encoding="utf-8").splitlines()
    return sum(1 for line in lines if line.strip() and not line.strip().startswith(("--", "use ", "pub mod ")))


def beneath(starts: list[str]) -> list[str]:
    seen: set[str] = set()
    waiting = list(starts)
    while waiting:
        name = waiting.pop()
        if name not in seen:
            seen.add(name)
            waiting += imports_of(name)
    return sorted(seen)


def folded(text: str, indent: str) -> list[str]:
    lines, line = [], ""
    for word in text.split():
        if line and len(line) + 1 + len(word) > WIDTH:
            lines.append(line)
            line = indent + word
        else:
            line = f"{line} {word}" if line else word
    return [*lines, line]


def index() -> str:
    """The index as the page has it: how many files and lines, and the files crate by crate."""
    plain, whole = beneath(PLAIN), beneath(ALL)
    head = (
        f"The headline stands on {len(plain)} files of definitions with {sum(map(lines_of, plain)):,} lines, those of words "
        "and of the generated session among them, comments and imports aside; with the stores of a log, as the clause is "
        f"written, on {len(whole)} files with {sum(map(lines_of, whole)):,} lines:"
    )
    crates: dict[str, list[str]] = {}
    for name in plain:
        crate, _, file = name.partition("/specs/")
        crates.setdefault(crate, []).append(f"`{file}`")
    lines = folded(head, "") + [""]
    for crate, files in crates.items():
        lines += folded(f"- `{crate}/specs`: {', '.join(files)}.", "  ")
    return "\n".join(lines)


BEGIN, END = "<!-- index: written by bench/definitions.py -->", "<!-- end of the index -->"


def page_with(text: str) -> str:
    page = PAGE.read_text(encoding="utf-8")
    before, _, rest = page.partition(BEGIN)
    _, _, after = rest.partition(END)
    return f"{before}{BEGIN}\n\n{text}\n\n{END}{after}"


def main() -> None:
    words = sys.argv[1:]
    if words == ["--write"]:
        PAGE.write_text(page_with(index()), encoding="utf-8")
    elif words == ["--check"]:
        if PAGE.read_text(encoding="utf-8") != page_with(index()):
            sys.exit("docs/DEFINITIONS.md: its index is stale: run python3 bench/definitions.py --write")
    else:
        names = beneath(ALL if words == ["all"] else PLAIN)
        for name in names:
            print(f"{lines_of(name):4}  crates/{name}.antt")
        print(f"{sum(map(lines_of, names))} lines in {len(names)} files")


main()
