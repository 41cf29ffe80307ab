#!/usr/bin/env python3
"""Empties definitions, and lists those without which everything still proves.

    python3 bench/emptied.py CRATE..                 every definition in specs/ of these crates
    python3 bench/emptied.py --singly CRATE..        tries each edit by itself, and not all of a crate at once first
    python3 bench/emptied.py --minutes 60 CRATE..    stops after so long
    python3 bench/emptied.py --above 0 CRATE..       checks the crate alone, and none above it
    python3 bench/emptied.py --part 1/4 CRATE..      tries the first of every four edits: four such runs try all
    python3 bench/emptied.py --list CRATE..          prints the edits, and tries none
    python3 bench/emptied.py --names CRATE..         the definitions that are only handed on by name, and tries none

It works on a copy of the repository. In each file of specs/ it puts ⊤ in place of the type of a field of a record, of a
part of a product, and of the body of a case of a statement, and true in place of the body of a test. (Fields of data,
and what a product only binds, are left.)

All ⊤ of a crate are tried at once, each under a name of its own (`Emptied12`, which is ⊤), past holes, so that what
rests on a refused proof is read too. An error whose words have just one such name, or the name of just one emptied
statement, refuses that edit: with it alone the same place would be refused. Those are printed with the place, and put
back, and the rest is tried again, until no error names a further one: some five runs a crate. What is left, and each
test, is tried by itself: the crate is checked, and where that is still proved the crates above that name what was
emptied, and the rows of `trials_rows`. What is proved to the top is printed as 'still proves'. An edit that is refused
may be refused by text alone, since a proof gives a field that says something else now: the list shows what nothing
needs, and not that the rest is needed by a clause.

It is no test and no part of the gate. A check starts from what earlier runs kept, so run it after a gate has passed.
"""
import argparse
import pathlib
import re
import shutil
import subprocess
import sys
import tempfile
import time
from dataclasses import dataclass

ROOT = pathlib.Path(__file__).resolve().parent.parent
PRELUDE = "use Rattle.std.specs.Prelude."


@dataclass(frozen=True)
class Edit:
    """Some characters of a file of specs/ of a crate, and what stands in their place."""

    crate: str
    file: pathlib.Path
    name: str
    start: int
    end: int
    new: str

    def shown(self, text: str) -> str:
        old = " ".join(text[self.start : self.end].split())
        return f"{self.crate} {self.file.name} {self.name}: {old[:100]} -> {self.new}"


def stands_on() -> dict[str, list[str]]:
    found = {}
    for line in (ROOT / "crates.txt").read_text(encoding="utf-8").splitlines():
        name, colon, below = line.partition(":")
        if colon and not line.startswith("#"):
            found[name.split()[0]] = below.split()
    return found


def parts_of(body: str) -> list[tuple[int, int]]:
    """The places of the parts of a product at its outermost level; none where there is one part."""
    depth, cuts = 0, []
    for at, char in enumerate(body):
        depth += (char in "([{") - (char in ")]}")
        if char == "×" and depth == 0:
            cuts.append(at)
        if depth == 0 and (char in "⊎→" or body.startswith("let ", at) or body.startswith("λ", at)):
            return []
    if not cuts:
        return []
    ends = [-1, *cuts, len(body)]
    return [(ends[k] + 1, ends[k + 1]) for k in range(len(ends) - 1)]


def items_of(text: str) -> list[tuple[int, int]]:
    """The top-level items of a file: from a line that begins at its first column to the next one."""
    starts = [found.start() for found in re.finditer(r"^(?=[^\s\-])", text, re.M)]
    return list(zip(starts, [*starts[1:], len(text)]))


def without_tail(text: str, start: int, end: int) -> int:
    """Where an item ends, the comments and blank lines before the next one left out."""
    item = re.sub(r"(?:\n--[^\n]*|\n\s*)*\Z", "", text[start:end])
    return start + len(item)


def edits_of(crate: str, file: pathlib.Path) -> list[Edit]:
    text, edits = file.read_text(encoding="utf-8"), []
    results: dict[str, str] = {}

    def add(name: str, start: int, end: int, new: str) -> None:
        while start < end and text[start] in " \n":
            start += 1
        while end > start and text[end - 1] in " \n":
            end -= 1
        old = text[start:end]
        binds = re.match(r"\(\w+(?: \w+)* : [^()]*\)$", old)
        data = new == "⊤" and not re.search(r"(?<![\w.])[a-z]|[≡≢≤<→×]", old)
        if old not in ("", new, "⊤", "⊥", "true", "false") and not binds and not data:
            edits.append(Edit(crate, file, name, start, end, new))

    for start, stop in items_of(text):
        end = without_tail(text, start, stop)
        item = text[start:end]
        record = re.match(r"(?:pub )?record (\w+)", item)
        signature = re.match(r"(?:abbrev )?(?:pub )?([\w\-]+) :(.*)\Z", item, re.S)
        case = re.match(r"([\w\-]+)\b(.*?)(?<![≡=<>])=(?![=>])", item, re.S)
        if record:
            for field in re.finditer(r"^\s+(?:pub )?(\w+) : ((?:(?!^\s+(?:pub )?\w+ : ).)*)", item, re.M | re.S):
                add(f"{record[1]}.{field[1]}", start + field.start(2), start + field.end(2), "⊤")
        elif signature and not item.startswith("use"):
            results[signature[1]] = signature[2].strip().split("→")[-1].strip()
        elif case and case[1] in results:
            body_at = start + case.end()
            body = text[body_at:end]
            if results[case[1]].startswith("Type"):
                add(case[1], body_at, end, "⊤")
                for low, high in parts_of(body):
                    add(f"{case[1]} part", body_at + low, body_at + high, "⊤")
            elif results[case[1]] == "Bool":
                add(case[1], body_at, end, "true")
    return edits


def names_above(crate: str, name: str, below: dict[str, list[str]]) -> list[str]:
    """The crates that stand on this one and name the definition, in the order of crates.txt's layers."""
    found = []
    for other, lows in below.items():
        folder = ROOT / "crates" / other
        if crate in lows and (other == "trials_rows" or not other.startswith("trials_")):
            files = [*folder.rglob("*.antt"), *folder.rglob("*.rt")]
            if any("/out/" not in str(path) and re.search(rf"\b{name}\b", path.read_text(encoding="utf-8")) for path in files):
                found.append(other)
    return sorted(found, key=lambda other: len(below[other]))


def with_words(text: str, new: str) -> str:
    """The text with the word that an edit needs brought in, where it is not."""
    word = "⊤" if new == "⊤" else "true"
    if re.search(rf"^use .*Prelude\.\{{[^}}]*(?<!\w){word}(?!\w)[^}}]*\}}", text, re.M):
        return text
    head = re.search(r"^use ", text, re.M)
    at = head.start() if head else len(text)
    return f"{text[:at]}{PRELUDE}{{{word}}}\n{text[at:]}"


def proves(folder: pathlib.Path, crate: str) -> bool:
    said = subprocess.run(["rt", "check"], cwd=folder / "crates" / crate, capture_output=True, text=True, check=False)
    return said.returncode == 0


def tried(folder: pathlib.Path, edit: Edit, above: int, below: dict[str, list[str]]) -> str:
    """The crates by which an emptied definition is refused, or nothing."""
    file = folder / edit.file.relative_to(ROOT)
    text = file.read_text(encoding="utf-8")
    emptied = text[: edit.start] + edit.new + text[edit.end :]
    file.write_text(with_words(emptied, edit.new), encoding="utf-8")
    try:
        if not proves(folder, edit.crate):
            return edit.crate
        for other in names_above(edit.crate, edit.name.partition(".")[0].split()[0], below)[:above]:
            if not proves(folder, other):
                return other
        return ""
    finally:
        file.write_text(text, encoding="utf-8")


def errors_of(said: str) -> list[tuple[str, str]]:
    """The place and the words of each error that a check printed."""
    found: list[tuple[str, str]] = []
    inside = False
    for line in said.splitlines():
        head = re.match(r"(\S+?:\d+):\d+: (\w+): (.*)", line)
        if head:
            inside = head[2] == "error"
            if inside:
                found.append((head[1], head[3]))
        elif inside and line.startswith("  "):
            found[-1] = (found[-1][0], f"{found[-1][1]}\n{line}")
        else:
            inside = False
    return found


def apart(edits: dict[int, Edit]) -> dict[int, Edit]:
    """As many of the edits as touch no text twice, the wider first."""
    chosen: dict[int, Edit] = {}
    ends: dict[pathlib.Path, int] = {}
    for number, edit in sorted(edits.items(), key=lambda one: (str(one[1].file), one[1].start, -one[1].end)):
        if edit.start >= ends.get(edit.file, 0):
            chosen[number], ends[edit.file] = edit, edit.end
    return chosen


def emptied_at_once(text: str, edits: list[tuple[int, Edit]]) -> str:
    """A file's text with ⊤ for each of the edits, each under a name of its own."""
    for number, edit in sorted(edits, key=lambda one: -one[1].start):
        text = f"{text[: edit.start]}(Emptied{number}){text[edit.end :]}"
    uses = list(re.finditer(r"^use [^\n]*(?:\n +[^\n]*)*\n", text, re.M))
    at = uses[-1].end() if uses else 0
    names = "".join(f"abbrev pub Emptied{number} : Type 0\nEmptied{number} = ⊤\n" for number, _ in edits)
    return with_words(f"{text[:at]}\n{names}{text[at:]}", "⊤")


def named_by(words: str, edits: dict[int, Edit]) -> int | None:
    """The one edit that an error speaks of: by its own name, or as the statement whose body it was."""
    numbers = {int(number) for number in re.findall(r"Emptied(\d+)", words)}
    if not numbers:
        heads = [
            re.match(r"`([\w\-]+)`: expected type `Type", words),
            re.search(r"(?:has type|signature at this point is) `(?:\w+\.)*([\w\-]+)[ `]", words),
            re.search(r"`(?:\w+\.)*([\w\-]+)[^`]*` is a declared record, built with", words),
        ]
        numbers = {number for head in heads if head for number, edit in edits.items() if edit.name == head[1]}
    return numbers.pop() if len(numbers) == 1 else None


def refused_at_once(folder: pathlib.Path, edits: list[Edit], ends: float) -> list[Edit]:
    """Tries the edits of one crate that put ⊤ somewhere at once, prints those that an error names, and gives the rest."""
    texts = {edit.file: edit.file.read_text(encoding="utf-8") for edit in edits}
    left = {number: edit for number, edit in enumerate(edits) if edit.new == "⊤"}
    more = bool(left)
    while more and left and time.monotonic() < ends:
        chosen = apart(left)
        for file, text in texts.items():
            those = [one for one in chosen.items() if one[1].file == file]
            new = emptied_at_once(text, those) if those else text
            (folder / file.relative_to(ROOT)).write_text(new, encoding="utf-8")
        run = ["rt", "check", "--allow-holes"]
        said = subprocess.run(run, cwd=folder / "crates" / edits[0].crate, capture_output=True, text=True, check=False)
        more = False
        for place, words in errors_of(said.stdout + said.stderr):
            number = named_by(words, chosen)
            if number is not None and number in left:
                edit = left.pop(number)
                more = True
                print(f"refused by {edit.crate} at {place}  {edit.shown(texts[edit.file])}", flush=True)
    for file, text in texts.items():
        (folder / file.relative_to(ROOT)).write_text(text, encoding="utf-8")
    return [edit for number, edit in enumerate(edits) if number in left or edit.new != "⊤"]


def only_named(crate: str, below: dict[str, list[str]]) -> list[str]:
    """Definitions of a crate that no file above, nor a row, ever opens: they stand in imports and types alone."""
    found = []
    for file in sorted((ROOT / "crates" / crate / "specs").rglob("*.antt")):
        for name in re.findall(r"^(?:abbrev pub|pub record|pub abbrev) ([\w\-]+)", file.read_text(encoding="utf-8"), re.M):
            rows = [*(ROOT / "crates").glob("*/proofs/*Rows*.antt")]
            if not any(re.search(rf"\b{name}\b", path.read_text(encoding="utf-8")) for path in rows):
                found.append(f"{crate} {file.name} {name}: no row names it")
    return found


def main() -> None:
    words = argparse.ArgumentParser(description=__doc__, formatter_class=argparse.RawDescriptionHelpFormatter)
    words.add_argument("crates", nargs="+")
    words.add_argument("--minutes", type=float, default=1e9)
    words.add_argument("--above", type=int, default=3, help="how many crates above are checked at most")
    words.add_argument("--part", default="1/1")
    words.add_argument("--singly", action="store_true", help="none of them at once")
    words.add_argument("--list", action="store_true")
    words.add_argument("--names", action="store_true")
    given = words.parse_args()
    below, ends = stands_on(), time.monotonic() + 60 * given.minutes
    edits = [
        edit
        for crate in given.crates
        for file in sorted((ROOT / "crates" / crate / "specs").rglob("*.antt"))
        if file.name != "Lib.antt"
        for edit in edits_of(crate, file)
    ]
    part, parts = map(int, given.part.split("/"))
    edits = edits[part - 1 :: parts]
    if given.names:
        print("\n".join(line for crate in given.crates for line in only_named(crate, below)))
        return
    if given.list:
        for edit in edits:
            print(edit.shown(edit.file.read_text(encoding="utf-8")))
        print(f"{len(edits)} edits")
        return
    folder = pathlib.Path(tempfile.mkdtemp())
    try:
        shutil.copytree(ROOT, folder, dirs_exist_ok=True, ignore=shutil.ignore_patterns(".git"))
        proved, count, rest = 0, 0, edits
        if not given.singly:
            rest = [
                edit
                for crate in given.crates
                for edit in refused_at_once(folder, [edit for edit in edits if edit.crate == crate], ends)
            ]
            count = len(edits) - len(rest)
        for edit in rest:
            if time.monotonic() > ends:
                print("stopped: the minutes are over")
                break
            count += 1
            by = tried(folder, edit, given.above, below)
            proved += not by
            print(f"{'still proves' if not by else 'refused by ' + by}  {edit.shown(edit.file.read_text(encoding='utf-8'))}", flush=True)
        print(f"{count} of {len(edits)} edits tried, {proved} still prove")
    finally:
        shutil.rmtree(folder)
    sys.exit(0)


main()
