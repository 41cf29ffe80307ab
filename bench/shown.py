#!/usr/bin/env python3
"""Tries whether edits show something: with the answers of the edited function taken away, is the clause that its `why:`
names among the goals that stay open?

    python3 bench/shown.py CRATE..                 each edit in must-fail/ of these crates
    python3 bench/shown.py --rested CRATE..        each in rested/
    python3 bench/shown.py --minutes 60 CRATE..    stops after so long

An edit whose body branches elsewhere renames goals, and is refused since the proof names ones that are gone: that shows
nothing of the contract. So each is put into a copy of the repository, the answers of the function that it edits are
taken away (its invariants stay), and the crate is checked for that function alone (`rt check --only F --allow-holes`);
edits of different functions of a crate are tried at once.
The goals that the search leaves open are printed beside what `why:` says, and the line begins with

    shows     a goal of a clause that `why:` names is open, or of the lone clause
    other     goals are open, and none of them is named there
    nothing   none is open: the edited body is proved by the search alone
    not read  the edit, its function or the check's words were not understood

It is no test and no part of the gate. A check starts from what the copy's own checks kept, so the first of a crate
takes as long as a first check does.
"""
import argparse
import pathlib
import re
import shutil
import subprocess
import sys
import tempfile
import time
from dataclasses import dataclass

ROOT = pathlib.Path(__file__).resolve().parent.parent


def read_edit(path: pathlib.Path) -> tuple[str, list[tuple[str, str]], str]:
    """The file that is edited, the old and new texts, put in one after the other, and why it is to be refused."""
    file, why = "", []
    pairs: list[tuple[list[str], list[str]]] = []
    for line in path.read_text(encoding="utf-8").splitlines():
        head, _, rest = line.partition(":")
        if head == "file":
            file = rest.strip()
        elif head == "why":
            why.append(rest.strip())
        elif head == "old":
            if not pairs or pairs[-1][1]:
                pairs.append(([], []))
            pairs[-1][0].append(rest[1:])
        elif head == "new":
            pairs[-1][1].append(rest[1:])
    return file, [("\n".join(old), "\n".join(new)) for old, new in pairs], " ".join(why)


FUNCTION = r"^( *)(?:pub(?:\([a-z]+\))? )?(?:const )?fn (\w+)"
HEAD = r"^(?:impl|trait|pub trait|pub\(crate\) trait)\b(?:<.*?>)? ?(?:(\w+)(?:<.*>)? for )?(\w+)"


@dataclass(frozen=True)
class Edit:
    """An edit of a crate, and the whole name of the function that it changes, as a check prints it."""

    crate: str
    path: pathlib.Path
    file: str
    pairs: tuple[tuple[str, str], ...]
    why: str
    function: str


def function_at(text: str, place: int, why: str) -> tuple[str, str, str] | None:
    """The trait, the type and the name of the function round a place of a source, or of one that `why:` names."""
    before = text[:place]
    fns = list(re.finditer(FUNCTION, before, re.M))
    if not fns:
        fns = [one for one in re.finditer(FUNCTION, text, re.M) if re.search(rf"\b{one[2]}\b", why)]
        before = text[: fns[-1].end()] if fns else ""
    if not fns:
        return None
    heads = list(re.finditer(HEAD, before, re.M)) if fns[-1][1] else []
    return (heads[-1][1] or "", heads[-1][2], fns[-1][2]) if heads else ("", "", fns[-1][2])


def is_named(name: str, trait: str, kind: str, function: str) -> bool:
    """Whether a name that a check prints is this function's. A method's type stands with what it is of, or its trait."""
    parts = name.split("::")
    if parts[-1] != function:
        return False
    if not kind:
        return True
    owner = parts[-2]
    of_trait = owner.startswith(kind) and trait in owner[len(kind) :]
    return of_trait if trait else owner == kind or owner.startswith(f"{kind}+")


def read_whole(folder: pathlib.Path, crate: str, path: pathlib.Path, names: list[str]) -> Edit | str:
    """The edit with its function's name, or why it cannot be tried."""
    file, pairs, why = read_edit(path)
    text = (folder / file).read_text(encoding="utf-8")
    old = pairs[0][0]
    if text.count(old) != 1:
        return "its old text stands there not just once"
    found = function_at(text, text.index(old) + len(old) - len(old.lstrip()) + 1, why)
    if found is None:
        return "it is in no function"
    module = [part for part in pathlib.Path(file).with_suffix("").parts[1:] if part not in ("lib", "main", "mod")]
    fitting = [name for name in names if is_named(name, *found)]
    near = [name for name in fitting if name.split("::")[1:-1][: len(module)] == module] or fitting
    if not near:
        return f"no function is called {'::'.join(filter(None, found))}"
    return Edit(crate, path, file, tuple(pairs), why, near[0])


def in_groups(edits: list[Edit]) -> list[list[Edit]]:
    """The edits in groups, in none of which a function is changed twice."""
    groups: list[list[Edit]] = []
    for edit in edits:
        group = next((one for one in groups if all(other.function != edit.function for other in one)), None)
        if group is None:
            groups.append([edit])
        else:
            group.append(edit)
    return groups


def try_group(copy: pathlib.Path, edits: list[Edit]) -> dict[Edit, tuple[str, str]]:
    """What becomes of some edits of one crate that are made at once, each function without its answers."""
    folder = copy / "crates" / edits[0].crate
    texts = {file: (folder / file).read_text(encoding="utf-8") for file in {edit.file for edit in edits}}
    answers = {edit: folder / "proofs" / "/".join(edit.function.split("::")[1:]) / "Answers.antt" for edit in edits}
    aside = {edit: path.read_bytes() for edit, path in answers.items() if path.exists()}
    only = [word for edit in edits for word in ("--only", "::".join(edit.function.split("::")[1:]))]
    try:
        for edit in edits:
            source = folder / edit.file
            for old, new in edit.pairs:
                source.write_text(source.read_text(encoding="utf-8").replace(old, new), encoding="utf-8")
            answers[edit].unlink(missing_ok=True)
        said = subprocess.run(
            ["rt", "check", *only, "--allow-holes"], cwd=folder, capture_output=True, text=True, check=False
        )
    finally:
        for file, text in texts.items():
            (folder / file).write_text(text, encoding="utf-8")
        for edit, kept in aside.items():
            answers[edit].write_bytes(kept)
    words = said.stdout + said.stderr
    (copy / "last.log").write_text(words, encoding="utf-8")
    found = goals_in(words)
    if not found and len(edits) > 1:
        return {edit: told for edit in edits for told in try_group(copy, [edit]).values()}
    return {edit: verdict_of(edit, {goal for goal, place in found if place == "/".join(edit.function.split("::")[1:])},
                             said.returncode, words) for edit in edits}


def goals_in(words: str) -> list[tuple[str, str]]:
    """The goals that a check left open, each with the place of its function's proofs: of some it prints the goal, of
    others only that the search did not prove it."""
    found = re.findall(r"^note: `([\w-]+)` of proofs/(\S+)/\w+\.antt must prove", words, re.M)
    unproved = r"^fn (\S+): no proof: .*?`search` did not prove ((?:`[\w-]+`(?:, | and )?)+)"
    for line in re.finditer(unproved, words, re.M):
        place = "/".join(line[1].split("::")[1:])
        found += [(goal, place) for goal in re.findall(r"`([\w-]+)`", line[2])]
    return found


def verdict_of(edit: Edit, goals: set[str], status: int, words: str) -> tuple[str, str]:
    if not goals:
        return ("nothing" if status == 0 or "holes=" in words else "not read"), " ".join(words.split())[-160:]
    named = [goal for goal in goals if "clause-" not in goal or re.search(
        rf"\b{re.escape(goal.split('clause-')[-1])}\b", edit.why)]
    return ("shows" if named else "other"), f"{' '.join(sorted(goals))} | {edit.why}"


def main() -> None:
    words = argparse.ArgumentParser()
    words.add_argument("--rested", action="store_true")
    words.add_argument("--minutes", type=float, default=1e9)
    words.add_argument("--over", type=pathlib.Path, help="a copy of the repository to work in, where one was checked")
    words.add_argument("crates", nargs="+")
    given = words.parse_args()
    end = time.time() + 60 * given.minutes
    copy = given.over or pathlib.Path(tempfile.mkdtemp()) / "copy"
    if given.over is None:
        shutil.copytree(ROOT, copy, ignore=shutil.ignore_patterns(".git"))
    kind = "rested" if given.rested else "must-fail"
    for crate in given.crates:
        folder = copy / "crates" / crate
        first = subprocess.run(["rt", "check"], cwd=folder, capture_output=True, text=True, check=False)
        names = re.findall(rf"^fn ({crate}::\S+): proved", first.stdout + first.stderr, re.M)
        read = [(path, read_whole(folder, crate, path, names)) for path in sorted((folder / kind).glob("*.edit"))]
        for path, edit in read:
            if isinstance(edit, str):
                print(f"not read {crate} {path.stem}: {edit}", flush=True)
        for group in in_groups([edit for _, edit in read if isinstance(edit, Edit)]):
            if time.time() > end:
                sys.exit("out of time")
            for edit, (verdict, words_of) in try_group(copy, group).items():
                print(f"{verdict:8} {crate} {edit.path.stem}: {words_of}", flush=True)


if __name__ == "__main__":
    main()
