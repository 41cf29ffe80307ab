#!/usr/bin/env python3
"""Kills the program at random moments of a session on a log, and looks at what the log holds then.

A session of 200 lines holds arrays, sets strategies, and starts and awaits versions. TURNS times (100 where none is
given) a new log is made, `run` is killed (SIGKILL) after some milliseconds, and the log is opened again. It has to be
sound, to hold each version whose `done` line was written, and to answer of it what a session that was not killed
answers. It is no test of the gate: it takes a real file, and no clause speaks of one.

    python3 bench/kill.py [PROGRAM [TURNS]]
"""

import os
import random
import signal
import subprocess
import sys
import tempfile
import time

ROOT = os.path.dirname(os.path.dirname(os.path.abspath(__file__)))
LISTS = ["full_one_b", "full_many_f", "comp_one", "comp_many", "blackbox"]


def session() -> list[str]:
    """The 200 lines: a flow of one node, and then in turn a strategy, an array, a start and an await."""
    lines = ['{"flow":"f","inputs":1,"nodes":[{"op":"clean","t":50,"from":[{"i":0}]}]}']
    for turn in range(1, 50):
        cells = [[(turn * 7 + row * 5 + column * 3) % 60 for column in range(12)] for row in range(12)]
        lines.append('{"strategy":"f","node":0,"list":["%s"]}' % LISTS[turn % len(LISTS)])
        lines.append('{"array":"a","cells":%s}' % str(cells).replace(" ", ""))
        lines.append('{"start":"f","base":[["a",%d]]}' % turn)
        lines.append('{"await":%d}' % turn)
    return lines + [""] * (200 - len(lines))


def ask(version: int) -> str:
    """An ask and an explain of a version."""
    rest = '"dir":"back","path":[[0,0]],"cells":[[3,3],[4,7]]}'
    return '{"ask":%d,%s\n{"explain":%d,%s\n' % (version, rest, version, rest)


def replies(program: str, words: list[str], text: str) -> list[str]:
    """What the program writes of a session, without the numbers of the lines."""
    ran = subprocess.run([program, *words], input=text, capture_output=True, text=True, check=True)
    return [line.split(" ", 1)[1] for line in ran.stdout.splitlines()]


def main() -> int:
    program = sys.argv[1] if len(sys.argv) > 1 else f"{ROOT}/crates/subzero/out/subzero"
    turns = int(sys.argv[2]) if len(sys.argv) > 2 else 100
    lines = session()
    text = "\n".join(lines) + "\n"
    versions = range(1, 50)
    whole = replies(program, ["play"], text + "".join(ask(v) for v in versions))
    answers = {v: whole[len(whole) - 98 + 2 * (v - 1) :][:2] for v in versions}
    random.seed(1)
    kept, failed = [], 0
    with tempfile.TemporaryDirectory() as room:
        log = f"{room}/log"
        subprocess.run([program, "init", log], capture_output=True, check=True)
        began = time.monotonic()
        replies(program, ["run", log], text)
        took = time.monotonic() - began
        for turn in range(turns):
            if os.path.exists(log):
                os.remove(log)
            subprocess.run([program, "init", log], capture_output=True, check=True)
            with open(f"{room}/in", "w") as file:
                file.write(text)
            with open(f"{room}/in") as source, open(f"{room}/out", "w") as said:
                ran = subprocess.Popen([program, "run", log], stdin=source, stdout=said, stderr=subprocess.DEVNULL)
                time.sleep(random.uniform(0, took))
                ran.send_signal(signal.SIGKILL)
                ran.wait()
            with open(f"{room}/out") as said:
                written = said.read()
            done = [int(line.split()[2]) for line in written.split("\n")[:-1] if line.split()[1] == "done"]
            checked = subprocess.run([program, "check", log], capture_output=True, text=True)
            again = replies(program, ["run", log], "".join(ask(v) for v in done))
            wanted = [answer for v in done for answer in answers[v]]
            kept.append(len(done))
            sound = [f"sound {count}\n" for count in (len(done), len(done) + 1)]
            if again != wanted or checked.stdout not in sound:
                failed += 1
                print(f"turn {turn}: {len(done)} versions done, {checked.stdout.strip() or checked.stderr.strip()}")
    print(f"{turns - failed} passed, {failed} failed; versions done when it was killed: {min(kept)} to {max(kept)}")
    return 1 if failed else 0


if __name__ == "__main__":
    sys.exit(main())
