#!/usr/bin/env python3
"""Refuses each request for memory in turn, of the program as it is built, and looks at what it does then.

Three sessions are run again and again, each time with one request refused, the first, the second and so on to the last:
a small one in play, one in run on a log that is made anew each time, with a version that is awaited twice, and the
generated session of 8 a side. The program has to end with status 8, having written whole reply lines from the first
on, or with status 0 and all of them: a request of a worker, or for starting one, may be refused and the session still
go on. Each log is opened again: it has to be sound, and to answer of the version what the whole session answers, where
its `done` line was written. It is no test of the gate. It needs a C compiler, for what refuses.

    python3 bench/memory.py [PROGRAM]
"""

import os
import subprocess
import sys
import tempfile

ROOT = os.path.dirname(os.path.dirname(os.path.abspath(__file__)))
REFUSER = r"""
#include <errno.h>
#include <fcntl.h>
#include <stdatomic.h>
#include <stdlib.h>
#include <sys/mman.h>
extern void *__libc_malloc(size_t), *__libc_realloc(void *, size_t), *__libc_calloc(size_t, size_t);
static atomic_long none, *asked = &none;
static long refused;
/* The count stands in a file, since the program may end without a call of what is to be done at an end. */
__attribute__((constructor)) static void begin(void) {
    const char *which = getenv("REFUSED"), *name = getenv("ASKED");
    int file = name ? open(name, O_RDWR) : -1;
    void *at = file < 0 ? MAP_FAILED : mmap(0, sizeof(long), PROT_READ | PROT_WRITE, MAP_SHARED, file, 0);
    if (at == MAP_FAILED) abort();
    asked = at;
    refused = which ? atol(which) : 0;
}
static int is_refused(void) {
    int is = atomic_fetch_add(asked, 1) + 1 == refused;
    if (is) errno = ENOMEM;
    return is;
}
void *malloc(size_t size) { return is_refused() ? 0 : __libc_malloc(size); }
void *realloc(void *at, size_t size) { return is_refused() ? 0 : __libc_realloc(at, size); }
void *calloc(size_t count, size_t size) { return is_refused() ? 0 : __libc_calloc(count, size); }
"""
FIRST = (
    '{"array":"a","cells":[[5,6],[7,8]]}\n'
    '{"flow":"f","inputs":1,"nodes":[{"op":"neg","from":[{"i":0}]},{"op":"clean","t":-6,"from":[{"n":0}]}]}\n'
    '{"strategy":"f","node":0,"list":["full_one_b"]}\n'
    '{"strategy":"f","node":1,"list":["comp_many"]}\n'
    '{"start":"f","base":[["a",1]]}\n'
    '{"await":1}\n'
)
ASKS = '{"ask":1,"dir":"back","path":[[1,0],[0,0]],"cells":[[0,0]]}\n{"show":1,"node":1}\n'


class Runner:
    def __init__(self, program: str, room: str) -> None:
        self.program, self.room = program, room
        with open(f"{room}/refuser.c", "w") as file:
            file.write(REFUSER)
        command = ["cc", "-O2", "-shared", "-fPIC", "-o", f"{room}/refuser.so", f"{room}/refuser.c"]
        subprocess.run(command, check=True)

    def run(self, words: list[str], text: str, refused: int) -> tuple[int, str, int]:
        """The status, what is written, and how many requests were made, where this one is refused."""
        with open(f"{self.room}/asked", "wb") as file:
            file.write(bytes(8))
        env = {**os.environ, "LD_PRELOAD": f"{self.room}/refuser.so"}
        env |= {"REFUSED": str(refused), "ASKED": f"{self.room}/asked"}
        ran = subprocess.run([self.program, *words], input=text, capture_output=True, text=True, env=env)
        with open(f"{self.room}/asked", "rb") as file:
            return ran.returncode, ran.stdout, int.from_bytes(file.read(), sys.byteorder)

    def plain(self, words: list[str], text: str = "") -> tuple[int, str]:
        ran = subprocess.run([self.program, *words], input=text, capture_output=True, text=True)
        return ran.returncode, ran.stdout


def without_numbers(said: str) -> list[str]:
    return [line.split(" ", 1)[1] for line in said.splitlines()]


def is_first_part(part: str, whole: str) -> bool:
    return whole.startswith(part) and (part == "" or part.endswith("\n"))


def opens_again(runner: Runner, log: str, said: str, answers: list[str]) -> bool:
    """Whether the log is sound, and answers of the version, or has none that was said to be done."""
    status, checked = runner.plain(["check", log])
    if status != 0 or checked not in ("sound 0\n", "sound 1\n"):
        return False
    status, again = runner.plain(["run", log], ASKS)
    wanted = ["refused 15", "refused 15"] if checked == "sound 0\n" else answers
    was_done = " done 1\n" in said
    return status == 0 and without_numbers(again) == wanted and (checked == "sound 1\n" or not was_done)


def main() -> int:
    program = sys.argv[1] if len(sys.argv) > 1 else f"{ROOT}/crates/subzero/out/subzero"
    failed = 0
    with tempfile.TemporaryDirectory() as room:
        runner = Runner(program, room)
        log = f"{room}/log"
        answers = without_numbers(runner.plain(["play"], FIRST + ASKS)[1])[-2:]
        cases = {
            "play": (["play"], FIRST + ASKS),
            "run": (["run", log], FIRST + '{"await":1}\n' + ASKS),
            "load": (["load", "--side", "8"], ""),
        }
        for name, (words, text) in cases.items():
            if name == "run":
                runner.plain(["init", log])
            status, whole, most = runner.run(words, text, 0)
            assert status == 0, name
            ended, went_on, wrong, refused = 0, 0, [], 0
            while refused < most:
                refused += 1
                if name == "run":
                    os.remove(log)
                    runner.plain(["init", log])
                status, said, asked = runner.run(words, text, refused)
                most = max(most, asked)
                right = status == 8 and is_first_part(said, whole) or status == 0 and said == whole
                right = right and (name != "run" or opens_again(runner, log, said, answers))
                ended += status == 8
                went_on += status == 0
                if not right:
                    wrong.append((refused, status, said))
            print(f"{name}: {most} requests, each refused once: {ended} ended for want of memory, {went_on} went on")
            for one in wrong[:5]:
                print("  wrong:", one)
            failed += len(wrong)
    print(f"{failed} wrong")
    return 1 if failed else 0


if __name__ == "__main__":
    sys.exit(main())
