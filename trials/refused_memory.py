#!/usr/bin/env python3
"""Runs the built program with each of its requests for memory refused in turn, one a run, and compares what comes.

Use: trials/refused_memory.py PROGRAM [EVERY]

With EVERY, only each so-many-th request is refused. A run has to give what it gives with ample memory, or status 4 with the lines of
that status, on the error stream alone where the words were not understood yet; or status 5 and nothing, where the words do not even
reach the program. A small library that is loaded before the C
library counts the requests and refuses the one that MGTP_REFUSE names; it is built with `cc`.
"""
import concurrent.futures
import os
import subprocess
import sys
import tempfile

LIBRARY = r"""
#define _GNU_SOURCE
#include <dlfcn.h>
#include <errno.h>
#include <stdlib.h>
#include <unistd.h>
static long count, wanted = -1;
static int begun;
/* Whether this request is refused. Requests are counted from 1. */
static int refuses(void) {
    if (!begun) { const char *text = getenv("MGTP_REFUSE"); begun = 1; if (text) wanted = atol(text); }
    return ++count == wanted;
}
#define NEXT(name) static typeof(&name) next; if (!next) next = (typeof(&name))dlsym(RTLD_NEXT, #name)
void *malloc(size_t size) { NEXT(malloc); return refuses() ? NULL : next(size); }
void *realloc(void *old, size_t size) { NEXT(realloc); return refuses() ? NULL : next(old, size); }
void *aligned_alloc(size_t align, size_t size) { NEXT(aligned_alloc); return refuses() ? NULL : next(align, size); }
int posix_memalign(void **place, size_t align, size_t size) {
    NEXT(posix_memalign); return refuses() ? ENOMEM : next(place, align, size); }
/* The number of requests goes to the descriptor that MGTP_TELL names. */
__attribute__((destructor)) static void tell(void) {
    const char *place = getenv("MGTP_TELL"); char text[24]; int at = sizeof text; long rest = count;
    do text[--at] = '0' + rest % 10; while (rest /= 10);
    if (place && write(atoi(place), text + at, sizeof text - at) < 0) return;
}
"""


def clauses(*bodies):
    return "".join("cnf(c%d,axiom,%s).\n" % (number, body) for number, body in enumerate(bodies, 1))


with open(os.path.join(os.path.dirname(os.path.abspath(__file__)), "..", "examples", "mansion.p")) as mansion:
    MANSION = mansion.read()

# Words, and the problem file that they name.
RUNS = [
    ("prove x.p", clauses("p(a)", "~p(X)|q(X)", "~q(a)")),
    ("models x.p", clauses("p|q", "~p|r", "~q|r")),
    ("models x.p", "cnf(a,axiom,p). cnf(b,axiom,q). cnf(c,axiom,~p|~q|~r,unknown,[conclude([3])]).\n"),
    ("prove x.p", clauses("x|y", "~x|a|b", "~y|a|b", "~b|a", "~a")),
    ("prove x.p", MANSION),
    ("prove x.p --budget 9", MANSION),
    ("forms x.p", clauses("p(a)", "~p(X)|q(X)", "~q(a)")),
    ("check x.p t", clauses("p(a)", "~p(X)|q(X)", "~q(a)")),
    ("sample 4", None),
    ("models", None),
    ("forms x.p", "cnf(c,axiom,p"),
    ("forms y.p", None),
]
TREE = "mgtp tree 1\nroot\nform 1 []\nform 2 [a]\nform 3 []\n"


def name_of(words):
    parts = words.split()
    return "sample-" + parts[1] if parts[0] == "sample" else parts[1][:-2]


def run(program, words, folder, library, refused):
    """Status, output and messages, and how many requests there were."""
    told, tells = os.pipe()
    environment = {"LD_PRELOAD": library, "MGTP_REFUSE": str(refused), "MGTP_TELL": str(tells)}
    child = subprocess.Popen(
        [program] + words.split(), cwd=folder, env=environment, pass_fds=[tells], stdout=subprocess.PIPE, stderr=subprocess.PIPE)
    out, err = child.communicate(timeout=120)
    os.close(tells)
    with os.fdopen(told, "rb") as pipe:
        count = pipe.read()
    return (child.returncode, out.decode(), err.decode()), count


def is_right(came, ample, words):
    memory_out = 4, "%% SZS status MemoryOut for %s\n" % name_of(words + " x.p"), "mgtp: out of memory\n"
    return came in (ample, memory_out, (4, "", "mgtp: out of memory\n"), (5, "", ""))


def faults_of(program, words, text, library, every):
    with tempfile.TemporaryDirectory() as folder:
        for name, content in ("x.p", text), ("t", TREE):
            if content is not None:
                with open(os.path.join(folder, name), "w") as file:
                    file.write(content)
        ample, count = run(program, words, folder, library, 0)
        requests = range(1, int(count or 0) + 1, every)
        with concurrent.futures.ThreadPoolExecutor() as pool:
            answers = list(pool.map(lambda refused: run(program, words, folder, library, refused)[0], requests))
        wrong = [(refused, came) for refused, came in zip(requests, answers) if not is_right(came, ample, words)]
        for refused, came in wrong[:3]:
            print("%s: request %d refused: %s" % (words, refused, [str(part)[:200] for part in came]))
        refusals = sum(came[0] == 4 for came in answers)
        return len(requests), refusals, len(wrong)


def main():
    program, every = os.path.abspath(sys.argv[1]), int(sys.argv[2]) if len(sys.argv) > 2 else 1
    requests = refusals = wrong = 0
    with tempfile.TemporaryDirectory() as folder:
        source, library = os.path.join(folder, "refuse.c"), os.path.join(folder, "refuse.so")
        with open(source, "w") as file:
            file.write(LIBRARY)
        subprocess.run(["cc", "-O1", "-shared", "-fPIC", "-o", library, source, "-ldl"], check=True)
        for words, text in RUNS:
            made = faults_of(program, words, text, library, every)
            requests, refusals, wrong = requests + made[0], refusals + made[1], wrong + made[2]
    print("refused memory: %d requests, %d answered by status 4, %d answers that may not come" % (requests, refusals, wrong))
    return 1 if wrong or not refusals else 0


if __name__ == "__main__":
    sys.exit(main())
