#!/usr/bin/env python3
"""Makes problems, runs the program on them, checks each answer, and prints a table of processor seconds and of memory.

Use: bench/search_speed.py PROGRAM [--part N] [--seconds S] [--only WORD]

With `--part N` the problems have an N-th of their size; a run with N and one with half of it show how the time grows. A run that takes
longer than S seconds (60 else) is cut off. Behind the seconds of a problem of whole size stands the time of a plain Rust program
of the same calculus on another machine: a mark to read the figures by, and no measurement of this run.
"""
import argparse
import os
import random
import resource
import subprocess
import sys
import tempfile


def problem(clauses):
    return "".join("cnf(c%d,axiom,%s).\n" % (number, clause) for number, clause in enumerate(clauses, 1))


def chain(size, closed):
    clauses = ["p0"] + ["~p%d|p%d" % (i - 1, i) for i in range(1, size)]
    return problem(clauses + (["~p%d" % (size - 1)] if closed else []))


def chain_down(size):
    return problem(["p%d" % (size - 1)] + ["~p%d|p%d" % (i, i - 1) for i in range(1, size)])


def closure(size):
    edges = ["e(n%d,n%d)" % (i, i + 1) for i in range(size)]
    return problem(edges + ["~e(X,Y)|p(X,Y)", "~p(X,Y)|~e(Y,Z)|p(X,Z)"])


def join(size):
    facts = ["p(a%d,b%d)" % (i, i) for i in range(size)] + ["q(b%d,c%d)" % (i, i) for i in range(size)]
    return problem(facts + ["~p(X,Y)|~q(Y,Z)|r(X,Z)"])


def product(size):
    facts = ["p(a%d)" % i for i in range(size)] + ["q(b%d)" % i for i in range(size)]
    return problem(facts + ["~p(X)|~q(Y)|~s(X,Y)"])


def pigeons(holes):
    sits = ["|".join("in(%d,%d)" % (i, j) for j in range(holes)) for i in range(holes + 1)]
    apart = [
        "~in(%d,%d)|~in(%d,%d)" % (i, j, k, j) for j in range(holes) for i in range(holes + 1) for k in range(i + 1, holes + 1)
    ]
    return problem(sits + apart)


def satisfaction(atoms, clauses):
    pick = random.Random(1)
    rows = [pick.sample(range(atoms), 3) for _ in range(clauses)]
    return problem(["|".join(("" if pick.random() < 0.5 else "~") + "p%d" % atom for atom in row) for row in rows])


def colouring(nodes, edges):
    pick = random.Random(1)
    pairs = pick.sample([(i, j) for i in range(nodes) for j in range(i + 1, nodes)], edges)
    colours = ["red", "green", "blue"]
    clauses = ["node(%d)" % i for i in range(nodes)] + ["edge(%d,%d)" % pair for pair in pairs]
    clauses += ["~node(X)|" + "|".join("%s(X)" % colour for colour in colours)]
    return problem(clauses + ["~edge(X,Y)|~%s(X)|~%s(Y)" % (colour, colour) for colour in colours])


def queens(size):
    places = range(size)
    rows = ["|".join("q(%d,%d)" % (i, j) for j in places) for i in places]
    pairs = [(i, j, k, l) for i in places for j in places for k in range(i + 1, size) for l in places]
    struck = ["~q(%d,%d)|~q(%d,%d)" % p for p in pairs if p[1] == p[3] or abs(p[1] - p[3]) == p[2] - p[0]]
    return problem(rows + struck)


def one_minimal(size):
    return problem(["p%d|q%d" % (i, i) for i in range(size)] + ["~p%d|q%d" % (i, i) for i in range(size)])


def all_minimal(size):
    return problem(["a%d|b%d|c%d" % (i, i, i) for i in range(size)])


def sample_sets(size):
    sets, more = 2, 3
    for _ in range(size - 1):
        sets, more = more, sets + more
    return sets


# What is run, the line that the answer has to have, and seconds of a plain Rust program at the whole size, if there are any.
def rows(part):
    def of(size):
        return max(size // part, 4)

    def less(size):
        return size if part == 1 else max(size - part, 3)

    open_chain, closed_chain = chain(of(15000), False), chain(of(15000), True)
    terms = "cnf(a,axiom,p(a)).\ncnf(b,axiom,~p(X)|p(f(X))).\n"
    many = ["--budget", "1000000"]
    yield "sample %d" % less(20), None, ["sample", str(less(20))], "%% Models complete: %d" % sample_sets(less(20)), 0.12
    yield "chain of %d, open" % of(15000), open_chain, ["models"], "% Models complete: 1", 0.15
    yield "chain of %d, downwards" % of(15000), chain_down(of(15000)), ["models"], "% Models complete: 1", None
    yield "chain of %d, closed" % of(15000), closed_chain, ["prove"], "% SZS status Unsatisfiable for x", 0.14
    yield "terms to weight %d" % of(4000), terms, ["models", "--weight", str(of(4000))], "%% Reason: weight %d" % of(4000), 0.008
    for size, seconds in (200, 0.06), (400, 0.22), (1000, 1.1):
        facts = of(size) * (of(size) + 1) // 2
        yield "closure, %d facts" % facts, closure(of(size)), ["models"] + many, "% Models complete: 1", seconds
    yield "join of %d" % of(9000), join(of(9000)), ["models"], "% Models complete: 1", 0.20
    yield "%d times %d" % (of(1500), of(1500)), product(of(1500)), ["models"], "% Models complete: 1", 0.9
    for holes, seconds in (6, 0.021), (7, 0.15):
        yield "pigeons, %d holes" % less(holes), pigeons(less(holes)), ["prove"], "% SZS status Unsatisfiable for x", seconds
    yield "3-SAT, %d atoms" % of(60), satisfaction(of(60), of(258)), ["prove"] + many, None, 0.21
    yield "3-colouring, %d nodes" % of(40), colouring(of(40), min(of(90), of(40) * (of(40) - 1) // 2)), ["prove"] + many, None, 0.20
    yield "%d queens" % less(8), queens(less(8)), ["models"], "% Models complete: 92" if less(8) == 8 else None, 0.025
    yield "%d found, one minimal" % 2 ** less(15), one_minimal(less(15)), ["models"] + many, "% Models complete: 1", 0.16
    yield "%d minimal" % 3 ** less(9), all_minimal(less(9)), ["models"] + many, "%% Models complete: %d" % 3 ** less(9), 0.11


def run(words, output, limit):
    """Processor seconds and mebibytes of a run, or nothing where it was cut off."""
    with open(output, "w") as out:
        child = subprocess.Popen(words, stdout=out, preexec_fn=lambda: resource.setrlimit(resource.RLIMIT_CPU, (limit, limit)))
        _, status, usage = os.wait4(child.pid, 0)
    if os.WIFSIGNALED(status):
        return None
    return usage.ru_utime + usage.ru_stime, usage.ru_maxrss / 1024


def main():
    words = argparse.ArgumentParser()
    words.add_argument("program")
    words.add_argument("--part", type=int, default=1)
    words.add_argument("--seconds", type=int, default=60)
    words.add_argument("--only", default="")
    asked = words.parse_args()
    program = os.path.abspath(asked.program)
    wrong = 0
    print("| Problem | Seconds | MiB | Plain Rust |\n|---|---|---|---|")
    with tempfile.TemporaryDirectory() as folder:
        name, output = os.path.join(folder, "x.p"), os.path.join(folder, "out")
        for what, text, command, line, seconds in rows(asked.part):
            if asked.only not in what:
                continue
            if text is not None:
                with open(name, "w") as file:
                    file.write(text)
                command = command[:1] + [name] + command[1:]
            measured = run([program] + command, output, asked.seconds)
            mark = "%.3f" % seconds if asked.part == 1 and seconds else ""
            if measured is None:
                print("| %s | over %d | | %s |" % (what, asked.seconds, mark), flush=True)
                continue
            with open(output) as file:
                lines = file.read().splitlines()
            right = line in lines if line else any("SZS status " + v in lines[0] for v in ("Sat", "Unsat"))
            wrong += not right
            print("| %s | %.3f | %.0f | %s |%s" % (what, *measured, mark, "" if right else " WRONG ANSWER"), flush=True)
    return 1 if wrong else 0


if __name__ == "__main__":
    sys.exit(main())
