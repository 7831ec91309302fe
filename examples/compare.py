#!/usr/bin/env python3
"""Runs each command that a text shows and compares what comes with what the text shows, to the byte.

Use: examples/compare.py PROGRAM TEXT...

A command stands behind `$ `, in a text of Markdown within four spaces of a block; its lines end with the next command or an
empty line. In a text of Markdown these are what a terminal shows, the output and then the messages. In any other text lines
behind `! ` are messages, the one behind `= ` is the status, and all others are the output. Commands run in an empty folder
in which `./mgtp` is the program and `examples` the folder of the examples.
"""
import os
import subprocess
import sys
import tempfile


def commands_of(path):
    """Each command of a text with the number of its line and the lines that are shown of it."""
    indent = "    " if path.endswith(".md") else ""
    shown = None
    with open(path) as text:
        for number, line in enumerate(text, 1):
            line = line.rstrip("\n")
            if not line.startswith(indent) or not line.strip():
                shown = None
            elif line.startswith(indent + "$ "):
                shown = []
                yield number, line[len(indent) + 2:], shown
            elif shown is not None:
                shown.append(line[len(indent):])


def lines_of(lines):
    return "".join(line + "\n" for line in lines).encode()


def run(program, command, together):
    with tempfile.TemporaryDirectory() as folder:
        os.symlink(os.path.abspath(program), os.path.join(folder, "mgtp"))
        os.symlink(os.path.dirname(os.path.abspath(__file__)), os.path.join(folder, "examples"))
        messages = subprocess.STDOUT if together else subprocess.PIPE
        return subprocess.run(["sh", "-c", command], cwd=folder, stdout=subprocess.PIPE, stderr=messages, timeout=300)


def is_right(program, path, command, shown):
    if path.endswith(".md"):
        return run(program, command, True).stdout == lines_of(shown)
    done = run(program, command, False)
    messages = [line[2:] for line in shown if line.startswith("! ")]
    statuses = [line[2:] for line in shown if line.startswith("= ")]
    output = [line for line in shown if not line.startswith(("! ", "= "))]
    return (done.stdout, done.stderr, [str(done.returncode)]) == (lines_of(output), lines_of(messages), statuses)


def main():
    program, texts = sys.argv[1], sys.argv[2:]
    right = wrong = 0
    for path in texts:
        for number, command, shown in list(commands_of(path)):
            if not command.startswith("./mgtp"):
                continue
            if is_right(program, path, command, shown):
                right += 1
            else:
                wrong += 1
                print("%s:%d: another answer: %s" % (os.path.basename(path), number, command))
    print("examples: %d commands as shown, %d not" % (right, wrong))
    return 1 if wrong or not right else 0


if __name__ == "__main__":
    sys.exit(main())
