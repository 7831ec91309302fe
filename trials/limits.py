#!/usr/bin/env python3
"""Runs the built program on each limit, met and passed by one, and on large input, and compares what comes to the byte.

Use: trials/limits.py PROGRAM [TEXT]

With TEXT only the cases whose name has it. A refusal for want of memory needs no cause, so no contract refuses a program that
answers it too early: these runs do.
"""
import os
import resource
import subprocess
import sys
import tempfile

MEMORY = 4 << 30
SECONDS = 300


def lines(*parts):
    return "".join(part + "\n" for part in parts)


def forms(*parts):
    return 0, lines(*parts, "%% Forms: %d" % len(parts)), ""


def refused(place, text, value="Inappropriate"):
    return 2, "%% SZS status %s for x\n" % value, "mgtp: x.p:%s: %s\n" % (place, text)


def rejected(line, why):
    return 1, "%% Tree rejected at line %d: %s\n" % (line, why), ""


ACCEPTED = 0, "% SZS status Unsatisfiable for x\n% Tree accepted\n", ""


def usage():
    text = ["usage: mgtp prove FILE [--workers N] [--budget N] [--weight N] [--root DIR]",
            "mgtp models FILE [--workers N] [--budget N] [--weight N] [--root DIR]",
            "mgtp check FILE TREE [--root DIR]", "mgtp forms FILE [--root DIR]", "mgtp sample K [--workers N] [--budget N]"]
    return 2, "", text[0] + "\n" + "".join("       " + line + "\n" for line in text[1:])


def clause(body, name="c"):
    return "cnf(%s,axiom,%s).\n" % (name, body)


def tree(*parts):
    return lines("mgtp tree 1", "root", *parts)


def nested(symbols, function="f"):
    """A term of so many symbols."""
    return (function + "(") * (symbols - 1) + "a" + ")" * (symbols - 1)


def reading_cases():
    variables = ["X%02d" % index for index in range(1, 34)]
    yield "32 variables", "forms x.p", {"x.p": clause("~p(%s)" % ",".join(variables[:32]))}, forms(
        "form 1 c: p(%s) ->" % ",".join("X%d" % index for index in range(1, 33)))
    yield "33 variables", "forms x.p", {"x.p": clause("~p(%s)" % ",".join(variables))}, refused("1:144", "too many variables")
    yield "64 literals", "forms x.p", {"x.p": clause("|".join(["p"] * 64))}, forms("form 1 c: -> " + "; ".join(["p"] * 64))
    yield "65 literals", "forms x.p", {"x.p": clause("|".join(["p"] * 65))}, refused("1:141", "too many literals")
    for count, answer in (100, forms("form 1 c: -> p")), (101, refused("1:113", "brackets nested too deep")):
        yield "%d brackets" % count, "forms x.p", {"x.p": clause("(" * count + "p" + ")" * count)}, answer
    for count, answer in (256, forms()), (257, refused("257:9", "too many includes")):
        yield "%d includes" % count, "forms x.p", {"x.p": "include('e.p').\n" * count, "e.p": ""}, answer
    chain = {"f%d.p" % level: "include('f%d.p').\n" % (level + 1) for level in range(1, 16)}
    yield "files of 16 levels", "forms x.p", {**chain, "x.p": "include('f2.p').\n", "f16.p": clause("p")}, forms("form 1 c: -> p")
    yield "files of 17 levels", "forms x.p", {**chain, "x.p": "include('f2.p').\n", "f16.p": "include('f17.p').\n", "f17.p": ""}, (
        2, "% SZS status Inappropriate for x\n", "mgtp: f16.p:1:9: includes nested too deep\n")
    yield "20,000 clauses", "forms x.p", {"x.p": clause("p") * 20000}, forms(
        *["form %d c: -> p" % number for number in range(1, 20001)])
    yield "20,001 clauses", "forms x.p", {"x.p": clause("p") * 20001}, refused("20001:5", "too many clauses")
    yield "16,777,216 bytes", "forms x.p", {"x.p": " " * 16777216}, forms()
    yield "16,777,217 bytes", "forms x.p", {"x.p": " " * 16777217}, refused("1:1", "input too long")
    half = {"x.p": "include('e.p').\n".ljust(8388608), "e.p": " " * 8388608}
    yield "16,777,216 bytes in two files", "forms x.p", half, forms()
    yield "16,777,217 bytes in two files", "forms x.p", {**half, "e.p": " " * 8388609}, refused("1:9", "input too long")
    names = ["n%d" % index for index in range(3000)]
    files = {"x.p": "include('e.p',[%s]).\n" % ",".join(names[::2]), "e.p": "".join(clause("p", name) for name in names)}
    yield "1,500 selected names", "forms x.p", files, forms(
        *["form %d %s: -> p" % (number, name) for number, name in enumerate(names[::2], 1)])


def form_cases():
    yield "4,096 symbols", "forms x.p", {"x.p": clause("p(%s)" % ",".join(["a"] * 4095))}, forms(
        "form 1 c: -> p(%s)" % ",".join(["a"] * 4095))
    yield "4,097 symbols", "forms x.p", {"x.p": clause("p(%s)" % ",".join(["a"] * 4096))}, refused(
        "1:1", "clause c, literal 1: more than 4096 symbols")
    item, text = "conclude([1])", "cnf(c,axiom,p,unknown,[%s]).\n"
    four = text % ",".join([item] * 4)
    yield "100,000 forms", "forms x.p", {"x.p": four * 20000}, forms(*["form %d c: -> p" % number for number in range(1, 100001)])
    yield "100,001 forms", "forms x.p", {"x.p": four * 19999 + text % ",".join([item] * 5)}, refused("20000:1", "too many forms")
    count = 20000
    wide = "".join(clause("p(%s)" % ",".join("s%d" % (4 * number + part) for part in range(4))) for number in range(count))
    yield "80,001 symbols", "forms x.p", {"x.p": wide}, forms(
        *["form %d c: -> p(%s)" % (number + 1, ",".join("s%d" % (4 * number + part) for part in range(4))) for number in range(count)])


def tree_cases():
    yield "a tree of a million lines", "check x.p t", {
        "x.p": clause("p") + clause("~p"), "t": tree(*["form 1 []"] * 1000000, "form 2 []")}, ACCEPTED
    deep = clause("p(f(a))") + clause("~p(X)")
    for symbols, answer in (65536, rejected(4, "premise")), (65537, rejected(4, "term too heavy")):
        yield "a tree's term of %d symbols" % symbols, "check x.p t", {
            "x.p": deep, "t": tree("form 1 []", "form 2 [%s]" % nested(symbols))}, answer
    for number, answer in ("4294967295", rejected(3, "no such form")), ("4294967296", rejected(3, "line not understood")):
        yield "form %s" % number, "check x.p t", {"x.p": deep, "t": tree("form %s []" % number)}, answer


def satisfiable(*literals):
    text = "model 1:" + "".join(" " + ", ".join(literals) if literals else "")
    return 0, lines("% SZS status Satisfiable for x", "% SZS output start Model for x", text, "% SZS output end Model for x"), ""


def unsatisfiable(*document):
    return 0, lines("% SZS status Unsatisfiable for x", "% SZS output start Proof for x", *document, "% SZS output end Proof for x"), ""


def gave_up(reason):
    return 1, lines("% SZS status GaveUp for x", "% Reason: " + reason), ""


def word_cases():
    for words in "--budget 1000000", "--weight 4096", "--workers 1", "--budget 1 --weight 2":
        yield "prove " + words, "prove x.p " + words, {"x.p": clause("p(a)")}, satisfiable("p(a)")
    for words in "--budget 1000001", "--budget 00", "--weight 4097", "--weight 0", "--workers 0", "--workers 65":
        yield "prove " + words, "prove x.p " + words, {"x.p": clause("p(a)")}, usage()
    for size in "0", "21", "01":
        yield "sample " + size, "sample " + size, {}, usage()


def lemma_case(count):
    """Both branches refute the same literals, so many: by a lemma where it is kept."""
    names = ["a%d" % index for index in range(1, count + 1)]
    text = clause("s|t") + "".join(clause("~s|" + name) + clause("~t|" + name) for name in names)
    text += clause("|".join("~" + name for name in names) + "|b") + clause("~b")
    left = ["form %d []" % (2 * index) for index in range(1, count + 1)]
    right = ["form %d []" % (2 * index + 1) for index in range(1, count + 1)]
    end = ["form %d []" % (2 * count + 2), "form %d []" % (2 * count + 3)]
    if count > 8:
        document = ["mgtp tree 1", "root", "form 1 []", *left, *end, *right, *end]
    else:
        block = ["lemma 1", "inside [%s]" % ",".join(names), "outside []", *end]
        document = ["mgtp tree 1", *block, "root", "form 1 []", *left, "by 1", *right, "by 1"]
    return "a lemma of %d literals" % count, "prove x.p", {"x.p": text}, unsatisfiable(*document)


def search_cases():
    grow = clause("p(a)") + clause("~p(X)|p(f(X))")
    yield "no extension", "prove x.p --budget 0", {"x.p": grow}, gave_up("budget 0")
    yield "weight 1", "prove x.p --weight 1", {"x.p": grow}, gave_up("weight 1")
    yield "terms of 4,095 symbols", "prove x.p --weight 4096 --budget 1000000", {"x.p": grow}, gave_up("weight 4096")
    yield "an empty clause behind 99,995 forms", "prove x.p", {
        "x.p": "cnf(c,axiom,p|q,unknown,[%s]).\n" % ",".join(["conclude([1])"] * 4) * 19999 + clause("$false")}, unsatisfiable(
            "mgtp tree 1", "root", "form 99996 []")
    yield lemma_case(8)
    yield lemma_case(9)
    count = 707
    facts = "".join(clause("a(c%03d)" % index) for index in range(count))
    names = ["c%03d" % index for index in range(count)]
    held = ["a(%s)" % name for name in names] + ["p(%s,%s)" % (one, other) for one in names for other in names]
    pairs = facts + clause("~a(X)|~a(Y)|p(X,Y)")
    yield "a branch of 500,556 literals", "prove x.p --budget 1000000", {"x.p": pairs}, satisfiable(*held)
    yield "a budget that is spent after 500,555", "prove x.p --budget 500555", {"x.p": pairs}, gave_up("budget 500555")


def cases():
    for made in reading_cases, form_cases, tree_cases, word_cases, search_cases:
        yield from made()


def limit_memory():
    resource.setrlimit(resource.RLIMIT_AS, (MEMORY, MEMORY))


def answer_of(program, words, files):
    with tempfile.TemporaryDirectory() as folder:
        for name, text in files.items():
            with open(os.path.join(folder, name), "w") as file:
                file.write(text)
        done = subprocess.run([os.path.abspath(program)] + words.split(), cwd=folder, capture_output=True, timeout=SECONDS, preexec_fn=limit_memory)
        return done.returncode, done.stdout.decode(), done.stderr.decode()


def main():
    program, text = sys.argv[1], sys.argv[2] if len(sys.argv) > 2 else ""
    right = wrong = 0
    for name, words, files, answer in cases():
        if text not in name:
            continue
        came = answer_of(program, words, files)
        if came == answer:
            right += 1
        else:
            wrong += 1
            print("%s: another answer: %s" % (name, [part if isinstance(part, int) else part[:200] for part in came]))
    print("limits: %d answers as they should be, %d not" % (right, wrong))
    return 1 if wrong or not right else 0


if __name__ == "__main__":
    sys.exit(main())
