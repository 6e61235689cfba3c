#!/usr/bin/env python3
"""Counts the places of docs/DESIGN-PASS.md in crates/*/src and crates/*/proofs. `tools/places.py -v` prints each with its line."""
import collections
import glob
import re
import sys

SHOWN = "-v" in sys.argv[1:]


def without_comments(text):
    return re.sub(r"//[^\n]*", "", text)


def sources():
    for path in sorted(glob.glob("crates/*/src/*.rt")):
        with open(path) as file:
            yield path, without_comments(file.read())


def line_of(text, at):
    return text.count("\n", 0, at) + 1


def braces(text, at):
    """The text from the brace at `at` to the one that closes it."""
    depth = 0
    for i in range(at, len(text)):
        depth += {"{": 1, "}": -1}.get(text[i], 0)
        if depth == 0:
            return text[at : i + 1]
    return text[at:]


def functions(text):
    """Each function: where it begins, its name, its parameters and its body."""
    for found in re.finditer(r"\bfn (\w+)(<[^(]*>)?\(", text):
        depth, i = 1, found.end()
        while depth:
            depth += {"(": 1, ")": -1}.get(text[i], 0)
            i += 1
        parameters = [p for p in re.split(r",(?![^<\[(]*[>\])])", text[found.end() : i - 1]) if p.strip()]
        body = re.search(r"\n\s*\{\n|\) (-> [^\n]*)?\{\n", text[i - 1 :])
        at = i - 1 + body.end() - 2 if body else i
        yield found.start(), found.group(1), parameters, braces(text, at) if body else ""


def skeleton(body):
    """A body with its names and numbers numbered in the order in which they come."""
    seen = {}

    def place(word):
        return "#%d" % seen.setdefault(word.group(), len(seen))

    return re.sub(r"\s+", " ", re.sub(r"\b(?!(?:if|else|while|for|in|loop|match|return|break|let|mut|as|true|false)\b)\w+\b", place, body))


places = collections.OrderedDict()


def note(kind, path, text, at, what):
    places.setdefault(kind, []).append("%s:%d: %s" % (path, line_of(text, at), what))


for kind in ["1 enums of two cases", "1 enums with a case of nothing, of a refusal or of no room", "1 a flag beside a value", "1 numbers for kinds or refusals",
             "2 functions alike but for names, types and numbers", "2 one of two sizes", "3 a counted index", "3 other whiles", "4 compared by number",
             "4 written by hand", "5 functions of six parameters or more", "5 functions of ten parameters or more", "6 lists side by side", "6 a list and its place or length",
             "7 boxed or pointed functions"]:
    places[kind] = []

alike = collections.defaultdict(list)
for path, text in sources():
    for found in re.finditer(r"\benum (\w+)\s*\{", text):
        body = braces(text, found.end() - 1)[1:-1]
        cases = [c.strip() for c in re.split(r",\s*\n", body) if c.strip()]
        if len(cases) == 2:
            note("1 enums of two cases", path, text, found.start(), found.group(1))
        elif re.search(r"\b(Nothing|Missing|Bad|Refused|Over|Full|TooMany|Unread|None)\b", body) and "Op" != found.group(1):
            note("1 enums with a case of nothing, of a refusal or of no room", path, text, found.start(), found.group(1))
    for found in re.finditer(r"\bstruct (\w+)[^;{(]*\{", text):
        body = braces(text, found.end() - 1)
        if ": bool" in body and body.count(":") > 1:
            note("1 a flag beside a value", path, text, found.start(), found.group(1))
    for found in re.finditer(r"\bconst (\w+): u(8|32) = \d+;", text):
        note("1 numbers for kinds or refusals", path, text, found.start(), found.group(1))
    for at, name, parameters, body in functions(text):
        if len(body.split("\n")) > 4:
            alike[skeleton(body)].append((path, text, at, name))
        if re.search(r"_(few|many|short|long)$", name):
            note("2 one of two sizes", path, text, at, name)
        if len(parameters) >= 6:
            note("5 functions of six parameters or more", path, text, at, "%s %d" % (name, len(parameters)))
        if len(parameters) >= 10:
            note("5 functions of ten parameters or more", path, text, at, "%s %d" % (name, len(parameters)))
        lists = [p for p in parameters if re.search(r"&(mut )?\[", p)]
        if len(lists) >= 4:
            note("6 lists side by side", path, text, at, "%s %d" % (name, len(lists)))
        if lists and any(re.match(r"\s*(n|at|len|count|many|groups|rows|runs|total|begun|spent): usize", p) for p in parameters):
            note("6 a list and its place or length", path, text, at, name)
        if re.match(r"(same|clear|copy|turn|spread|least|line_end|find|within|number|place|sign_of|operation|word_of|digit|hex_digit|hex_value|blank)(_|$)", name):
            note("4 written by hand", path, text, at, name)
    for found in re.finditer(r"\bwhile ([^{]*)\{\n", text):
        body = braces(text, found.end() - 2)
        step = re.search(r"\b(\w+) [+-]= 1;|\b(\w+) = \2 [+-] 1;", body)
        names = set(re.findall(r"\w+", found.group(1)))
        counted = step and (step.group(1) or step.group(2)) in names
        note("3 a counted index" if counted else "3 other whiles", path, text, found.start(), "while " + found.group(1).strip())
    for found in re.finditer(r"[\w\]]\.0 (==|!=) [\w.]+", text):
        note("4 compared by number", path, text, found.start(), found.group())
    for found in re.finditer(r"\bBox<|\bdyn \b|: fn\(", text):
        note("7 boxed or pointed functions", path, text, found.start(), found.group())
for group in alike.values():
    if len(group) > 1:
        for path, text, at, name in group:
            note("2 functions alike but for names, types and numbers", path, text, at, name)

lines = long = own = 0
for path in glob.glob("crates/*/proofs/**/*.antt", recursive=True):
    with open(path) as file:
        for line in file:
            lines += 1
            long += len(line.rstrip("\n")) > 200
            own += bool(re.search(r"branch-raw|in_default-own|true-raw|false-raw", line))

for kind, found in places.items():
    print("%-66s %4d" % (kind, len(found)))
    if SHOWN:
        for place in found:
            print("    " + place)
print("%-66s %4d" % ("8 lines of proofs", lines))
print("%-66s %4d" % ("8 lines of proofs over 200 characters", long))
print("%-66s %4d" % ("8 lines of proofs with names that are the toolchain's own", own))
