#!/usr/bin/env python3
"""Lists the places of the points of docs/DESIGN-PASS.md in the sources, and counts them.

    tools/places.py            the counts
    tools/places.py POINT      the places of one point, 1 to 8
"""
import glob
import re
import sys
from collections import defaultdict

WORDS = {"fn", "pub", "let", "mut", "if", "else", "while", "for", "loop", "match", "return", "break", "continue", "in", "as", "ref",
         "true", "false", "usize", "u8", "u16", "u32", "u64", "bool", "self", "Self", "const", "struct", "enum", "impl", "requires",
         "ensures", "move", "where"}


def sources():
    return sorted(glob.glob("crates/*/src/*.rt"))


def bare(text):
    """The text without comments and with texts in quotes emptied, line by line as before."""
    text = re.sub(r'b?"(\\.|[^"\\\n])*"', '""', text)
    return re.sub(r"//[^\n]*", "", text)


def close(text, at):
    """The place after the bracket that closes the one at a place."""
    depth = 0
    for i in range(at, len(text)):
        if text[i] in "({[":
            depth += 1
        if text[i] in ")}]":
            depth -= 1
            if depth == 0:
                return i + 1
    return len(text)


def functions():
    """Each function: file, line, name, parameters, clauses, body."""
    for file in sources():
        text = bare(open(file).read())
        for m in re.finditer(r"^[ \t]*(?:pub )?(?:extern \"[^\"]*\" )?fn (\w+)(?:<[^(]*>)?\(", text, re.M):
            end = close(text, m.end() - 1)
            at = end
            while at < len(text) and text[at] not in "{;":
                at += 1
            clauses = []
            rest = re.compile(r"\s*(requires|ensures)(?: \w+)?\s*\{")
            head = text[end:at]
            k = re.search(r"\b(requires|ensures)\b", head)
            at = end + k.start() if k else at
            while True:
                c = rest.match(text, at)
                if not c:
                    break
                stop = close(text, c.end() - 1)
                clauses.append((c.group(1), " ".join(text[c.end():stop - 1].split())))
                at = stop
            while at < len(text) and text[at] in " \n\t":
                at += 1
            if at < len(text) and text[at] == "{":
                body = text[at:close(text, at)]
                yield file, text.count("\n", 0, m.start()) + 1, m.group(1), text[m.end():end - 1], clauses, body


def conjuncts(clause):
    """The facts of a clause that are joined by `×`, outermost."""
    depth, start, out = 0, 0, []
    for i, c in enumerate(clause):
        if c in "({[":
            depth += 1
        if c in ")}]":
            depth -= 1
        if c == "×" and depth == 0:
            out.append(clause[start:i])
            start = i + 1
    out.append(clause[start:])
    return [re.sub(r"^\((.*)\)$", r"\1", x.strip()) for x in out]


def enums():
    """Point 1: enums with a value in some variant and none, or a refusal's, in another."""
    for file in sources():
        text = bare(open(file).read())
        for m in re.finditer(r"^(?:pub )?enum (\w+) \{", text, re.M):
            inside = text[m.end():close(text, m.end() - 1) - 1]
            names = re.findall(r"^    (\w+)\b", inside, re.M)
            valued = re.findall(r"^    \w+[ ]?[({]", inside, re.M)
            kind = "a value beside other cases" if valued else "kinds alone"
            yield file, text.count("\n", 0, m.start()) + 1, f"enum {m.group(1)}: {len(names)} cases, {kind}"


def numbers():
    """Point 1: functions with two arms or more that give a number for a case."""
    for file, line, name, _, _, body in functions():
        arms = re.findall(r"[A-Z]\w*(?:\([^)]*\)|\s*\{[^}]*\})? => (?:-?\d|\w+\(\d)", body)
        arms += re.findall(r"number: \d", body)
        if len(arms) > 1:
            yield file, line, f"fn {name}: {len(arms)} numbers"


def flags():
    """Point 1: structs and variants that hold a flag."""
    for file in sources():
        text = bare(open(file).read())
        for m in re.finditer(r"^(?:pub )?struct (\w+)[^;{\n]*\{", text, re.M):
            inside = text[m.end():close(text, m.end() - 1)]
            held = re.findall(r"(\w+): bool", inside)
            if held:
                yield file, text.count("\n", 0, m.start()) + 1, f"struct {m.group(1)}: {', '.join(held)}"


def skeleton(body):
    out = []
    for t in re.findall(r"\w+|[^\s\w]", body):
        out.append(t if t in WORDS else "N" if t[0].isdigit() else "I" if re.match(r"\w", t) else t)
    return " ".join(out)


def twins():
    """Point 2: functions of one shape, of 25 signs or more, and types of one name."""
    by = defaultdict(list)
    for file, line, name, given, _, body in functions():
        s = skeleton("(" + given + ")" + body)
        if len(s.split()) >= 25:
            by[s].append((file, line, name))
    for group in by.values():
        if len(group) > 1:
            file, line, _ = group[0]
            yield file, line, "fn " + ", ".join(f"{f.split('/')[1]}::{n}" for f, _, n in group)
    types = defaultdict(list)
    for file in sources():
        text = bare(open(file).read())
        for m in re.finditer(r"^(?:pub )?(?:struct|enum) (\w+)", text, re.M):
            types[m.group(1)].append((file, text.count("\n", 0, m.start()) + 1))
    for name, places in types.items():
        if len(places) > 1:
            yield places[0][0], places[0][1], f"type {name} in " + ", ".join(f.split("/")[1] for f, _ in places)


def loops():
    """Point 3: `while` and `loop`."""
    for file in sources():
        for k, line in enumerate(bare(open(file).read()).split("\n"), 1):
            m = re.match(r"\s*(?:'\w+: )?(while|loop)\b(.*)", line)
            if m:
                yield file, k, m.group(1) + m.group(2).rstrip(" {")


def by_hand(pattern):
    for file, line, name, given, _, body in functions():
        if re.match(pattern, name):
            yield file, line, f"fn {name}({' '.join(given.split())})"


def conversions():
    """Point 4: functions named for equality, order, copying, conversion or printing."""
    return by_hand(r"(is_)?(same|equal|eq|less|before|copy|put|print|write|show|say|spell|number|from|to|as)(_\w+)?$|\w+_number$|is_of$")


def facts():
    """Point 5: facts that stand in the clauses of three functions or more, and parameters that three or more take together."""
    asked = defaultdict(set)
    for file, line, name, given, clauses, _ in functions():
        for kind, clause in clauses:
            if kind == "requires":
                for fact in conjuncts(clause):
                    asked[re.sub(r"\btable\b|\blent\b", "classes", fact)].add((file, line, name))
    for fact, where in sorted(asked.items(), key=lambda x: -len(x[1])):
        if len(where) > 2:
            f, l, _ = min(where)
            yield f, l, f"requires in {len(where)}: {fact}"
    taken = defaultdict(set)
    for file, line, name, given, _, _ in functions():
        for p in re.findall(r"(\w+): ", given):
            taken[p].add((file, line, name))
    for a, where in sorted(taken.items(), key=lambda x: (-len(x[1]), x[0])):
        beside = [b for b in sorted(taken) if b != a and len(where & taken[b]) * 10 >= len(where) * 9]
        if len(where) > 2 and beside:
            f, l, _ = min(where)
            yield f, l, f"parameter {a} of {len(where)}, always or nearly with {', '.join(beside)}"


def arrays():
    """Point 6: arrays that a function makes, and parameters that are arrays or lent to be written with a place beside them."""
    for file in sources():
        for k, line in enumerate(bare(open(file).read()).split("\n"), 1):
            m = re.match(r"\s*let mut (\w+) = \[[^\]]*; [^\]]*\];", line)
            if m:
                yield file, k, line.strip()


def switches():
    """Point 7: parameters that are flags, `dyn`, `impl Fn` and function pointers."""
    for file, line, name, given, _, _ in functions():
        held = re.findall(r"(\w+): bool", given)
        if held:
            yield file, line, f"fn {name}: {', '.join(held)}"


def answers():
    """Point 8: answers and invariants that are written by hand."""
    for file in sorted(glob.glob("crates/*/proofs/**/Answers.antt", recursive=True)):
        n = len(re.findall(r"^pub ", open(file).read(), re.M))
        if n:
            yield file, 1, f"{n} answers"


POINTS = [(1, "enums of their own", enums), (1, "tables from cases to numbers", numbers), (1, "structs with a flag", flags),
          (2, "twins", twins), (3, "loops by hand", loops), (4, "equality, copying, conversion, printing by name", conversions),
          (5, "facts and parameters that stand together", facts), (6, "arrays made", arrays), (7, "flags as parameters", switches),
          (8, "files of answers", answers)]


def main():
    if len(sys.argv) > 2 or sys.argv[1:] and sys.argv[1] not in "12345678":
        sys.exit(__doc__)
    for point, name, find in POINTS:
        places = list(find())
        if not sys.argv[1:]:
            print(f"{point}  {len(places):4}  {name}")
        elif point == int(sys.argv[1]):
            print(f"{name}: {len(places)}")
            for file, line, what in places:
                print(f"    {file}:{line}  {what}")


main()
