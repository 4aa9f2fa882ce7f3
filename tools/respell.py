#!/usr/bin/env python3
"""Brings this repository's own definitions, lemmas, fields and constructors to snake case: dashes become underscores.

usage: python3 tools/respell.py     at the top of the repository, once, after port.py

What is renamed: names that a file of specs/ or proofs/ declares (top-level names, fields, constructors), in .antt files, in clauses and `ghost use`
lines of .rt files, in must-fail edits, and between backquotes in comments and pages. What is not: functions and items of src/, text in strings, names that
Rattle makes for a proof of a function (goals, fields of its steps, `f-spec`).
Names that would fall together with another name of the same file are listed and make the script fail before it writes.
"""

import collections
import os
import re
import subprocess
import sys

ROOT = os.getcwd()
CRATES = os.path.join(ROOT, "crates")
# An identifier of antt: what stands between blanks, brackets and punctuation.
WORD = re.compile(r"[^\s(){}\[\],;.\\\"`⌜⌝|=:→×←↦«»]+")
# Types keep camel case; the rest of the odd spellings.
BY_HAND = {"Right-text": "RightText", "Good-text": "GoodText", "T-eq": "t_eq", "P-of": "p_of", "P-M2": "p_m2", "P-M3": "p_m3", "P-M7": "p_m7", "true-T": "true_t", "false-T": "false_t", "not_T": "not_T", "bit-and": "bit_of_and", "bit-or": "bit_of_or", "put-part-Inv-loop": "put-part-Inv-loop"}
MARKS = r"(?:(?:abbrev|unfoldable|pub|pattern|private|opaque)\s+)*"
TOP = re.compile(r"^" + MARKS + r"([^\s(){}\[\],;.:]+)\s*(?:\{[^}]*\}\s*)?:(?:\s|$)")
BLOCK = re.compile(r"^" + MARKS + r"(?:record|data)\s+(?:pub\s+)?([^\s(){}\[\],;.:]+)")
FIELD = re.compile(r"^\s+(?:pub\s+)?([^\s(){}\[\],;.:]+(?:\s+[^\s(){}\[\],;.:]+)*)\s*:\s")
CONSTRUCTOR = re.compile(r"^\s+(?:[|]\s*)?([^\s(){}\[\],;.:]+)\s*:\s")


def files(*ends):
    out = []
    for folder, dirs, names in os.walk(CRATES):
        dirs[:] = sorted(d for d in dirs if d != "out")
        out += [os.path.join(folder, f) for f in sorted(names) if f.endswith(ends)]
    return out


def place(path):
    parts = os.path.relpath(path, CRATES).split(os.sep)
    if parts[1] == "specs":
        return "specs"
    return "lemma" if len(parts) == 3 else "function"


def read(path):
    with open(path, encoding="utf-8") as f:
        return f.read()


def spelled(name):
    if name in BY_HAND:
        return BY_HAND[name]
    return name.replace("-", "_").lower() if name[0].islower() or "-" in name else name


def declared():
    """The dashed names that are declared, as top-level names, and as fields or constructors."""
    tops, fields = set(), set()
    for path in files(".antt"):
        where = place(path)
        block, module = False, -1
        for line in read(path).split("\n"):
            # What stands in a block `module _ (..) where` is declared two blanks further in, once for each block around it.
            depth = len(line) - len(line.lstrip())
            if line.strip() and not line.lstrip().startswith("--"):
                module = min(module, depth - 2) if depth % 2 == 0 and depth - 2 < module else module
                if line.lstrip().startswith("module "):
                    module = depth
                elif module >= 0 and depth == module + 2:
                    line = line.lstrip()
            if line and not line[0].isspace() and not line.startswith("--"):
                block = bool(BLOCK.match(line)) and where != "function"
                top = TOP.match(line)
                if top and "-" in top.group(1):
                    name = top.group(1)
                    # In a function's own folder Rattle names goals, loops' invariants and the proof itself.
                    if where != "function" or not re.search(r":\s*(tie|goal|needs|given|inv)\b|^(invariant|decreases|loop|returns)\b", line) and not name.endswith("-spec"):
                        tops.add(name)
                kind = BLOCK.match(line)
                if kind and "-" in kind.group(1) and where != "function":
                    tops.add(kind.group(1))
            elif block and line.strip() and not line.strip().startswith("--"):
                m = FIELD.match(line)
                if m:
                    fields.update(n for n in m.group(1).split() if "-" in n and n not in ("→",))
    return tops, fields


def made():
    """Names that Rattle makes of functions of src/, in the older spelling: a dash for each underscore."""
    out = set()
    for path in files(".rt"):
        out.update(n.replace("_", "-") for n in re.findall(r"\bfn (\w+)", read(path)) if "_" in n)
    return out


def turn(text, names, fields, functions, in_function):
    """Maps words of antt text. A word behind a dot is a field or stands in a path."""

    def one(m):
        word = m.group(0)
        before = text[m.start() - 1] if m.start() else ""
        base = word
        if "-" not in base:
            return word
        if before == ".":
            stem = re.sub(r"\d+$", "", base)
            if base in fields and not (in_function and stem in functions):
                return spelled(base)
            # `path.name` of a module, not of a value
            head = re.search(r"([A-Z]\w*)\.$", text[: m.start()])
            if head and base in names:
                return spelled(base)
            return word
        if base in names or base in fields:
            return spelled(base)
        return word

    return WORD.sub(one, text)


def split_line(line, mark):
    """The code and the comment of a line."""
    at = line.find(mark)
    return (line, "") if at < 0 else (line[:at], line[at:])


def quoted(text, every):
    return re.sub(r"`([^`\n]+)`", lambda m: "`" + WORD.sub(lambda w: spelled(w.group(0)) if w.group(0) in every and "-" in w.group(0) else w.group(0), m.group(1)) + "`", text)


def foreign(text):
    """The words that a file takes from modules of other repositories."""
    out = set()
    for m in re.finditer(r"^(?:pub )?(?:ghost )?use ([\w.+]+)\.\{([^}]*)\}", text, re.M):
        head = m.group(1).split(".")
        if not (head[0] == "Rattle" and os.path.isdir(os.path.join(CRATES, head[1]))):
            for part in m.group(2).split(","):
                out.update(w.strip() for w in part.split(" as "))
    return out


def turn_antt(text, tops, fields, functions, in_function):
    out = []
    tops = tops - foreign(text)
    for line in text.split("\n"):
        code, comment = split_line(line, "--")
        out.append(turn(code, tops, fields, functions, in_function) + quoted(comment, tops | fields))
    return "\n".join(out)


def turn_rt(text, tops, fields, functions):
    out = []
    tops = tops - foreign(text)
    for line in text.split("\n"):
        code, comment = split_line(line, "//")
        if '"' in code and not code.lstrip().startswith("ghost"):
            parts = re.split(r'("(?:[^"\\]|\\.)*")', code)
            code = "".join(p if p.startswith('"') else turn(p, tops, fields, functions, False) for p in parts)
        else:
            code = turn(code, tops, fields, functions, False)
        out.append(code + quoted(comment, tops | fields))
    return "\n".join(out)


def words(text):
    lines = (split_line(l, "--")[0] for l in text.split("\n"))
    return set(WORD.findall(re.sub(r"Rattle\.[\w.+]+", "", "\n".join(lines))))


def main():
    tops, fields = declared()
    functions = made()
    # A word that one function's own folder declares as a helper, and that Rattle makes elsewhere, keeps its spelling there: goals end in these.
    renamed = {n: spelled(n) for n in tops | fields}
    clash = collections.defaultdict(set)
    back = collections.defaultdict(set)
    for old, new in renamed.items():
        back[new].add(old)
    for new, olds in back.items():
        if len(olds) > 1:
            clash[new] |= olds
    texts = {}
    for path in files(".antt", ".rt", ".edit"):
        old = read(path)
        if path.endswith(".antt"):
            new = turn_antt(old, tops, fields, functions, place(path) == "function")
        elif path.endswith(".rt"):
            new = turn_rt(old, tops, fields, functions)
        else:
            head = re.search(r"^file: (\S+)", old, re.M)
            new = turn_antt(old, tops, fields, functions, False) if head and head.group(1).endswith(".antt") else turn_rt(old, tops, fields, functions)
        if path.endswith(".antt"):
            before = words(old)
            for old_name, new_name in renamed.items():
                if old_name in before and new_name in before and old_name != new_name:
                    clash[new_name].add(os.path.relpath(path, CRATES) + ": " + old_name)
        if new != old:
            texts[path] = new
    for folder, dirs, names in os.walk(ROOT):
        dirs[:] = sorted(d for d in dirs if d not in ("out", ".git", "target", "crates"))
        for f in sorted(names):
            if f.endswith(".md"):
                path = os.path.join(folder, f)
                old = read(path)
                new = quoted(old, tops | fields)
                if new != old:
                    texts[path] = new
    if clash:
        for new, olds in sorted(clash.items()):
            print("falls together:", new, sorted(olds))
        return 1
    for path, text in texts.items():
        with open(path, "w", encoding="utf-8") as f:
            f.write(text)
    print(f"{len(renamed)} names, {len(texts)} files")
    return 0


sys.exit(main())
