#!/usr/bin/env python3
"""Counts, in the sources of a checkout, the places that docs/DESIGN-PASS.md speaks of: tools/places.py [FOLDER] [--list POINT].

What is counted is what a text shows; whether a place stays, and why, is in docs/DESIGN-PASS.md.
"""
import pathlib
import re
import sys
from collections import defaultdict


class Function:
    def __init__(self, where, name, head, body):
        self.where, self.name, self.head, self.body = where, name, head, body

    def parameters(self):
        inside = re.search(r"fn [a-z_0-9]+(?:<[^(]*>)?\((.*?)\)\s*(?:->|where|requires|ensures|\{|$)", self.head, re.S)
        text = re.sub(r"//[^\n]*", "", inside.group(1)) if inside else ""
        return re.findall(r"(?:^|,)\s*(?:mut )?([a-z_0-9]+|&?(?:mut )?self)\s*(?::|,|$)", re.sub(r"<[^<>]*>|\[[^\[\]]*\]|\([^()]*\)", "", text).strip())

    def clauses(self):
        return re.findall(r"requires(?: [a-z_]+)? \{ (.*) \}", self.head)


def functions(folder):
    found = []
    for path in sorted(folder.glob("crates/*/src/**/*.rt")):
        lines = path.read_text().split("\n")
        at = 0
        while at < len(lines):
            start = re.match(r"( *)(?:pub(?:\([a-z]+\))? )?(?:const )?(?:unsafe )?(?:extern \"C\" )?fn ([a-z_0-9]+)", lines[at])
            if start:
                end = at
                one_line = re.search(r"\{ .* \}$", lines[at]) and "ensures" not in lines[at] and "requires" not in lines[at]
                while not one_line and lines[end] not in (start.group(1) + "}", start.group(1) + "    {}") and end + 1 < len(lines):
                    end += 1
                text = lines[at:end + 1]
                brace = next((k for k, line in enumerate(text) if line == start.group(1) + "{" or re.search(r"\) *(->[^{]*)?\{", line)), 0)
                where = str(path.relative_to(folder)) + ":" + str(at + 1)
                found.append(Function(where, start.group(2), "\n".join(text[:brace + 1]), "\n".join(text[brace + 1:])))
                at = end
            at += 1
    return found


def lines_like(folder, pattern):
    found = []
    for path in sorted(folder.glob("crates/*/src/**/*.rt")):
        for number, line in enumerate(path.read_text().split("\n"), 1):
            if re.search(pattern, line):
                found.append(f"{path.relative_to(folder)}:{number}: {line.strip()}")
    return found


def shape(body):
    """A body with its names and numbers out of it, so that twins look alike."""
    body = re.sub(r"//[^\n]*", "", body)
    body = re.sub(r'b?"[^"]*"|b\'.\'', "T", body)
    body = re.sub(r"\b(?!(?:if|else|match|return|let|mut|while|for|in|loop|as|true|false|self|Some|None|Ok|Err)\b)[A-Za-z_][A-Za-z_0-9]*\b", "n", body)
    body = re.sub(r"\b0x[0-9a-f_]+\b|\b[0-9_]+\b", "0", body)
    return re.sub(r"\s+", " ", body).strip()


def twins(found):
    groups = defaultdict(list)
    for function in found:
        looks = shape(function.body)
        if looks.count(" ") >= 8:
            groups[looks].append(function)
    return ["; ".join(f"{f.where} {f.name}" for f in group) for group in groups.values() if len(group) > 1]


def repeated_clauses(found):
    groups = defaultdict(list)
    for function in found:
        for clause in function.clauses():
            for fact in re.split(r" × ", clause):
                groups[fact].append(function)
    return [fact + ": " + "; ".join(f"{f.where} {f.name}" for f in group) for fact, group in groups.items() if len(group) > 2]


def travelling(found):
    """Sets of four or more parameters that three or more functions have by the same names."""
    groups = defaultdict(list)
    for function in found:
        names = function.parameters()
        if len(names) >= 6:
            groups[tuple(names)].append(function)
    return [f"{f.where} {f.name}: {len(names)}" for names, group in groups.items() for f in group]


def places(folder):
    found = functions(folder)
    return {
        "functions": [f.where + " " + f.name for f in found],
        "1 enums": lines_like(folder, r"^ *(pub(\([a-z]+\))? )?enum "),
        "1 answers with values beside": lines_like(folder, r"^ *(pub )?(answer|number|found|bad|captured|what): (Answer|bool|u8|usize),"),
        "1 numbers for kinds": lines_like(folder, r"^ *(pub(\([a-z]+\))? )?const [A-Z_0-9]+: usize = [0-9]+;"),
        "2 bodies alike": twins(found),
        "3 loops": lines_like(folder, r"^ *(while .*|loop) \{"),
        "4 conversions by hand": lines_like(folder, r"fn (?!from\()[a-z_0-9]+\([a-z_]+: (Host[A-Za-z]+|Section|[a-z:]*Kind)\) -> |^ *(?!pub extern)fn (?!from\()[a-z_0-9]+\(.*\) -> Host[A-Za-z]+|^(pub(\([a-z]+\))? )?fn (number|byte|is|kind|name)\("),
        "5 six parameters or more": travelling(found),
        "5 facts that three functions ask": repeated_clauses(found),
        "6 arrays in the place of structs": lines_like(folder, r"^ *pub type "),
        "6 a buffer with a place or count beside": [f.where + " " + f.name for f in found if re.search(r"\[[u8a-z0-9_]+(; [A-Z0-9]+)?\]", f.head) and re.search(r"\b(place|count|rest|from|end|to): usize", f.head)],
        "7 arms by a number's name": lines_like(folder, r"^ *(\| )?([a-z_]+::)?[A-Z][A-Z0-9_]+( \||\s*=>)"),
        "8 answers": [str(p.relative_to(folder)) for p in sorted(folder.glob("crates/*/proofs/**/Answers.antt"))],
        "8 invariants": [str(p.relative_to(folder)) for p in sorted(folder.glob("crates/*/proofs/**/Invariants.antt"))],
    }


def main():
    words = sys.argv[1:]
    wanted = None
    if "--list" in words:
        at = words.index("--list")
        wanted = words[at + 1]
        del words[at:at + 2]
    folder = pathlib.Path(words[0] if words else ".")
    for name, what in places(folder).items():
        print(f"{len(what):5} {name}")
        if wanted and name.startswith(wanted):
            for place in what:
                print("      " + place)


main()
