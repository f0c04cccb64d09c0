#!/usr/bin/env python3
"""Brings the repository's own definitions and lemmas to today's spelling: words in snake case, types and modules in camel case.

usage: python3 tools/spell_names.py        at the top of the repository, once, after port.py

It renames what specs/ and proofs/ declare (definitions, lemmas, fields, local names), wherever a file of crates/ or a page names it: a name
that begins with a small letter and has a dash or a capital in it is written with underscores. What is brought in from the kit keeps its
name, and so do functions, strings, inputs and outputs, and what a function's own proof (proofs/../Proof.antt) calls its goals.
Edits (must-fail/*.edit) are turned too, with the forms that port.py turns in the files that they change. It prints each name that falls
together with another of its file, and changes nothing then.
"""
import glob
import os
import re
import sys

ID = re.compile(r"(?<![\w'′·-])[^\W\d][\w'′]*(?:-[\w'′]+)*(?![\w'′·-])")
DECLARES = re.compile(r"^(\s*)((?:(?:abbrev|unfoldable|pub|data|record)\s+)*)([^\s(){}:=,;.λ]+)(\s*[({].*)?\s+:(?:\s|$)")
USE = re.compile(r"^(?:pub )?(?:ghost )?(?:pub )?use\s+([^\s{]+?)(?:\.\{(.*)\})?(?:\s+as\s+(\S+))?\s*;?\s*$")
KEYWORDS = {"in-no-file"}


def spelled(name):
    """NAME in today's spelling."""
    if not name[:1].islower():
        return name
    tail = re.search(r"['′]*$", name).group(0)
    body = name[: len(name) - len(tail)]
    body = re.sub(r"([a-z0-9])([A-Z]+)", lambda m: m.group(1) + "_" + m.group(2).lower(), body)
    return body.replace("-", "_") + tail


def files(pattern):
    return sorted(p for p in glob.glob(pattern, recursive=True) if "/out/" not in p)


def is_walk(path):
    """A function's own proof: its names are those of goals."""
    return os.path.basename(path) in ("Proof.antt", "Invariants.antt", "Answers.antt")


def own_crates():
    with open("crates.txt", encoding="utf-8") as f:
        return {l.split(":")[0].split()[0] for l in f if l.strip() and not l.startswith("#")}


def declared(path):
    """The names that a file declares, and those of them that are fields of a record or constructors."""
    names, fields, top = set(), set(), ""
    with open(path, encoding="utf-8") as f:
        for line in f:
            text = re.sub(r"(^|\s)--\s.*$", "", line.rstrip("\n"))
            if re.match(r"\s*(pub )?use ", text):
                continue
            if text[:1].strip():
                top = text
            m = DECLARES.match(text)
            if m and ID.fullmatch(m.group(3)):
                names.add(m.group(3))
                if m.group(1) and re.match(r"(pub )?(record|data) ", top):
                    fields.add(m.group(3))
    return names, fields


def brought(path):
    """The names that a file brings in: each with the path that it comes from."""
    found = {}
    with open(path, encoding="utf-8") as f:
        for line in f:
            m = USE.match(line.strip().rstrip(";"))
            if m and m.group(2):
                for it in m.group(2).split(","):
                    it = it.strip()
                    if " as " in it:
                        found[it.split(" as ")[1].strip()] = "as"
                    elif it:
                        found[it] = m.group(1)
    return found


def module_of(path):
    """The path by which other files bring in from PATH: crates/c/specs/A/B.antt is Rattle.c.specs.A.B."""
    return "Rattle." + path[len("crates/") : -len(".antt")].replace("/", ".")


def turned_line(text, names, fields, goals, lemmas=None, aliases=()):
    """One line of antt with the names of NAMES, and after a dot those of FIELDS, in today's spelling; LEMMAS has names of their own."""
    lemmas = lemmas or {}

    def one(m):
        word = m.group(0)
        before = text[: m.start()]
        if word in lemmas and not before.endswith("."):
            return lemmas[word]
        if before.endswith("."):
            owner = re.search(r"([\w'′-]+)\.$", before)
            path = owner and (owner.group(1)[:1].isupper() or owner.group(1) in aliases)
            return spelled(word) if word in fields or (path and word in names) else word
        if word in goals:
            return word
        return spelled(word) if word in names else word

    return ID.sub(one, text)


def comment_turned(text, every):
    """A comment, or a page: a name in it is one where backquotes are around it, or where it has a capital inside."""

    def ticks(m):
        return "`" + ID.sub(lambda w: every.get(w.group(0), w.group(0)), m.group(1)) + "`"

    text = re.sub(r"`([^`\n]*)`", ticks, text)
    return ID.sub(lambda w: every.get(w.group(0), w.group(0)) if re.search(r"[a-z][A-Z]", w.group(0)) else w.group(0), text)


def strings_kept(text, turn):
    """TEXT of Rattle, turned outside its strings."""
    out, at = "", 0
    for m in re.finditer(r'"(?:[^"\\]|\\.)*"', text):
        out += turn(text[at : m.start()]) + m.group(0)
        at = m.end()
    return out + turn(text[at:])


def edit_forms(text):
    """A line of an edit, in the forms that port.py turns: paths, projections, operators, primes."""
    text = re.sub(r"Rattle·(\w+)·(specs|proofs)\.\2", r"Rattle.\1.\2", text)
    text = re.sub(r"Rattle·(\w+)", r"Rattle.\1", text)
    text = re.sub(r"(?<=[\w)'′]) \.(?=[\w])", ".", text)
    text = re.sub(r"(?<![\w])_([^\w\s{},;()]+)_(?![\w])", r"◌\1◌", text)
    text = text.replace("′", "'")
    return re.sub(r"\bbit(And|Or|Xor)\b", lambda m: "bit_" + m.group(1).lower(), text)


def main():
    crates = own_crates()
    if not crates:
        sys.exit("spell_names: run it at the top of the repository")
    sources = files("crates/*/specs/**/*.antt") + files("crates/*/proofs/**/*.antt")
    names, fields, by_file = set(), set(), {}
    for p in sources:
        if is_walk(p):
            by_file[p] = (set(), set())
            continue
        by_file[p] = declared(p)
        names |= by_file[p][0]
        fields |= by_file[p][1]
    own = {n for n in names if spelled(n) != n}
    own_fields = {n for n in fields if spelled(n) != n}
    everywhere = {n: spelled(n) for n in own}
    result, clash = {}, []

    # a lemma that would have the name of the definition that it speaks of ends with _lem
    lemmas = {}
    for p in sources:
        theirs = {spelled(n) for n, where in brought(p).items() if n in own and any(where.startswith(f"Rattle.{c}.") for c in crates)}
        theirs |= {spelled(n) for n in by_file[p][0] if re.search(r"[a-z0-9][A-Z]", n)}
        for n in by_file[p][0]:
            if spelled(n) in theirs and not re.search(r"[a-z0-9][A-Z]", n) and n not in by_file[p][1] and n not in brought(p):
                lemmas[(module_of(p), n)] = spelled(n) + "_lem"

    for p in sources + files("crates/*/src/**/*.rt"):
        with open(p, encoding="utf-8") as f:
            text = f.read()
        imports = brought(p)
        aliases = set(re.findall(r"(?m)^use Rattle\.\S+ as (\S+)$", text)) - {"tie"}
        foreign = {n for n, where in imports.items() if where == "as" or not any(where.startswith(f"Rattle.{c}.") for c in crates)}
        mine = {n for n, where in imports.items() if n not in foreign} | by_file.get(p, (set(), set()))[0]
        here = {n for n in own if n in mine and n not in foreign}
        literal = {n for n in own_fields if n not in foreign}
        apart = {n: lemmas[(module_of(p), n)] for n in by_file.get(p, (set(), set()))[0] if (module_of(p), n) in lemmas}
        apart |= {n: lemmas[(where, n)] for n, where in imports.items() if (where, n) in lemmas}
        here -= set(apart)
        words = {w for line in text.split("\n") for w in ID.findall(re.sub(r"(^|\s)(--|//)\s.*$", "", line))}
        words -= set(apart)
        turned = {}
        for n in sorted(here):
            other = turned.setdefault(spelled(n), n)
            if other != n or (p.endswith(".antt") and not is_walk(p) and spelled(n) in words and spelled(n) not in here):
                clash.append(f"{p}: {n} and {other if other != n else spelled(n)}")
            if p.endswith(".rt") and re.search(r"[(,]\s*(mut )?" + re.escape(spelled(n)) + r"\s*:", text):
                clash.append(f"{p}: {n} and a parameter {spelled(n)}")
        if p.endswith(".antt"):
            here |= {w for w in words if re.search(r"[a-z0-9][A-Z]", w) and w[0].islower() and w not in imports and w not in apart and spelled(w) not in words}
        goals = set()
        if is_walk(p):
            with open(p, encoding="utf-8") as f:
                goals = {m.group(1) for m in (re.match(r"(?:pub |abbrev )*([^\s:]+) :", l) for l in f) if m} - here
        lines = []
        for line in text.split("\n"):
            mark = "//" if p.endswith(".rt") else "--"
            m = re.search(r"(^|\s)" + mark + r"(\s|$)", line)
            code, comment = (line[: m.start()], line[m.start() :]) if m else (line, "")

            def turn(t):
                return turned_line(t, here | literal, own_fields, goals, apart, aliases)

            code = strings_kept(code, turn) if p.endswith(".rt") else turn(code)
            lines.append(code + comment_turned(comment, everywhere))
        result[p] = "\n".join(lines)

    today = {spelled(n) for n in names}

    def page_word(w):
        s = spelled(w.group(0))
        return s if s != w.group(0) and s in today else w.group(0)

    for p in files("crates/*/must-fail/*.edit"):
        with open(p, encoding="utf-8") as f:
            lines, of = f.read().split("\n"), ""
        for i, line in enumerate(lines):
            if line.startswith("file: "):
                of = line[6:].strip()
            if line.startswith(("old: ", "new: ")):
                if of.endswith(".antt") or "ghost" in line or "ensures" in line:
                    lines[i] = line[:5] + ID.sub(page_word, edit_forms(line[5:]))
        result[p] = "\n".join(lines)

    for p in files("README.md") + files("CHANGELOG.md") + files("docs/**/*.md") + files("samples/*.md"):
        with open(p, encoding="utf-8") as f:
            text = f.read()
        result[p] = re.sub(r"`([^`\n]*)`", lambda m: "`" + (ID.sub(page_word, m.group(1)) if not re.match(r"\.?/|[\w-]+\.(md|sh|text|space)", m.group(1)) else m.group(1)) + "`", text)

    if clash:
        print("\n".join(clash))
        if "--anyway" not in sys.argv:
            sys.exit(f"spell_names: {len(clash)} names fall together; nothing was changed")
    changed = 0
    for p, text in result.items():
        with open(p, encoding="utf-8") as f:
            before = f.read()
        if before != text:
            changed += 1
            with open(p, "w", encoding="utf-8") as f:
                f.write(text)
    print(f"spell_names: {len(own)} names, {changed} files changed")


main()
