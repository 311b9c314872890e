#!/usr/bin/env python3
"""Spells the repository's own definitions, lemmas, fields and rulesets as today's Rattle does: in snake case.

usage: python3 tools/respell.py [--dry]     at the top, once, after the kit's port.py
       python3 tools/respell.py --pages      the names in README.md, docs/ and the edits, once the files have theirs

A name is the repository's own if an .antt file in specs/ or proofs/ declares it (not one that stands beside a function's
walk, in proofs/F/Proof.antt). `cutShort` and `cut-short` become `cut_short`. Functions of src/, strings and data keep
their names. It says which names fall together in a file.
"""
import os
import re
import sys

TOKEN = re.compile(r"(?<![\w'′·-])[A-Za-z_][\w'′]*(?:-[\w'′]+)*(?![\w'′-])")
WORDS = r"(?:abbrev|unfoldable|pub|data|record|ruleset|private|opaque)\s+"
DECLARED = re.compile(r"^\s*(?:" + WORDS + r")*([A-Za-z_][\w'′-]*)(?=[^=]*?\s:(?:\s|$))")
NAMED = re.compile(r"^\s*(?:pub )?(?:ruleset|data|record)\s+([A-Za-z_][\w'′-]*)")
NOT_NAMES = {"module", "let", "in", "use", "where", "record", "mod", "data", "ghost", "pub",
             "not-true"}  # the last is the library's: a line of a proof begins with it

# lemmas whose snake form would fall together with the name of the definition that they are about
LAWS = """abort-answer holds-queue on-unit owned-by altered-at done-by weight-at confirmed-two-hosts two-hosts response-length
status-length count-ok may-stand order-ok paths-distinct records-ok units-ok lowest-free by-header by-event""".split()

# fields of records that would fall together with a definition
OTHERWISE = {n: n.replace("-", "_") + "_law" for n in LAWS} | {"unused-zero": "unused_is_zero"}

# fields that the kit's port.py spelled already: (file, name, new name)
FIELDS = [
    ("crates/wire/specs/Promises.antt", r"(?m)^  pub cut_short :", "  pub cut_short_past :"),
    ("crates/wire/specs/Promises.antt", r"(?m)^  pub reserved-set :", "  pub reserved_set_past :"),
    ("crates/wire/proofs/Past.antt", r"(?m)^  cut_short =", "  cut_short_past ="),
    ("crates/wire/proofs/Past.antt", r"(?m)^  reserved-set =", "  reserved_set_past ="),
    ("crates/engine/proofs/Past.antt", r"past\.cut_short\b", "past.cut_short_past"),
    ("crates/engine/proofs/Past.antt", r"past\.reserved-set\b", "past.reserved_set_past"),
]


def sources():
    for folder, dirs, files in os.walk("crates"):
        dirs[:] = sorted(d for d in dirs if d != "out")
        for f in sorted(files):
            if f.endswith((".antt", ".rt")):
                yield os.path.join(folder, f)


def odd(name):
    return "-" in name or (name[0].islower() and re.search(r"[a-z0-9][A-Z]", name) is not None)


def snake(name):
    if name in OTHERWISE:
        return OTHERWISE[name]
    name = name.replace("-", "_")
    if name[0].isupper():
        return name[0] + "".join(p[:1].upper() + p[1:] for p in name[1:].split("_")) if "_" in name else name
    return re.sub(r"([a-z0-9])([A-Z])", lambda m: m.group(1) + "_" + m.group(2).lower(), name).lower()


# a path or the name of a file
A_FILE = re.compile(r"/[\w-]*-|-[\w-]*\.(?:in|out|hex|md|antt|rt|edit)\b")


def of_a_walk(path):
    return path.endswith("/Proof.antt")


def declared(path):
    if not path.endswith(".antt"):
        return set()
    names = set()
    with open(path, encoding="utf-8") as f:
        for line in f:
            if line.lstrip().startswith("--"):
                continue
            for form in (DECLARED, NAMED):
                m = form.match(line)
                if m and m.group(1) not in NOT_NAMES:
                    names.add(m.group(1))
    return names


def halves(line, mark):
    """A line's text and its comment."""
    at = line.find(mark)
    return (line, "") if at < 0 else (line[:at], line[at:])


def respelled(text, names, comments):
    out = []
    for line in text.split("\n"):
        code, note = halves(line, comments)
        code = TOKEN.sub(lambda m: snake(m.group(0)) if m.group(0) in names else m.group(0), code)
        # in a comment a name with a dash may be plain English: it stays unless it is quoted, or listed at a file's head
        if note.startswith("--     "):
            note = TOKEN.sub(lambda m: snake(m.group(0)) if m.group(0) in names else m.group(0), note)
        note = re.sub(r"`[^`]*`", lambda q: TOKEN.sub(lambda m: snake(m.group(0)) if m.group(0) in names else m.group(0), q.group(0)), note)
        note = TOKEN.sub(lambda m: snake(m.group(0)) if m.group(0) in names and "-" not in m.group(0) else m.group(0), note)
        out.append(code + note)
    return "\n".join(out)


def unique_fields():
    """The fields of AnswersAreOne are called as the function is, and `is_one` after it."""
    for path in sources():
        if not path.endswith("/Unique.antt"):
            continue
        with open(path, encoding="utf-8") as f:
            text = f.read()
        if "/specs/" in path:
            at = text.find("pub record AnswersAreOne")
            head, tail = text[:at], text[at:]
            tail = re.sub(r"(?m)^  pub ([\w'«»-]+) :", lambda m: "  pub " + m.group(1).strip("«»").replace("-", "_") + "_is_one :", tail)
        else:
            at = text.find("pub answers")
            head, tail = text[:at], text[at:]
            tail = re.sub(r"(?m)^  ([\w'«»-]+) =", lambda m: "  " + m.group(1).strip("«»").replace("-", "_") + "_is_one =", tail)
            tail = re.sub(r"([{;] )([\w'-]+) = λ", lambda m: m.group(1) + m.group(2).replace("-", "_") + "_is_one = λ", tail)
        with open(path, "w", encoding="utf-8") as f:
            f.write(head + tail)
    for path, form, new in FIELDS:
        with open(path, encoding="utf-8") as f:
            text = f.read()
        with open(path, "w", encoding="utf-8") as f:
            f.write(re.sub(form, new, text))


def pages():
    """In the pages the names between back quotes, in the edits all of them, where the files declare the new name."""
    now = set()
    for path in sources():
        now |= declared(path)
    # names of transcripts and examples are those of files
    files = {f.split(".")[0] for folder in ("examples", "crates/replay/data") if os.path.isdir(folder) for f in os.listdir(folder)}
    for folder, dirs, files in os.walk("."):
        dirs[:] = sorted(d for d in dirs if d not in ("out", ".git"))
        for f in sorted(files):
            path = os.path.join(folder, f)
            if not f.endswith((".md", ".edit")) or f == "PORT.md":
                continue
            with open(path, encoding="utf-8") as it:
                old = it.read()

            def turned(m):
                name = m.group(0)
                return snake(name) if odd(name) and name not in files and snake(name) in now else name

            if f.endswith(".edit"):
                new = TOKEN.sub(turned, old)
            else:
                new = re.sub(r"`[^`\n]*`", lambda q: q.group(0) if A_FILE.search(q.group(0)) else TOKEN.sub(turned, q.group(0)), old)
            if new != old:
                with open(path, "w", encoding="utf-8") as it:
                    it.write(new)
                print(f"turned: {path}")


def main():
    if "--pages" in sys.argv:
        pages()
        return
    dry = "--dry" in sys.argv
    if not dry:
        unique_fields()
    names, where = set(), {}
    for path in sources():
        if not of_a_walk(path):
            for n in declared(path):
                if odd(n):
                    names.add(n)
                    where.setdefault(n, path)
    print(f"{len(names)} names")
    for path in sources():
        with open(path, encoding="utf-8") as f:
            old = f.read()
        mark = "--" if path.endswith(".antt") else "//"
        bare = "\n".join(halves(l, mark)[0] for l in old.split("\n"))
        used = {m.group(0) for m in TOKEN.finditer(bare)}
        came = {}
        for n in used:
            came.setdefault(snake(n) if n in names else n, set()).add(n)
        for n, olds in sorted(came.items()):
            if len(olds) > 1:
                print(f"fall together: {path}: {n}: {', '.join(sorted(olds))}")
        new = respelled(old, names, mark)
        if new != old and not dry:
            with open(path, "w", encoding="utf-8") as f:
                f.write(new)


main()
