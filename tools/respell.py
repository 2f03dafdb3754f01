#!/usr/bin/env python3
"""Brings this repository's own definitions and lemmas to snake case: `firstFit` to `first_fit`, `first-hit` to `first_hit`.

usage: python3 tools/respell.py        at the top, once, after /opt/rattle/port/port.py

It turns the names that specs/ and proofs/ declare, where they stand in specs/, proofs/, contracts, must-fail edits and pages. The
parts of a name that Rattle makes (`goal.`, `tie.`, `c.`), strings, functions of src/ and plain words of comments stay. It stops
before it writes where two names would fall together.
"""

import os
import re
import sys

TOKEN = re.compile(r"[A-Za-zμ_+][\w'₀₁₂₃ˢ-]*[\w'₀₁₂₃ˢ]|[A-Za-z_]")
DECLARED = re.compile(r"^ *(?:(?:pub|abbrev|unfoldable|data|record|mutual) )*([A-Za-zμ][\w'-]*)(?: +(?:[^\s:]+|\([^)]*\)|\{[^}]*\}))* *:(?= |$)")
CITED = re.compile(r"`(?:\w+: )?[^ /`]+`")
LET = re.compile(r"\blet ([a-z][\w'-]*)")


# Where two names fall together in one file, the definition has the plain name, and a lemma says that it is one.
LEMMAS = (
    "at-row offset-lines printed-as count-in gives-way rows-parts plan-parts more-groups form-number rows-bytes is-step is-decimal "
    "second-part count-part table-lines"
).split()
OTHERS = {"one-slot": "is_one_slot", "wrong-tag": "tag_wrong"}
# parameters, and names that one file gives to another's definition
OTHERS.update({"oldD": "old_d", "oldO": "old_o", "oldD'": "old_d'", "oldO'": "old_o'", "goesOn": "goes_on", "searchedSaid": "searched_said"})
OTHERS.update({f"getD-{n}": f"get_or_{n}" for n in ("behind", "listed", "mapped", "ones")})
IN_CRATE = {
    "checker/proofs": {"met_by": "met_by_lem"},
    "ground/proofs": {"one_more": "one_more_lem"},
    "oneslot/proofs": {"isFree": "is_free_lem"},
    "planfile": {"left_over": "bytes_left_over"},
    "text/proofs": {"all_digits": "all_digits_lem", "first_part": "first_part_lem"},
}


def snake(name):
    if not name[0].islower():
        return name
    return re.sub(r"(?<=[a-z0-9])([A-Z])", lambda m: "_" + m.group(1).lower(), name).replace("-", "_")


def files(*ends):
    for top in ("crates", "docs", "README.md", "CONTRIBUTING.md", "CHANGELOG.md", "oracle/README.md"):
        if os.path.isfile(top):
            if top.endswith(ends):
                yield top
            continue
        for folder, dirs, names in os.walk(top):
            dirs[:] = sorted(d for d in dirs if d != "out")
            for name in sorted(names):
                if name.endswith(ends):
                    yield os.path.join(folder, name)


def read(path):
    with open(path, encoding="utf-8") as f:
        return f.read()


def code_and_comment(line, mark):
    """The line before its comment, and the comment."""
    at = 0 if line.startswith(mark) else line.find(" " + mark)
    return (line, "") if at < 0 else (line[:at], line[at:])


def declared():
    names, brought = set(), set()
    for path in files(".antt"):
        for line in read(path).split("\n"):
            code = code_and_comment(line, "--")[0]
            if code.startswith("use "):
                if "use Rattle." not in code or "use Rattle.std." in code:
                    brought |= set(TOKEN.findall(code.split(".{")[-1]))
                continue
            m = DECLARED.match(code)
            if m and "tie." not in code:
                names.add(m.group(1))
            names |= set(LET.findall(code))
    return names, brought


def edited(line):
    """The words of an edit's line as port.py turns them in the files that it edits."""
    line = line.replace("getD", "get_or").replace("\u2032", "'")
    line = re.sub(r"\(now \((\w+) \.exit\)\)|\bnow \((\w+) \.exit\)", lambda m: f"{m.group(1) or m.group(2)}.new", line)
    line = re.sub(r"\((\w+) \.(\w+)\)", r"\1.\2", line)
    return re.sub(r"(\w) \.(\w)", r"\1.\2", line)


def main():
    names, brought = declared()
    turned = {n: snake(n) for n in names if snake(n) != n and n not in brought and not n.endswith("-spec")}
    turned.update({n: snake(n) + "_lem" for n in LEMMAS})
    turned.update(OTHERS)
    known = names | set(turned.values())

    def turn_in(path):
        here = dict(turned)
        for part, more in IN_CRATE.items():
            if path.startswith(f"crates/{part}/") and path.endswith(".antt"):
                here.update(more)
        return here

    def sub(here, text, loose=False):
        def one(m):
            t = m.group()
            if t in here:
                return here[t]
            # port.py turned some names already, and not in edits and pages
            return snake(t) if loose and t not in known and snake(t) in known and t not in brought else t

        return TOKEN.sub(one, text)

    texts, bad = {}, 0
    for path in files(".antt", ".rt", ".edit", ".md"):
        text, here = read(path), turn_in(path)
        mark = "//" if path.endswith(".rt") else "--"
        plain = {n: v for n, v in here.items() if "-" not in n and n not in names - set(turned)}
        out, was = [], {}
        for line in text.split("\n"):
            if path.endswith(".md"):
                line = re.sub(r"`[^`]*`", lambda m: sub(here, m.group(), True) if CITED.fullmatch(m.group()) else m.group(), line)
            elif path.endswith(".edit"):
                line = edited(sub(here, line, True)) if line.startswith(("old:", "new:")) else line
            else:
                code, comment = code_and_comment(line, mark)
                for t in TOKEN.findall(code):
                    was.setdefault(here.get(t, t), set()).add(t)
                line = re.sub(r'("[^"]*")|([^"]+)', lambda m: m.group(1) or sub(here, m.group(2)), code) + sub(plain, comment)
            if path.endswith(".rt"):
                # an alias of a definition that has the function's name is needed no more
                line = re.sub(r"\b(\w+) as \1Of\b", r"\1", line)
                line = re.sub(r"\b(begins|seek|same)Of\b", r"\1", line)
            # a name before a middle dot was made of two names
            out.append(re.sub(r"\b([A-Z])(\w*)·(\w+)", lambda m: f"{m.group(1).lower()}{m.group(2)}_{m.group(3)}", line).replace("said·", "said_") if path.endswith(".rt") else line)
        for new, old in sorted(was.items()):
            if len(old) > 1 and path.endswith(".antt") and not path.endswith("/Proof.antt"):
                print(f"respell: {path}: {new}: {', '.join(sorted(old))} fall together", file=sys.stderr)
                bad = 1
        texts[path] = ("\n".join(out), text)
    for path, (new, old) in texts.items():
        if new != old and not bad:
            with open(path, "w", encoding="utf-8") as f:
                f.write(new)
    return bad


sys.exit(main())
