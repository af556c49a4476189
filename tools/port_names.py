#!/usr/bin/env python3
"""Brings the repository's own names to today's spelling. Run once, at the top, right after the kit's port.py, on its result.

1. The crate log becomes logs, since the kit has a library log: its folder, crates.txt, `use log::..`, paths `log::..` and `Rattle.log...`.
2. Words of definitions, lemmas, fields and variables go from lower camel case to snake case, part by part: lengthOf-grown is length_of-grown.
   A part getD (or get_d) is get_or, which is what the function is called now. Types, facts and modules, which begin with a capital, stay; so do names
   of functions of src/, which were in snake case, and text in strings.
3. must-fail/*.edit, which port.py leaves: the same names, projections written tight, a prime as an apostrophe. Clauses in them are mended by hand.

4. Lemmas that would now have the name of the definition that they speak of (LEMMAS below) get _lem.

--try lists the words that fall together and changes nothing."""

import os
import re
import subprocess
import sys

CAMEL = re.compile(r"(?<![A-Za-z0-9])[a-z][a-z0-9]*(?:[A-Z][A-Za-z0-9]*)+")
FIRST = re.compile(r"(?<=[a-z0-9])(?=[A-Z])|(?<=[A-Z])(?=[A-Z][a-z])")
STRING = re.compile(r'"(?:\\.|[^"\\])*"')


# lemmas of proofs/ that port.py spelled as this script spells a definition
LEMMAS = "base_on did_of empty_leaf from_zero in_bounds in_order is_base is_leaf leaves_all leaves_of put_first record_of rows_under two_sized".split()


def snake(w):
    return "get_or" if w == "getD" else FIRST.sub("_", w).lower()


def names(text):
    text = CAMEL.sub(lambda m: snake(m.group(0)), text)
    return re.sub(r"(?<![A-Za-z0-9_])get_d(?=[_-])", "get_or", text).replace("get_or_part", "get_or-part") if "get_d" in text else text


def lemmas(text):
    for w in LEMMAS:
        if re.search(r"(?m)^ *(?:pub )?%s :(?!:)" % w, text) or re.search(r"(?m)^use Rattle\.\w+\.proofs\.[\w.]*\{(?:[^}]*[ ,{])?%s[ ,}]" % w, text) or re.search(r"let %s :" % w, text):
            text = re.sub(r"(?<![A-Za-z0-9_.'-])%s(?![A-Za-z0-9_'-])" % w, w + "_lem", text)
    return text


def log_paths(text):
    text = re.sub(r"(?<![A-Za-z0-9_.-])Rattle\.log\.", "Rattle.logs.", text)
    text = re.sub(r"(?<![A-Za-z0-9_.])log::", "logs::", text)
    return re.sub(r"(?m)^(use )log;", r"\1logs;", text)


def outside_strings(text, f):
    out, at = [], 0
    for m in STRING.finditer(text):
        out += [f(text[at:m.start()]), m.group(0)]
        at = m.end()
    return "".join(out + [f(text[at:])])


def edit(text):
    lines = []
    for l in text.split("\n"):
        if l.startswith(("old: ", "new: ")):
            l = l.replace("\u2032", "'")
            l = re.sub(r"(?<=[A-Za-z0-9_')]) \.(?=[a-z0-9])", ".", l)
        lines.append(l)
    return names(log_paths("\n".join(lines)))


def main():
    root = subprocess.run(["git", "rev-parse", "--show-toplevel"], capture_output=True, text=True, check=True).stdout.strip()
    os.chdir(root)
    files = []
    for folder, dirs, found in os.walk("crates"):
        dirs[:] = sorted(d for d in dirs if d != "out")
        files += [os.path.join(folder, f) for f in sorted(found) if f.endswith((".rt", ".antt", ".edit"))]
    texts = {p: open(p, encoding="utf-8").read() for p in files}
    old = set()
    words = set()
    for p, t in texts.items():
        if not p.endswith(".edit"):
            t = STRING.sub("", t)
            old |= set(CAMEL.findall(t))
            words |= set(re.findall(r"(?<![A-Za-z0-9_])[a-z][A-Za-z0-9_]*", t))
    clash = sorted(w for w in old if snake(w) in words and w != "getD")
    made = {}
    for w in old:
        made.setdefault(snake(w), []).append(w)
    if "--try" in sys.argv:
        for w in clash:
            print("falls together with a name that stands:", w, snake(w), file=sys.stderr)
        for w, ws in sorted(made.items()):
            if len(ws) > 1:
                print("fall together:", ws, w, file=sys.stderr)
        return 0
    for p, t in texts.items():
        if p.endswith(".edit"):
            n = edit(t)
        elif p.endswith(".rt"):
            n = outside_strings(t, lambda s: names(log_paths(s)))
        else:
            n = names(log_paths(lemmas(t)))
        if n != t:
            with open(p, "w", encoding="utf-8") as f:
                f.write(n)
    subprocess.run(["git", "mv", "crates/log", "crates/logs"], check=True)
    with open("crates.txt", encoding="utf-8") as f:
        t = f.read()
    with open("crates.txt", "w", encoding="utf-8") as f:
        f.write("".join(l if l.startswith("#") else re.sub(r"\blog\b", "logs", l) for l in t.splitlines(keepends=True)))
    return 0


if __name__ == "__main__":
    raise SystemExit(main())
