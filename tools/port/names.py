"""Brings the repository's own definitions and lemmas to today's spelling, after port.py: usage: names.py [FOLDER] [--list].

Words of specs/ and proofs/ that are spelled as `wordAt` become `word_at`, also as a part of a lemma's name (`at-wordAt`). A file of
specs/ named Contracts becomes Promises, since Rattle makes a module `specs.contracts`. Functions of src/, exported names, strings, inputs and
outputs keep their names. It tells where two names would fall together. It may be run again: the second time it finds nothing."""

import glob
import os
import re
import sys

WORD = re.compile(r"[^\W\d][\w'\u2080-\u2089-]*")
DEFINED = re.compile(r"^\s*(?:(?:abbrev|unfoldable|pub|record|data|mutual) )*([^\W\d][\w'\u2080-\u2089-]*)(?: [({].*)? :(?: |$)")
# A run of capitals is one word: `tRFC` becomes `t_rfc`, and `tFAW1K` `t_faw_1k`.
RUN = re.compile(r"(?<=[a-z0-9_])([A-Z]+)(?:(?=\d[A-Z])|(?=\d|_|'|-|$|[a-z]))|(?<=[A-Z])(\d[A-Z])")
# Lemmas that would have a definition's name.
LEMMAS = {w: w + "_lem" for w in "clear_next later_of left_in no_register of_one one_more raised_at rest_in wide_at".split()}


def snake(name):
    """The name with each part that begins small in snake case. A number that is written in hexadecimal keeps its digits."""
    if re.fullmatch(r"x[0-9A-F]+", name):
        return name
    parts = name.split("-")
    return "-".join("get_or" if p == "getD" else p if not p[:1].islower() else re.sub(RUN, lambda m: "_" + m.group(0).lower(), p) for p in parts)


def split(line, mark):
    """The line's code, and its comment."""
    at = 0
    while True:
        at = line.find(mark, at)
        if at < 0:
            return line, ""
        if at == 0 or line[at - 1].isspace():
            return line[:at], line[at:]
        at += 1


def bare(text, m):
    """No part of a path: the name of a lemma, and not of a function of src/ or of a step."""
    return text[m.start() - 1:m.start()] != "." and text[m.end():m.end() + 1] != "."


def files(top, *patterns):
    return sorted(f for p in patterns for f in glob.glob(os.path.join(top, "crates", p), recursive=True))


def main():
    args = [a for a in sys.argv[1:] if not a.startswith("--")]
    top = args[0] if args else "."
    proofs = files(top, "*/specs/**/*.antt", "*/proofs/**/*.antt")
    texts = {f: open(f, encoding="utf-8").read() for f in proofs}
    owned, seen, foreign = set(), set(), set()
    for text in texts.values():
        for line in text.split("\n"):
            code, _ = split(line, "--")
            found = DEFINED.match(code)
            if found:
                owned.add(found.group(1))
            # constructors and fields that share a line, and several names with one type
            several = re.match(r"^\s*(?:pub )?((?:[^\W\d][\w'\u2080-\u2089-]* )+):(?: |$)", code)
            if several:
                owned.update(several.group(1).split())
            seen.update(WORD.findall(code))
            use = re.match(r"^\s*(?:pub )?use ((?!Rattle\.)[\w.◌·-]*|Rattle\.std\.[\w.-]*)\.\{(.*)\}", code)
            if use:
                foreign.update(w.strip().split(" ")[0] for w in use.group(2).split(","))
    turned = {w: snake(w) for w in owned | seen if snake(w) != w and w not in foreign}
    # a word that is no definition's is a variable: it goes too, in code alone
    for old, new in sorted(turned.items()):
        if new in seen and new not in LEMMAS and "--list" in sys.argv:
            print(f"also a function's name: {old} {new}")
    turned.update(LEMMAS)
    by = {}
    for old, new in turned.items():
        by.setdefault(new, []).append(old)
    for new, olds in by.items():
        if len(olds) > 1:
            print("falls together:", new, olds)
    if "--list" in sys.argv:
        for old, new in sorted(turned.items()):
            print(old, new, "" if old in owned else "(variable)")
        return
    print(len(turned), "names")

    def code_of(text):
        return WORD.sub(lambda m: turned.get(m.group(0), m.group(0)) if m.group(0) not in LEMMAS or bare(text, m) else m.group(0), text)

    def comment_of(text):
        return WORD.sub(lambda m: turned[m.group(0)] if m.group(0) in turned and m.group(0) in owned else m.group(0), text)

    def moved(text):
        return re.sub(r"\bspecs\.Contracts\b", "specs.Promises", text)

    for f, text in texts.items():
        lines = []
        for line in text.split("\n"):
            code, comment = split(line, "--")
            lines.append(moved(code_of(code)) + comment_of(comment))
        new = "\n".join(lines)
        if f.endswith("specs/Lib.antt"):
            new = re.sub(r"\bpub mod Contracts\b", "pub mod Promises", new)
        if new != text:
            open(f, "w", encoding="utf-8").write(new)
    ghosts(top, code_of, moved, comment_of)
    for f in proofs:
        if f.endswith("/specs/Contracts.antt"):
            os.rename(f, f.replace("/Contracts.antt", "/Promises.antt"))


def ghosts(top, code_of, moved, comment_of):
    """The `ghost use` lines and the clauses of src/: from the word `requires`, `ensures` or `ghost` up to the brace that ends the clause."""
    for f in files(top, "*/src/**/*.rt"):
        text = open(f, encoding="utf-8").read()
        out, at = [], 0
        for m in re.finditer(r"^\s*ghost use [^;]*;|^\s*(?:requires|ensures|ghost)\*?(?: [\w]+:?)? \{", text, re.M):
            if m.start() < at:
                continue
            out.append(comments(text[at:m.start()], comment_of))
            end = m.end()
            if not m.group(0).rstrip().endswith(";"):
                deep = 1
                while deep:
                    deep += {"{": 1, "}": -1}.get(text[end], 0)
                    end += 1
            out.append(moved(code_of(text[m.start():end])))
            at = end
        out.append(comments(text[at:], comment_of))
        new = "".join(out)
        if new != text:
            open(f, "w", encoding="utf-8").write(new)


def comments(text, comment_of):
    return re.sub(r"//[^\n]*", lambda m: comment_of(m.group(0)), text)


main()
