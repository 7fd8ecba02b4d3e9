"""Turns a crate's Proof.antt files, which answered the goals of the older Rattle by name, into Invariants.antt and Answers.antt.

    cd crates/NAME && rt check --generated /tmp/names --old-names      writes what each goal was called and is called
    python3 tools/port/answers.py NAME /tmp/names/names.json COMMIT [FUNCTION..]

Run at the top, after port.py and names.py. COMMIT holds the older proofs: their goals' names are read there. What the search finds alone is
left out. What it cannot place it prints; such an answer is finished by hand."""

import glob
import json
import os
import re
import subprocess
import sys

NAME = r"[^\W\d][\w'\u2080-\u2089-]*"
FIELDS = rf"(?:\.(?:{NAME}|\d+))+"
SIGNATURE = re.compile(r"^(?:abbrev |unfoldable |pub )*(\S+) : (.*)$")
ENDS = (("_holds", "_init"), ("_again", "_preserved"), ("_less", "_smaller"))


def norm(name):
    name = name.replace("-", "_").replace("'", "").lower()
    return name[:-4] if name.endswith("_lem") else name


def older(commit, path):
    ran = subprocess.run(["git", "show", f"{commit}:{path}"], capture_output=True, text=True)
    return ran.stdout if ran.returncode == 0 else None


def blocks(text):
    """The head of a file, and its declarations, each a list of lines."""
    parts = re.split(r"\n\s*\n", text.strip("\n"))
    found = []
    for part in (it.split("\n") for it in parts[1:]):
        if found and part[0].startswith(" "):
            found[-1] += ["", *part]
        else:
            found.append(part)
    return parts[0].split("\n"), found


def signature(block):
    for line in block:
        if not line.startswith("--"):
            found = SIGNATURE.match(line)
            return (found.group(1), found.group(2)) if found else None
    return None


def clauses_of_sources():
    """For each function name: crate, module, the names of its requires, those of its ensures."""
    found = {}
    for path in glob.glob("crates/*/src/**/*.rt", recursive=True):
        text = re.sub(r"//[^\n]*", "", open(path).read())
        crate, module = path.split("/")[1], path.split("/src/")[1][:-3].replace("/", "::")
        for at in re.finditer(r"\bfn (\w+)", text):
            end = re.compile(r"^\s*\{\s*(?:\}\s*)?$|\)(?: -> [^{\n]*)? \{", re.M).search(text, at.end())
            head = text[at.end() : end.start()] if end else ""
            kinds = ([it.strip() for it in re.findall(rf"^\s*{kind} (\w+ )?\{{", head, re.M)] for kind in ("requires", "ensures"))
            found.setdefault(at.group(1), []).append((crate, module, *kinds))
    return found


def commas(text):
    deep, found = 0, []
    for i, c in enumerate(text):
        deep += (c in "([{") - (c in ")]}")
        if c == "," and deep == 0:
            found.append(i)
    return found


def as_record(body, names):
    """A tuple of facts as a record of the clauses' names."""
    text = body.rstrip()
    if len(names) < 2 or not text.endswith(")"):
        return body
    deep = 0
    for start in range(len(text) - 1, -1, -1):
        deep += (text[start] == ")") - (text[start] == "(")
        if deep == 0:
            break
    before, rest, parts = text[:start], text[start:], []
    if before.strip() and not before.rstrip().endswith(" in"):
        return body
    for _ in names[1:]:
        rest = rest.strip()
        if not (rest.startswith("(") and rest.endswith(")")):
            return body
        inner = rest[1:-1].strip().rstrip(",")
        at = commas(inner)
        if not at:
            return body
        parts.append(inner[: at[0]].strip())
        rest = inner[at[0] + 1 :].strip() if len(at) == 1 else f"({inner[at[0] + 1 :].strip()})"
    return before + "record { " + "; ".join(f"{n} = {x}" for n, x in zip(names, [*parts, rest.strip()])) + " }"


class Function:
    """What names.json says of a function: the places in its code, each with the step that leads to it."""

    def __init__(self, said):
        self.said, self.log, self.last, self.here = said, [], None, None
        self.places = {place[0]: (i, place) for i, place in enumerate(said["places"])}
        self.goals = {norm(old): (new, i) for i, (old, new) in enumerate(said["needs"])}

    def chain(self, place):
        while place is not None:
            i, it = self.places[place]
            yield i, it
            place = it[1]

    def up(self, place, steps):
        for _ in range(steps):
            place = self.places[place][1][1] if place in self.places else None
        return place

    def named(self, i, path):
        """A place in nested pairs as the name of a clause."""
        said = self.said["clauses"][i] if i is not None else self.said.get("pre")
        names = (said or {}).get("fields") or []
        if len(names) < 2:
            return path
        k = 0
        for j, it in enumerate(path):
            if it == "0" and k < len(names) - 1:
                return [names[k], *path[j + 1 :]]
            if it != "1":
                return path
            k += 1
            if k == len(names) - 1:
                return [names[k], *path[j + 1 :]]
        return path

    def path(self, place, fields):
        """What `c.FIELDS` at this place is called now; None and a place where it is only a place."""
        while fields and fields[0] == "before":
            place, fields = self.up(place, 1) or "Start", fields[1:]
        if not fields:
            return None, place
        first, rest = fields[0], ["type_inv" if it == "type-inv" else it for it in fields[1:]]
        if first in ("args", "well_formed", "well-formed", "ranges", "utf8"):
            return ".".join(["c", first.replace("-", "_"), *rest]), place
        if first == "requires":
            return ".".join(["c", "requires", *self.named(None, rest)]), place
        for i, it in [*self.chain(place if place in self.places else None), *self.chain(self.here)]:
            old, new = it[2]
            if norm(old) != norm(first):
                continue
            arm = self.said["arms"][i]
            for now, step, way in arm[2] if arm else ():
                if norm(step) == norm(first) and [norm(x) for x in rest[: len(way)]] == [norm(x) for x in way]:
                    return ".".join(["c", arm[0], now, *rest[len(way) :]]), place
            self.last = i, rest
            if rest and rest[0] == "ensures":
                rest = ["ensures", *self.named(i, rest[1:])]
            return ".".join(["c", new, *rest]), place
        self.log.append(f"no step {first} at {place}")
        return ".".join(["c", *fields]), place

    def body(self, text, place):
        """An answer in today's names. `let p = c.before.before in` only moves, and goes."""
        self.here, moved, steps = place, {"c": place}, {}

        def turned(part):
            words = "|".join(map(re.escape, sorted(moved, key=len, reverse=True)))
            part = re.sub(rf"(?<![\w.'-])({words})({FIELDS})", lambda m: self.path(moved[m.group(1)], m.group(2)[1:].split("."))[0] or m.group(0), part)
            if not steps:
                return part
            words = "|".join(map(re.escape, sorted(steps, key=len, reverse=True)))

            def of_step(m):
                (kind, i), fields = steps[m.group(1)], ["type_inv" if it == "type-inv" else it for it in m.group(2)[1:].split(".")]
                if kind == "step":
                    fields = ["ensures", *self.named(i, fields[1:])] if fields[0] == "ensures" else fields
                else:
                    fields = self.named(i, fields)
                return ".".join([m.group(1), *fields])

            return re.sub(rf"(?<![\w.'-])({words})({FIELDS})", of_step, part)

        out, at = "", 0
        while True:
            words = "|".join(map(re.escape, sorted(moved, key=len, reverse=True)))
            let = re.compile(rf"let ({NAME}) = ({words})((?:\.[\w-]+)*) in").search(text, at)
            if not let:
                return out + turned(text[at:])
            name, of, fields = let.group(1), moved[let.group(2)], [it for it in let.group(3).split(".") if it]
            out, at = out + turned(text[at : let.start()]), let.end()
            if all(it == "before" for it in fields):
                moved[name] = self.up(of, len(fields))
                continue
            self.last = None
            now, _ = self.path(of, fields)
            if now == "c.requires":
                steps[name] = "requires", None
            elif self.last and self.last[1] in ([], ["ensures"]):
                steps[name] = ("ensures" if self.last[1] else "step"), self.last[0]
            moved.pop(name, None)
            out += f"let {name} = {now} in"


def parts_of(block):
    """A declaration's comments, its `unfolding` lines and its definition."""
    comments, rest = [it for it in block if it.startswith("--")], [it for it in block if not it.startswith("--")]
    at = 1
    while at < len(rest) and rest[at].startswith(" "):
        at += 1
    end = at
    while end < len(rest) and rest[end].startswith("unfolding"):
        end += 1
    return comments, rest[at:end], "\n".join(rest[end:])


def invariant(fn, kind, loop, block, name):
    comments, unfolds, definition = parts_of(block)
    found = re.match(re.escape(name) + r"((?:\s+\S+)*?) =\s?", definition)
    for ((old, new), variables), changed in zip(fn.said["loops"], fn.said["changed"]):
        if norm(old) == norm(loop) and found:
            break
    else:
        fn.log.append(f"loop {loop}")
        return ""
    words = found.group(1).split()
    given = [f"l.initial.{v}" if c else f"l.{v}" for v, c in zip(variables, changed)] + [f"l.{v}" for v, c in zip(variables, changed) if c]
    if len(words) != len(given):
        fn.log.append(f"loop {loop}: {words} beside {given}")
    now, body = dict(zip(words, given)), definition[found.end() :]
    body = re.sub(rf"(?<![\w.'-])({NAME})(?![\w'-])", lambda m: now.get(m.group(1), m.group(1)), body)
    return "\n".join([*comments, f"abbrev pub {kind}-{new} : goal.{kind}-{new}", *unfolds, f"{kind}-{new} l = {body.strip()}"])


def is_used(word, text):
    word = word.split(" as ")[-1].strip()
    if "◌" in word:
        return all(it in text for it in word.split("◌") if it)
    return re.search(rf"(?<![\w'-]){re.escape(word)}(?![\w'-])", text) is not None


def write(path, comments, uses, goals, body):
    kept = []
    for use in uses:
        of = re.match(r"(use [\w.·◌-]+)\.\{(.*)\}$", use)
        words = [it.strip() for it in of.group(2).split(",") if is_used(it.strip(), body)] if of else None
        if words or of is None:
            kept.append(f"{of.group(1)}.{{{', '.join(words)}}}" if of else use)
    open(path, "w").write("\n".join([*comments, *kept, f"use {goals} as goal"]) + "\n\n" + body.strip("\n") + "\n")


def convert(crate, key, said, commit, clauses):
    path = re.sub(rf"^Rattle-{crate}-proofs\.", "", key)[:-4].replace(".", "/")
    file, module = f"crates/{crate}/proofs/{path}/Proof.antt", path.replace("/", ".")
    was = older(commit, file) if os.path.exists(file) else None
    if was is None:
        return
    fn, (head, now), (_, then) = Function(said), blocks(re.sub(r"«(\w+)»", r"\1", open(file).read())), blocks(was)
    answers, invariants = [], []
    for block, new, old in zip(now, map(signature, now), map(signature, then)):
        if new and re.search(r"[-_]spec$", new[0]):
            continue
        kind = new and re.match(r"tie\.(invariant|decreases)-(\S+)", new[1])
        if kind:
            invariants.append(invariant(fn, *kind.groups(), block, new[0]))
            continue
        goal = old and re.match(r"tie\.Need-(\S+)", old[1])
        if not goal:
            answers.append("\n".join(block))
            continue
        name = norm(goal.group(1))
        for end, today in ENDS:
            at = re.match(rf"(.*){end}(_\d+)?$", name)
            name = at.group(1) + today + (at.group(2) or "") if at and name not in fn.goals else name
        comments, unfolds, definition = parts_of(block)
        found = re.match(re.escape(new[0]) + r"((?: \S+)*?) =\s?", definition)
        body = definition[found.end() :] if found else ""
        if name not in fn.goals or not found:
            if body.strip() != "search rules":
                fn.log.append(f"goal {goal.group(1)}: {body.strip()}")
            continue
        if body.strip() == "search rules" and not unfolds:
            continue
        today, i = fn.goals[name]
        body = fn.body(body, said["asked_at"][i][0])
        body = re.sub(r"(c\.wrapping_\w+?\.ensures)(?!\.)", r"\1.value", "\n".join(it.rstrip() for it in body.split("\n") if it.strip()))
        body = "\n    " + body.strip() if "\n" in body else body.strip()
        own, module_of = path.split("/")[-1], "::".join(path.split("/")[:-1])
        if goal.group(1).startswith("returns") and not goal.group(1).endswith("requires"):
            mine = [it for it in clauses.get(own, []) if it[:2] == (crate, module_of)] or [it for it in clauses.get(own, []) if it[0] == crate]
            body = as_record(body, mine[0][3] if mine else [])
        call = re.match(r"(.*?)-requires(-\d+)?$", goal.group(1))
        if call and norm(call.group(1)) in clauses:
            body = as_record(body, clauses[norm(call.group(1))][0][2])
        answers.append("\n".join([*comments, f"pub {today} : goal.{today}", *unfolds, f"{today} c ={body if body.startswith(chr(10)) else ' ' + body}"]))
    comments, uses = [it for it in head if it.startswith("--")], [it for it in head if not it.startswith("--") and not re.search(r"\.(Statement|Tie)\b", it)]
    os.remove(file)
    if any(invariants):
        write(f"{os.path.dirname(file)}/Invariants.antt", comments, uses, f"Rattle.{crate}.proofs.{module}.Given", "\n\n".join(filter(None, invariants)))
    if answers:
        write(f"{os.path.dirname(file)}/Answers.antt", comments, uses, f"Rattle.{crate}.proofs.{module}.Goals", "\n\n".join(answers))
    for it in fn.log:
        print(f"{path}: {it}")


def main():
    crate, names, commit, only = sys.argv[1], json.load(open(sys.argv[2])), sys.argv[3], sys.argv[4:]
    clauses = clauses_of_sources()
    for key, said in names.items():
        if key.startswith(f"Rattle-{crate}-proofs.") and key.endswith(".Lts") and (not only or any(it in key for it in only)):
            convert(crate, key, said, commit, clauses)


main()
