#!/usr/bin/env python3
"""Respells the definitions and lemmas of this repository as today's Rattle spells names: words in snake case.

usage: python3 tools/respell.py [FOLDER]     FOLDER: the top of the repository, already turned by port.py

A name that specs/ or a lemma file of proofs/ declares, as inRange, first-of or timeOf, becomes in_range, first_of, time_of: in
specs/, in proofs/, and in the clauses and `ghost use` lines of src/. Code, strings, comments of code and the names that Rattle
makes itself (Need-.., returns-2) stay. Run once; it prints the names that would fall together and leaves those as they are.
"""

import collections
import pathlib
import re
import sys

# A word of antt or Rattle: letters, digits, `_`, primes, and single dashes inside.
WORD = re.compile(r"[A-Za-z_¬][\w']*(?:-[\w'≡≤<]+)*")
DECLARED = re.compile(r"^\s*(?:(?:pub|abbrev|unfoldable|private|opaque|inline)\s+)*([a-z][\w']*(?:-[\w']+)*)(?:\s+[a-z]\w*(?:-\w+)*)*\s+:(?:\s|$)", re.M)
BINDER = re.compile(r"[({]((?:[a-z][\w']*(?:-[\w']+)*\s+)+):\s")
LET = re.compile(r"\blet\s+([a-z][\w']*(?:-[\w']+)*)\s*(?::|=)")


def snake(name):
    out = re.sub(r"(?<=[a-z0-9'])([A-Z])", lambda m: "_" + m[1].lower(), name)
    out = re.sub(r"(?<=[A-Z])([A-Z])(?=[a-z])", lambda m: "_" + m[1].lower(), out)
    return out.replace("-", "_")


def kept(name):
    """A name of upper case somewhere inside that is no word of its own, as a type, stays."""
    return name == snake(name)


def lemma_files(top):
    for p in sorted(top.glob("crates/*/specs/**/*.antt")) + sorted(top.glob("crates/*/proofs/**/*.antt")):
        # of proofs/F/ only a function's own lemma files; proofs/Answers.antt holds lemmas
        if p.name == "Proof.antt" or p.name in ("Answers.antt", "Invariants.antt") and p.parent.name != "proofs":
            continue
        yield p


def names(top):
    found = set()
    for p in lemma_files(top):
        text = p.read_text()
        for m in list(DECLARED.finditer(text)):
            found.add(m[1])
            # `a b c : T` declares three
            found.update(w for w in re.findall(r"[a-z][\w']*(?:-[\w']+)*", m[0].split(":")[0]) if w not in ("pub", "abbrev", "unfoldable", "private", "opaque", "inline"))
        found.update(m[1] for m in LET.finditer(text))
        for m in BINDER.finditer(text):
            found.update(m[1].split())
    return {n for n in found if not kept(n)}


def library(top):
    """Names that files of this repository take from the kit."""
    found = set()
    for p in list(top.glob("crates/*/specs/**/*.antt")) + list(top.glob("crates/*/proofs/**/*.antt")):
        for m in re.finditer(r"^use ([\w.·-]+)\.\{([^}]*)\}", p.read_text(), re.M):
            if not re.match(r"Rattle\.(?!std)", m[1]):
                found.update(w.strip() for w in m[2].split(","))
    for p in top.glob("crates/*/src/**/*.rt"):
        for m in re.finditer(r"^ghost use (Rattle\.std[\w.]*)\.\{([^}]*)\}", p.read_text(), re.M):
            found.update(w.strip() for w in m[2].split(","))
    return found


def plan(top):
    """Old name to new, for every spelling with a capital or a dash inside; and the lemmas that have a definition's name already."""
    own, lib = names(top), library(top)
    all_own = set()
    for p in lemma_files(top):
        all_own.update(m[1] for m in DECLARED.finditer(p.read_text()))
    to = collections.defaultdict(set)
    for n in own:
        to[snake(n)].add(n)
    for n in all_own:
        if kept(n) and n in to:
            to[n].add(n)
    go, lemmas, said = {}, {}, []
    for new, olds in sorted(to.items()):
        if new in lib or any(o in lib for o in olds):
            said.append(f"left, a name of the kit: {', '.join(sorted(olds))}")
            continue
        camel = [o for o in olds if "-" not in o and not kept(o)]
        for o in sorted(olds):
            if len(olds) == 1 or o in camel:
                go[o] = new
            elif "-" in o:
                # a lemma with its definition's name
                go[o] = new + "_lem"
                said.append(f"{o} and {', '.join(sorted(olds - {o}))}: {new}_lem")
            elif camel:
                lemmas[o] = new + "_lem"
                said.append(f"{o} and {', '.join(camel)}: {new}_lem")
    return go, lemmas, said


# What Rattle says of a call, behind the name of the function that is called.
CALLED = re.compile(r"\.(?:ensures|result|requires|given|before|args)\b")


def turned(text, go):
    def one(m):
        to = go.get(m[0], m[0])
        if to.endswith("_lem") and m.start() and text[m.start() - 1] == "." and CALLED.match(text, m.end()):
            return to[:-4]
        return to

    return WORD.sub(one, text)


def spoken(text, go, every):
    """Names that stand outside antt and Rattle, also those that port.py turned there."""
    return WORD.sub(lambda m: go.get(m[0]) or (snake(m[0]) if snake(m[0]) in every else m[0]), text)


def turned_lemmas(text, lemmas):
    """A lemma that port.py had spelled as the definition is now; a member behind a dot is a function's or a field's."""
    return re.sub(r"(?<![\w.'-])[a-z][\w']*(?![\w'-])", lambda m: lemmas.get(m[0], m[0]), text)


def quoted(text, go, every):
    """The names between backticks."""
    return re.sub(r"`[^`\n]*`", lambda m: spoken(m[0], go, every), text)


def edit(text, go, every):
    """A must-fail edit: the pairs of antt files, and the places."""
    out, antt = [], False
    for line in text.split("\n"):
        if line.startswith("file: "):
            antt = line.endswith(".antt")
        elif line.startswith("at: ") or antt and line.startswith(("old: ", "new: ")):
            line = line[:4] + spoken(line[4:], go, every)
        out.append(line)
    return "\n".join(out)


def hidden(path, text, go):
    """Functions of whose clauses a word now has a parameter's name."""
    new = set(go.values())
    for m in re.finditer(r"\bfn (\w+)(?:<[^>]*>)?\(([^)]*)\)", text):
        params = set(re.findall(r"(\w+)\s*:", m[2])) & new
        end = text.find("\n{", m.end()), text.find("\n    {", m.end())
        stop = min([e for e in end if e > 0], default=len(text))
        for w in params:
            if re.search(rf"(?<![.\w]){w}\b", text[m.end():stop]):
                print(f"hidden? {path}: fn {m[1]}: {w}")


CODE = re.compile(r"ghost use [^;]*;|\b(?:requires|ensures|invariant|ghost|decreases|variant)\b[^{};]*\{", re.S)


def clauses(text, go):
    """A .rt file with its clauses and ghost imports turned."""
    out, at = [], 0
    for m in iter(lambda: CODE.search(text, at), None):
        end = m.end()
        if text[end - 1] == "{":
            depth = 1
            while depth:
                depth += {"{": 1, "}": -1}.get(text[end], 0)
                end += 1
        line = text.rfind("\n", 0, m.start()) + 1
        if "//" in text[line:m.start()]:
            out.append(text[at:m.end()])
            at = m.end()
            continue
        out.append(text[at:m.start()])
        out.append(turned(text[m.start():end], go))
        at = end
    return "".join(out) + text[at:]


def main(argv):
    top = pathlib.Path(argv[0] if argv else ".").resolve()
    go, lemmas, said = plan(top)
    for line in said:
        print(line)
    every = {go.get(m[1], m[1]) for p in lemma_files(top) for m in DECLARED.finditer(p.read_text())}
    files = [p for p in sorted(top.glob("crates/**/*")) + sorted(top.glob("docs/*.md")) + sorted(top.glob("*.md")) if p.is_file() and "out" not in p.parts and p.name != "PORT.md"]
    for p in files:
        if p.suffix not in (".antt", ".rt", ".edit", ".md"):
            continue
        old = p.read_text()
        if p.suffix == ".antt":
            new = turned(turned_lemmas(old, lemmas), go)
        elif p.suffix == ".rt":
            new = re.sub(r"//.*", lambda m: quoted(m[0], go, every), clauses(old, go))
            hidden(p.relative_to(top), new, go)
        elif p.suffix == ".edit":
            new = edit(old, go, every)
        else:
            new = quoted(old, go, every)
        if new != old:
            p.write_text(new)
    print(f"respell: {len(go) + len(lemmas)} names")


if __name__ == "__main__":
    main(sys.argv[1:])
