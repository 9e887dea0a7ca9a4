#!/usr/bin/env python3
"""Spells this repository's own definitions, fields, constructors and lemmas in snake case, as the toolchain's library does.

usage: tools/port_names.py      at the top of the repository, once, right behind the toolchain's own port.py

    takeCall, advance-is, CALL-EXPIRED  ->  take_call, advance_is, CALL_EXPIRED

It reads which names crates/*/specs and crates/*/proofs declare, and writes them anew in these files, and in the clauses and ghost items of crates/*/src.
Types and modules keep their camel case, and so does a fact's name in front of a dash (Nearer-wf). Names that Rattle makes are left alone, and names that a
file takes from another library. It prints each name that it leaves since its new spelling is in use beside it.
"""

import collections
import glob
import re
import sys

OWN = {line.split(":")[0].strip() for line in open("crates.txt") if line.strip() and not line.startswith("#")}
WORD = r"[^\s(){}.;,@\"«»\[\]\\]+"
TOKEN = re.compile(r"--[^\n]*|\"(?:[^\"\\]|\\.)*\"|«[^»]*»|" + WORD)
DECLARED = re.compile(r"^[ ]*(?:(?:pub|abbrev|unfoldable|data|record|ruleset) +)*((?:" + WORD + r" +)*?" + WORD + r")(?: *\{[^}]*\}| *\([^)]*\))* *:(?= |$)", re.M)
# two definitions that a fact or a field of the same words stands beside
GIVEN = {"inOrder": "in_order_by"}
# names that Rattle makes for a function's proof
MADE = re.compile(r"(Need|At|In|After|Then|Else|Taken|Left|invariant|decreases|loop|returns|array|element|slice|cast|shl|shr|bounds|overflow|nonzero|offset|move|copy|told|fits|if|arm|not)-")


def spelled(name):
    if name.startswith("◌") or "◌" in name:
        return name
    if re.fullmatch(r"[A-Z0-9]+(-[A-Z0-9]+)+", name):
        return name.replace("-", "_")
    if name[:1].isupper():
        return name
    return re.sub(r"(?<=[a-z0-9])(?=[A-Z])", "_", name).lower().replace("-", "_") if re.search(r"[A-Z-]", name) else name


def files():
    antt = glob.glob("crates/*/specs/**/*.antt", recursive=True) + glob.glob("crates/*/proofs/**/*.antt", recursive=True)
    return sorted(antt), sorted(glob.glob("crates/*/src/**/*.rt", recursive=True))


def is_proof_of_function(path):
    return "/proofs/" in path and path.rsplit("/", 1)[1] in ("Proof.antt", "Invariants.antt", "Answers.antt")


def declared(paths):
    """How often each name is declared in these files."""
    names = collections.Counter()
    for path in paths:
        if is_proof_of_function(path):
            continue
        text = re.sub(r"--[^\n]*", "", open(path, encoding="utf-8").read())
        for found in DECLARED.findall(text):
            names.update(found.split())
    return names


USE = re.compile(r"^\s*(?:ghost )?(?:pub )?use ([^\s{;]+?)(?:\.\{([^}]*)\})?(?: as (\S+?))?;?$", re.M)


def foreign(text):
    """The names that a file takes from other libraries, and the aliases of their modules."""
    names, modules = set(), set()
    for path, several, alias in USE.findall(text):
        parts = path.split(".")
        if parts[0] == "Rattle" and len(parts) > 1 and parts[1] in OWN:
            made = parts[-1] in ("Tie", "Statement", "Reads", "Met", "Goals", "Given", "Lts", "Code")
            if made:
                modules.add(alias or parts[-1])
            continue
        if several:
            for it in several.split(","):
                names.add(it.strip().split(" as ")[-1].strip())
        else:
            modules.add(alias or parts[-1])
    return names, modules


def renamed(text, table, names, modules):
    out, last = [], 0
    for m in TOKEN.finditer(text):
        word = m.group()
        if word in table and word not in names:
            # what stands behind a module of another library, or behind a place of a function's proof, is not ours
            before = text[max(0, m.start() - 200) : m.start()]
            owner = re.search(r"(" + WORD + r")\.$", before)
            if owner and owner.group(1) in modules:
                continue
            out.append(text[last : m.start()])
            out.append(table[word])
            last = m.end()
    out.append(text[last:])
    return "".join(out)


def clauses(text):
    """The spans of a source file that hold antt: ghost items, requires, ensures and ghost fields."""
    spans = []
    for m in re.finditer(r"^[ \t]*ghost use [^;]*;|\b(?:requires|ensures)\*?(?: \w+)? \{|\bghost(?: invariant)? \w+: \{|\bghost invariant \{", text, re.M):
        if m.group().rstrip().endswith(";"):
            spans.append(m.span())
            continue
        depth, at = 1, m.end()
        while depth and at < len(text):
            depth += {"{": 1, "}": -1}.get(text[at], 0)
            at += 1
        spans.append((m.end(), at))
    return spans


def main():
    antt, source = files()
    names = declared(antt)
    defined = declared(p for p in antt if "/specs/" in p)
    texts = {p: open(p, encoding="utf-8").read() for p in antt + source}
    words = {p: {m.group() for m in TOKEN.finditer(t)} for p, t in texts.items()}
    table, alike = {}, collections.defaultdict(set)
    for name in names:
        if not MADE.match(name):
            alike[spelled(name)].add(name)
    for new, those in sorted(alike.items()):
        together = any(len(those & words[p]) > 1 for p in antt)
        for name in sorted(those):
            # a lemma that would have a definition's name
            lemma = together and name not in defined
            to = GIVEN.get(name) or (new + "_lem" if lemma else new)
            if together and not lemma and len([it for it in those if it in defined]) > 1 and name not in GIVEN:
                print(f"look: {name} and {', '.join(sorted(those - {name}))} are spelled alike")
            if to != name:
                table[name] = to
    for path, text in texts.items():
        theirs, modules = foreign(text)
        if path.endswith(".antt"):
            for name, new in table.items():
                if name in words[path] and new in words[path]:
                    print(f"look: {path}: {name} and {new}")
        if path.endswith(".antt"):
            new = renamed(text, table, theirs, modules)
        else:
            new, last = [], 0
            for a, b in clauses(text):
                new += [text[last:a], renamed(text[a:b], table, theirs, modules)]
                last = b
            new = "".join(new + [text[last:]])
        if new != text:
            with open(path, "w", encoding="utf-8") as f:
                f.write(new)
    print(f"{len(table)} names", file=sys.stderr)


main()
