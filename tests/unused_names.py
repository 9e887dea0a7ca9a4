"""unused_names.py: names that a file of crates/ imports and does not use, and laws of its proofs that nothing uses and no document cites."""
import re
import sys
from collections import Counter
from pathlib import Path

IMPORT = re.compile(r"^\s*(?:ghost )?use (?P<path>[^\s;{]+?)(?:\.\{(?P<names>.*)\})?(?: as (?P<other>[^\s;]+))?;?$")
COMMENT = re.compile(r"^\s*(?:--|//)")
APART = re.compile(r"^\s*(?:--|//|(?:ghost |pub )?use )")
LAW = re.compile(r"(?m)^\s*pub ([^\s(){}]+) :")
# the traits of std whose methods are called, and not their names
METHODS = {"Read": r"\.read\w*\(", "Write": r"\.(?:write|flush)\w*\("}
# the files of a function's own proof
OF_FUNCTIONS = {"Invariants", "Answers", "Proof"}
WORD = re.compile(r"[^\s(){}\[\],.;:`|]+")


def imported(line):
    """The names that a line brings in."""
    found = IMPORT.match(line)
    if not found:
        return []
    if found["names"]:
        return [name.split(" as ")[-1].strip() for name in found["names"].split(",")]
    return [found["other"] or re.split(r"::|\.", found["path"])[-1]]


def used(name, text):
    """Whether the text has the name as a whole word; of an operator, as when◌then◌else◌, whether it has each part of it; of a trait, whether it calls its methods."""
    if name in METHODS and re.search(METHODS[name], text):
        return True
    whole = re.search(rf"(?<![\w'-]){re.escape(name)}(?![\w'-])", text)
    parts = [part for part in name.split("◌") if part]
    return whole or ("◌" in name and all(part in text for part in parts))


def unused_imports(file, lines):
    text = "\n".join(line for line in lines if not APART.match(line))
    return [f"{file}: {name} is imported and not used" for line in lines for name in imported(line) if not used(name, text)]


def times(name, text):
    """How often a file has a name where it declares it: its type, and its clauses."""
    return len(re.findall(rf"(?m)^\s*(?:pub )?{re.escape(name)}(?: [^:\n]*)? (?::|=)", text))


def unused_laws(texts, cited):
    """The public laws whose name stands nowhere but where it is declared, and that no document cites. Of a function's own proof the toolchain asks for the names."""
    seen = Counter(word for text in texts.values() for word in WORD.findall(text))
    for file, text in texts.items():
        for name in LAW.findall(text) if "proofs" in file.parts and file.stem not in OF_FUNCTIONS else []:
            if seen[name] <= times(name, text) and name not in cited:
                yield f"{file}: nothing uses {name}, and no document cites it"


def main():
    files = {f: f.read_text().splitlines() for form in ("*.antt", "*.rt") for f in sorted(Path("crates").rglob(form)) if "out" not in f.parts}
    texts = {f: "\n".join(line for line in lines if not COMMENT.match(line)) for f, lines in files.items()}
    cited = {name for doc in Path("docs").rglob("*.md") for name in re.findall(r"`([^`\s]+)`", doc.read_text())}
    amiss = [wrong for file, lines in files.items() for wrong in unused_imports(file, lines)]
    amiss += unused_laws(texts, cited)
    print("\n".join(amiss), end="\n" if amiss else "")
    sys.exit(1 if amiss else 0)


main()
