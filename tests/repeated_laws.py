"""repeated_laws.py: laws that two files of proofs state, the same but for the names of their variables and for which of them are implicit."""
import re
import sys
from pathlib import Path

IMPORT = re.compile(r"(?m)^\s*(?:pub )?use ([^\s;{]+?)(?:\.\{(.*)\})?(?: as ([^\s;]+))?;?$")
STATED = re.compile(r"(?m)^( *)(?:pub )?([^\s:(){}]+)(?: \{[^}]*\})? : (.*(?:\n\1 {4,}→.*)*)")
BOUND = re.compile(r"[({]((?:[^\s:(){}]+ )+): |λ ([^.:(){}]+)\.")
WORD = re.compile(r"[^\s(){},]+")
# the files of a function's own proof
OF_FUNCTIONS = {"Invariants", "Answers", "Proof"}
KEPT = {"Type", "Unit", "λ", "let", "in", "if", "then", "else"}

# what is shorter is said as quickly as it is cited: (n : ℕ) → 0 + n ≡ n
SHORTEST = 20


def imported(text):
    """Each name that a file imports, in full."""
    for path, names, other in IMPORT.findall(text):
        if not names:
            yield other or path.split(".")[-1], path
        for there, _, here in (name.partition(" as ") for name in names.split(", ") if name):
            yield here or there, f"{path}.{there}"


def law(type_, file, names):
    """What a law says, its variables numbered and its names in full; None where it has no variable and is no equation, as the type of a definition.

    A name that is neither bound nor imported is the file's own, or that of a module's parameter: another file says something else with it.
    """
    type_ = re.sub(r"\bType [^\s(){}]+", "Type", type_)
    bound = [name for names in BOUND.findall(type_) for name in " ".join(names).split()]

    def full(word):
        first, dot, rest = word.partition(".")
        own = f"{file}.{first}" if first[:1].isalpha() and first not in KEPT else first
        return (f"#{bound.index(first)}" if first in bound else names.get(first, own)) + dot + rest

    return " ".join(map(full, WORD.findall(type_))) if bound or "≡" in type_ else None


def main():
    places = {}
    for file in sorted(f for f in Path("crates").glob("*/proofs/**/*.antt") if f.stem not in OF_FUNCTIONS):
        text = file.read_text()
        names = dict(imported(text))
        for found in STATED.finditer(text):
            says = law(found[3], file, names) if len(found[3]) >= SHORTEST else None
            line = text.count("\n", 0, found.start()) + 1
            places.setdefault(says, {}).setdefault(file, f"{file}:{line}: {found[2]}")
    amiss = [" says the same as ".join(there.values()) for says, there in places.items() if says and len(there) > 1]
    print("\n".join(amiss) or f"{len(places)} laws, each stated once")
    sys.exit(1 if amiss or not places else 0)


main()
