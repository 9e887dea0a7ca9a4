"""exports.py: each function that C calls says what the function of the library says that it passes on, and does no more than pass it on.

A function of card_c has a function of card with its name. Their parameters, answers and clauses are the same, word for word, each word of a clause is imported from the
same place, and the body is a call of that function with the parameters in their order. So what is proved of the one holds of the other.
"""
import re
import sys
from pathlib import Path

FROM, TO = "card", "card_c"
FUNCTION = re.compile(r'(?ms)^(?P<marked>#\[unsafe\(no_mangle\)\]\n)?pub (?P<c>extern "C" )?fn (?P<name>\w+)(?P<head>\(.*?)^\{\n(?P<body>.*?)^\}')
USE = re.compile(rf"(?m)^use {FROM}::(?:\{{([^}}]*)\}}|([^{{}};]+));$")
IMPORT = re.compile(r"(?m)^ghost use ([\w.]+)\.\{([^}]*)\};$")


def functions(crate):
    """The public functions of a crate by their names: the path, what stands before the body, the body, whether C can call it, and where the words of its file are from."""
    for file in sorted((Path("crates") / crate / "src").rglob("*.rt")):
        text = file.read_text()
        words = {name.strip(): module for module, names in IMPORT.findall(text) for name in names.split(",")}
        module = [] if file.stem in ("lib", "main") else [file.stem]
        for found in FUNCTION.finditer(text):
            head = " ".join(found["head"].split()).replace("( ", "(").replace(", )", ")")
            body = renamed(" ".join(found["body"].split()), text)
            yield found["name"], ("::".join([crate, *module, found["name"]]), head, body, bool(found["marked"] and found["c"]), words)


def renamed(body, text):
    """A body with the modules of the library under their own names."""
    for several, one in USE.findall(text):
        for name in (several or one).split(","):
            path, _, alias = name.strip().partition(" as ")
            body = re.sub(rf"(?<![\w:]){alias or path.split('::')[-1]}::", f"{FROM}::{path}::", body)
    return body


def has(text, word):
    """Whether a text has a word; of an operator, as ◌≡◌, whether it has each part of it."""
    if "◌" in word:
        return all(part in text for part in word.split("◌"))
    return re.search(rf"(?<![\w'-]){re.escape(word)}(?![\w'-])", text)


def amiss_with(name, own, theirs):
    if name not in theirs:
        yield f"{own[0]}: {FROM} has no function of that name"
        return
    path, head, _, _, words = theirs[name]
    if own[1] != head:
        yield f"{own[0]}: its parameters, its answer or its contract are not those of {path}"
    clauses = re.sub(r"\b(requires|ensures) \w+ \{", r"\1 {", head[head.find(")") :])
    for word in sorted(words.keys() | own[4].keys()):
        if has(clauses, word) and words.get(word) != own[4].get(word):
            yield f"{own[0]}: {word} is of {own[4].get(word)} there, and of {words.get(word)} in {path}"
    given = re.findall(r"(\w+): ", own[1][: own[1].find(")")])
    if own[2] != f"{path}({', '.join(given)})":
        yield f"{own[0]}: its body is not the call {path}({', '.join(given)})"


def main():
    theirs = dict(functions(FROM))
    exported = {name: own for name, own in functions(TO) if own[3]}
    amiss = [why for name, own in exported.items() for why in amiss_with(name, own, theirs)]
    print("\n".join(amiss) or f"{len(exported)} functions for C, each with the contract of the one that it passes on")
    sys.exit(1 if amiss or not exported else 0)


main()
