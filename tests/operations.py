"""operations.py: statement 1 has every public operation.

A public operation is a public function of `calls`, `supervisor`, `second`, `workspace` or `card`. Of each, a file of crates/statements/specs names the
toolchain's statement (`use Rattle.CRATE.proofs.PATH.Statement as NAME`) and has it as a field (`NAME : {M : Type 1} → NAME.statement M`),
and that its contract asks nothing (`NAME_asks : ..`; of the functions over lent tables, which have no such reading, `LentAsks` says it).
Where the crate's root passes a function on (`pub use`), its name alone is a path too.
"""
import re
import sys
from pathlib import Path

from unique_names import public_functions

CRATES = ("calls", "supervisor", "second", "workspace", "card")


def spelled(name):
    """A name of several words, with either sign between them."""
    return re.escape(name).replace("_", "[_-]")


def stated(texts, crate, function):
    """Some text has the toolchain's statement of the function as a field."""
    paths = [".".join(function)]
    if f"pub use {'::'.join(function)};" in (Path("crates") / crate / "src/lib.rt").read_text():
        paths.append(function[-1])
    use = re.compile(rf"(?m)^use Rattle\.{crate}\.proofs\.(?:{'|'.join(map(re.escape, paths))})\.Statement as (\S+)$")
    for text in texts:
        for name in use.findall(text):
            word, of, contract = re.escape(name), spelled(f"of_{name}"), spelled(f"{name}_contract")
            met = re.search(rf"(?m)^  pub {word} : {{M : Type 1}} → {word}\.statement M$", text)
            asks = re.search(rf"(?m)^  pub {word}(?:_asks : AsksNothing {of}\.Asked| : .*\b{contract}\.clauses .*\.requires tt ≡ emp 𝓤)$", text)
            if met and asks:
                return True
    return False


def main():
    texts = [file.read_text() for file in sorted(Path("crates/statements/specs").glob("*.antt"))]
    public = [(crate, function) for crate in CRATES for function in public_functions(crate)]
    wrong = [f"statement 1 lacks {crate}::{'::'.join(function)}" for crate, function in public if not stated(texts, crate, function)]
    print("\n".join(wrong or [f"statement 1 has all {len(public)} public operations"]))
    sys.exit(1 if wrong or not public else 0)


main()
