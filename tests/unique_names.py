"""unique_names.py TRUST STATEMENTS: every public function's contract determines the answer, or TRUST names the function.

A function is public if another crate can name or call it: a `pub fn` or `pub extern "C" fn` of a library's src/lib.rt, or of a module that is
`pub` there, a method of a trait that is `pub` there, or a function of an impl of a trait there (`impl From<A> for B`), unless the trait or the type is private to its file.
For each, proofs/Unique.antt of its crate names its contract (`use ..NAME.Reads as ALIAS`) and proves a theorem `.._once` of it, and
the row of STATEMENTS that names that file names the theorem. A function that C calls stands for one of a library, of which this is proved (tests/exports.py). A function whose answer no contract determines stands in a table row of TRUST, as
`crate::module::name`. And every function that is `pub`, in whatever file, has a contract on its answer, if it answers anything.
"""
import re
import sys
from pathlib import Path

# the crates that only pass functions on to C
EXPORTING = {"card_c"}
IMPL = re.compile(r"^impl(?:<.*?>)? (?:(?:\w+::)*(\w+)(?:<(\w+)>)? for )?(\w+)")
TRAIT = re.compile(r"^(pub )?trait (\w+)")


def opened(lines):
    """The first line of the trait or impl that is open behind these lines; empty where none is."""
    heads = [line for line in lines if IMPL.match(line) or TRAIT.match(line) or line == "}"]
    return heads[-1] if heads and heads[-1] != "}" else ""


def impl_of(lines):
    """The name that the toolchain gives the trait or impl that is open behind these lines, as Engine, ModeFromCallMode or Row; none where none is."""
    head = opened(lines)
    if TRAIT.match(head):
        return (TRAIT.match(head).group(2),)
    found = IMPL.match(head)
    if found is None:
        return ()
    trait, other, own = found.groups("")
    return ((own[0].upper() + own[1:] if trait else own) + trait + other,)


def is_reached(head, private):
    """Whether other crates reach what stands, with no `pub` of its own, in this trait or impl: a trait's methods, where neither it nor the type is private."""
    trait, found = TRAIT.match(head), IMPL.match(head)
    if trait:
        return trait.group(1) is not None
    return found is not None and found.group(1) is not None and private.isdisjoint((found.group(1), found.group(3)))


def has_body(lines):
    """Whether the function that these lines begin with has a body: one that a trait only declares has none."""
    end = next(line for line in lines if line.endswith((";", "{", "{}")))
    return not end.endswith(";")


def public_functions(crate, modules=(), bodies=False):
    """The public functions of a crate, or those with a body, each as the names on the way to it."""
    text = (Path("crates") / crate / "src" / ("/".join(modules or ["lib"]) + ".rt")).read_text()
    lines = text.splitlines()
    private = set(re.findall(r"(?m)^(?:struct|enum|trait) (\w+)", text))
    for number, line in enumerate(lines):
        made = re.match(r'\s*(pub (?:extern "C" )?)?fn (\w+)', line)
        if made and (made.group(1) or is_reached(opened(lines[:number]), private)) and (not bodies or has_body(lines[number:])):
            yield (*modules, *impl_of(lines[:number]), made.group(2))
    for module in re.findall(r"(?m)^pub mod (\w+);", text):
        yield from public_functions(crate, (*modules, module), bodies)


def without_contract():
    """The functions marked `pub` that answer something and have no contract on it."""
    for file in sorted(Path("crates").glob("*/src/**/*.rt")):
        for name, rest in re.findall(r'(?ms)^\s*pub (?:extern "C" )?fn (\w+)(.*?\{)$', file.read_text()):
            if "->" in rest and "ensures" not in rest:
                yield f"{file}: {name} is public, and has no contract on its answer"


def without_answer(trust):
    """The functions that TRUST lists because no contract determines their answer."""
    return {name for row in re.findall(r"(?m)^\|([^|]*)\|", trust) for name in re.findall(r"`(\w+(?:::\w+)+)`", row)}


def theorem(crate, function):
    """The name of the theorem about the function's contract, or None."""
    file = Path("crates") / crate / "proofs/Unique.antt"
    text = file.read_text() if file.exists() else ""
    path = re.escape(".".join(function))
    named = re.search(rf"(?m)^use Rattle\.{crate}\.(?:proofs\.{path}\.Reads|specs\.contracts\.{path}) as (\S+)$", text)
    if named is None:
        return None
    alias = re.escape(named.group(1))
    stated = re.findall(r"(?ms)^\s*pub (\S+_once) :(.*?)^\s*\1 ", text)
    return next((once for once, says in stated if re.search(rf"(?<![\w-]){alias}\.(Learnt|clauses)\b", says)), None)


def main():
    trust, statements = (Path(doc).read_text() for doc in sys.argv[1:3])
    listed = without_answer(trust)
    rows = re.findall(r"(?m)^\|(.*)\| `(\w+)/proofs/Unique\.antt` \|", statements)
    cited = {(crate, name) for row, crate in rows for name in re.findall(r"`(\S+_once)`", row)}
    wrong, public = list(without_contract()), set()
    for lib in sorted(Path("crates").glob("*/src/lib.rt")):
        crate = lib.parts[1]
        if crate in EXPORTING:
            continue
        for function in public_functions(crate):
            name = "::".join((crate, *function))
            public.add(name)
            once = theorem(crate, function)
            if once is None and name not in listed:
                wrong.append(f"{name}: no theorem in crates/{crate}/proofs/Unique.antt, and no row in {sys.argv[1]}")
            elif once and name in listed:
                wrong.append(f"{name}: a row in {sys.argv[1]}, and the theorem {once}")
            elif once and (crate, once) not in cited:
                wrong.append(f"{name}: {sys.argv[2]} does not name {once}")
    wrong += [f"{name}: a row in {sys.argv[1]}, and no such public function" for name in sorted(listed - public)]
    print("\n".join(wrong or [f"{len(public)} public functions, {len(listed)} of them with a row in {sys.argv[1]}"]))
    sys.exit(1 if wrong or not public else 0)


if __name__ == "__main__":
    main()
