"""wrong_answers.py texts | table [--write] DOC | logs [CRATE..]: the wrong answers of crates/*/must-fail/*.edit.

An edit replaces one or more texts of its crate, each by a wrong one. The comment above a text names the wrong answer. Above a definition, a
contract or what an impl says of ghost members a line `law: FILE NAME` names the theorem that refuses it; above a text of a function's body a line `at: GOAL` may name the goal of the
function that does (as `returns` or `loop-i-preserved`), and must where the edit has two wrong answers of one function.
  texts   each replaced text stands once in its file, in a function (a constant counts to the one that has it last) or in a definition, and has its comment; no two wrong answers
          of an edit are refused by the same law or at the same goal, but where each of them but one has an edit in which it is alone there; and every public function whose contract determines its answer
          has two wrong answers of its own, or one and two in its parts if PARTS has it (a function that only passes one on to C has those of that one, and a method that a
          trait only declares those of its impls)
  table   the table of DOC between its two marks lists them all (--write puts it there)
  logs    in what the prover said of the edits (of the named crates; tests/edit_logs.py has it say so), each changed function was refused by itself, at a fact
          and at the goal that is named, and each changed definition or contract by its law, at a fact; where a function's proof rests on a law that
          another wrong answer of the edit brings down, another edit has it refused without that
tests/alone tries by itself each of the wrong answers of a function that share an edit.
"""
import re
import sys
from collections import namedtuple
from pathlib import Path

from unique_names import EXPORTING, impl_of, public_functions, without_answer

Wrong = namedtuple("Wrong", "edit crate file says old new where law at")
BEGIN, END = "<!-- wrong answers: made by tests/wrong_answers.py -->", "<!-- end of the wrong answers -->"
FUNCTION = re.compile(r'^\s*(?:pub(?:\(crate\))? )?(?:extern "C" )?fn (\w+)')
CLAUSE = re.compile(r"^\s*(?:requires|ensures)\b")
CONSTANT = re.compile(r"^\s*(?:pub(?:\(crate\))? )?const (\w+):")
# what stands behind the name of a function where not its body but its contract is changed
CONTRACT = " (contract)"
# Public functions that only put parts together: one wrong answer is enough there, and each has two more in the parts that it rests on.
PARTS = {
    "workspace::fresh": ["lent::stored", "steps::made"],
    "workspace::request": ["places::first_fit", "steps::cut_at", "steps::request_refusal"],
    "workspace::release": ["steps::touches_low", "steps::freed"],
}
# what the prover says of two sides that are not equal, or of a goal that does not follow
FACT = re.compile(r"^expected type `|first differ|differ only|the two types|the two values|on the face `|does not follow|does not hold|no proof of|found no proof|what it leaves must be")


def crates():
    """The listed crates, lower layers first."""
    return re.findall(r"(?m)^(\w+)\b[^:#\n]*:", Path("crates.txt").read_text())


def function_of(file, text, at):
    """The path of the function in which the text stands at that place, in its body or in its contract, or None: of a constant, the function that has it last; outside a
    function, the impl above whose functions it stands; or None."""
    end = text.index("\n", at)
    lines = text[:end].splitlines()
    constant = CONSTANT.match(lines[-1])
    named = [found.start() for found in re.finditer(rf"\b{constant.group(1)}\b", text) if found.start() > end] if constant else []
    if named:
        return function_of(file, text, named[-1])
    modules = file.removesuffix(".rt").split("/")[1:]
    path = "::".join(modules if modules not in (["lib"], ["main"]) else [])
    heads = [number for number, line in enumerate(lines) if FUNCTION.match(line)]
    above = impl_of(lines[heads[-1] :] if heads else lines)
    if above:
        return "::".join(filter(None, [path, *above])) + CONTRACT
    names = [*impl_of(lines[: heads[-1]]), FUNCTION.match(lines[heads[-1]]).group(1)] if heads else []
    since = lines[heads[-1] :] if heads else []
    in_contract = any(map(CLAUSE.match, since)) and not any(line.strip() == "{" for line in since)
    return "::".join(filter(None, [path, *names])) + (CONTRACT if in_contract else "") if names else None


def proofs_of(crate, where):
    """The folder of a function's proof files; that of one that calls itself stands under `+NAME`."""
    *modules, name = where.split("::")
    own = "/".join(["proofs", *modules, "+" + name])
    return own if (Path("crates") / crate / own).exists() else own.replace("+" + name, name)


def refusing(wrong):
    """What refuses a wrong answer: a law, a goal of the changed function, or any goal of it."""
    return " ".join(wrong.law) if wrong.law else f"{wrong.where} {wrong.at}" if wrong.at else wrong.where


def amiss_with(wrong):
    """What is amiss with one wrong answer."""
    if not wrong.where:
        yield "in no function"
    in_body = wrong.file.startswith("src/") and not (wrong.where or "").endswith(CONTRACT)
    if (wrong.law is None) != in_body:
        yield "a law is named for a definition and for a contract, and for nothing else"
    if wrong.at and not in_body:
        yield "a goal is named for a text of a function's body, and for nothing else"


def replacements(edit):
    """The wrong answers of an edit, what is amiss with it, and the texts of its files with all of them."""
    crate, file, named, texts, found, amiss = edit.parts[1], None, [], {}, [], []
    for line in edit.read_text().splitlines():
        if line.startswith("#"):
            named.append({"says": line[1:].strip(), "law": None, "at": None})
        elif line.startswith("law: "):
            named[-1]["law"] = tuple(line.split()[1:])
        elif line.startswith("at: "):
            named[-1]["at"] = line[4:]
        elif line.startswith("file: "):
            file = line[6:]
            texts.setdefault(file, (Path("crates") / crate / file).read_text())
        elif line.startswith("old: "):
            old, text = line[5:], texts[file]
            if text.count(old) != 1:
                amiss.append(f"{edit}: its text stands {text.count(old)} times in {file}: {old.strip()}")
            if not named:
                amiss.append(f"{edit}: no comment above: {old.strip()}")
        elif line.startswith("new:"):
            new, text = line[4:].removeprefix(" "), texts[file]
            where = function_of(file, text, text.find(old)) if file.startswith("src/") else file
            found += (Wrong(edit=edit, crate=crate, file=file, old=old, new=new, where=where, **name) for name in named)
            texts[file], named = text.replace(old, new, 1), []
    amiss += (f"{edit}: {why}: {wrong.old.strip()}" for wrong in found for why in amiss_with(wrong))
    twice = {wrong.where for wrong in found if not wrong.law and not wrong.at and [w.where for w in found].count(wrong.where) > 1}
    amiss += [f"{edit}: {place} refuses two wrong answers" for place in sorted(twice)]
    return found, amiss, texts


def text_of(wrong):
    """What a wrong answer replaces, and by what."""
    return wrong.crate, wrong.file, wrong.old, wrong.new


def without_the_others(found):
    """The places that refuse two texts of an edit, where more than one of these has no other edit in which its place refuses it alone."""
    texts = {}
    for wrong in found:
        texts.setdefault((wrong.edit, refusing(wrong)), {})[text_of(wrong)] = wrong
    alone = {text for there in texts.values() if len(there) == 1 for text in there}
    for (edit, place), there in texts.items():
        if len(there) > 1 and sum(text not in alone for text in there) > 1:
            yield f"{edit}: {place} refuses two wrong answers"


def all_wrong():
    """All wrong answers, by crate and edit, and what is amiss with the edits."""
    found, amiss = [], []
    for crate in crates():
        for edit in sorted((Path("crates") / crate / "must-fail").glob("*.edit")):
            more, wrong, _ = replacements(edit)
            found += more
            amiss += wrong
    return found, amiss + list(without_the_others(found))


def texts():
    found, amiss = all_wrong()
    unbound = without_answer(Path("docs/TRUST.md").read_text())
    for crate in crates():
        if crate in EXPORTING or not (Path("crates") / crate / "src/lib.rt").exists():
            continue
        for function in ("::".join(f) for f in public_functions(crate, bodies=True)):
            own = {(text_of(w), w.says) for w in found if (w.crate, w.where) == (crate, function)}
            name = f"{crate}::{function}"
            least = 1 if name in PARTS else 2
            if name not in unbound and len(own) < least:
                amiss.append(f"{name}: {len(own)} wrong answers in crates/{crate}/must-fail, not {least}")
    for function, parts in PARTS.items():
        crate = function.split("::")[0]
        if len([w for w in found if w.crate == crate and w.where in parts]) < 2:
            amiss.append(f"{function}: fewer than two wrong answers in the parts that it rests on")
    return amiss, f"{len({(text_of(w), w.says) for w in found})} wrong answers in {len({w.edit for w in found})} edits"


def rows():
    """The table: a row for each function, for each contract, and for each file of definitions."""
    found, _ = all_wrong()
    places = list(dict.fromkeys((w.crate, w.where) for w in found))
    yield "| function, its contract, or file of definitions | wrong answers | refused edits |"
    yield "|---|---|---|"
    for crate, where in places:
        own = [w for w in found if (w.crate, w.where) == (crate, where)]
        name = f"{crate}/{where}" if "/" in where else f"{crate}::{where}"
        edits = " ".join(dict.fromkeys(f"`{crate}/must-fail/{w.edit.name}`" for w in own))
        says = dict.fromkeys(w.says + (f" (`{w.law[1]}`)" if w.law else "") for w in own)
        yield f"| `{name}` | {'; '.join(says)} | {edits} |"


def table(words):
    doc = Path(words[-1])
    text = doc.read_text()
    head, rest = text.split(BEGIN)
    made = "\n".join([BEGIN, "", *rows(), "", END])
    new = head + made + rest.split(END)[1]
    if "--write" in words:
        doc.write_text(new)
    return [] if text == new or "--write" in words else [f"{doc}: not the wrong answers of the edits: run tests/wrong_answers.py table --write {doc}"], ""


def log_of(edit):
    """Where what the prover said of an edit is kept."""
    return Path("target/must-fail") / edit.parts[1] / f"{edit.stem}.log"


def errors(log, file):
    """The declarations of a proof file of which the prover said that a fact does not hold."""
    said = re.findall(rf"(?m)^(?:\./)?{re.escape(file)}:\d+:\d+: error: `([^`]*)`: (.*(?:\n  .*)*)", log)
    return {name for name, why in said if FACT.search(why)}


def open_goals(log, wrong):
    """The goals of a function that did not hold: those that the line of the function itself names, and those whose answers the prover refused. A function that
    is not proved only since it calls one that is not has none."""
    line = re.search(rf"(?m)^fn {wrong.crate}::{re.escape(wrong.where)}: (?:no proof|not proved)\b(.*)", log)
    if line is None:
        return set()
    tried = re.search(r"`search` did not prove ((?:`[^`]+`(?:, | and )?)+)", line.group(1))
    goals = set(re.findall(r"`([^`]+)`", tried.group(1))) if tried else set()
    folder = proofs_of(wrong.crate, wrong.where)
    return goals.union(*(errors(log, f"{folder}/{file}.antt") for file in ("Answers", "Invariants", "Proof")))


def refused(log, wrong):
    """What was changed was refused at a fact: a definition or a contract by its law, a function by a goal of its own, the named one if one is."""
    if wrong.law:
        return wrong.law[1] in errors(log, wrong.law[0])
    goals = open_goals(log, wrong)
    return wrong.at in goals if wrong.at else bool(goals)


def logs(words):
    found = [wrong for wrong in all_wrong()[0] if not words or wrong.crate in words]
    amiss = [f"{word}: no crate of crates.txt" for word in words if word not in crates()]
    if not found and not words:
        amiss.append("no wrong answers")
    # beside another wrong answer a function's proof may rest on a law that falls by that one, and is not looked at: then another edit has the text without that
    refusals = {text_of(w) for w in found if log_of(w.edit).exists() and refused(log_of(w.edit).read_text(), w)}
    for wrong in found:
        log = log_of(wrong.edit)
        if text_of(wrong) in refusals and not wrong.law and not open_goals(log.read_text(), wrong):
            continue
        if not log.exists():
            amiss.append(f"{wrong.edit}: no log {log}: run tests/edit_logs.py {wrong.crate}")
        elif not refused(log.read_text(), wrong):
            goals = sorted(open_goals(log.read_text(), wrong)) if not wrong.law else []
            amiss.append(f"{wrong.edit}: {wrong.crate}: {wrong.where} was not refused by itself at {wrong.at or 'a fact'}{': but at ' + ' '.join(goals) if goals else ''}: {wrong.says}")
    return amiss, f"{len(found)} wrong answers, each refused by itself at a fact"


def main():
    verbs = {"texts": lambda words: texts(), "logs": logs, "table": table}
    if len(sys.argv) < 2 or sys.argv[1] not in verbs:
        sys.exit(__doc__)
    amiss, well = verbs[sys.argv[1]](sys.argv[2:])
    print("\n".join(amiss) or well)
    sys.exit(1 if amiss else 0)


if __name__ == "__main__":
    main()
