#!/usr/bin/env python3
"""Lists the places in crates/*/src that docs/DESIGN-PASS.md counts, a line for each: POINT FILE:LINE WHAT.

usage: tools/design_places.py [POINT..]      without a number: all of 1 to 7, and how many each has
A place is what a rule below finds in the text. A rule does not judge: what stays has its reason in the page or beside it."""
import re
import sys
from pathlib import Path

root = Path(__file__).resolve().parent.parent
WORD = re.compile(r"[A-Za-z_]\w*|\d+|b?'(?:\\.|[^'\\])'|\"(?:\\.|[^\"\\])*\"|[^\s\w]")
KEPT = set("fn let mut if else for while in match return self Self pub struct enum impl const as true false break continue u8 u16 u32 u64 usize i32 bool".split())


def code(line):
    """The line without its comment."""
    return re.sub(r"//.*", "", line)


def items(file, head):
    """(line number, text) of each item whose first line matches `head`, up to the line that closes it at the same depth."""
    lines = file.read_text().split("\n")
    for i, line in enumerate(lines):
        if re.match(head, line):
            pad = re.match(r" *", line).group()
            end = i
            if not line.rstrip().endswith(";"):
                while end < len(lines) - 1 and not re.match(pad + r"[})]", lines[end]):
                    end += 1
                # a long signature closes with a parenthesis, and its body later
                while end < len(lines) - 1 and lines[end].startswith(pad + ")"):
                    end += 1
                    while end < len(lines) - 1 and not re.match(pad + r"}", lines[end]):
                        end += 1
            yield i + 1, "\n".join(lines[i : end + 1])


def functions(file):
    return items(file, r" *(#\[.*\] *)?(pub(\(crate\))? )?(extern \"C\" )?(unsafe )?fn ")


def types(file):
    return items(file, r"(pub(\(crate\))? )?(struct|enum) ")


def name_of(text):
    return re.search(r"\b(?:fn|struct|enum) (\w+)", text).group(1)


def fields(text):
    return re.findall(r"^ +(?:pub(?:\(crate\))? )?(\w+): ([^,]+),", "\n".join(map(code, text.split("\n"))), re.M)


def point1(file):
    for at, text in types(file):
        name = name_of(text)
        if re.match(r"(pub(\(crate\))? )?enum", text):
            body = "\n".join(map(code, text.split("\n")[1:]))
            bare = re.findall(r"^    \w+,", body, re.M)
            full = re.findall(r"^    \w+ ?[({]", body, re.M)
            if bare and len(full) == 1:
                yield at, f"enum {name}: one variant with a value, {len(bare)} without"
            continue
        for field, kind in fields(text):
            if field in ("good", "ok", "yes", "stuck", "writes", "due") and kind == "bool" or field in ("refusal", "result", "tag", "number", "letter") and kind == "u8":
                yield at, f"struct {name}: {field}: {kind} beside a value"
    for at, line in enumerate(file.read_text().split("\n"), 1):
        if re.match(r"(pub(\(crate\))? )?const (?!ROOM\b|SPARE\b|\w+_SIZE\b|\w+_AT\b)[A-Z_]+: (u8|usize) = \d+;", line):
            yield at, line.strip()


def shape(text):
    """The words of an item without its clauses, with one letter for each name and N for each number."""
    lines = [code(x) for x in text.split("\n")]
    lines = [x for x in lines if not re.match(r" *(requires|ensures|×)", x)]
    out, seen = [], {}
    for word in WORD.findall("\n".join(lines)):
        if word[0].isdigit():
            out.append("N")
        elif re.match(r"[A-Za-z_]", word) and word not in KEPT:
            out.append("v%d" % seen.setdefault(word, len(seen)))
        else:
            out.append(word)
    return " ".join(x for x in out if x != "pub")


def point2(files):
    """Items of one shape, and the items of the second engine, or of owned tables, beside those of the first, or of lent ones, with the same name."""
    groups, names, told = {}, {}, set()
    for file in files:
        crate = file.parts[-3]
        if crate == "card_c":  # its functions pass those of card on to C
            continue
        for at, text in list(functions(file)) + list(types(file)):
            form, name = shape(text), name_of(text)
            if len(form.split()) >= 30:
                groups.setdefault(form, []).append((file, at, name))
            plain = re.sub(r"second_|_second|Second|card_", "", name)
            other = plain != name or crate == "second" or file.stem in ("owned", "seconds", "by_rows")
            names.setdefault(("engine" if crate in ("supervisor", "second") else crate, plain), []).append((file, at, name, other))
    pairs = [g for g in names.values() if len(g) > 1 and any(x[3] for x in g) and not all(x[3] and x[0] == g[0][0] for x in g)]
    for group in list(groups.values()) + pairs:
        first = group[0]
        for file, at, name, *_ in group[1:]:
            if (file, at) not in told and (first[0], first[1]) not in told:
                told.add((file, at))
                yield file, at, f"{name} is as {first[2]} ({first[0].relative_to(root)}:{first[1]})"


def by_lines(rules):
    def places(file):
        for at, line in enumerate(file.read_text().split("\n"), 1):
            for rule in rules:
                if re.search(rule, code(line)):
                    yield at, line.strip()
                    break
    return places


# a loop that only counts its turns names no index: `for _ in`, `for _turn in`
point3 = by_lines([r"\bfor [a-z]\w* in (\d+|\w+)\.\.", r"\bwhile\b"])

FORMS = [
    r"std::num::wrapping_",                                # a method of the number
    r"if (\w+) < (\w+) \{ (\1|\2) \} else \{ (\1|\2) \}",  # min, max
    r"if \w+ \{ 1 \} else \{ 0 \}",                        # u8::from
    r"\[0\] == b'", r"\(\w+ & !\w+\) \| \(",               # == of slices, of bools
]


def point4(file):
    """Forms that the library has, tests that are a `match`, and two fields or more that are copied one by one."""
    lines = [code(x).rstrip() for x in file.read_text().split("\n")]
    for at, line in enumerate(lines):
        around = lines[max(at - 1, 0) : at] + lines[at + 1 : at + 2]
        arm = re.search(r"=> (true|false),", line) and any(re.search(r"=> (true|false),", x) for x in around)
        field = re.match(r" +(\w+): (\w+)\.\1,$", line)
        copied = field and any((m := re.match(r" +(\w+): (\w+)\.\1,$", x)) and m[2] == field[2] for x in around)
        if arm or copied or any(re.search(form, line) for form in FORMS):
            yield at + 1, line.strip()


def signature(text):
    head = text.split("{")[0]
    inner = re.search(r"\(([^{]*)\)", head, re.S)
    return re.findall(r"(\w+): ([^,()]+)", inner.group(1)) if inner else []


def point5(files):
    """Two parameters that three functions of a crate or more have, and no function has one of them alone; a `requires` with one text in three functions or more."""
    having, facts = {}, {}
    for file in files:
        crate = file.parts[-3]
        for at, text in functions(file):
            place = (file, at)
            for word in {f"{n}: {' '.join(t.split())}" for n, t in signature(text)}:
                having.setdefault((crate, word), set()).add(place)
            for clause in re.findall(r"^    requires (?:\w+ )?\{ (.*) \}$", text, re.M):
                facts.setdefault((crate, clause), []).append(place)
    words = sorted(having)
    for i, (crate, one) in enumerate(words):
        for other_crate, other in words[i + 1 :]:
            found = having[crate, one]
            if crate == other_crate and len(found) >= 3 and found == having[other_crate, other] and "rt: &R" not in (one, other):
                yield *min(found), f"`{one}` and `{other}` in {len(found)} functions of {crate}, and neither alone"
    for (crate, clause), found in facts.items():
        if len(found) >= 3:
            yield *found[0], f"requires `{clause}` in {len(found)} functions of {crate}"


def point6(file):
    for at, text in types(file):
        kinds = [k for _, k in fields(text)]
        arrays = [k for k in kinds if k.startswith("[")]
        if arrays and "usize" in kinds:
            yield at, f"struct {name_of(text)}: an array and a place in it"
        if len(arrays) > 1:
            yield at, f"struct {name_of(text)}: {len(arrays)} arrays side by side"
    for at, line in enumerate(file.read_text().split("\n"), 1):
        if re.match(r"(pub(\(crate\))? )?const [A-Z_]+: \[", line):
            yield at, line.strip()


point7 = by_lines([r"^(pub )?enum Test\b", r"\b(second|failed): bool\b", r"\bletter == b'", r"\(a == b'\w'\) & \(b == b'"])


def main(words):
    files = sorted((root / "crates").glob("*/src/*.rt"))
    each = {"1": point1, "3": point3, "4": point4, "6": point6, "7": point7}
    for point in words or "1234567":
        found = []
        if point in "25":
            found = sorted((point2 if point == "2" else point5)(files), key=str)
        else:
            found = [(file, at, what) for file in files for at, what in each[point](file)]
        for file, at, what in found:
            print(point, f"{file.relative_to(root)}:{at}", what)
        if not words:
            print(f"point {point}: {len(found)} places")


main(sys.argv[1:])
