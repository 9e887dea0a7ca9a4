"""cited_names.py DOC [FOLDER..]: checks the names that a document cites.

In a table row, a cell `path.antt` (or .rt, .edit) names a file of crates/, and the words in back quotes of the cell before
it are names that the file must declare. A cited file that ends in .edit need only exist. With folders, every word in back quotes of a table
row is a name that some file of theirs must declare.
"""
import re
import sys
from pathlib import Path


def declared(text, name):
    """The name stands in the text as a whole word at a place that declares it."""
    word = re.escape(name)
    return re.search(rf"(?m)^\s*(abbrev |unfoldable |pub |record |data |fn |extern \"C\" )*{word}\s*[:({{,<]", text) or re.search(
        rf"(?m)\b(record|data|fn|struct|enum) {word}\b", text
    )


def named(cell):
    return re.findall(r"`([^`\s]+)`", cell)


def by_file(cells):
    """What is cited with its file: the file, whether it is there, and the names that it does not declare."""
    for before, cell in zip(cells, cells[1:]):
        for path in re.findall(r"`([\w/.-]+\.(?:antt|rt|edit))`", cell):
            file = Path("crates") / path
            if not file.exists():
                yield f"no file {file}"
            elif path.endswith(".edit"):
                yield None
            else:
                yield from (None if declared(file.read_text(), name) else f"{file} declares no {name}" for name in named(before))


def by_folder(cells, text, folders):
    """What is cited of the folders, whose files have this text."""
    for name in named(" ".join(cells)):
        yield None if declared(text, name) else f"nothing declares {name} in {' '.join(folders)}"


def main():
    doc, folders = Path(sys.argv[1]), sys.argv[2:]
    text = "\n".join(f.read_text() for folder in folders for form in ("*.antt", "*.rt") for f in Path(folder).rglob(form) if "out" not in f.parts)
    cited, amiss = 0, []
    for number, line in enumerate(doc.read_text().splitlines(), 1):
        if not line.startswith("|"):
            continue
        cells = [c.strip() for c in line.strip("|").split("|")]
        for wrong in by_folder(cells, text, folders) if folders else by_file(cells):
            cited += 1
            amiss += [f"{doc}:{number}: {wrong}"] if wrong else []
    print("\n".join(amiss) or f"{doc}: {cited} names cited")
    sys.exit(1 if amiss or cited == 0 else 0)


main()
