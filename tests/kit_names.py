"""kit_names.py TRUST: the words of the toolchain's libraries that the definitions use are those that TRUST lists.

TRUST's table `| path | N | .. |` names the files of definitions. Each name that such a file imports from a module that is not of this repository stands
in a row of TRUST that names the module, and each name of such a row is imported from one of its modules.
"""
import re
import sys
from pathlib import Path

USE = re.compile(r"(?m)^(?:ghost )?use ([\w.]+)\.\{([^}]*)\};?$")
OURS = {folder.name for folder in Path("crates").iterdir()}


def imported(trust):
    """The names that the definitions import, as pairs of module and name."""
    for file in re.findall(r"(?m)^\| `([\w/.-]+\.(?:antt|rt))` \| \d+ \|", trust):
        for module, names in USE.findall((Path("crates") / file).read_text()):
            if module.split(".")[:1] != ["Rattle"] or module.split(".")[1] not in OURS:
                yield from ((module, name.strip()) for name in names.split(","))


def main():
    doc = sys.argv[1]
    trust = Path(doc).read_text().replace("\\|", "‖")
    rows = [[re.findall(r"`([^`]+)`", cell) for cell in row.split("|")[1:3]] for row in re.findall(r"(?m)^\|.*\|$", trust)]
    rows = [(modules, [name.replace("‖", "|") for name in names]) for modules, names in rows if modules and all("." in m and "/" not in m for m in modules)]
    used = set(imported(trust))
    listed = {(module, name) for modules, names in rows for module in modules for name in names}
    wrong = [f"{doc} lists no {name} of {module}" for module, name in sorted(used - listed)]
    wrong += [f"no definition uses {name} of {' or '.join(m)}" for m, names in rows for name in names if not used & {(module, name) for module in m}]
    print("\n".join(wrong or [f"{doc}: {len(used)} names of the kit"]))
    sys.exit(1 if wrong or not used else 0)


main()
