"""rebuild.py TREE: builds the program stepper and the static library from the sources of this folder, over the libraries that are built in TREE, into target/.

What stands in TREE was proved and compiled there. Here the crates stepper and card_c are proved and lowered again, and with all that they reach of the libraries compiled,
archived and linked as the kit does it. The libraries themselves are not proved again: their lowered code is that of TREE.
"""
import shutil
import sys
from pathlib import Path

from kit import Kit


def main():
    tree, kit = Path(sys.argv[1]), Kit()
    crates = kit.crates()
    program, library = crates["stepper"], crates["card_c"]
    for crate in {crate.name: crate for top in (program, library) for crate in top.below()}.values():
        shutil.copytree(tree / "crates" / crate.name / "out" / "rlib", Path(crate.folder) / "out" / "rlib")
    kit.stand(program, library)
    for folder in ("bin", "staticlib"):
        Path("target", folder).mkdir(parents=True, exist_ok=True)
    made = Path("target/stepper.o").resolve()
    kit.build(program, made)
    kit.link(made, Path("target/bin/stepper"))
    kit.build(library, Path("target/staticlib/libcard.a").resolve())


if __name__ == "__main__":
    main()
