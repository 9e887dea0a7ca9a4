"""The module of a program, as the kit hands it to its compiler, with chosen functions kept as functions of their own.

The compiler lays most functions into their callers, so the built programs do not show them one by one. This builds a program as the kit does, over the proved
libraries, and takes the module that the compiler gets, and the words with which it is called.
"""
import re
from pathlib import Path

from kit import Kit, run, stop

# what the kit calls its compiler with, to be seen among the words of a call
OPTIMISED = "-O3"

# a program that uses both engines, so that the compiler gets all of them; it reads no word and so links nothing
BOTH_ENGINES = """fn main() {
    let mut room = [0u8; 124];
    let read = calls::read_record(&[7, 0, 0]);
    let Ok(calls::Record { call, count: _ }) = read else {
        return;
    };
    let s = supervisor::empty(0);
    supervisor::step(s, call, &mut room);
    let x = second::empty(0);
    second::step(x, call, &mut room);
}
"""


def watched(kit, work):
    """The kit's tools, with a compiler that keeps the module and the words of its call."""
    tools = work / "toolchain"
    (tools / "bin").mkdir(parents=True)
    (tools / "lib").symlink_to(kit.tools / "lib")
    for tool in kit.clang.parent.iterdir():
        if tool.name != "clang":
            (tools / "bin" / tool.name).symlink_to(tool)
    wrapper = tools / "bin" / "clang"
    wrapper.write_text(
        f"""#!/bin/sh
case " $* " in *" {OPTIMISED} "*) cp module.bc "{work}" && printf '%s\\n' "$@" >"{work}/words" ;; esac
exec "{kit.clang}" "$@"
"""
    )
    wrapper.chmod(0o755)
    return tools


class Module:
    """The module of a program, in a folder of its own: of a crate of the repository, or of one made of a text that uses some of its crates."""

    def __init__(self, work, program=None, text=None, uses=()):
        self.kit, self.work = Kit(), work
        if text is None:
            crate = self.kit.crates()[program]
        else:
            (work / "src").mkdir()
            (work / "src" / "main.rt").write_text("#![tactic(auto)]\n\n" + text)
            crate = self.kit.program("main", work, uses)
        self.kit.stand(crate)
        said = self.kit.build(crate, work / "program.o", watched(self.kit, work))
        if not (work / "words").exists():
            stop(f"{crate.name} was not compiled\n{said}")

    def words(self):
        """The words with which the compiler is called."""
        return (self.work / "words").read_text().split()

    def text(self):
        """The module as text."""
        target = [word for word in self.words() if word.startswith("--target=")]
        as_text = ["-S", "-emit-llvm", "-O0", "-Xclang", "-disable-llvm-passes"]
        run(self.kit.clang, "--no-default-config", *target, *as_text, "-x", "ir", self.work / "module.bc", "-o", self.work / "module.ll")
        return (self.work / "module.ll").read_text()

    def compiled(self, functions, out, form="-c"):
        """Compiles the module as the kit does, but so that the functions can be called from outside.

        Its `main` is called `program`, which makes room for another. The form is -c for an object, -S for text.
        """
        ir = self.text().replace("@main(", "@program(")
        for name in functions:
            ir, times = re.subn(rf'^define internal (.*@"{re.escape(name)}"\()', r"define \1", ir, flags=re.M)
            if not times:
                stop(f"the program has no function {name}")
        text = self.work / "module.ll"
        text.write_text(ir)
        ours = {"module.bc": text, "module.o": out, "-c": form}
        run(self.kit.clang, *(ours.get(word, word) for word in self.words()))
