"""What the toolchain's own commands do not give: what the prover says of a crate, whole, over libraries that are built already, and what it builds there.

`rt ci` leaves each library as it built it, in the crate's out/. `rt` itself takes no such library, but proves it once more, since it knows only its own. So this
calls the kit's program as `rt ci` does, by the words that the kit's own Crate (bin/rtlib.py) has for it. Where a library stands there that `rt` built for itself,
all are taken from `rt`, which builds what is missing.
"""
import contextlib
import fcntl
import importlib.util
import os
import subprocess
import sys
from pathlib import Path

sys.dont_write_bytecode = True


def stop(why):
    sys.exit(f"{Path(sys.argv[0]).name}: {why}")


def run(*words, **how):
    done = subprocess.run([str(word) for word in words], capture_output=True, text=True, **how)
    if done.returncode:
        stop(f"{' '.join(map(str, words[:2]))} .. failed\n{done.stdout}{done.stderr}")
    return done.stdout


def loaded(root):
    """The part of the kit that knows crates."""
    spec = importlib.util.spec_from_file_location("rtlib", root / "bin" / "rtlib.py")
    made = importlib.util.module_from_spec(spec)
    sys.modules["rtlib"] = made
    spec.loader.exec_module(made)
    return made


class Kit:
    """The kit, for the repository that this is called at the top of."""

    def __init__(self):
        self.root = Path(run("rt", "doc").strip()).resolve().parent
        self.lib = loaded(self.root)
        self.tools = self.root / "toolchain"
        self.clang = self.tools / "bin" / "clang"
        self.prover = self.root / "bin" / "rattle"

    def crates(self):
        """The crates of crates.txt, by name."""
        return {crate.name: crate for crate in self.lib.crates_below(os.getcwd())}

    def program(self, name, folder, uses):
        """A program that is no crate of the repository: folder/src/main.rt, which uses these crates."""
        crates, made = self.crates(), object.__new__(self.lib.Crate)
        made.folder, made.name, made.said, made.out = str(folder), name, {}, sys.stdout
        made.is_program, made.is_static, made.is_wasm, made.is_ours, made.has_c = True, False, False, False, False
        made.rlib = f"{folder}/out/rlib/{name}.rlib"
        made.of_kit, made.deps = ["std"], [crates[use] for use in uses]
        return made

    def stand(self, *wanted):
        """Sees that the libraries below these crates are built, all by `rt ci` or all by `rt`."""
        Path("target").mkdir(exist_ok=True)
        with open("target/libraries", "w") as lock, contextlib.ExitStack() as held:
            fcntl.flock(lock, fcntl.LOCK_EX)
            held.callback(fcntl.flock, lock, fcntl.LOCK_UN)
            below = {dep.name: dep for crate in wanted for dep in crate.below()}
            if not any(Path(f"{crate.folder}/out/rlib/stamp").exists() for crate in self.crates().values()) and all(map(is_left, below.values())):
                return
            for dep in below.values():
                if not dep.is_built():
                    run("rt", "lib", cwd=dep.folder)

    def check(self, crate, folder, kept=None, jobs=1):
        """What the prover says of the crate as it stands in the folder, and its status: 0 proved, 1 not. It begins with what is kept, and adds to it."""
        words = [self.prover, "check", *crate.words(["--jobs", str(jobs)], keeps=False), *(["--incremental", kept] if kept else [])]
        done = subprocess.run([str(word) for word in words], cwd=folder, stdin=subprocess.DEVNULL, stdout=subprocess.PIPE, stderr=subprocess.STDOUT, errors="replace")
        return done.stdout, done.returncode

    def build(self, crate, out, tools=None):
        """Proves a program or a static library, and compiles it."""
        words = crate.words(["--jobs", "1"], keeps=False) + ["--toolchain", tools or self.tools, "--backend", "llvm", "-o", out]
        return run(self.prover, "build", *words, cwd=crate.folder, stdin=subprocess.DEVNULL)

    def link(self, made, out):
        """Links a program as `rt` does."""
        c = self.root / "c"
        run(self.root / "bin" / "rattle-link", "--target", "x86_64-unknown-linux-gnu", "--toolchain", self.tools, "-o", out, made, c / "libos_c.a", c / "liblibc_c.a")


def is_left(crate):
    """Whether `rt ci` left the library, and no source is newer."""
    made = Path(crate.rlib)
    if not (made / "format").exists():
        return False
    sources = [Path("crates.txt"), *(file for part in ("src", "specs", "proofs") for file in Path(crate.folder, part).rglob("*"))]
    return max(file.stat().st_mtime for file in sources) <= made.stat().st_mtime


def main():
    """kit.py lib CRATE OUT: builds the static library CRATE, over what is built, into the file OUT.
    kit.py check CRATE FOLDER: checks the crate from nothing, over what is built, and keeps what it proved in the folder."""
    if len(sys.argv) != 4 or sys.argv[1] not in ("lib", "check"):
        sys.exit(main.__doc__)
    kit, verb, out = Kit(), sys.argv[1], Path(sys.argv[3]).resolve()
    crate = kit.crates().get(sys.argv[2])
    if crate is None or verb == "lib" and not crate.is_static:
        stop(f"{sys.argv[2]} is no {'static library' if verb == 'lib' else 'crate'} of crates.txt")
    kit.stand(crate)
    if verb == "lib":
        print(kit.build(crate, out), end="")
        return
    said, status = kit.check(crate, crate.folder, out)
    print(said, end="")
    sys.exit(status)


if __name__ == "__main__":
    main()
