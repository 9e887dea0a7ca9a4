"""edit_logs.py [CRATE..]: has the prover try each must-fail edit (of the named crates), and keeps what it says, whole, in target/must-fail/CRATE/EDIT.log.

`rt ci` tries them too, and tells of each only the first line that refused it. A log whose texts have not changed since stays as it is.
"""
import contextlib
import hashlib
import os
import shutil
import sys
import tempfile
from concurrent.futures import ThreadPoolExecutor
from pathlib import Path

from kit import Kit
from wrong_answers import log_of, replacements

# what a check takes of the memory, at most but for the largest crates
NEEDED = 3_000_000_000


def edits_of(crate):
    return sorted((Path("crates") / crate / "must-fail").glob("*.edit"))


def stamp(crate, edit):
    """A sum of what the prover reads: the kit, the crate, what it rests on, and the edit."""
    return "made from " + hashlib.sha256(crate.stamp().encode() + edit.read_bytes()).hexdigest()


def is_kept(crate, edit):
    log = log_of(edit)
    return log.exists() and log.read_text().partition("\n")[0] == stamp(crate, edit)


def begun(source, to):
    """Copies what earlier checks proved, by links where these can be made: the prover replaces such files, and writes into none."""

    def copy(one, other):
        if one.endswith(".oantt"):
            with contextlib.suppress(OSError):
                return os.link(one, other)
        return shutil.copy2(one, other)

    shutil.copytree(source, to, symlinks=True, copy_function=copy)


def copied(crate, folder, texts):
    """Copies the texts of a crate, with some in place of its own."""
    for part in ("src", "specs", "proofs"):
        if Path(crate.folder, part).exists():
            shutil.copytree(Path(crate.folder, part), folder / part)
    for file, text in texts.items():
        (folder / file).write_text(text)


def tried(kit, crate, edit, start):
    """Tries an edit, over what the check of the crate as it stands proved, if that is there."""
    now = stamp(crate, edit)
    with tempfile.TemporaryDirectory() as folder:
        room = Path(folder)
        copied(crate, room / "crate", replacements(edit)[2])
        if start:
            begun(start, room / "kept")
        said, status = kit.check(crate, room / "crate", room / "kept" if start else None)
    log = log_of(edit)
    log.parent.mkdir(parents=True, exist_ok=True)
    log.write_text(f"{now}\n{said}status {status}\n")
    return status


def seed(kit, crate, many, room):
    """What the edits of a crate begin with: what `rt check` kept, or, for several, what a check of the crate as it stands proves; for one alone nothing."""
    kept = Path(crate.folder, "out", "incremental")
    if kept.is_dir() and any(kept.iterdir()):
        begun(kept, room / crate.name)
        return room / crate.name
    if many < 2:
        return None
    said, status = kit.check(crate, crate.folder, room / crate.name)
    return room / crate.name if status == 0 else None


def lanes():
    """How many checks run at a time: one a processor, as many as memory holds."""
    free = next(int(line.split()[1]) for line in open("/proc/meminfo") if line.startswith("MemAvailable:")) * 1024
    return max(1, min(len(os.sched_getaffinity(0)), free // NEEDED))


def main():
    kit = Kit()
    crates = kit.crates()
    lacking = [name for name in sys.argv[1:] if name not in crates]
    if lacking:
        sys.exit(f"edit_logs.py: {lacking[0]} is no crate of crates.txt")
    wanted = {name: [edit for edit in edits_of(name) if not is_kept(crates[name], edit)] for name in sys.argv[1:] or crates}
    wanted = {name: edits for name, edits in wanted.items() if edits}
    kit.stand(*(crates[name] for name in wanted))
    with tempfile.TemporaryDirectory() as folder, ThreadPoolExecutor(lanes()) as pool:
        # the longest checks first
        order = sorted(wanted, key=lambda name: -crates[name].count(rb"\n"))
        seeds = {name: pool.submit(seed, kit, crates[name], len(wanted[name]), Path(folder)) for name in order}
        runs = {edit: pool.submit(tried, kit, crates[name], edit, seeds[name].result()) for name in order for edit in wanted[name]}
        odd = [f"{edit}: the prover ended with status {it.result()}: {log_of(edit)}" for edit, it in runs.items() if it.result() != 1]
    print("\n".join(odd) or f"{len(runs)} edits tried")
    sys.exit(1 if odd else 0)


if __name__ == "__main__":
    main()
