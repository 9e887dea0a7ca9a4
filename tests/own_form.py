"""own_form.py OBJECT: compiles functions of the supervisor and of the library, for tests/reference/own.rs to call.

They are compiled as the kit compiles a program, but kept as functions of their own: see module.py.
"""
import os
import sys
import tempfile
from pathlib import Path

from module import Module

FUNCTIONS = [
    "supervisor::step",
    "soundness::is_sound",
    "table::dispatch::running",
    "calls::reader::read_record",
    "codec::state_in",
    "codec::store",
    "card::card_step",
    "card::contacts::debounce_fresh",
    "card::contacts::debounce_tick",
]

# a program that uses the library, so that the compiler gets all of it
PROGRAM = """fn main() {
    let mut state = [0u8; 501];
    let mut room = [0u8; 124];
    let mut answer = [0u8; 7];
    card::card_empty(&mut state, 0);
    card::card_step(&mut state, &[7, 0, 0], &mut room, &mut answer);
    card::card_running(&state, &mut answer);
    let mut debouncer = [0u8; 541];
    card::contacts::debounce_fresh(&mut debouncer, &[]);
    card::contacts::debounce_tick(&mut debouncer, 0, &mut answer);
}
"""


def main():
    if len(sys.argv) != 2:
        sys.exit(__doc__)
    out = Path(sys.argv[1]).resolve()
    os.chdir(Path(__file__).resolve().parent.parent)
    with tempfile.TemporaryDirectory() as folder:
        Module(Path(folder), text=PROGRAM, uses=["card"]).compiled(FUNCTIONS, out)


main()
