"""cut_advances.py LOGS CUT: writes the logs of LOGS to CUT, each ADVANCE n replaced by ADVANCE a and ADVANCE n - a.
cut_advances.py --compare LOGS WHOLE PARTS: what replay printed for both says the same.

A log is a start clock, a length and records, as replay reads them. Of a cut ADVANCE the two lines together must give the
list of the one, their entry fields must add up to its, and the last dispatched task must be its.
"""
import random
import sys
from pathlib import Path

LENGTHS = {1: 2, 2: 4, 3: 7, 4: 6, 5: 0, 6: 0, 7: 0, 8: 4}


def logs(data):
    at = 0
    while at + 8 <= len(data):
        length = int.from_bytes(data[at + 4 : at + 8], "big")
        yield data[at : at + 4], data[at + 8 : at + 8 + length]
        at += 8 + length


def records(log):
    """The whole records at the front of a log, and what stands behind them."""
    found, at = [], 0
    while at + 3 <= len(log) and log[at] in LENGTHS and at + 3 + LENGTHS[log[at]] <= len(log):
        end = at + 3 + LENGTHS[log[at]]
        if int.from_bytes(log[at + 1 : at + 3], "big") != LENGTHS[log[at]]:
            break
        found.append(log[at:end])
        at = end
    return found, log[at:]


def advance(n):
    return bytes([8, 0, 4]) + n.to_bytes(4, "big")


def cut(source, target):
    chance, out = random.Random(77), b""
    for clock, log in logs(Path(source).read_bytes()):
        found, rest = records(log)
        parts = b""
        for record in found:
            n = int.from_bytes(record[3:7], "big")
            a = chance.randint(0, n) if record[0] == 8 else 0
            parts += advance(a) + advance(n - a) if record[0] == 8 else record
        out += clock + len(parts + rest).to_bytes(4, "big") + parts + rest
    Path(target).write_bytes(out)


def printed(text):
    """The printed logs, each a list of lines without their step numbers: numbers and items."""
    out = []
    for line in text.splitlines():
        if line.startswith("step"):
            out.append([])
        else:
            head, *items = line.split(" | ")
            out[-1].append((head.split()[1:], items))
    return out


def compare(source, whole, parts):
    cuts = wrong = 0
    for (_, log), one, two in zip(logs(Path(source).read_bytes()), printed(Path(whole).read_text()), printed(Path(parts).read_text()), strict=True):
        found, rest = records(log)
        tags = ([record[0] for record in found] + [0])[: len(one)]
        # a line for each record, up to one that is none (refusal 11), and one more for each that was cut
        bad = (n for n, (numbers, _) in enumerate(one, 1) if numbers[0] == "11")
        if len(one) != next(bad, len(found) + bool(rest)) or len(two) != len(one) + tags.count(8):
            wrong += 1
            print(f"differs: {len(one)} lines, cut: {len(two)}, for {len(found)} records")
            continue
        behind = iter(two)
        for tag, (numbers, items) in zip(tags, one, strict=True):
            got, list_got = next(behind)
            if tag == 8:
                cuts += 1
                more, list_more = next(behind)
                got = more[:3] + [str(int(got[3]) + int(more[3]))] + more[4:]
                list_got = list_got + list_more
            if (got, list_got) != (numbers, items):
                wrong += 1
                print("differs:", numbers, items, "cut:", got, list_got)
    print(f"{cuts} stretches cut, {wrong} differ")
    sys.exit(1 if wrong or cuts == 0 else 0)


if sys.argv[1] == "--compare":
    compare(*sys.argv[2:])
else:
    cut(sys.argv[1], sys.argv[2])
