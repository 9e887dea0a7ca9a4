"""line_counts.py [--write] DOC: checks (or writes) the line counts in a document's table rows `| path | N | .. |`.

A path stands in back quotes and names a file under crates/; N counts its lines. A row `| all of them | N |` has the sum.
"""
import re
import sys
from pathlib import Path


def main():
    write = sys.argv[1] == "--write"
    doc = Path(sys.argv[-1])
    total, wrong, out = 0, 0, []
    for line in doc.read_text().splitlines():
        row = re.match(r"\| `([\w/.-]+\.(?:antt|rt))` \| (\d+) \|", line)
        if row:
            count = len((Path("crates") / row.group(1)).read_text().splitlines())
            total += count
        elif line.startswith("| all of them |"):
            row, count = re.match(r"\| (all of them) \| (\d+) \|", line), total
        if row and int(row.group(2)) != count:
            wrong += 1
            if not write:
                print(f"{doc}: {row.group(1)} has {count} lines, not {row.group(2)}")
            line = line.replace(f"| {row.group(2)} |", f"| {count} |", 1)
        out.append(line)
    if write:
        doc.write_text("\n".join(out) + "\n")
    elif total == 0:
        print(f"{doc}: no row found")
    sys.exit(0 if write or (wrong == 0 and total) else 1)


main()
