#!/usr/bin/env python3
"""Checks that docs/FAULTS.md and the text of `exr --faults` (crates/exr/src/faults.rt) have the same statuses and faults:
section by section the same numbers, names and meanings in the same order.

Use: tools/check_faults.py, at the top of the repository. Prints how many lines it compared; status 1 where two differ.
"""
import re, sys

PROGRAM, DOCUMENT = "crates/exr/src/faults.rt", "docs/FAULTS.md"


def of_program():
    """The sections of the program's text: title, and rows of number, name and meaning."""
    sections = {}
    for line in open(PROGRAM, encoding="utf-8"):
        row = re.match(r" +(\d+)  (\w+) +(.*)$", line)
        title = re.match(r"(Statuses|Faults of [^(]*?)(?: \(.*)?$", line)
        if title:
            rows = sections.setdefault(title[1], [])
        elif row:
            rows.append(row.groups())
    return sections


def of_document():
    """The same of the document's tables, whose first three columns are number, name and meaning."""
    sections = {}
    for line in open(DOCUMENT, encoding="utf-8"):
        row = re.match(r"\| (\d+) \| `(\w+)` \| (.*?) \|", line)
        if line.startswith("## "):
            rows = sections.setdefault(line[3:].strip(), [])
        elif row:
            rows.append(row.groups())
    return {title: rows for title, rows in sections.items() if rows}


def main():
    program, document = of_program(), of_document()
    # what a file's head is called in the text is a head in the document
    program = {title.replace("a file's head", "a head"): rows for title, rows in program.items()}
    wrong = [f"section {title}" for title in program.keys() ^ document.keys()]
    for title in program.keys() & document.keys():
        ours, theirs = program[title], document[title]
        wrong += [f"{title}: {row}" for row in ours if row not in theirs]
        wrong += [f"{title}: {row}" for row in theirs if row not in ours]
        if not wrong and ours != theirs:
            wrong.append(f"{title}: in another order")
    for line in wrong:
        print(line)
    print(f"{sum(map(len, program.values()))} lines, {len(wrong)} that differ")
    sys.exit(1 if wrong else 0)


if __name__ == "__main__":
    main()
