#!/usr/bin/env python3
"""Says which quotations of the documents don't stand where it says they do. Run it at the top of the repository.

In THEOREM.md a quotation is an indented line, with the lines below it that are indented by four more. It stands in the
file that the line `FILE` or `FILE: CALL, CALL` above it names, and there, where calls are named, in the contract of one
of them, as one whole line or as several whole lines one after another. In all documents, code behind ```rust FILE
stands in that file line by line. Files are those below crates/."""
import pathlib
import re
import sys


def contract(lines, call):
    """The lines of a function from its name to its body, or to the end of a declaration."""
    name = re.compile(r"\bfn " + call.split("::")[-1] + r"\b")
    for start, line in enumerate(lines):
        if name.search(line):
            end = next(at for at in range(start, len(lines)) if lines[at] in ("{", "{}") or lines[at].endswith(";"))
            return lines[start : end + 1]
    return []


def stands(text, lines):
    """Whether a text is one line of these, or some of them joined by spaces."""
    return any(text == " ".join(lines[start:end]) for start in range(len(lines)) for end in range(start + 1, start + 9))


def quotations(document):
    """The indented lines of a document with their numbers, each with those that go on with it."""
    found = []
    for number, line in enumerate(document.splitlines(), 1):
        if line.startswith("        ") and found:
            found[-1] = (found[-1][0], found[-1][1] + " " + line.strip())
        elif line.startswith("    "):
            found.append((number, line.strip()))
    return found


def code(document):
    """The fenced code of a document: the number of its first line, the file that it is of, and its lines."""
    found, name = [], None
    for number, line in enumerate(document.splitlines(), 1):
        if line.startswith("```"):
            name = line.removeprefix("```rust").strip() if name is None and line.startswith("```rust") else None
            if name is not None:
                found.append((number, name, []))
        elif name is not None:
            found[-1][2].append(line)
    return found


def quoted_code():
    """The code of all documents, each with whether it stands in its file."""
    for document in [*pathlib.Path().glob("*.md"), *pathlib.Path("docs").glob("*.md")]:
        for number, name, lines in code(document.read_text()):
            file = pathlib.Path("crates", name)
            text = file.read_text() if file.is_file() else ""
            yield f"{document}:{number} quotes code that isn't in `{name}`", "\n" + "\n".join(lines) + "\n" in "\n" + text


lines, quoted, wrong = [], 0, 0
for number, text in quotations(pathlib.Path("docs/THEOREM.md").read_text()):
    name, _, calls = text.partition(": ")
    if name.endswith((".rt", ".antt")) and " " not in name:
        lines = [it.strip() for it in pathlib.Path("crates", name).read_text().splitlines()]
        if calls:
            lines = [it for call in calls.split(", ") for it in contract(lines, call)]
        continue
    quoted += 1
    if not stands(text, lines):
        print(f"docs/THEOREM.md:{number} quotes what isn't there: {text}")
        wrong += 1
for told, is_there in quoted_code():
    quoted += 1
    if not is_there:
        print(told)
        wrong += 1
print(f"{quoted} quotations, {wrong} wrong")
sys.exit(wrong > 0)
