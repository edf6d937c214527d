"""Cases for crates/test_cases: what goes to its stdin, and what it must print."""

import re


def escaped(text):
    """Text as the lines of a case have it."""
    return text.replace("\\", "\\5c").replace("\n", "\\0a").replace("\r", "\\0d")


class Cases:
    """Cases in order. A heading is a comment in the next case."""

    def __init__(self):
        self.blocks, self.printed, self.headings = [], [], []

    def heading(self, text):
        self.headings.append("# " + text)

    def add(self, name, words, printed, status=0, lines=(), text=None, parts=()):
        """A case with these words, a last word of parts (how often, text), input lines, and a last text without a line feed."""
        block = self.headings + [f"case {name}", "args " + " ".join(words)]
        block += ["arg"] * bool(parts) + [f"more {count} {part}" for count, part in parts]
        block += ["line " + escaped(line) if line else "line" for line in lines]
        if text:
            block.append("text " + escaped(text))
        self.headings = []
        self.blocks.append("\n".join(block))
        self.printed.append(f"{name}: {status}")
        self.printed += ["> " + line for line in printed]

    def write(self, folder, name):
        with open(f"{folder}/{name}.stdin", "w", encoding="utf-8") as out:
            out.write("\n\n".join(self.blocks) + "\n")
        with open(f"{folder}/{name}.stdout", "w", encoding="utf-8") as out:
            out.write("\n".join(self.printed) + "\n")


def input_of(lines):
    """The input that the lines of a case say, as bytes; crates/test_cases/src/main.rt has their form."""
    found = []
    for line in lines:
        key, _, text = line.partition(" ")
        count, _, rest = text.partition(" ")
        if key == "line":
            found.append(text + "\\0a")
        elif key == "text":
            found.append(text)
        elif key == "times":
            found += [rest] * int(count)
        elif key == "count":
            last, _, row = rest.partition(" ")
            numbers = range(int(count), int(last) + 1)
            found += [row.replace("{n-1}", str(number - 1)).replace("{n}", str(number)) + "\\0a" for number in numbers]
    return re.sub(rb"\\([0-9a-f]{2})", lambda digits: bytes.fromhex(digits[1].decode()), "".join(found).encode())


def cases_of(folder, command):
    """Name, words behind the command, input and output of each case of a command in crates/test_cases that ends with status 0."""
    printed = {}
    for line in (folder / "stdout").read_text(encoding="utf-8").splitlines():
        if line.startswith("> "):
            printed[name][1].append(line[2:] + "\n")
        elif found := re.fullmatch(r"([^ ]+): ([0-9])", line):
            name = found[1]
            printed[name] = found[2], []
    for block in (folder / "stdin").read_text(encoding="utf-8").rstrip("\n").split("\n\n"):
        lines = [line for line in block.split("\n") if not line.startswith("#")]
        name = lines[0].removeprefix("case ")
        words = next((line.split(" ")[1:] for line in lines if line.startswith("args ")), [])
        if words[:1] == [command] and name in printed and printed[name][0] == "0":
            yield name, words[1:], input_of(lines), "".join(printed[name][1])
