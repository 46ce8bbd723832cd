"""What docs/ANSWERS.md says of the causes that the program prints: what each means, and what is to be done."""
import re

from common import TOP

PAGE = TOP / "docs" / "ANSWERS.md"
# What a command of a script is refused with, while `run` runs it.
REPLIES = "replies"
# The tables by their headings, and the commands that print their causes; none where each row names its own.
TABLES = {
    "asm and omf_expand": ["asm"],
    "link, rtl, linkrt and omf_map": ["link", "rtl", "linkrt"],
    "dump, lib and list": [],
    "compact": ["compact"],
    "run: the script": ["run"],
    "run: replies": [REPLIES],
}


class Answer:
    """When a cause is printed, and what is to be done."""

    def __init__(self, when, advice):
        self.when, self.advice = when, advice


def cells_of(line):
    """The cells of a row, in which `\\|` is a bar."""
    return [cell.strip().replace("\\|", "|") for cell in re.split(r"(?<!\\)\|", line.strip())[1:-1]]


def rows_of(text):
    """The rows of the tables in a text, each by the names of its columns."""
    names = None
    for line in text.splitlines():
        if not line.startswith("|"):
            names = None
        elif names is None:
            names = cells_of(line)
        elif not re.fullmatch(r"[|\- ]+", line):
            yield dict(zip(names, cells_of(line)))


def causes_of(row):
    """The causes of which a row speaks: words that begin with a capital and continue with small letters; and the reply that has none."""
    said = row.get("Cause") or row.get("Reply") or ""
    return re.findall(r"\b[A-Z][a-z]\w+", said) or re.findall(r"`(cannot \w+)`", said)


def answers():
    """The answers of each command by their causes."""
    found = {}
    for part in re.split(r"(?m)^##+ ", PAGE.read_text(encoding="utf-8")):
        heading, _, text = part.partition("\n")
        for row in rows_of(text) if heading in TABLES else []:
            for command in TABLES[heading] or re.findall(r"\w+", row["Command"]):
                for cause in causes_of(row):
                    found.setdefault(command, {})[cause] = Answer(row.get("When", ""), row.get("What to do", ""))
    return found
