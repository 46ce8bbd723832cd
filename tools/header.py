"""What c/omf.h declares: calls with what is said of them, structures, and the numbers of statuses and causes."""
import re

from common import TOP

HEADER = TOP / "c" / "omf.h"
# A comment and what is in it.
COMMENT = r"/\*((?:(?!\*/).)*)\*/"


class Call:
    """A call: its name, its parameters in order, what is said of it, and what is said of all calls of its part."""

    def __init__(self, name, parameters, said, said_of_part):
        self.name, self.parameters, self.said, self.said_of_part = name, parameters, said, said_of_part

    def statuses(self):
        """The statuses that it can return: those that are named of it, and those that its parameters tell. A call that reports no fault
        refuses nothing."""
        names, said = " ".join(self.parameters), self.said + " " + self.said_of_part
        found = {
            "OMF_DONE": True,
            "OMF_REFUSED": "omf_fault" in names,
            "OMF_MEMORY": "omf_fault" in names,
            "OMF_MISUSED": "Never misused" not in self.said and "isused" in said,
            "OMF_SMALL": "room_size" in names,
        }
        return [status for status, _, _ in numbered("omf_status") if found.get(status) or re.search(rf"\b{status}\b", said)]


def plain(comment):
    """A comment's text on one line."""
    return " ".join(re.sub(r"(?m)^ *\* ?", " ", comment).split())


def calls():
    """The calls in order."""
    text, part = HEADER.read_text(), ""
    pieces = re.finditer(r"(?s)/\* ---- (.*?)\*/|" + COMMENT + r"\nuint32_t (\w+)\(([^)]*)\);", text)
    for piece in pieces:
        if piece[1]:
            part = plain(piece[1])
        else:
            yield Call(piece[3], [" ".join(it.split()) for it in piece[4].split(",")], plain(piece[2]), part)


def numbered(enum):
    """The names of an enum, each with its number and what is said of it."""
    body = re.search(r"(?s)enum " + enum + r" \{(.*?)\};", HEADER.read_text())[1]
    for said, name, number in re.findall(r"(?s)(?:" + COMMENT + r"\s*)?(\w+) = (\d+)", body):
        yield name, int(number), plain(said)


def structures():
    """The declaration of each structure, with what is said of it."""
    for said, declared in re.findall(r"(?ms)^" + COMMENT + r"\n(struct \w+ \{.*?^\};)", HEADER.read_text()):
        yield plain(said), declared
