"""The commands of a script of the loader."""
import re


def lines(data):
    return re.split(rb"\r\n|\r|\n", data)


def commands(data):
    """The commands of a script in order, each with the number of its line."""
    for number, line in enumerate(lines(data), 1):
        if line and not line.startswith(b";"):
            yield number, line.decode("latin-1")
