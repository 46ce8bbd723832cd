"""What is to be done about a bad line of a script."""
import re

import scripts
from source_advice import Advice, near, one_of
from words import SCRIPT_FORMS


def bad_word(line):
    if "\t" in line:
        yield Advice("the line has a tab: write one blank there")
    if line != line.strip(" "):
        yield Advice("the line has a blank before its first word, or after its last one: leave it out")
    if "  " in line:
        yield Advice("the line has two blanks side by side: leave one out")
    if re.search(r"[^\x21-\x7e ]", line):
        yield Advice("the line has a character that no word has: write letters, digits and signs of ASCII alone")


def unknown_command(line):
    word = line.split(" ")[0]
    if word.lower() in SCRIPT_FORMS:
        yield Advice(f"write `{word.lower()}`, in small letters")
    if word[0] in "*#/":
        yield Advice("a comment begins with `;` in column 1")
    found = near(word.lower(), [it.upper() for it in SCRIPT_FORMS])
    if found:
        yield Advice(f"perhaps {one_of([it.lower() for it in found])} is meant", is_sure=False)


def wrong_count(line):
    name = line.split(" ")[0]
    yield Advice(f"the form is `{SCRIPT_FORMS[name]}`; a path has no blank" if name == "load" else f"the form is `{SCRIPT_FORMS[name]}`")


def bad_number(line):
    name, *words = line.split(" ")
    for word in words:
        plain = re.sub(r"^(\$|0[xX])|[hH]$", "", word).upper()
        if plain != word and re.fullmatch(r"[0-9A-F]{1,8}", plain):
            yield Advice(f"write `{plain}` in the place of `{word}`: numbers are hexadecimal, with capitals, and without a sign")
    if name == "shutdown":
        yield Advice("the form is `shutdown U keep` or `shutdown U drop`")
    for word in words:
        if not re.fullmatch(r"[0-9A-F]{1,8}", word):
            yield Advice(f"`{word}` is no number: numbers have 1 to 8 of the digits 0 to 9 and A to F")
    yield Advice(f"a number is out of bounds in `{SCRIPT_FORMS[name]}`: `docs/LOADER.md`, \"Scripts\", has them")


CASES = {"BadWord": bad_word, "UnknownCommand": unknown_command, "WrongCount": wrong_count, "BadNumber": bad_number}


def of_line(data, number, cause):
    """The first advice that fits a line; None where there is none but that of the cause."""
    line = scripts.lines(data)[number - 1].decode("latin-1")
    return next(CASES[cause](line), None) if cause in CASES else None
