"""The forms of the program's commands, and of the two programs beside it: which arguments are paths of inputs, and which is the output's."""

# The arguments of each command.
FORMS = {
    "asm": "SRC OBJ MACROS..",
    "lib": "OUT OBJ..",
    "link": "OUT FILE..",
    "rtl": "OUT FILE..",
    "linkrt": "OUT K FILE..",
    "dump": "FILE",
    "compact": "IN OUT",
    "list": "OBJ SRC",
    "run": "SCRIPT",
    "omf_map": "link FILE.., rtl FILE.. or linkrt K FILE..",
    "omf_expand": "SRC MACROS..",
}
# The commands whose links omf_map maps; it takes their arguments but for OUT.
MAPPED = ("link", "rtl", "linkrt")


def mapped(words):
    """The command whose link omf_map maps, and the arguments of that command."""
    return words[0], ["OUT", *words[1:]]


def inputs(command, words):
    """The paths of the files that a command reads, in the order in which a refusal numbers them."""
    if command == "asm":
        return [words[0], *words[2:]]
    if command in ("lib", "link", "rtl"):
        return words[1:]
    if command == "omf_map":
        return inputs(*mapped(words))
    if command == "omf_expand":
        return words
    return words[2:] if command == "linkrt" else words[:1]


def output(command, words):
    """The path of the file that a command writes; None where it writes none."""
    if command in ("lib", "link", "rtl", "linkrt"):
        return words[0]
    return words[1] if command in ("asm", "compact", "list") else None


def bounds(command):
    """How many arguments a command takes at least and at most; none at most where only the program knows."""
    if command == "omf_map":
        return 2, None
    names = FORMS[command].split()
    if not names[-1].endswith(".."):
        return len(names), len(names)
    return len(names) - names[-1].startswith("MACROS"), None


def has_form(command, words):
    """Whether a command can have this many arguments."""
    least, most = bounds(command)
    return least <= len(words) <= (most or len(words))
