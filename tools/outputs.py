"""Whether a command may write over the file that is at the path of its output: one of the kind that it writes, and no input."""
import os, pathlib, subprocess, tempfile

from forms import FORMS, inputs, output
from kinds import CUT, EITHER, EMPTY, LIBRARY, LOAD, OBJECT, RUNTIME, TEXT, kind_of

# What each command writes, and over what it may write besides an empty file and one that breaks off.
WRITES = {
    "asm": (OBJECT, (OBJECT, EITHER)),
    "lib": (LIBRARY, (LIBRARY,)),
    **dict.fromkeys(("link", "linkrt", "compact"), (LOAD, (LOAD, RUNTIME, EITHER))),
    "rtl": (RUNTIME, (LOAD, RUNTIME, EITHER)),
    "list": ("a source", ()),
}


def is_listing(omf, path):
    """Whether a text is as `list` writes it: what is assembled from it has this listing."""
    with tempfile.TemporaryDirectory(prefix="omf-explain-") as room:
        made, again = os.path.join(room, "object"), os.path.join(room, "source")
        for words in (["asm", path, made], ["list", made, again]):
            if subprocess.run([omf, *words], stdout=subprocess.DEVNULL).returncode:
                return False
        return pathlib.Path(again).read_bytes() == pathlib.Path(path).read_bytes()


def refusal(omf, command, words):
    """Why the output isn't written, and what to do; None where it may be."""
    path = output(command, words)
    if not path or not os.path.isfile(path):
        return None
    name = "OUT" if "OUT" in FORMS[command].split() else FORMS[command].split()[1]
    if any(os.path.exists(it) and os.path.samefile(it, path) for it in inputs(command, words)):
        return "it is an input too, and would be lost", f"the arguments are `{command} {FORMS[command]}`: name another {name}"
    kind, (written, over) = kind_of(omf, path), WRITES[command]
    if kind in (EMPTY, CUT, *over) or command == "list" and kind == TEXT and is_listing(omf, path):
        return None
    held = "a text that `list` didn't write" if command == "list" and kind == TEXT else kind
    return (
        f"it holds {held}, which would be lost: {command} writes {written}",
        f"the arguments are `{command} {FORMS[command]}`: name another {name}, or remove this file first where you don't need it",
    )
