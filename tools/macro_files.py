"""The macro files that a source names by MCOPY, and where they are."""
import pathlib, re

from fields import is_comment, operand_end, operation_span

DIRECTIVE = "MCOPY"


def named_files(text):
    """The operand of each MCOPY of a source, with the number of its line."""
    for number, line in enumerate(re.split(r"\r\n|\r|\n", text), 1):
        if is_comment(line):
            continue
        _, span, start = operation_span(line)
        if line[slice(*span)].upper() == DIRECTIVE:
            yield number, line[start : operand_end(line, start)]


def same_but_for_case(path):
    """The files in a path's folder with its name in other capitals."""
    folder = path.parent
    return sorted(it for it in folder.iterdir() if it.name.upper() == path.name.upper()) if folder.is_dir() else []


def macro_file(source, name):
    """The path of a macro file as it is given to `asm`; None where there is none."""
    folders = dict.fromkeys([source.parent, pathlib.Path()])
    paths = [folder / name.replace(":", "/") for folder in folders if name]
    found = [path for path in paths if path.is_file()]
    found += [other for path in paths for other in same_but_for_case(path) if other.is_file()]
    return str(found[0]) if found else None
