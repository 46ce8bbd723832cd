"""All faults of a source: the line of each is blanked in a copy, and the copy is assembled again."""
import os, pathlib, re, subprocess, tempfile

from forms import inputs
from source_text import NAME, SEGMENT_STARTS, SourceFile

MOST = 50
LINE_FAULT = re.compile(r"refused (\w+) (?:(\d+) )?(\d+)\n")
# After these nothing more can be looked at.
LAST = ("TooManyLines", "TooLong", "Unclosed")


class Copies:
    """Copies of the files that a command reads, in a folder, in which lines at fault are replaced."""

    def __init__(self, command, words, room):
        self.command, self.room = command, room
        self.sources = [SourceFile(path) for path in inputs(command, words)]
        self.texts = [[line.text for line in source.lines] for source in self.sources]
        self.paths = [os.path.join(room, str(file)) for file in range(len(self.sources))]

    def run(self, program):
        """What the program prints of the copies where it refuses them, else None."""
        for path, lines in zip(self.paths, self.texts):
            pathlib.Path(path).write_bytes("\n".join(lines).encode("latin-1"))
        words = [self.paths[0], *self.paths[1:]] if self.command == "omf_expand" else ["asm", self.paths[0], os.path.join(self.room, "made"), *self.paths[1:]]
        ran = subprocess.run([program, *words], capture_output=True)
        return ran.stdout.decode() if ran.returncode == 1 else None

    def replace(self, file, number, cause):
        """Replaces a line at fault; one that is at fault once more is blank then. Returns whether it was as it is given."""
        line = self.sources[file].line(number)
        is_first = self.texts[file][number - 1] == line.text
        self.texts[file][number - 1] = substitute(line, cause) if is_first else ""
        return is_first


def substitute(line, cause):
    """What keeps most of the other lines as they are: the label alone, or the begin of a segment."""
    has_name = NAME.fullmatch(line.label) or re.fullmatch(r"\.[\w~]+", line.label)
    if line.operation in SEGMENT_STARTS and cause in ("BadLabel", "BadOperand"):
        return f"{line.label if has_name else f'~LINE{line.number}'} {line.operation}"
    if cause == "OutsideSegment" and line.operation not in (*SEGMENT_STARTS, "END"):
        return f"~LINE{line.number} START"
    return line.label if has_name and cause not in ("BadLabel", "Duplicate", "OutsideSegment") else ""


def all_faults(program, command, words):
    """Each fault in the order in which they are found, 50 at most: its cause, the number of the file, and that of the line, 0 of none."""
    with tempfile.TemporaryDirectory(prefix="omf-explain-") as room:
        copies, found = Copies(command, words, room), []
        blank = set()
        while len(found) < MOST:
            told = LINE_FAULT.fullmatch(copies.run(program) or "")
            if not told:
                return found
            cause, file, number = told[1], int(told[2] or 0), int(told[3])
            if not number:
                return [*found, (cause, file, number)]
            if (file, number) in blank:
                return found
            if copies.replace(file, number, cause):
                found.append((cause, file, number))
            else:
                blank.add((file, number))
            if cause in LAST:
                return found
        return found
