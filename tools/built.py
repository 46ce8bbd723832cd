"""What is proved and built in build/: the programs, and the library for C; and the marks that say from which sources.

A mark is a file with the sum of the sources of what was proved, and after it the sum of each file as it was built."""
import hashlib

from common import BUILD, PROGRAM, PROGRAMS, crates_of, sources, sum_of

PARTS = ("src", "specs", "proofs")
# When the gate began, and the sums of the sources at that time.
BEGAN = BUILD / "gate-began"


class Built:
    """Files in build/ that are proved together."""

    def __init__(self, mark, names, crates):
        self.mark_path, self.paths, self.tops = BUILD / mark, [BUILD / name for name in names], crates

    def crates(self):
        return crates_of(*self.tops)

    def sources(self):
        return [path for name in self.crates() for path in sources(name, *PARTS)]

    def sum_of_sources(self):
        return sum_of(self.sources())

    def sums_of_files(self):
        return [hashlib.sha256(path.read_bytes()).hexdigest() for path in self.paths]

    def mark(self, proved):
        """Marks the files that are there as built from sources with this sum."""
        self.mark_path.write_text("\n".join([proved, *self.sums_of_files()]) + "\n")

    def marked(self):
        return self.mark_path.read_text().split() if self.mark_path.exists() else []

    def is_proved(self):
        """Whether the files are those that were proved here, from whatever sources."""
        return all(path.exists() for path in self.paths) and self.marked()[1:] == self.sums_of_files()

    def is_current(self):
        """Whether they are, and no source changed since."""
        return self.is_proved() and self.marked()[0] == self.sum_of_sources()


THE_PROGRAMS = Built(f"{PROGRAM}.proved", PROGRAMS, PROGRAMS)
THE_LIBRARY = Built("libomf.proved", ("libomf.a", "omf.h"), ("omf_c",))


def begin():
    """Notes that the gate begins, and of which sources."""
    BUILD.mkdir(exist_ok=True)
    BEGAN.write_text(THE_PROGRAMS.sum_of_sources() + "\n")


def is_of_gate(path):
    return path.exists() and BEGAN.exists() and path.stat().st_mtime_ns > BEGAN.stat().st_mtime_ns


def sum_at_gate():
    return BEGAN.read_text().strip()
