"""What the tools share: where things lie, the crates of crates.txt, a clock, and what is said on standard error."""
import hashlib, os, pathlib, shutil, signal, subprocess, sys, time

TOP = pathlib.Path(__file__).resolve().parent.parent
CRATES = TOP / "crates"
BUILD = TOP / "build"
PROGRAM = "omf"
# All programs that users get.
PROGRAMS = (PROGRAM, "omf_map", "omf_expand")


def say(text):
    print(text, file=sys.stderr, flush=True)


def run_main(main):
    """Ends with the status of main; one that is asked to stop, or that nobody reads any more, ends quietly after it removed what it made."""
    for it in (signal.SIGTERM, signal.SIGHUP):
        signal.signal(it, lambda number, _: sys.exit(128 + number))
    try:
        status = main(sys.argv[1:])
        sys.stdout.flush()
        sys.exit(status)
    except KeyboardInterrupt:
        sys.exit(128 + signal.SIGINT)
    except BrokenPipeError:
        # What is still to be printed goes nowhere.
        os.dup2(os.open(os.devnull, os.O_WRONLY), sys.stdout.fileno())
        sys.exit(128 + signal.SIGPIPE)


class Clock:
    """How long ago it was made, in minutes and seconds."""

    def __init__(self):
        self.start = time.monotonic()

    def __str__(self):
        minutes, seconds = divmod(int(time.monotonic() - self.start), 60)
        return f"{minutes:2}:{seconds:02}"


def declared():
    """The line of each crate in crates.txt, in their order."""
    lines = (TOP / "crates.txt").read_text().splitlines()
    return {line.split(":")[0].split()[0]: line for line in lines if ":" in line and not line.startswith("#")}


def all_uses():
    """Each crate of the repository with those that it uses; the kit's libraries are left out."""
    lines = declared()
    return {name: [it for it in line.partition(":")[2].split() if it in lines] for name, line in lines.items()}


def crates_of(*names):
    """These crates and all below them, in the order of crates.txt."""
    uses = all_uses()
    found, left = set(), list(names)
    while left:
        name = left.pop()
        if name not in found:
            found.add(name)
            left += uses[name]
    return [name for name in uses if name in found]


def sources(crate, *folders):
    """The files in these folders of a crate, in order."""
    return sorted(path for folder in folders for path in (CRATES / crate / folder).rglob("*") if path.is_file())


def sum_of(paths):
    """A sum of the kit, of crates.txt and of these files, by their paths and bytes."""
    found = hashlib.sha256(subprocess.run(["rt", "version"], capture_output=True).stdout)
    for path in [TOP / "crates.txt", *paths]:
        found.update(f"{path.relative_to(TOP)}\n".encode())
        found.update(path.read_bytes())
    return found.hexdigest()


def need_prover():
    """Ends where `rt` isn't on the path."""
    if not shutil.which("rt"):
        sys.exit("rt is not on the path: it is part of the Rattle toolchain, and nothing here is built or proved without it.")


def version(top=TOP):
    """The version that README.md gives."""
    return (top / "README.md").read_text(encoding="utf-8").partition("Version ")[2].partition(",")[0]
