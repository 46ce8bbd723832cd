"""What the scripts of this folder share: how a run is timed and its instructions are counted, and how object files are spelled."""
import collections, math, os, re, struct, subprocess, sys, tempfile, time

ROOT = os.path.dirname(os.path.dirname(os.path.realpath(__file__)))

# A run: the seconds by the clock and of the processor, and the most bytes that it held.
Run = collections.namedtuple("Run", "clock used held")


def timed():
    """The program `timed`, once it is proved and built."""
    crate = os.path.join(ROOT, "crates", "timed")
    subprocess.run(["rt", "run"], cwd=crate, stdout=subprocess.DEVNULL, stderr=subprocess.DEVNULL)
    return os.path.join(crate, "out", "timed")


def once(command, folder=None, out=subprocess.DEVNULL, errors=None):
    """Runs a command, which has to succeed."""
    start = time.perf_counter()
    child = subprocess.Popen(command, cwd=folder, stdout=out, stderr=errors)
    _, status, used = os.wait4(child.pid, 0)
    clock = time.perf_counter() - start
    child.returncode = os.waitstatus_to_exitcode(status)
    if status != 0:
        sys.exit(f"{' '.join(command)[:200]} failed")
    return Run(clock, used.ru_utime + used.ru_stime, used.ru_maxrss * 1024)


def once_told(command, folder=None):
    """A run, and the bytes that it printed."""
    with tempfile.TemporaryFile() as out:
        run = once(command, folder, out)
        out.seek(0)
        return run, out.read()


def best_clock(command, runs, folder=None):
    """The least time by the clock of a number of runs."""
    return min(once(command, folder).clock for _ in range(runs))


def best_used(command, runs, folder=None):
    """The least time of the processor of a number of runs."""
    return min(once(command, folder).used for _ in range(runs))


def by_turns(commands, runs, folder=None, errors=None):
    """The runs of each command, which take turns."""
    return [*zip(*[[once(command, folder, errors=errors) for command in commands] for _ in range(runs)])]


def instructions_told(command, folder=None):
    """How many instructions a run takes, as valgrind counts them, and what it printed."""
    with tempfile.TemporaryDirectory() as room:
        count = ["valgrind", "--tool=callgrind", f"--callgrind-out-file={room}/counts"]
        told = subprocess.run(count + command, capture_output=True, text=True, cwd=folder)
    if told.returncode != 0:
        sys.exit(f"{' '.join(command)[:200]}: {told.stdout or told.stderr}")
    return int(re.search(r"Collected : (\d+)", told.stderr).group(1)), told.stdout.strip()


def instructions(command, folder=None):
    return instructions_told(command, folder)[0]


def memory(command, folder):
    """The most bytes that the command held, and what it printed. Of a child of this script the system would report no less than the
    script held when the child began; /usr/bin/time holds little."""
    told = os.path.join(folder, "held")
    answer = subprocess.run(["/usr/bin/time", "-f", "%M", "-o", told] + command, check=True, capture_output=True, text=True).stdout
    with open(told) as file:
        return int(file.read()) * 1024, answer.strip()


def exponent(sizes, counts):
    """The exponent with which the counts grow from the first size to the last."""
    return math.log(counts[-1] / counts[0]) / math.log(sizes[-1] / sizes[0])


def verdict(fine):
    return "ok" if fine else "TOO MUCH"


def write(path, data):
    """Writes bytes or text to a path, which is handed back."""
    with open(path, "wb" if isinstance(data, bytes) else "w") as file:
        file.write(data)
    return path


def word(n):
    return struct.pack("<H", n)


def long(n):
    return struct.pack("<I", n)


def name(text):
    return bytes([len(text)]) + text


def lconst(data):
    """A record of constant bytes."""
    return b"\xf2" + long(len(data)) + data


def segment(body, length=0, title=b"", number=1, kind=0, bank_size=0, load=b""):
    """A segment of version 2 with LABLEN 0; its body ends in END already."""
    shown = name(title)
    data = 0x36 + len(shown)
    head = struct.pack(
        "<IIIBBBBIHHIIBBHIHH10s",
        data + len(body), 0, length, 0, 0, 4, 2, bank_size, kind, 0, 0, 0, 0, 0, number, 0, 0x2C, data, load.ljust(10),
    )
    return head + shown + body
