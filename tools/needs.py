"""What built programs need of the system that they run on: shared libraries, and the version of the C library, as objdump finds them."""
import re, subprocess, sys

# Debian's package of each library. The loader is a part of the C library.
PACKAGES = {"libc.so.6": "libc6", "libm.so.6": "libc6", "libgcc_s.so.1": "libgcc-s1"}
LOADER = "ld-linux-x86-64.so.2"


def objdump(flag, path):
    return subprocess.run(["objdump", flag, str(path)], capture_output=True, text=True, check=True).stdout


def libraries(programs):
    """The names of the shared libraries."""
    return sorted({name for path in programs for name in re.findall(r"NEEDED\s+(\S+)", objdump("-p", path))} - {LOADER})


def glibc(programs):
    """The least version of the C library that has all that they name of it."""
    found = {tuple(map(int, it.split("."))) for path in programs for it in re.findall(r"GLIBC_(\d+(?:\.\d+)+)", objdump("-T", path))}
    return ".".join(map(str, max(found)))


def debian(programs):
    """The packages of Debian that they depend on."""
    unknown = [name for name in libraries(programs) if name not in PACKAGES]
    if unknown:
        sys.exit(f"no package of Debian is known here that has {', '.join(unknown)}")
    found = {PACKAGES[name] for name in libraries(programs)}
    return [f"{name} (>= {glibc(programs)})" if name == "libc6" else name for name in sorted(found)]
