"""The Rattle toolchain: where it lies, its compiler, and a second one beside it whose compiler keeps each module that it is given."""
import contextlib, pathlib, shutil, subprocess, tempfile

# The module for the run of an unproved program is kept, and not compiled: it would be with checks of each access.
KEEPER = """\
#!/bin/sh
# Keeps the module that the toolchain has compiled, and the flags; and compiles it.
for word; do
    case $word in *.bc) cp "$word" "{kept}/module.bc" ;; esac
done
printf '%s\\n' "$@" >"{kept}/flags"
case " $* " in *" -fsanitize=address "*) exit 1 ;; esac
exec "{clang}" "$@"
"""


def folder():
    """Where the toolchain lies, by the page to read first."""
    page = subprocess.run(["rt", "doc"], capture_output=True, text=True, check=True).stdout.splitlines()[0]
    return pathlib.Path(page).parent


def clang():
    return folder() / "toolchain" / "bin" / "clang"


def archives():
    """What the toolchain links programs with, for Linux on x86-64."""
    return [folder() / "c" / name for name in ("libos_c.a", "liblibc_c.a")]


def linked(there, here, others):
    """Puts links to what is in a folder into another, but for the named ones."""
    here.mkdir()
    for path in there.iterdir():
        if path.name not in others:
            (here / path.name).symlink_to(path)


@contextlib.contextmanager
def keeping():
    """Yields the `rt` of a second toolchain, which is this one but for its compiler, and the folder where that keeps the last module as
    module.bc, and the flags that it was compiled with."""
    with tempfile.TemporaryDirectory(prefix="omf-kit-") as room:
        plain, kit, kept = folder(), pathlib.Path(room, "kit"), pathlib.Path(room, "kept")
        kept.mkdir()
        linked(plain, kit, ("bin", "toolchain"))
        linked(plain / "bin", kit / "bin", ("rt", "rtlib.py"))
        linked(plain / "toolchain", kit / "toolchain", ("bin",))
        linked(plain / "toolchain" / "bin", kit / "toolchain" / "bin", ("clang",))
        # `rt` takes the folder above its own, where that really lies, for the toolchain's.
        for name in ("rt", "rtlib.py"):
            shutil.copy(plain / "bin" / name, kit / "bin")
        keeper = kit / "toolchain" / "bin" / "clang"
        keeper.write_text(KEEPER.format(kept=kept, clang=clang()))
        keeper.chmod(0o755)
        yield kit / "bin" / "rt", kept
