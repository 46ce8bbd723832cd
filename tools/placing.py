"""Files put below a prefix, and removed again: a list there says which these are."""
import os, pathlib

from common import say
from layout import Item

# The list, in the folder of what is shared.
INSTALLED = "installed"


class Place:
    """A prefix, in the folder that DESTDIR of the environment names. What is listed are files, and with a slash after their names the
    folders that were made."""

    def __init__(self, prefix, shared):
        self.prefix = os.path.abspath(os.path.expanduser(prefix))
        self.folder = pathlib.Path(os.environ.get("DESTDIR", "") + self.prefix)
        self.list_path = f"{shared}/{INSTALLED}"

    def listed(self):
        path = self.folder / self.list_path
        return set(path.read_text(encoding="utf-8").splitlines()) if path.exists() else set()

    def write_list(self, listed):
        self.put(Item(self.list_path, text="".join(f"{it}\n" for it in sorted(listed))))

    def make_folders(self, path):
        """Makes the folders between the prefix and a path there. Returns those that weren't there."""
        missing = [it for it in pathlib.PurePath(path).parents if not (self.folder / it).is_dir()]
        for it in reversed(missing):
            (self.folder / it).mkdir(parents=True)
            (self.folder / it).chmod(0o755)
        return {f"{it}/" for it in missing}

    def put(self, item):
        """Puts an item here. One that is there is replaced at once, and never by half."""
        to = self.folder / item.path
        new = to.with_name(f".{to.name}.new")
        new.unlink(missing_ok=True)
        if item.link:
            new.symlink_to(item.link)
        else:
            new.write_bytes(item.bytes())
            new.chmod(item.mode())
        os.replace(new, to)

    def take(self, listed):
        """Removes the files that are listed, and of the folders those that are empty then."""
        for path in listed:
            if not path.endswith("/"):
                (self.folder / path).unlink(missing_ok=True)
        for path in sorted((it for it in listed if it.endswith("/")), key=len, reverse=True):
            folder = self.folder / path
            if folder.is_dir() and not any(folder.iterdir()):
                folder.rmdir()

    def install(self, items):
        """Installs the items, removes what another version had besides, and says what the path needs."""
        before, now = self.listed(), {self.list_path, *(it.path for it in items)}
        made = {folder for path in sorted(now) for folder in self.make_folders(path)}
        kept = now | made | (before & {f"{folder}/" for path in now for folder in pathlib.PurePath(path).parents})
        # The list is there before what it lists, so that an install that ends half way can be removed.
        self.write_list(before | kept)
        for item in items:
            self.put(item)
        self.take(before - kept)
        self.write_list(kept)
        say(f"{len(now)} files are installed in {self.folder}")
        programs = f"{self.prefix}/bin"
        if not os.environ.get("DESTDIR") and programs not in os.environ.get("PATH", "").split(":"):
            say(f"{programs} isn't on the path: the line 'export PATH={programs}:$PATH' in ~/.profile puts it there")

    def remove(self):
        listed = self.listed()
        if not listed:
            say(f"nothing is installed in {self.folder}, which has no {self.list_path}")
            return 1
        self.take(listed)
        say(f"{sum(not it.endswith('/') for it in listed)} files are removed from {self.folder}")
        return 0

    def answer(self, act):
        """The status of what is done here; 1 where the system refuses it, which is said."""
        try:
            return act()
        except OSError as fault:
            say(f"{fault.filename}: {fault.strerror}")
            return 1
