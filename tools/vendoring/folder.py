"""The repository that gets the copy."""
import contextlib
import fcntl
import os
import pathlib
import shutil

from .origin import COMMANDS, TOOL, Refusal, read_line
from .record import NAME, hash_of, read_record

PART = ".vendored-garde.part"
MARK = "# Copies of garde, which tools/vendor of its repository brings up to date (VENDORED-garde)."


class Folder:
    """The top of a repository: what was copied there before, and the crates of its own. It is locked while in use."""

    def __init__(self, path, root):
        self.path = pathlib.Path(path)
        if not self.path.is_dir():
            raise Refusal(f"{path}: there is no such folder")
        if pathlib.Path(root).resolve() in (self.path.resolve(), *self.path.resolve().parents):
            raise Refusal(f"{path}: it lies in the repository that is copied")
        if not (self.path / "crates.txt").exists() and any((self.path / it).exists() for it in ("MODULE.bazel", "BUILD.bazel")):
            raise Refusal(f"{path}: it names its crates in BUILD.bazel: list them in crates.txt first, which stands for those files")
        self.lines = list(filter(None, map(read_line, self.read("crates.txt").splitlines())))
        self.record = read_record(self.read(NAME))
        self.prefix = "" if self.lines and not (self.path / "crates").is_dir() else "crates/"

    def __enter__(self):
        self.lock = os.open(self.path, os.O_RDONLY)
        try:
            fcntl.flock(self.lock, fcntl.LOCK_EX | fcntl.LOCK_NB)
        except BlockingIOError:
            os.close(self.lock)
            raise Refusal(f"{self.path}: another call of this command is at work there") from None
        return self

    def __exit__(self, *_):
        os.close(self.lock)

    def read(self, name):
        """The text of a file, empty where there is none. Bytes that are no UTF-8 stay as they are."""
        try:
            with open(self.path / name, encoding="utf-8", errors="surrogateescape", newline="") as file:
                return file.read()
        except FileNotFoundError:
            return ""

    def own_lines(self):
        """The lines of crates.txt that are not of copied crates."""
        return [it for it in self.lines if it.name not in self.record.lines]

    def own_names(self):
        return {it.name for it in self.own_lines()}

    def under(self, path):
        """The path of a copied file in the folder: that of the command is the same as in the repository that is copied."""
        return path if path.startswith(TOOL) else f"{self.prefix}{path}"

    def place(self, path):
        return self.path / self.under(path)

    # Why nothing is written.

    def refuse_taken(self, name, told):
        if os.path.lexists(self.place(name)):
            raise Refusal(f"{self.place(name)}: {told}")
        if name in self.own_names():
            raise Refusal(f"{self.path}/crates.txt: {name}: {told}")

    def refuse_tool(self, files):
        """Refuses a file in the place of one of the command which is not of the copy."""
        for path in files:
            if path not in self.record.files and os.path.lexists(self.place(path)):
                raise Refusal(f"{self.place(path)}: a file of that name is there, which is not a copy of ours")

    def refuse_changes(self):
        """Refuses a copy that was changed by hand. What is missing is copied again."""
        for it in self.lines:
            if it.name in self.record.lines and it.text() not in self.record.lines[it.name]:
                raise Refusal(f"{self.path}/crates.txt: the line of {it.name} was changed by hand")
        for path in self.copied():
            if path not in self.record.files:
                raise Refusal(f"{self.place(path)}: this file is not of the copy: move it to a crate of your own")
            if self.mark(path) not in self.record.files[path]:
                raise Refusal(f"{self.place(path)}: it was changed by hand: put it back, or delete it to have it copied again")

    def copied(self):
        """The files of the copied crates as they lie there, one by one, and those of the commands."""
        for name in self.record.lines:
            yield from self.files(name)
        yield from (it for it in self.record.files if it.startswith(TOOL) and os.path.lexists(self.place(it)))

    def files(self, crate):
        """The files of a copied crate as they lie there, but for what `rt` builds."""
        top = self.place(crate)
        if os.path.lexists(top) and (top.is_symlink() or not top.is_dir()):
            raise Refusal(f"{top}: it is no folder of the copy")
        found = []
        for folder, folders, names in os.walk(top):
            below = os.path.relpath(folder, top)
            if below == "." and "out" in folders:
                folders.remove("out")
            links = [it for it in folders if os.path.islink(os.path.join(folder, it))]
            found += [os.path.normpath(os.path.join(crate, below, it)) for it in (*names, *links)]
        return sorted(found)

    def mark(self, path):
        """The hash of a file, or nothing where there is no plain file."""
        place = self.place(path)
        return hash_of(place.read_bytes()) if place.is_file() and not place.is_symlink() else ""

    # Writing.

    def write(self, plan):
        """Writes what is planned, and returns what was done. Wherever it ends, a second call can go on."""
        changed = [path for path, text in plan.files.items() if self.mark(path) != hash_of(text)]
        gone = [path for path in self.copied() if path not in plan.files]
        was = f" (before: {self.record.commit[:12]})" if self.record.commit not in ("", plan.record.commit) else ""
        listing, ignored = with_lines(self.read("crates.txt"), self.record, plan), self.read(".gitignore")
        if changed or gone or plan.program or self.record.begun:
            self.put(NAME, self.record.with_new(plan.record, plan.program.name if plan.program else "").text())
            for path in changed:
                self.put(self.under(path), plan.files[path], 0o755 if path in COMMANDS else None)
            for path in gone:
                self.drop(path)
            for copy in plan.program.copies if plan.program else ():
                if not self.place(copy.name).exists():
                    self.put_copy(copy)
        if not {it.strip() for it in ignored.splitlines()} & {"out/", "out", "**/out/", "**/out"}:
            self.put(".gitignore", "".join([*closed(ignored.splitlines(keepends=True)), "out/\n"]))
        self.put("crates.txt", listing)
        self.put(NAME, plan.record.text())
        return f"{len(changed)} files written, {len(gone)} removed{was}" if changed or gone else f"up to date{was}"

    def put(self, path, text, mode=None):
        """Writes a file if it is not so already: in full, or not at all. `mode` are its rights, where they are not the usual ones."""
        content = text if isinstance(text, bytes) else text.encode("utf-8", "surrogateescape")
        place = self.path / path
        if place.is_file() and place.read_bytes() == content:
            return
        place.parent.mkdir(parents=True, exist_ok=True)
        with self.part() as part:
            part.write_bytes(content)
            if mode:
                part.chmod(mode)
            os.replace(part, place)

    def put_copy(self, copy):
        """Writes the folder of a crate that is the reader's: in full, or not at all."""
        with self.part() as part:
            for path, content in copy.files.items():
                (part / path).parent.mkdir(parents=True, exist_ok=True)
                (part / path).write_bytes(content)
            self.place("").mkdir(exist_ok=True)
            os.rename(part, self.place(copy.name))

    @contextlib.contextmanager
    def part(self):
        """Where something is written before it is moved to its place."""
        self.clear()
        try:
            yield self.path / PART
        finally:
            self.clear()

    def clear(self):
        """Removes what an interrupted call left."""
        part = self.path / PART
        if part.is_dir() and not part.is_symlink():
            shutil.rmtree(part)
        else:
            part.unlink(missing_ok=True)

    def drop(self, path):
        """Removes a file of the copy, and the folders that hold nothing more."""
        self.place(path).unlink(missing_ok=True)
        for folder in self.place(path).parents:
            if folder == self.place("") or folder == self.path or any(folder.iterdir()):
                return
            folder.rmdir()


def with_lines(text, record, plan):
    """A crates.txt with the lines of what is planned, in order, in place of those of an earlier copy; other lines stay."""
    wanted, copied = [it.text() for it in plan.crates], {*record.lines, *(it.name for it in plan.crates)}
    rows = text.splitlines(keepends=True)
    ours = [at for at, row in enumerate(rows) if named(row) in copied]
    if [read_line(rows[at]).text() for at in ours] != wanted:
        marks = [at for at, row in enumerate(rows) if row.strip() == MARK]
        first = min([*marks, *ours], default=len(rows))
        before = rows[:first]
        after = [row for at, row in enumerate(rows) if at >= first and at not in ours and at not in marks]
        gap = ["\n"] if before and before[-1].strip() and first == len(rows) else []
        rows = [*closed(before), *gap, *(f"{row}\n" for row in (MARK, *wanted)), *after]
    for copy in plan.program.copies if plan.program else ():
        if copy.name not in map(named, rows):
            gap = ["\n"] if named(rows[-1]) in copied else []
            rows = [*closed(rows), *gap, f"{copy.line}\n"]
    return "".join(rows)


def named(row):
    line = read_line(row)
    return line.name if line else None


def closed(rows):
    """Rows whose last one ends its line."""
    return [*rows[:-1], *(row if row.endswith("\n") else row + "\n" for row in rows[-1:])]
