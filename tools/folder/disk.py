"""A folder as the disk has it: what a run asked of the system, by its trace, and what of that a loss of power leaves."""
import os
import random
import re
import subprocess

from common import PROGRAM, fresh

CALLS = "trace=/^(open|creat|unlink|rename|link|symlink|mkdir|truncate|ftruncate|pwrite|fsync|fdatasync|write)"
PAGE = 4096
LEFT = ["old", "new", "torn", "half"]
RULES = LEFT + ["mixed"]
NAMES = ["old", "new", "mixed"]

# What a call of the system is. A number of a file becomes its name as it was opened, beside what is just that opening's.
CALL = {
    "open": r'openat\(AT_FDCWD, "(?P<name>[^"]*)", (?P<flags>[^),]*)[^)]*\) = (?P<file>\d+)',
    "cut": r"ftruncate\((?P<file>\d+), (?P<at>\d+)\) = 0",
    "write": r'pwrite64\((?P<file>\d+), "(?P<bytes>[^"]*)", \d+, (?P<at>\d+)\) = (?P<count>\d+)',
    "sync": r"(?:fsync|fdatasync)\((?P<file>\d+)\) = 0",
    "remove": r'unlink(?:at)?\((?:AT_FDCWD, )?"(?P<name>[^"]*)"(?:, 0)?\) = 0',
    "rename": r'rename(?:at2?)?\((?:AT_FDCWD, )?"(?P<name>[^"]*)", (?:AT_FDCWD, )?"(?P<to>[^"]*)"(?:, 0)?\) = 0',
    "reply": r'write\(1, "(?P<bytes>[^"]*)"',
}
NONE = re.compile(r"\w+\(.*\) = -1 |write\(2, |--- |\+\+\+ |exit")


def traced(folder, script):
    """What a run over a folder asked of the system, as dicts."""
    log = fresh() / "calls"
    command = ["strace", "-f", "-xx", "-s", "1000000", "-e", CALLS, "-o", log, PROGRAM, "session", "--dir", folder]
    subprocess.run(command, input=script.encode(), stdout=subprocess.PIPE, timeout=300, check=True)
    with open(log) as lines:
        return list(calls_of(lines, str(folder)))


def text(hexes):
    return bytes.fromhex(hexes.replace("\\x", ""))


def calls_of(lines, folder):
    """The calls of a trace that concern the folder and its files, and the replies."""
    files = {}
    for line in lines:
        call = call_of(re.sub(r"\s+", " ", re.sub(r"^\d+\s+", "", line.strip())))
        if call is None:
            continue
        for key in call.keys() & {"name", "to"}:
            call[key] = name_in(folder, call[key])
        if call["kind"] == "open":
            files[call["file"]] = None if call["name"] is None else (call["name"], object())
        if "file" in call:
            call["file"] = files[call["file"]]
        if call["kind"] == "reply" or call.get("name") is not None or call.get("file") is not None:
            assert "O_TRUNC" not in call.get("flags", ""), line[:200]
            yield call


def name_in(folder, path):
    """The name of a file of the folder, the empty one of the folder itself, or None of another file."""
    path = os.fsdecode(text(path))
    if path == folder:
        return ""
    return os.path.basename(path) if os.path.dirname(path) == folder else None


def call_of(line):
    """What a line of a trace asks, where that was done."""
    for kind, form in CALL.items():
        if found := re.fullmatch(form + ".*", line):
            call = {"kind": kind, **found.groupdict()}
            if "bytes" in call:
                call["bytes"] = text(call["bytes"])
            if "at" in call:
                call["at"] = int(call["at"])
            assert kind != "write" or len(call["bytes"]) == int(call["count"]), line[:80]
            return call
    assert NONE.match(line), line[:200]
    return None


class File:
    """The bytes that the disk has, the changes that it may not have yet, and the bytes that the system shows."""

    def __init__(self, content=b""):
        self.hard = bytearray(content)
        self.soft = []
        self.shown = bytearray(content)
        self.is_lost = False

    def change(self, kind, at, given):
        """A write has the disk take the whole pages that it changes."""
        if self.is_lost and kind == "write":
            start, end = at // PAGE * PAGE, -(-(at + len(given)) // PAGE) * PAGE
            self.soft.append(("page", start, bytes(self.shown[start:end])))
        self.soft.append((kind, at, given))
        apply(self.shown, kind, at, given)

    def sync(self):
        for change in self.soft:
            apply(self.hard, *change)
        self.soft = []

    def lose(self):
        """The system fails to write back what wasn't synced, and takes it for written."""
        self.is_lost = self.is_lost or self.soft != []
        self.soft = []

    def left(self, rule):
        """The bytes that a loss of power leaves."""
        content = bytearray(self.hard)
        for kind, at, given in self.soft:
            left = random.choice(LEFT) if rule == "mixed" else rule
            if left == "new" or kind == "page" and left != "old":
                apply(content, kind, at, given)
            elif kind == "write" and left == "torn":
                apply(content, kind, at, bytes(255 - byte for byte in given))
            elif kind == "write" and left == "half":
                apply(content, kind, at, given[: len(given) // 2])
        return content


def apply(content, kind, at, given):
    """Changes bytes as a write or a cut does."""
    end = at if kind == "cut" else at + len(given)
    if len(content) < end:
        content.extend(bytes(end - len(content)))
    if kind == "cut":
        del content[at:]
    else:
        content[at:end] = given


class Disk:
    """The names that the disk has, those that the system shows, and what each name led to since the folder was synced. Where
    the folder's syncs don't count, no name that was made or removed is ever surely so."""

    def __init__(self, folder, syncs_count=True):
        self.now = {path.name: File(path.read_bytes()) for path in folder.iterdir()}
        self.since = {name: [file] for name, file in self.now.items()}
        self.opened = {}
        self.syncs_count = syncs_count

    def turn(self, name, file):
        self.since.setdefault(name, [None]).append(file)
        if file is None:
            del self.now[name]
        else:
            self.now[name] = file

    def do(self, call):
        kind, name, file = call["kind"], call.get("name"), call.get("file")
        if kind == "open":
            if "O_CREAT" in call["flags"] and name not in self.now:
                self.turn(name, File())
            self.opened[file] = self.now[name] if name else None
        elif kind == "remove":
            self.turn(name, None)
        elif kind == "rename":
            self.turn(call["to"], self.now[name])
            self.turn(name, None)
        elif kind == "sync" and self.opened[file] is None:
            if self.syncs_count:
                self.since = {name: [file] for name, file in self.now.items()}
        elif kind == "sync":
            self.opened[file].sync()
        elif kind in ("write", "cut"):
            self.opened[file].change(kind, call["at"], call.get("bytes"))

    def lose(self):
        for file in self.now.values():
            file.lose()

    def shown(self):
        """A folder as the system shows it, which is also what a killed run leaves."""
        return laid_out({name: file.shown for name, file in self.now.items()})

    def left(self, names, rule):
        """A folder as a loss of power leaves it: each name as it was synced, as it is, or as it was at any moment since; and
        of each file's bytes what was synced, with what else this rule leaves."""
        pick = {"old": lambda states: states[0], "new": lambda states: states[-1], "mixed": random.choice}[names]
        chosen = {name: pick(states) for name, states in self.since.items()}
        return laid_out({name: file.left(rule) for name, file in chosen.items() if file})


def laid_out(contents):
    """A folder of its own with these files."""
    folder = fresh()
    for name, content in contents.items():
        (folder / name).write_bytes(content)
    return folder
