"""Runs of dzpool over folders, and rows that compare what they print."""
import atexit
import os
import pathlib
import shutil
import subprocess
import tempfile

ROOT = pathlib.Path(__file__).resolve().parents[2]
PROGRAM = os.environ.get("DZPOOL", str(ROOT / "crates/draid_program/out/draid_program"))
SMALL = "create draid1:2d:3c:0s 3 sector=512 height=8 metaslabs=1 slices=4\n"
TWO = "create draid1:2d:4c:0s 4 sector=512 height=8 metaslabs=2 slices=8\n"

_room = pathlib.Path(tempfile.mkdtemp(prefix="dzpool-"))
atexit.register(shutil.rmtree, _room, ignore_errors=True)
_rooms = 0
failures = 0


def fresh(copy_of=None):
    """A folder of its own: empty, or a copy of another."""
    global _rooms
    _rooms += 1
    folder = _room / str(_rooms)
    if copy_of is None:
        folder.mkdir()
    else:
        shutil.copytree(copy_of, folder, symlinks=True)
    return folder


def run(script, folder, before=(), words=None):
    """The exit status and the replies of a script over a folder, run behind these words of another program."""
    words = ["session", "--dir", str(folder)] if words is None else words
    given = script if isinstance(script, bytes) else script.encode()
    ended = subprocess.run([*before, PROGRAM, *words], input=given, capture_output=True, timeout=300)
    if ended.stderr and not before:
        check("nothing on standard error", ended.stderr, b"")
    return ended.returncode, ended.stdout.decode()


def made(script):
    """A folder in which a script was run to its end."""
    folder = fresh()
    status, replies = run(script, folder)
    assert status == 0, (status, replies)
    return folder


def contents(folder):
    """All that a folder has: names, links and bytes."""
    found = {}
    for path in sorted(os.scandir(os.fsencode(folder)), key=lambda entry: entry.name):
        if path.is_symlink():
            found[path.name] = os.readlink(path.path)
        elif path.is_dir():
            found[path.name] = None
        else:
            found[path.name] = open(path.path, "rb").read()
    return found


def check(row, given, wanted):
    """Says of a row whether it is as it should be."""
    global failures
    if given == wanted:
        return True
    failures += 1
    print(f"{row}\n  wanted {wanted!r}\n  given  {given!r}")
    return False


def has(command):
    return shutil.which(command) is not None
