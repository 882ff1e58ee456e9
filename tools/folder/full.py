"""A file system that fills, and one that can be read only. It mounts them, so it wants root."""
import os
import re
import subprocess

from common import SMALL, check, fresh, run


def mounted(options):
    """A file system of its own, if one can be mounted."""
    folder = fresh()
    ended = subprocess.run(["mount", "-t", "tmpfs", "-o", options, "tmpfs", folder], capture_output=True)
    return folder if ended.returncode == 0 else None


def fills(folder):
    """A leaf that can't be written is missed; a record that can't be written ends the run, and the last group stays."""
    status, replies = run(SMALL + "fill 1 60 1024 1\nsync\n", folder)
    lines = replies.split("\n")
    check("a full file system", (status, lines[-2], bool(re.search(r" missed columns=\d+$", lines[1]))), (7, "shelf fault", True))
    check("what it keeps", run("import\nread 1\n", folder), (0, "import draid1:2d:3c:0s-0 group=1 objects=0\nread 1 no object\n"))


def is_read_only(folder):
    run(SMALL + "write 7 aa\nexport\n", folder)
    subprocess.run(["mount", "-o", "remount,ro", folder], check=True)
    check("read only: import", run("import\nread 7\n", folder), (7, "shelf fault\n"))
    check("read only: create", run(SMALL, folder), (7, "shelf fault\n"))
    subprocess.run(["mount", "-o", "remount,rw", folder], check=True)
    check("and writable again", run("import\nread 7\n", folder)[1].split("\n")[1], "read 7 1 aa")


def main():
    if os.geteuid() != 0:
        print("full: left out, since only root mounts a file system")
        return
    for options, part in (("size=44k", fills), ("size=1m", is_read_only)):
        folder = mounted(options)
        if folder is None:
            print("full: left out, since no file system can be mounted here")
            return
        try:
            part(folder)
        finally:
            subprocess.run(["umount", folder], check=True)
    print("full: a full file system and one that is read only")


if __name__ == "__main__":
    main()
