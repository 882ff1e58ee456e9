"""Two runs over one folder, files that were changed from outside, and what the system refuses."""
import os
import subprocess

from common import PROGRAM, SMALL, check, contents, fresh, made, run

KEPT = SMALL + "write 7 68656c6c6f\nexport\n"
OPENS = "import draid1:2d:3c:0s-0 group=2 objects=1\n"
READS = OPENS + "read 7 5 68656c6c6f\n"
LEAF = 32 * 512  # bytes of a leaf of the small pool


def cut(length):
    return lambda path: os.truncate(path, length)


def zeros(path):
    os.truncate(path, 0)
    os.truncate(path, LEAF)


def turn_to_folder(path):
    path.unlink()
    path.mkdir()


def turn_to_link(path):
    """The file elsewhere, and a link in its place."""
    there = fresh() / "elsewhere"
    path.rename(there)
    path.symlink_to(there)


def overwrite(path):
    with open(path, "r+b") as file:
        file.write(b"\xff" * 4096)


# A file of a pool, what befell it, and how a run ends that imports the pool and reads its object.
CHANGES = [
    ("m0-leaf-0", overwrite, 0, READS),
    ("m0-leaf-1", cut(512 * 10), 8, "record metaslab=0 at=39 kind=6\n"),
    ("m0-leaf-1", cut(512 * 40), 8, "record metaslab=0 at=39 kind=6\n"),
    ("m0-leaf-1", cut(LEAF + 5), 0, READS),
    ("m0-leaf-1", os.remove, 8, "record metaslab=0 at=39 kind=6\n"),
    ("m0-leaf-1", zeros, 0, READS),
    ("m0-leaf-1", turn_to_folder, 7, "shelf fault\n"),
    ("m0-leaf-1", turn_to_link, 0, READS),
    ("m0-leaf-7", lambda path: path.write_bytes(b"x"), 0, READS),
    ("m0-even", os.remove, 7, "shelf fault\n"),
    ("m0-even", cut(0), 8, "record metaslab=0 at=0 kind=1\n"),
    ("m0-even", cut(20), 8, "record metaslab=0 at=6 kind=2\n"),
    ("m0-odd", os.remove, 7, "shelf fault\n"),
    ("m0-odd", cut(0), 0, READS),
    ("uber", os.remove, 0, "import no pool\nread no pool\n"),
    ("uber", cut(1000), 0, "import no pool\nread no pool\n"),
    ("uber", cut(0), 0, "import no pool\nread no pool\n"),
    ("uber", cut(5000), 0, READS),
    ("uber", lambda path: path.write_bytes(b"\x5a" + b"\0" * 1023), 8, "record uber at=1 kind=2\n"),
    ("uber", turn_to_folder, 7, "shelf fault\n"),
    ("uber", turn_to_link, 0, READS),
    ("uber-copy", lambda path: path.write_bytes(b"x"), 0, READS),
    ("check-even", os.remove, 0, READS),
    ("check-odd", os.remove, 0, READS),
    ("check-even", cut(0), 0, READS),
    ("check-even", cut(20), 8, "record check at=6 kind=2\n"),
    ("check-even", cut(5000), 0, READS),
    ("check-odd", lambda path: path.write_bytes(b"x"), 0, READS),
    ("check-even", turn_to_folder, 7, "shelf fault\n"),
]


def changes():
    base = made(KEPT)
    for number, (name, act, status, replies) in enumerate(CHANGES):
        folder = fresh(copy_of=base)
        act(folder / name)
        before = contents(folder)
        row = f"change {number}, of {name}"
        check(row, run("import\nread 7\n", folder), (status, replies))
        if replies != READS:
            check(row + ": the folder stays", contents(folder), before)


def runs():
    folder = fresh()
    check("a first run", run(KEPT, folder), (0, "create draid1:2d:3c:0s-0 stripes=32\nwrite 7 ok\nexport group=2\n"))
    check("a second run", run("import\nread 7\n", folder), (0, READS))
    check("a write", run("import\nwrite 8 aa\n", folder), (0, OPENS + "write 8 ok\n"))
    check("is lost without a sync", run("import\nread 8\nread 7\n", folder), (0, OPENS + "read 8 no object\nread 7 5 68656c6c6f\n"))
    check("and kept by an export", run("import\nwrite 9 bb\nexport\n", folder), (0, OPENS + "write 9 ok\nexport group=3\n"))
    check("for a later run", run("import\nread 9\n", folder), (0, "import draid1:2d:3c:0s-0 group=3 objects=2\nread 9 1 bb\n"))
    script = SMALL + "write 1 aa\nsync\nwrite 2 bb\ncrash\nimport\nread 1\nread 2\n"
    replies = "create draid1:2d:3c:0s-0 stripes=32\nwrite 1 ok\nsync group=2 thin=0\nwrite 2 ok\ncrash\n" + OPENS
    check("a crash and an import in one run", run(script, fresh()), (0, replies + "read 1 1 aa\nread 2 no object\n"))
    folder = made(SMALL + "write 7 aa\nsync\ndamage 0 0\ndamage 1 0\n")
    check("damage outlasts a run", run("import\nread 7\n", folder), (0, OPENS + "read 7 unreadable absent=0 tried=4\n"))


def words():
    folder = made(KEPT)
    for given in (["session", f"--dir={folder}"], ["--dir", str(folder), "session"], [f"--dir={folder}", "session"]):
        check(" ".join(given), run("import\nread 7\n", None, words=given), (0, READS))
    usage = (1, "usage: dzpool session [--dir DIR] or dzpool workload NUMBER\n")
    for given in (["session", "--dir"], ["session", "--dir", "a", "--dir", "b"], ["workload", "1", "--dir", "a"], ["--help"]):
        check(" ".join(given), run("", None, words=given), usage)
    check("a word that is no text", run("", None, words=["session", b"\xff"]), usage)
    check("a name that is no text", run("", None, words=["session", "--dir", b"\xff"]), usage)
    check("no name: import", run("import\n", None, words=["session", "--dir="]), (0, "import no pool\n"))
    check("no name: create", run(SMALL, None, words=["session", "--dir="]), (7, "shelf fault\n"))
    check("untouched without a command", (run("", folder / "none"), run("read 1\n", folder / "none")), ((0, ""), (0, "read no pool\n")))


def folders():
    none = fresh() / "none"
    check("no folder: import", run("import\n", none), (0, "import no pool\n"))
    check("no folder: create", run(SMALL, none), (7, "shelf fault\n"))
    check("no folder: it isn't made", none.exists(), False)
    file = fresh() / "file"
    file.write_text("x")
    check("a file for a folder: import", run("import\n", file), (0, "import no pool\n"))
    check("a file for a folder: create", run(SMALL, file), (7, "shelf fault\n"))
    check("an empty folder", run("import\n", fresh()), (0, "import no pool\n"))


# Names that no file of a pool has.
OTHERS = ["keep.txt", "m0-leaf-03", "m00-even", "m64-even", "m0-leaf-", "m0-leaf-x", "m0-leaf-+1", "my-odd", "m0-even.old",
          "uber.old", "Uber", "m0-leaf-18446744073709551616", "check-", "m-leaf-1", " uber"]


def others():
    folder = fresh()
    for name in OTHERS:
        (folder / name).write_text(name)
    open(os.fsencode(folder) + b"/\xff\xfe", "w").close()
    (folder / "inner").mkdir()
    before = contents(folder)
    check("create among other files", run(KEPT, folder)[0], 0)
    check("import among other files", run("import\nread 7\n", folder), (0, READS))
    now = contents(folder)
    check("other files stay", {name: now.get(name) for name in before}, before)
    pool = ["uber", "check-even", "check-odd", "m0-even", "m0-odd", "m0-leaf-0", "m0-leaf-1", "m0-leaf-2"]
    check("and the pool's come", set(now) - set(before), {name.encode() for name in pool})


def creates():
    folder = made(SMALL + "write 7 aa\nsync\n")
    target = fresh() / "target"
    target.write_text("kept")
    (folder / "m5-leaf-9").symlink_to(target)
    run("create draid1:2d:4c:0s 4 sector=512 height=8 metaslabs=2 slices=1\n", folder)
    pool = ["uber", "check-even", "check-odd"]
    pool += [f"m{m}-{part}" for m in (0, 1) for part in ("even", "odd", "leaf-0", "leaf-1", "leaf-2", "leaf-3")]
    check("create over a pool", sorted(os.listdir(folder)), sorted(pool))
    check("what a link leads to stays", target.read_text(), "kept")
    replies = "import draid1:2d:4c:0s-0 group=1 objects=0\nread 7 no object\n"
    check("the new pool", run("import\nread 7\n", folder), (0, replies))
    before = contents(folder)
    check("a create that is refused", run("create draid1:2d:3c:0s 4\n", folder)[1], "create refused 5 said=3 given=4\n")
    check("touches nothing", contents(folder), before)
    sizes = {name: os.stat(folder / name).st_blocks for name in os.listdir(folder) if "leaf" in name}
    check("leaves are sparse", set(sizes.values()), {0})


def locks():
    folder = made(SMALL)
    first = subprocess.Popen([PROGRAM, "session", "--dir", folder], stdin=subprocess.PIPE, stdout=subprocess.PIPE)
    first.stdin.write(b"import\n")
    first.stdin.flush()
    first.stdout.readline()
    check("a second run: import", run("import\n", folder), (7, "shelf fault\n"))
    check("a second run: create", run(SMALL, folder), (7, "shelf fault\n"))
    replies, _ = first.communicate(b"write 1 aa\nexport\n")
    check("the first goes on", replies, b"write 1 ok\nexport group=2\n")
    check("and then the second", run("import\nread 1\n", folder), (0, OPENS + "read 1 1 aa\n"))


def open_files():
    """A run that may open few files."""
    few = ("sh", "-c", 'ulimit -n 7; exec "$@"', "few")
    folder = made(KEPT)
    check("few open files: import", run("import\n", folder, before=few), (7, "shelf fault\n"))
    check("the pool is still there", run("import\nread 7\n", folder), (0, READS))
    check("few open files: create", run(SMALL, folder, before=few), (7, "shelf fault\n"))
    check("no half of a pool is found", run("import\n", folder), (0, "import no pool\n"))


def main():
    for part in (runs, words, folders, changes, others, creates, locks, open_files):
        part()


if __name__ == "__main__":
    main()
