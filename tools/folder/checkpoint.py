"""A pool with a checkpoint: what is freed or overwritten stays with that, and each sync names it. An import goes by what a check
record names that is written here."""
from common import SMALL, check, fresh, made, run
from formats import check_area, check_of

MADE = SMALL + "write 1 aa\nwrite 2 bb\nwrite 3 cc\ncheckpoint\n"
GROUP = 2  # that of the checkpoint

# What goes on beside the checkpoint, line by line with its reply. Writes are numbered from 1 on: those of MADE are 1, 2 and 3.
BESIDE = [
    ("import", "import draid1:2d:3c:0s-0 group=2 objects=3"),
    ("lanes 2\n0 read 1\nend", "lanes checkpoint"),
    ("write 1 dd", "write 1 ok"),
    ("free 2", "free 2 ok"),
    ("read 1", "read 1 1 dd"),
    ("read 2", "read 2 no object"),
    ("write 1 ee", "write 1 ok"),
    ("sync", "sync group=3 thin=0"),
    ("crash", "crash"),
    ("import", "import draid1:2d:3c:0s-0 group=3 objects=2"),
    ("read 1", "read 1 1 ee"),
    ("read 2", "read 2 no object"),
    ("free 3", "free 3 ok"),
    ("lanes 1\nend", "lanes checkpoint"),
]


def record(group, point, named):
    """A check record."""
    body = b"".join(object_of.to_bytes(8, "big") + number.to_bytes(8, "big") for object_of, number in named)
    numbers = group.to_bytes(8, "big") + point.to_bytes(8, "big") + len(named).to_bytes(4, "big")
    return b"DZCP\0\1" + (30 + len(body)).to_bytes(4, "big") + numbers + body


def put(folder, group, named):
    (folder / ("check-odd" if group % 2 else "check-even")).write_bytes(record(group, GROUP, named))


def ran(row, folder, lines):
    """Runs lines and compares each reply."""
    given = run("".join(line + "\n" for line, _ in lines), folder)
    check(row, given, (0, "".join(reply + "\n" for _, reply in lines)))


def named(row, folder, group, wanted):
    check(f"{row}: the record of group {group}", check_of(check_area(folder, group), group), (GROUP, wanted))


def live(row, folder, wanted):
    """How many blocks the status counts."""
    _, replies = run("import\nstatus\n", folder)
    check(f"{row}: live blocks", [word for word in replies.split() if word.startswith("blocks=")], [f"blocks={wanted}"])


def main():
    before = made(MADE)

    row = "beside a checkpoint"
    folder = fresh(copy_of=before)
    ran(row, folder, BESIDE)
    named(row, folder, 3, [(1, 1), (2, 2)])
    live(row, folder, 4)

    row = "an export behind a drop"
    ran(row, folder, [("import", "import draid1:2d:3c:0s-0 group=3 objects=2"), ("free 3", "free 3 ok"), ("export", "export group=4"), ("import", "import draid1:2d:3c:0s-0 group=4 objects=1")])
    named(row, folder, 4, [(1, 1), (2, 2), (3, 3)])
    live(row, folder, 4)

    # The record of group 3 names nothing: an object's older block is dropped by the import, and the newest is its own.
    row = "an import that drops"
    folder = fresh(copy_of=before)
    ran(row, folder, BESIDE[:2] + [("write 1 dd", "write 1 ok"), ("sync", "sync group=3 thin=0")])
    put(folder, 3, [])
    ran(row, folder, [("import", "import draid1:2d:3c:0s-0 group=3 objects=3"), ("read 1", "read 1 1 dd"), ("sync", "sync group=4 thin=0")])
    named(row, folder, 4, [(1, 1)])
    live(row, folder, 4)

    # An object whose newest block is named goes back to the one before it.
    row = "an import of a named block"
    put(folder, 4, [(2, 2)])
    ran(row, folder, [("import", "import draid1:2d:3c:0s-0 group=4 objects=2"), ("read 2", "read 2 no object"), ("read 1", "read 1 1 dd")])


if __name__ == "__main__":
    main()
