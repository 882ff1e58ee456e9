"""Check records that are wrong, and some that are right: what an import finds over each, and a rewind behind it."""
from checkpoint import record
from common import SMALL, check, contents, fresh, made, run
from formats import answer

# Group 3 is committed, and its checkpoint is that of group 2. Writes 1 and 2 are kept for that alone; 3 and 4 were born behind it.
SESSION = SMALL + "write 7 aa\nwrite 9 99\ncheckpoint\nwrite 7 bb\nfree 9\nwrite 8 cc\nsync\n"
PROBES = "import\nread 7\nread 8\nread 9\nrewind\nread 7\n"
FIRST, SECOND = (7, 1), (9, 2)
WRITTEN = record(3, 2, [FIRST, SECOND])

# Where the record is cut: from this length on, up to one below that.
CUTS = [(1, 4, 0, 1), (4, 6, 4, 1), (6, 10, 6, 1), (10, 62, 6, 2)]

# A field, how wide it is, other values of it, and the fault of each.
FIELDS = [
    (0, 4, [0, 0x445A4351, 0x445A5243], 0, 2),
    (4, 2, [0, 2, 0xFFFF], 4, 2),
    (6, 4, [0, 5, 9, 10, 17], 10, 1),
    (6, 4, [18, 25], 18, 1),
    (6, 4, [26, 29], 26, 1),
    (6, 4, [30, 45, 46, 47, 61, 63, 2**32 - 1], 6, 2),
    (10, 8, [0, 1, 2, 4, 5, 2**63], 10, 2),
    (18, 8, [0], 26, 2),
    (18, 8, [1], 30, 2),
    (18, 8, [4, 2**64 - 1], 18, 2),
    (26, 4, [0, 1, 3, 524_288], 6, 2),
    (26, 4, [524_289, 2**32 - 1], 26, 2),
    (30, 8, [0, 6, 8, 9], 30, 2),
    (30, 8, [10, 2**32, 2**64 - 1], 46, 2),
    (38, 8, [0, 2, 3, 4, 5, 2**64 - 1], 30, 2),
    (46, 8, [0, 6, 7, 8, 10, 2**64 - 1], 46, 2),
    (54, 8, [0, 1, 3, 4, 5, 2**64 - 1], 46, 2),
]

# The groups of a record and of its checkpoint, the blocks that it names, and the fault.
WRONG = [
    (3, 0, [FIRST], 26, 2),
    (3, 2, [SECOND, FIRST], 46, 2),
    (3, 2, [FIRST, FIRST], 54, 2),
    (3, 2, [(7, 3), FIRST], 54, 2),
    (3, 2, [(7, 3)], 30, 2),
    (3, 2, [FIRST, SECOND, (11, 9)], 62, 2),
    (3, 1, [FIRST], 30, 2),
    (2, 2, [], 10, 2),
]

# What an import finds of objects 7, 8 and 9, and what a rewind leaves and reads of 7 then.
KEPT = ("bb", "cc", None)
NINTH = ("bb", "cc", "99")
EARLIER = ("aa", None, "99")
NO_POINT = (None, "bb")

# The group of the checkpoint and the blocks that are named, and what is found.
RIGHT = [
    (2, [FIRST, SECOND], KEPT, (2, "aa")),
    (0, [], NINTH, NO_POINT),
    (2, [], NINTH, (2, "aa")),
    (2, [FIRST], NINTH, (2, "aa")),
    (2, [SECOND], KEPT, (2, "aa")),
    (3, [], NINTH, (3, "bb")),
    (3, [FIRST, SECOND], KEPT, (3, "bb")),
    (1, [], NINTH, (0, None)),
]


def replies(group, objects, point):
    """What the probes print where the pool is of this group, has these objects, and goes back to this."""
    count, behind = point
    lines = [f"import draid1:2d:3c:0s-0 group={group} objects={sum(it is not None for it in objects)}"]
    lines += [read(number, it) for number, it in zip((7, 8, 9), objects)]
    lines += ["rewind none" if count is None else f"rewind group={group + 1} objects={count}", read(7, behind)]
    return 0, "".join(line + "\n" for line in lines)


def read(number, held):
    return f"read {number} no object" if held is None else f"read {number} 1 {held}"


def fault(at, kind):
    return 8, f"record check at={at} kind={kind}\n"


def shut(groups):
    """Shuts the gates of these groups."""

    def act(folder):
        with open(folder / "uber", "r+b") as file:
            for group in groups:
                file.seek(512 * (group % 2))
                file.write(b"\0")

    return act


def even(bytes_of):
    return lambda folder: (folder / "check-even").write_bytes(bytes_of)


def both(*acts):
    return lambda folder: [act(folder) for act in acts]


# What the odd area has, what else is done to the folder, and what comes of it.
BESIDE = [
    (WRITTEN, even(b"rubbish"), replies(3, KEPT, (2, "aa"))),
    (WRITTEN, even(record(4, 2, [FIRST])), replies(3, KEPT, (2, "aa"))),
    (WRITTEN, shut([3]), replies(2, EARLIER, (2, "aa"))),
    (WRITTEN, shut([2, 3]), (0, "import no pool\n" + 3 * "read no pool\n" + "rewind no pool\nread no pool\n")),
    (WRITTEN, both(shut([3]), even(record(2, 2, [])[:20])), fault(6, 2)),
    (WRITTEN[:20], shut([3]), replies(2, EARLIER, (2, "aa"))),
]


def rows():
    """What the odd area has, and what comes of it."""
    yield b"", replies(3, NINTH, NO_POINT)
    for least, end, at, kind in CUTS:
        for length in range(least, end):
            yield WRITTEN[:length], fault(at, kind)
    for place, width, values, at, kind in FIELDS:
        for value in values:
            yield WRITTEN[:place] + value.to_bytes(width, "big") + WRITTEN[place + width:], fault(at, kind)
    for group, point, named, at, kind in WRONG:
        yield record(group, point, named), fault(at, kind)
    for point, named, objects, behind in RIGHT:
        yield record(3, point, named), replies(3, objects, behind)
    for length in (1, 16, 1000):
        yield WRITTEN + length * b"\xff", replies(3, KEPT, (2, "aa"))


def one(base, number, odd, act, wanted):
    """A run over a folder whose odd area is replaced; an independent reader of it says the same, and a refusal leaves all there."""
    folder = fresh(copy_of=base)
    (folder / "check-odd").write_bytes(odd)
    act(folder)
    before, told = contents(folder), answer(folder)[:2]
    row = f"check record {number}, {odd[:80].hex(' ')}"
    check(row, run(PROBES, folder), wanted)
    check(row + ": as docs/FORMATS.md has it", told, (wanted[0], wanted[1].split("\n")[0] + "\n"))
    if wanted[0] or "no pool" in wanted[1]:
        check(row + ": the folder stays", contents(folder), before)


def main():
    base = made(SESSION)
    check("the record that was written", (base / "check-odd").read_bytes(), WRITTEN)
    tried = [(odd, lambda folder: None, wanted) for odd, wanted in rows()] + BESIDE
    for number, row in enumerate(tried):
        one(base, number, *row)
    print(f"checks: {len(tried)} areas")


if __name__ == "__main__":
    main()
