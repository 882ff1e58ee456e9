"""What an import of a folder has to answer, by docs/FORMATS.md: the first fault, or the group that it opens and the blocks
that it finds there. It shares nothing with the program."""
import dataclasses
import math

LAST = 2**48 - 1


class Bad(Exception):
    """The first fault: where it is, and its kind."""

    def __init__(self, at, kind):
        super().__init__(at, kind)
        self.at = at
        self.kind = kind


class Reader:
    """Fields, the highest byte first, up to an end."""

    def __init__(self, bytes_of, at=0):
        self.bytes_of = bytes_of
        self.at = at
        self.end = len(bytes_of)
        self.field = at

    def raw(self, width):
        if self.at + width > self.end:
            raise Bad(self.at, 1)
        self.field = self.at
        self.at += width
        return self.bytes_of[self.field:self.at]

    def number(self, width, least=0, most=None):
        value = int.from_bytes(self.raw(width), "big")
        if value < least or (most is not None and value > most):
            raise Bad(self.field, 2)
        return value

    def exactly(self, width, value):
        return self.number(width, value, value)

    def test(self, holds, at=None):
        """A test that blames the last field, or another one."""
        if not holds:
            raise Bad(self.field if at is None else at, 2)


@dataclasses.dataclass
class Uber:
    version: int
    group: int
    parity: int
    data: int
    children: int
    spares: int
    sector: int = 0
    height: int = 0
    metaslabs: int = 0
    slices: int = 0
    next_leaf: int = 0

    def groups(self):
        """Groups of stripes in a slice."""
        width = self.parity + self.data
        return math.lcm(width, self.children - self.spares) // width

    def rows(self):
        """Rows of sectors in a slice."""
        return self.groups() * (self.parity + self.data) * self.height // (self.children - self.spares)

    def leaf_sectors(self):
        return self.slices * self.rows()

    def stripes(self):
        return self.slices * self.groups() * self.height

    def name(self):
        return f"draid{self.parity}:{self.data}d:{self.children}c:{self.spares}s-0"


def chosen(area):
    """The slot that an import takes, if a gate is open."""
    if len(area) < 1024:
        return None
    open_slots = [slot for slot in (0, 1) if area[512 * slot] == 0x5A]
    return max(open_slots, key=lambda slot: (area[512 * slot + 7:512 * slot + 15], -slot), default=None)


def uber_of(area, slot):
    reader = Reader(area[512 * slot:512 * slot + 51])
    reader.exactly(1, 0x5A)
    reader.exactly(4, 0x445A5542)
    version = reader.number(2, 1, 2)
    group = reader.number(8, 1, 2**48 - 2)
    reader.test(group % 2 == slot)
    parity = reader.number(1, 1, 3)
    data = reader.number(1, 1, 255)
    children = reader.number(1, 2, 32 * version)
    spares = reader.number(1, 0, 4)
    reader.test(parity + data <= children - spares)
    uber = Uber(version, group, parity, data, children, spares)
    uber.sector = reader.number(4, 512, 4096)
    reader.test(uber.sector in (512, 4096))
    uber.height = reader.number(4, 8, 4096)
    reader.test(uber.height & (uber.height - 1) == 0)
    uber.metaslabs = reader.number(4, 1, 64)
    uber.slices = reader.number(4, 1, 1024)
    reader.test(uber.metaslabs * uber.leaf_sectors() <= 67_108_864)
    reader.raw(8)
    uber.next_leaf = reader.number(8, children, LAST)
    return uber


@dataclasses.dataclass
class Arm:
    kind: int
    number: int
    offline: int
    at: int


@dataclasses.dataclass
class Block:
    object: int
    number: int
    first: int
    stripes: int
    length: int
    birth: int
    digest: bytes
    at: int


def log_of(reader):
    least = 1
    for _ in range(reader.number(4)):
        first = reader.number(8, least, LAST)
        least = reader.number(8, first, LAST) + 2


def arm_of(reader, uber, slot, others, is_last):
    kind = reader.number(1, 0, 1)
    reader.test(not (is_last and kind == 1 and all(arm.kind == 1 for arm in slot)))
    number = reader.number(8)
    at = reader.field
    reader.test(number < (uber.spares if kind else uber.next_leaf))
    reader.test(all((arm.kind, arm.number) != (kind, number) for arm in others + slot))
    flags = reader.number(1, 0, 3)
    reader.test(not (kind == 1 and flags & 1))
    log_of(reader)
    return Arm(kind, number, flags & 1, at)


def slots_of(reader, uber):
    slots = []
    for _ in range(uber.children):
        others = [arm for slot in slots for arm in slot]
        slot = []
        count = reader.number(1, 1, 3)
        for place in range(count):
            slot.append(arm_of(reader, uber, slot, others, place == count - 1))
        slots.append(slot)
    return slots


def pass_of(reader, uber, slots):
    kind = reader.number(1, 0, 2)
    if kind == 0:
        return
    reader.number(1, kind - 1, 1)
    reader.number(8, 1, LAST)
    reader.number(8, 0, uber.stripes())
    reader.number(8, 0, LAST)
    before = (0, -1)
    for _ in range(reader.number(2, 0, sum(len(slot) for slot in slots))):
        slot = reader.number(2, before[0], uber.children - 1)
        least = before[1] + 1 if slot == before[0] else 0
        before = (slot, reader.number(1, least, len(slots[slot]) - 1))


def block_of(reader, uber, least):
    at = reader.at
    number_of = (reader.number(8, 0, 2**32 - 1), reader.number(8, 1, LAST))
    first = reader.number(8, least, uber.stripes() - 1)
    stripes = reader.number(4, 1, uber.height - first % uber.height)
    at_stripes = reader.field
    length = reader.number(4, 1, 131_072)
    reader.test(stripes == math.ceil(math.ceil(length / uber.sector) / uber.data), at_stripes)
    birth = reader.number(8, 1, uber.group)
    return Block(*number_of, first, stripes, length, birth, reader.raw(32), at)


def maximal_runs(blocks):
    runs = []
    for block in blocks:
        if runs and sum(runs[-1]) == block.first:
            runs[-1] = (runs[-1][0], runs[-1][1] + block.stripes)
        else:
            runs.append((block.first, block.stripes))
    return runs


def record_of(area, uber, metaslab):
    """The slots and the blocks of a metaslab's record."""
    reader = Reader(area)
    reader.exactly(4, 0x445A5243)
    reader.exactly(2, uber.version)
    reader.end = reader.number(4, 10, len(area))
    reader.exactly(2, metaslab)
    reader.exactly(8, uber.group)
    reader.exactly(2, uber.children)
    slots = slots_of(reader, uber)
    reader.number(8, 0, LAST)
    pass_of(reader, uber, slots)
    at_runs = reader.at
    runs = [(reader.number(8), reader.number(8)) for _ in range(reader.number(4))]
    blocks = []
    for _ in range(reader.number(4, 0, 4096 * uber.version)):
        blocks.append(block_of(reader, uber, blocks[-1].first + blocks[-1].stripes if blocks else 0))
    if runs != maximal_runs(blocks):
        raise Bad(at_runs, 2)
    if reader.at != reader.end:
        raise Bad(reader.at, 3)
    return slots, blocks


def check_of(area, group):
    """The group of a check record's checkpoint, and the objects and numbers of the blocks that it alone keeps."""
    if not area:
        return 0, []
    reader = Reader(area)
    reader.exactly(4, 0x445A4350)
    reader.exactly(2, 1)
    length = reader.number(4, 0, len(area))
    at_length = reader.field
    reader.end = max(length, reader.at)
    reader.exactly(8, group)
    point = reader.number(8, 0, group)
    count = reader.number(4, 0, 524_288 if point else 0)
    reader.test(length == 30 + 16 * count, at_length)
    named = []
    for _ in range(count):
        key = (reader.number(8, named[-1][0] if named else 0), reader.number(8))
        reader.test(not named or named[-1] < key)
        named.append(key)
    return point, named


def named_of(area, group, births):
    """The blocks that a check record names. Raises its first fault, by the birth of each block."""
    point, named = check_of(area, group)
    for place, key in enumerate(named):
        if births.get(key, point + 1) > point:
            raise Bad(30 + 16 * place, 2)
    return set(named)


def newest_of(blocks):
    """The newest block of each object."""
    newest = {}
    for block in blocks:
        if block.object not in newest or newest[block.object].number < block.number:
            newest[block.object] = block
    return newest


def check_area(folder, group):
    path = folder / ("check-odd" if group % 2 else "check-even")
    return path.read_bytes() if path.exists() else b""


def twice(blocks, keys):
    """The first block whose object and number stand in another before it."""
    for block in blocks:
        if (block.object, block.number) in keys:
            raise Bad(block.at, 5)
        keys.add((block.object, block.number))


def leaves_of(folder, metaslab, uber):
    """The sectors of each leaf that is there."""
    front = f"m{metaslab}-leaf-"
    found = {}
    for path in folder.iterdir():
        number = path.name.removeprefix(front)
        if path.name.startswith(front) and number.isdigit() and str(int(number)) == number:
            found[int(number)] = path.stat().st_size // uber.sector
    return found


def opened(folder, uber, metaslab):
    """A metaslab as its record has it."""
    area = (folder / f"m{metaslab}-{'odd' if uber.group % 2 else 'even'}").read_bytes()
    slots, blocks = record_of(area, uber, metaslab)
    leaves = leaves_of(folder, metaslab, uber)
    for arm in (arm for slot in slots for arm in slot):
        if arm.kind == 0 and leaves.get(arm.number) != uber.leaf_sectors():
            raise Bad(arm.at, 6)
    twice(blocks, set())
    return slots, blocks


def alike(slots):
    return [[(arm.kind, arm.number, arm.offline) for arm in slot] for slot in slots]


def answer(folder):
    """What an import of this folder replies, its exit status where the run ends with that, and the block of each object."""
    uber_path = folder / "uber"
    if not uber_path.exists():
        return 0, "import no pool\n", {}
    area = uber_path.read_bytes()
    slot = chosen(area)
    if slot is None:
        return 0, "import no pool\n", {}
    try:
        uber = uber_of(area, slot)
    except Bad as bad:
        return 8, f"record uber at={bad.at} kind={bad.kind}\n", {}
    found = []
    for metaslab in range(uber.metaslabs):
        names = [f"m{metaslab}-{part}" for part in ("even", "odd")]
        if not all((folder / name).exists() for name in names):
            return 7, "shelf fault\n", {}
        try:
            found.append(opened(folder, uber, metaslab))
        except Bad as bad:
            return 8, f"record metaslab={metaslab} at={bad.at} kind={bad.kind}\n", {}
    return joined(uber, found, check_area(folder, uber.group))


def joined(uber, found, check):
    """The same where each metaslab could be opened."""
    keys = set()
    births = {}
    for metaslab, (slots, blocks) in enumerate(found):
        try:
            if alike(slots) != alike(found[0][0]):
                raise Bad(20, 4)
            twice(blocks, keys)
        except Bad as bad:
            return 8, f"record metaslab={metaslab} at={bad.at} kind={bad.kind}\n", {}
        for block in blocks:
            births[block.object, block.number] = block.birth
    try:
        named = named_of(check, uber.group, births)
    except Bad as bad:
        return 8, f"record check at={bad.at} kind={bad.kind}\n", {}
    # (what the checkpoint alone keeps is no object's)
    newest = newest_of(block for _, blocks in found for block in blocks if (block.object, block.number) not in named)
    return 0, f"import {uber.name()} group={uber.group} objects={len(newest)}\n", newest
