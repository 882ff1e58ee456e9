"""Power that goes: a run under strace is played again on a copy of its folder, up to a random call of the system. What wasn't
synced by then is old, new, torn or half there; and a name that was made, removed or renamed is as it was when the folder was
last synced, or as at any moment since. An import finds the last group that was synced, or the one under way; behind a create
that has no reply yet the pool before, none, or the new one. Some runs follow one that was killed, behind which the system may
have failed to write back."""
import random
import re

from common import TWO, check, fresh, has, made
from disk import NAMES, RULES, Disk, traced
from story import Story, pool_in

OBJECTS = 6
BEFORE = "create draid1:2d:3c:0s 3 sector=512 height=8 metaslabs=3 slices=4\nwrite 1 aa\nwrite 2 bb\nsync\n"
OTHER = "create draid1:3d:5c:0s 5 sector=512 height=8 metaslabs=1 slices=8\n"
NO_POOL = {(None, 0): "import no pool\n" + OBJECTS * "read no pool\n"}

# A new pool has no object and no checkpoint.
NEW = ({}, None)

# In place of a run: the system failed to write back what wasn't synced, told somebody of it, and takes it for written.
LOST = (None, 0)


def name_of(create):
    return create.split()[1] + "-0"


def possible(create):
    """What is there behind this script, by name and group: two objects, in group 2, and no checkpoint."""
    return {(name_of(create), 2): ({1: "aa", 2: "bb"}, None)}


class Run:
    """A run over a folder of which these pools may be found, that opens or makes one and then writes and syncs."""

    def __init__(self, folder, before, opening="import\n"):
        self.before = before
        self.makes = None if opening == "import\n" else name_of(opening)
        self.story = Story(random, 30, OBJECTS)
        self.story.steps.append(("sync", None, None))
        self.calls = traced(folder, self.story.script(opening))
        self.commits = [at + 1 for at, call in enumerate(self.calls) if call["kind"] == "write" and call["file"][0] == "uber"]
        self.named = max((at for at, call in enumerate(self.calls) if call.get("name") is not None), default=0)

    def some(self):
        """A random number of its first calls; half the time one up to a little behind the last call with a name."""
        return random.randint(0, min(len(self.calls), random.choice([len(self.calls), self.named + 20])))

    def may_leave(self, stop):
        """The pools of which one may be found behind so many calls."""
        told = b"".join(call["bytes"] for call in self.calls[:stop] if call["kind"] == "reply").decode()
        replies = told.split("\n")[:-1]
        if not replies:
            return self.before if not self.makes else {**self.before, **NO_POOL, (self.makes, 1): NEW}
        if replies[0] == "import no pool":
            assert NO_POOL.keys() <= self.before.keys(), self.before
            return self.before
        name, group = self.opened(replies[0])
        kept = self.story.left(replies[1:], group, NEW if self.makes else self.before[name, group])
        return {(name, group): objects for group, objects in kept.items()}

    def opened(self, reply):
        """The pool that is open behind the first reply, by its name and group."""
        if self.makes:
            assert reply.startswith(f"create {self.makes} stripes="), reply
            return self.makes, 1
        name, group = re.fullmatch(r"import (\S+) group=(\d+) objects=\d+", reply).groups()
        assert (name, int(group)) in self.before, (reply, self.before)
        return name, int(group)


def played(folder, parts, syncs_count=True):
    """A disk that begins as this folder, behind the first calls of each run, or where LOST stands behind writes that failed."""
    disk = Disk(folder, syncs_count)
    for run, stop in parts:
        if run is None:
            disk.lose()
            continue
        for call in run.calls[:stop]:
            disk.do(call)
    return disk


def loss(folder, parts, syncs_count=True):
    """The pools that may be left where power goes behind these calls, and the one that is."""
    run, stop = parts[-1]
    disk = played(folder, parts, syncs_count)
    name, group, objects = pool_in(disk.left(random.choice(NAMES), random.choice(RULES)), OBJECTS)
    return run.may_leave(stop), ((name, group), objects)


def kind_of(pool, run, allowed):
    """What a pool that is left is among those that may be."""
    if pool in NO_POOL:
        return "no pool"
    if run.makes and pool in run.before:
        return "the pool before"
    is_later = any(name == pool[0] and group < pool[1] for name, group in allowed)
    return "the group under way" if is_later else "the last group"


def one(row, folder, parts, found):
    """Counts what is left."""
    allowed, (pool, objects) = loss(folder, parts)
    wanted = pool if pool in allowed else next(iter(allowed))
    check(f"power {row}, at call {parts[-1][1]}", (pool, objects), (wanted, allowed[wanted]))
    kind = kind_of(pool, parts[-1][0], allowed)
    found[kind] = found.get(kind, 0) + 1


def alone(what, folder, run, stops):
    """Power ends this run."""
    found = {}
    for number in range(stops):
        one(f"{what} {number}", folder, [(run, run.some())], found)
    print(f"power: {what}: {stops} stops among {len(run.calls)} calls, {found}")


def opens(stops):
    """An import of a pool that lacks a file and has one too many."""
    folder = made(TWO + "write 1 aa\nwrite 2 bb\nsync\n")
    (folder / "check-even").unlink()
    (folder / "m0-leaf-9").write_bytes(bytes(512))
    alone("import", folder, Run(fresh(copy_of=folder), possible(TWO)), stops)


def creates(stops):
    """A create in an empty folder, and one over a pool, which is lost at times if the syncs of the folder don't count."""
    alone("create", fresh(), Run(fresh(), NO_POOL, TWO), stops)
    folder = made(BEFORE)
    run = Run(fresh(copy_of=folder), possible(BEFORE), TWO)
    alone("create over a pool", folder, run, stops)
    lost = 0
    for _ in range(stops):
        allowed, (pool, objects) = loss(folder, [(run, run.some())], syncs_count=False)
        lost += pool not in allowed or allowed[pool] != objects
    print(f"power: {stops} stops where syncs of the folder don't count, {lost} of them lose something")
    check("power: syncs of the folder are needed", lost > 0, True)


def killed(kills, stops):
    """A run that was killed, at times with writes that fail behind it, and one behind it that power ends."""
    base = made(BEFORE)
    first = Run(fresh(copy_of=base), possible(BEFORE), TWO)
    found = {}
    for number in range(kills):
        cut = random.choice([first.some(), random.choice(first.commits)])
        parts = [(first, cut), LOST] if number % 2 else [(first, cut)]
        second = Run(played(base, parts).shown(), first.may_leave(cut), random.choice(["import\n", TWO, OTHER]))
        for _ in range(stops):
            one(f"kill {number} at call {cut}", base, [*parts, (second, second.some())], found)
    print(f"power: behind {kills} killed runs: {kills * stops} stops, {found}")


def main(stops=300, kills=30, seed=1):
    if not has("strace"):
        print("power: left out, since there is no strace")
        return
    random.seed(seed)
    opens(stops // 3)
    creates(stops // 3)
    killed(kills, 5)


if __name__ == "__main__":
    main()
