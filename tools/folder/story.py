"""Random scripts of writes, frees, syncs and what is done with a checkpoint, and what an import may find behind each of their lines."""
import re

import common

LENGTHS = [1, 100, 512, 1024, 3000]


def changed(step, state):
    """What a step makes of a pool's objects and those of its checkpoint, where it has one, and whether that commits a group."""
    kind, number, bytes_of = step
    objects, point = state
    if kind == "write":
        return ({**objects, number: bytes_of}, point), False
    if kind == "free":
        return ({other: held for other, held in objects.items() if other != number}, point), False
    if kind == "sync":
        return state, True
    if (kind == "checkpoint") != (point is None):
        return state, False
    if kind == "checkpoint":
        return (objects, objects), True
    return (point if kind == "rewind" else objects, None), True


def reply_to(step, state, group):
    """What it replies where it commits this group, as a pattern."""
    kind, number, _ = step
    objects, point = state
    if kind == "free" and number not in objects:
        return f"free {number} no object"
    if kind in ("write", "free"):
        return f"{kind} {number} ok"
    if kind == "sync":
        return rf"sync group={group} thin=\d+"
    if kind == "checkpoint":
        return f"checkpoint group={group}" if point is None else r"checkpoint refused group=\d+"
    if point is None:
        return f"{kind} none"
    return f"rewind group={group} objects={len(point)}" if kind == "rewind" else rf"discard freed=\d+ group={group}"


class Story:
    """A script of so many lines over a pool that its first line opened, on objects below a number. Where devices fail, a write
    may be missed, and changes nothing then."""

    def __init__(self, random, lines, objects, may_miss=False):
        self.objects = objects
        self.may_miss = may_miss
        self.steps = [self._step(random) for _ in range(lines)]

    def _step(self, random):
        kind = random.random()
        number = random.randrange(self.objects)
        if kind < 0.55:
            return "write", number, random.randbytes(random.choice(LENGTHS)).hex()
        if kind < 0.7:
            return "free", number, None
        if kind < 0.8:
            return random.choice(["checkpoint", "rewind", "discard"]), None, None
        return "sync", None, None

    def script(self, opening="import\n"):
        return opening + "".join(" ".join(str(word) for word in step if word is not None) + "\n" for step in self.steps)

    def left(self, replies, group, state):
        """The groups that may be found behind these replies, each with its objects and those of its checkpoint: the last one
        that was committed, and the next where one was under way. The pool was of this group, and had these."""
        kept = {group: state}
        for step, reply in zip(self.steps, replies):
            state, commits = self._behind(step, reply, state, group + 1)
            if commits:
                group += 1
                kept = {group: state}
        for step in self.steps[len(replies):]:
            state, commits = changed(step, state)
            if commits:
                kept[group + 1] = state
                break
        return kept

    def _behind(self, step, reply, state, group):
        """What a step made of it that has replied."""
        if self.may_miss and re.fullmatch(rf"write {step[1]} missed columns=\d+", reply):
            return state, False
        assert re.fullmatch(reply_to(step, state, group), reply), (step, reply, group)
        return changed(step, state)


def found(folder, objects):
    """The group that an import finds, its objects and those of its checkpoint; or the status and the replies, where it finds none."""
    return pool_in(folder, objects)[1:]


def pool_in(folder, objects):
    """The same behind the pool's name, or behind None. The folder stays."""
    asked = "".join(f"read {number}\n" for number in range(objects))
    status, replies = common.run("import\n" + asked, folder)
    lines = replies.split("\n")
    opened = re.fullmatch(r"import (\S+) group=(\d+) objects=(\d+)", lines[0])
    if status != 0 or not opened:
        return None, status, replies
    _, behind = common.run("import\nrewind\n" + asked, common.fresh(copy_of=folder))
    _, back, *point = behind.split("\n")
    return opened[1], int(opened[2]), (read(lines[1:-1]), None if back == "rewind none" else read(point[:-1]))


def read(lines):
    """The objects that these replies give bytes of, or say of why they don't."""
    kept = {}
    for number, line in enumerate(lines):
        words = line.split()
        if words[2:] != ["no", "object"]:
            kept[number] = words[3] if words[2].isdigit() else line
    return kept


def is_kept(row, folder, objects, kept):
    """Whether an import finds one of these groups, with just its objects and those of its checkpoint. Answers the group that it finds."""
    group, got = found(folder, objects)
    common.check(row, (group, got), (group if group in kept else sorted(kept)[0], kept.get(group, kept[sorted(kept)[0]])))
    return group
