"""Runs that are killed at a random moment: an import finds the last group that was synced, or the one under way."""
import random
import re
import subprocess
import time

from common import PROGRAM, SMALL, TWO, check, fresh, made, run
from story import Story, is_kept

OBJECTS = 16
WAITS = [0, 0.001, 0.003, 0.005, 0.01, 0.02, 0.05]


def killed(folder, script):
    """The whole replies of a run that was killed."""
    program = subprocess.Popen([PROGRAM, "session", "--dir", folder], stdin=subprocess.PIPE, stdout=subprocess.PIPE)
    program.stdin.write(script.encode())
    program.stdin.flush()
    time.sleep(2 * random.choice(WAITS) * random.random())
    program.kill()
    replies = program.stdout.read().decode()
    program.stdin.close()
    program.wait()
    return replies.split("\n")[:-1]


def creates(rounds):
    """A create over a pool is killed: the old pool is there with its object, or none, or the new one without objects."""
    base = made(TWO + "write 7 aa\nsync\n")
    allowed = ["import draid1:2d:4c:0s-0 group=2 objects=1\nread 7 1 aa\n", "import no pool\nread no pool\n", "import draid1:2d:3c:0s-0 group=1 objects=0\nread 7 no object\n"]
    ended = [0, 0, 0]
    for number in range(rounds):
        folder = fresh(copy_of=base)
        killed(folder, SMALL)
        status, replies = run("import\nread 7\n", folder)
        if check(f"kill of create {number}", (status, replies in allowed), (0, True)):
            ended[allowed.index(replies)] += 1
    print(f"kill: {rounds} creates: the old pool {ended[0]}, none {ended[1]}, the new one {ended[2]}")


def main(rounds=200, seed=1):
    random.seed(seed)
    creates(rounds)
    folder = made(TWO)
    kept = {1: ({}, None)}
    group = 1
    ended = {"in mid-script": 0, "last group": 0, "group under way": 0}
    for number in range(rounds):
        story = Story(random, random.randint(1, 60), OBJECTS)
        replies = killed(folder, story.script())
        if replies:
            opened = re.fullmatch(r"import \S+ group=(\d+) objects=\d+", replies[0])
            assert opened and int(opened[1]) == group, (replies[0], group)
        kept = story.left(replies[1:], group, kept[group])
        last = min(kept)
        group = is_kept(f"kill {number}", folder, OBJECTS, kept)
        if group not in kept:
            return
        ended["in mid-script"] += len(replies) <= len(story.steps)
        ended["last group" if group == last else "group under way"] += 1
    print(f"kill: {rounds} rounds, {ended}, last group {group}")


if __name__ == "__main__":
    main()
