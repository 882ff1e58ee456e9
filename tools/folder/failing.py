"""Calls of the system that fail: strace lets one call of a kind fail, or all from one on. What was synced stays, no reply says
more than is so, and a file whose sync failed isn't taken for synced by a later one."""
import random
import re

from common import TWO, check, fresh, has, made, run
from story import Story, is_kept

OBJECTS = 6
# A call, its failure, and the last call of the kind that may be the first to fail.
FAILURES = [("pwrite64", "EIO", 120), ("pwrite64", "ENOSPC", 120), ("fdatasync", "EIO", 120), ("pread64", "EIO", 120),
            ("openat", "EMFILE", 120), ("fsync", "EIO", 120), ("rename", "EIO", 1)]
SHELF = "shelf fault"
NOT_LOADED = 127  # the system could not load the program


def failing(call, error, when):
    return ("strace", "-f", "-o", "/dev/null", "-e", f"trace={call}", "-e", f"inject={call}:error={error}:when={when}")


def one(number, before):
    """One run in which calls fail. Answers how far it came."""
    call, error, last = random.choice(FAILURES)
    when = str(random.randint(1, last)) + random.choice(["", "+"])
    story = Story(random, 30, OBJECTS, may_miss=True)
    folder = fresh(copy_of=before)
    row = f"failing {number}, {call} {error} from {when}"
    status, replies = run(story.script(), folder, before=failing(call, error, when))
    lines = replies.split("\n")[:-1]
    if status == NOT_LOADED:
        return "not loaded"
    ends = lines[-1] == SHELF
    check(row, status, 7 if ends else 0)
    if ends:
        lines.pop()
    kept = story.left(lines[1:], 2, ({1: "aa", 2: "bb"}, None))
    is_kept(row, folder, OBJECTS, kept)
    return "to the end" if not ends else "into the script" if lines else "not opened"


def lost_files_stay_lost(before):
    """Behind a failed sync of a leaf each later group is thin."""
    row = "the first sync of a leaf failed"
    script = "import\nwrite 1 aa\nsync\nwrite 1 bb\nsync\nwrite 1 cc\nsync\n"
    status, replies = run(script, fresh(copy_of=before), before=failing("fdatasync", "EIO", "1"))
    thin = re.findall(r"sync group=\d+ thin=(\d+)", replies)
    check(row, (status, len(thin), thin[0] != "0", set(thin[1:]) != {"0"}), (0, 3, True, True))


def main(rounds=200, seed=1):
    if not has("strace"):
        print("failing: left out, since there is no strace")
        return
    random.seed(seed)
    before = made(TWO + "write 1 aa\nwrite 2 bb\nsync\n")
    lost_files_stay_lost(before)
    ended = {}
    for number in range(rounds):
        end = one(number, before)
        ended[end] = ended.get(end, 0) + 1
    print(f"failing: {rounds} runs, {ended}")


if __name__ == "__main__":
    main()
