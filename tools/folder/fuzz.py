"""Folders whose uberblock, records or check records were changed at random. What an import answers is what docs/FORMATS.md says of those
bytes, a folder that is refused stays as it is, and a read gives the bytes of the digest that the record has, or none."""
import hashlib
import os
import random

from common import SMALL, TWO, check, contents, fresh, made, run
from formats import answer

SCRIPTS = [
    SMALL + "fill 1 4 900 1\nsync\nwrite 2 aabb\nfree 3\nsync\nwrite 9 00\nexport\n",
    TWO + "fill 1 12 2000 7\nsync\nfree 3\nfill 20 5 100 2\nsync\n",
    SMALL + "fill 1 5 600 3\ncheckpoint\nfill 2 3 700 4\nfree 5\nsync\nwrite 8 cc\nfree 2\nsync\n",
    "create draid2:3d:8c:1s 8 sector=512 height=16 metaslabs=1 slices=3 version=2\nfill 0 9 3000 1\ndamage 2 0\nexport\n",
]


def change(folder):
    """Changes a file of records, of check records or the uberblock. Answers what was done."""
    files = sorted(path for path in folder.iterdir() if "leaf" not in path.name)
    path = random.choice(files)
    bytes_of = bytearray(path.read_bytes())
    kind = random.random()
    if kind < 0.1 or not bytes_of:
        length = random.randint(0, len(bytes_of) + 20)
        os.truncate(path, length)
        return f"{path.name} of {length} bytes"
    places = [random.randrange(len(bytes_of)) for _ in range(random.choice([1, 1, 2]))]
    for place in places:
        bytes_of[place] = random.choice([0, 1, 2, 3, 255, bytes_of[place] ^ (1 << random.randrange(8)), random.randrange(256)])
    path.write_bytes(bytes_of)
    return f"{path.name} changed at {places}"


def reads(row, lines, newest):
    """Each read gives the bytes that the record means, or none."""
    for number, line in zip(newest, lines):
        words = line.split(" ")
        if words[2].isdigit():
            got = (len(bytes.fromhex(words[3])), hashlib.sha256(bytes.fromhex(words[3])).digest())
            check(f"{row}: read {number}", got, (newest[number].length, newest[number].digest))
        else:
            check(f"{row}: read {number}", words[2], "unreadable")


def one(number, base):
    folder = fresh(copy_of=base)
    row = f"fuzz {number}, {change(folder)}"
    before = contents(folder)
    status, reply, newest = answer(folder)
    script = "import\n" + "".join(f"read {object_of}\n" for object_of in newest)
    ended, replies = run(script, folder)
    lines = replies.split("\n")
    if check(row, (ended, lines[0] + "\n"), (status, reply)) and newest:
        reads(row, lines[1:-1], newest)
    if status or "no pool" in reply:
        check(f"{row}: the folder stays", contents(folder), before)
    return " ".join(word for word in reply.split() if "=" not in word or word.startswith("kind"))


def main(rounds=500, seed=1):
    random.seed(seed)
    bases = [made(script) for script in SCRIPTS]
    ended = {}
    for number in range(rounds):
        reply = one(number, random.choice(bases))
        ended[reply] = ended.get(reply, 0) + 1
    print(f"fuzz: {rounds} folders, {dict(sorted(ended.items()))}")


if __name__ == "__main__":
    main()
