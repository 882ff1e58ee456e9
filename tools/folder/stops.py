"""A command that commits is stopped at each call of the system that it makes: that one and all behind it fail. What an import finds
then is what was there before the command, or what is there behind it, and from one call on the latter for good."""
import re

from common import SMALL, check, fresh, has, run

CALLS = ("pwrite64", "pread64", "fdatasync", "fsync")
THREE = "create draid1:2d:3c:0s 3 sector=512 height=8 metaslabs=3 slices=4\n"
KEPT = "write 7 aa\nwrite 9 99\ncheckpoint\n"
LATER = "write 7 bb\nfree 9\nwrite 8 cc\n"
# The lines before, and the command that is stopped.
CASES = [
    (SMALL + "write 7 aa\nwrite 9 99\nsync\n" + LATER, "sync"),
    (SMALL + KEPT + LATER, "sync"),
    (SMALL + KEPT + "write 7 bb\nsync\nfree 9\nwrite 8 cc\n", "sync"),
    (SMALL + "write 7 aa\nwrite 9 99\nsync\nwrite 7 bb\n", "checkpoint"),
    (SMALL + KEPT + "write 7 bb\ndiscard\nwrite 8 cc\n", "checkpoint"),
    (SMALL + KEPT + LATER + "sync\n", "rewind"),
    (SMALL + KEPT + LATER, "rewind"),
    (THREE + KEPT + "fill 20 9 512 1\nsync\nfree 7\n", "rewind"),
    (SMALL + KEPT + LATER + "sync\n", "discard"),
    (SMALL + KEPT + LATER, "export"),
    (SMALL + KEPT + LATER + "offline 1\nreplace 1\nrebuild\n", "detach 1"),
    (SMALL + KEPT + LATER, "upgrade"),
]
PROBES = "import\nread 7\nread 8\nread 9\nrewind\nread 7\nread 8\nread 9\nstatus\n"


def calls_of(script):
    """The calls that a whole run makes over an empty folder, in their order."""
    log = fresh() / "calls"
    run(script, fresh(), before=("strace", "-f", "-o", str(log), "-e", "trace=" + ",".join(CALLS)))
    with open(log) as lines:
        found = [re.match(r"\d+\s+(\w+)\(", line) for line in lines]
    return [call.group(1) for call in found if call and call.group(1) in CALLS]


def left(script, before=()):
    """What an import finds behind a run."""
    folder = fresh()
    run(script, folder, before=before)
    return run(PROBES, folder)[1]


def stopped(script, calls):
    """What it finds where all calls behind these fail."""
    words = ["strace", "-f", "-o", "/dev/null", "-e", "trace=" + ",".join(CALLS)]
    for call in CALLS:
        words += ["-e", f"inject={call}:error=EIO:when={calls.count(call) + 1}+"]
    return left(script, tuple(words))


def main():
    if not has("strace"):
        print("stops: left out, since there is no strace")
        return
    for number, (lines, command) in enumerate(CASES):
        whole = lines + command + "\n"
        made, calls = len(calls_of(lines)), calls_of(whole)
        old, new = left(lines), left(whole)
        check(f"case {number}, {command}: the command shows", old == new, False)
        committed = False
        for place in range(made, len(calls) + 1):
            found = stopped(whole, calls[:place])
            committed = committed or found == new
            check(f"case {number}, {command}, stopped at its call {place - made}", found, new if committed else old)
        check(f"case {number}, {command}: it is there in the end", committed, True)
