"""2,000 objects of 16 KiB, filled and synced: in a folder, in memory, and the same bytes by dd; and the calls of the system."""
import os
import re
import subprocess
import time

from common import PROGRAM, check, fresh, has

SCRIPT = b"create draid2:4d:11c:1s 11\nfill 0 2000 16384 1\nsync\n"
COLUMNS = 2000 * 6  # each a sector
LEAVES = 4 * 11
AREAS = 4 + 1  # one of each metaslab's records, and the uberblock's


def spent(command, given):
    """Seconds by the clock, and seconds of processor."""
    before = os.times()
    start = time.monotonic()
    subprocess.run(command, input=given, stdout=subprocess.DEVNULL, stderr=subprocess.DEVNULL, check=True)
    now = os.times()
    processor = now.children_user + now.children_system - before.children_user - before.children_system
    return round(time.monotonic() - start, 2), round(processor, 2)


def best(make_command, given=b""):
    """The least of three tries, each by the clock and by the processor."""
    tries = [spent(make_command(), given) for _ in range(3)]
    return min(seconds for seconds, _ in tries), min(processor for _, processor in tries)


def in_folder():
    return [PROGRAM, "session", "--dir", str(fresh())]


def by_dd():
    return ["dd", "if=/dev/urandom", f"of={fresh() / 'bytes'}", "bs=16384", "count=2000", "conv=fdatasync"]


def calls():
    """How often the system is called, by the name of the call."""
    log = fresh() / "calls"
    command = ["strace", "-f", "-e", "trace=pwrite64,pread64,fdatasync,fsync", "-o", str(log), *in_folder()]
    subprocess.run(command, input=SCRIPT, stdout=subprocess.DEVNULL, check=True)
    made = re.findall(r"^\d+\s+(\w+)\(", log.read_text(), re.MULTILINE)
    return {name: made.count(name) for name in set(made)}


def main():
    memory = best(lambda: [PROGRAM, "session"], SCRIPT)
    folder = best(in_folder, SCRIPT)
    dd = best(by_dd)
    print(f"speed: seconds by the clock and of processor: folder {folder}, memory {memory}, dd {dd}")
    check("the processor's time, beside memory's", folder[1] <= 1.3 * memory[1], True)
    if has("strace"):
        counts = calls()
        print(f"speed: calls {counts}")
        check("a write a sector", counts["pwrite64"] <= COLUMNS + 8 * AREAS, True)
        check("a sync a file that was written", counts["fdatasync"] <= LEAVES + 4 * AREAS, True)


if __name__ == "__main__":
    main()
