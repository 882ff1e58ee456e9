"""Runs one after another over one folder, with sections: what lanes did, an export or a crash keeps, and a run that a section ends leaves all as it was."""
import pathlib

from common import check, fresh, run

# The runs in order, by the names of their scripts, each with the exit status that it has.
RUNS = [("1", 0), ("2", 0), ("3", 0), ("4", 2), ("5", 0)]


def main():
    rows = pathlib.Path(__file__).with_name("rows")
    folder = fresh()
    for name, status in RUNS:
        given = run((rows / f"{name}.script").read_bytes(), folder)
        check(f"sections: run {name}", given, (status, (rows / f"{name}.replies").read_text()))


if __name__ == "__main__":
    main()
