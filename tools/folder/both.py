"""Each example over a folder: the replies and the exit status are those of a run in memory, or of one of those that may be."""
from common import ROOT, check, fresh, run


def wanted(script):
    """What a script may print, each with its exit status: one text, or where lanes may come in several orders those of NAME.allowed, with a line %% between them."""
    status = script.with_suffix(".status")
    code = int(status.read_text()) if status.exists() else 0
    allowed = script.with_suffix(".allowed")
    texts = allowed.read_text().split("%%\n") if allowed.exists() else [script.with_suffix(".replies").read_text()]
    return [(code, text) for text in texts]


def nearest(given, wanted):
    """That of those that may be which was given, or the first."""
    return given if given in wanted else wanted[0]


def main():
    for script in sorted((ROOT / "examples").glob("*.script")):
        given = run(script.read_bytes(), fresh())
        check(script.name, given, nearest(given, wanted(script)))


if __name__ == "__main__":
    main()
