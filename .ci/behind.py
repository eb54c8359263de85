"""What a run of `rt ci` has told so far, for what works over its libraries at the same time."""

import re

PROVED = re.compile(r"^rt: (\w+) (?:proved|is kept)\b", re.M)
ENDED = re.compile(r"^rt: \w+ NOT PROVED|^\d+ passed, \d+ failed", re.M)


def told_in(log):
    """Returns the crates that are told to be proved in what `rt ci` has printed to a file, and whether it has ended or a crate has failed."""
    with open(log, encoding="utf-8", errors="replace") as it:
        text = it.read()
    return set(PROVED.findall(text)), ENDED.search(text) is not None
