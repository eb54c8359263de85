"""What the prover says of a function whose body an edit turns, and which edits have a witness."""

import glob
import os
import re

# How an edit is refused: by values at which a goal is false, by a witness, or by a search that failed and tells no more (what it doesn't
# prove may be true).
VALUES, WITNESS, SEARCH = "values", "witness", "search"
# The prover says so of a goal whose proof cites what is no longer there, of what rests on such a one, and of an answer to a goal that has
# become trivial: nothing of the contract.
GONE = re.compile(
    r"can be named|has no field|is no name|not in scope|has no `|was not admitted|was rejected, (was|were) not checked"
    r"|against `Unit \{0\}`|two types are `Unit \{0\}` \(expected\)"
)
# It says so where it has found values and has checked them. (Of others it says that they may not break the goal.)
SHOWN = re.compile(
    r"the facts known there allow values at which this goal is false|The hypotheses hold, and the goal fails at"
    r"|`omega`: the goal does not follow from what is known: it fails"
)
# What is to be shown of a loop's invariant or measure: with others the same body may be proved.
OF_LOOP = re.compile(r"(?!returns).*-(init|preserved|smaller)\b")
LEMMA = re.compile(r"^pub (\S+) :((?:.*\n(?=[ ]))*.*)", re.M)
# A function that is proved together with those that it calls and that call it.
IN_CYCLE = re.compile(r"#\[cycle\((\w+)\)\]\s*(?:#\[.*\]\s*)*(?:pub(?:\(crate\))? )?fn (\w+)")
WITNESSES = "proofs/Witnesses.antt"


def is_whole(own, file, line, column):
    """Tells whether what stands at this place of a file of answers is all that answers a goal, behind its name or behind lines with `let`:
    what fails within an answer may be a step to the goal that is false where the goal is true."""
    with open(f"{own}/{file}", encoding="utf-8") as it:
        front = it.read().split("\n")[line - 1][: column - 1]
    return front == "    " or re.fullmatch(r"\S+( \S+)* = ", front) is not None


def shows_values(message, goal):
    """Tells whether a message on a goal shows values at which it is false, and the goal is no loop's own."""
    return SHOWN.search(message) is not None and not OF_LOOP.match(goal)


def told_of(output, own, function):
    """Returns the messages on the answers of a function: of each whether it says something of a contract, and whether it shows values."""
    found = []
    folder = re.escape(f"proofs/{function.replace('::', '/')}")
    # (a message may go on in lines of its own)
    for it in re.finditer(rf"^\./({folder}/\w+\.antt):(\d+):(\d+): error: (.*(?:\n  .*)*)", output, re.M):
        message = " ".join(it[4].split())
        goal = re.match(r"`([^`]+)`", message)
        is_shown = goal is not None and shows_values(message, goal[1]) and is_whole(own, it[1], int(it[2]), int(it[3]))
        found.append((GONE.search(message) is None, is_shown))
    return found


def cycles_of(text):
    """Returns the functions of a file that are in a cycle of calls, each with the names of its cycles."""
    found = {}
    for cycle, name in IN_CYCLE.findall(text):
        found.setdefault(name, set()).add(cycle)
    return found


def cycles_in(own):
    """Returns the functions of a crate that are in a cycle of calls, each with the names of its cycles."""
    found = {}
    for path in glob.glob(f"{own}/src/**/*.rt", recursive=True):
        with open(path, encoding="utf-8") as it:
            for name, cycles in cycles_of(it.read()).items():
                found.setdefault(name, set()).update(cycles)
    return found


def is_of_another(line, module, cycles):
    """Tells whether the prover says of a function, whose module of proofs this is, that it stands on refused answers of others alone. (Those
    of a function that calls itself are in a module with its name behind a plus, and those of a cycle in one with that of the cycle.)"""
    above, _, name = module.rpartition(".")
    own = "|".join(map(re.escape, (name, f"+{name}", *(f"+{it}" for it in cycles.get(name, ())))))
    names = re.findall(r"`([^`]+)`", line.partition("; it stands on ")[2].partition(", which antt refuses")[0])
    return names != [] and not any(re.match(rf"{re.escape(above)}\.({own})\.", it) for it in names)


def judged(output, crate, own):
    """Returns the functions of which the prover found a goal of their own without a proof, and how each is refused, or None where what is
    said of it is nothing of a contract."""
    found, shown, cycles = {}, False, cycles_in(own)
    for line in output.split("\n"):
        # (notes on goals without an answer stand in front of the function's line)
        note = re.match(r"note: src/\S+ .*\(`([^`]+)`\)", line)
        shown = shown or (note is not None and shows_values(line, note[1]))
        of = re.match(rf"fn {crate}::(\S+): (not proved|no proof: expected answers in .* did not prove)?", line)
        if not of:
            continue
        if of[2] and not is_of_another(line, f"Rattle.{crate}.proofs.{of[1].replace('::', '.')}", cycles):
            told = told_of(output, own, of[1])
            shown = shown or any(it for _, it in told)
            says = shown or of[2] != "not proved" or not told or any(it for it, _ in told)
            found[of[1]] = (VALUES if shown else SEARCH) if says else None
        shown = False
    return found


def witnesses_in(own):
    """Returns the names of the lemmas that are witnesses of a crate's edits: each says of one input that a clause is false of what the
    turned body gives there."""
    if not os.path.isfile(f"{own}/{WITNESSES}"):
        return set()
    with open(f"{own}/{WITNESSES}", encoding="utf-8") as it:
        return {name for name, says in LEMMA.findall(it.read()) if "¬ " in says}
