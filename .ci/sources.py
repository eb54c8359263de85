"""What the sources say of the public calls: for .ci/calls and .ci/promises."""

import collections
import glob
import os
import re

ROOT = os.path.dirname(os.path.dirname(os.path.abspath(__file__)))
# The paths that users name, each with the crates whose items it hands on.
PATHS = {
    "pep_version": ["texts", "pep_version"],
    "pep_clause": ["specifiers", "pep_clause"],
    "pep_marker": ["pep_marker"],
    "pep_require": ["pep_require"],
    "pep_table": ["demands", "pep_table"],
    "pep_tool": ["inputs", "documents", "command_line", "devices", "faults", "pep_tool"],
    "reasons": ["reasons"],
    "shards": ["shards"],
    "pep_c": ["pep_c"],
}
NOT_NAMED = {"LineSink", "WrittenName", "PackedCut", "Gathering::take_line"}
# The methods of traits that have a docstring and clauses of their own for each type, by the trait.
OPERATORS = {("PartialEq", "eq"): "==", ("Ord", "cmp"): "cmp"}
FUNCTION = re.compile(r'( *)(pub )?(?:extern "C" )?fn (\w+)')
CLAUSE = re.compile(r"(ensures|requires)\*? (?:(\w+) )?\{")
# An `impl` or a trait: `TRAIT for`, if it is there, and the type.
OWNER = re.compile(r"(?:impl|pub trait)(?:<.*?>)? (?:(.+) for )?(\w+)")
# `owner` is the type or trait that has the call, or nothing; `clauses` are pairs of a kind and a name, and `promise` is their text.
Call = collections.namedtuple("Call", "owner name doc head clauses promise")


def source(path):
    with open(path, encoding="utf-8") as it:
        return it.read()


def files(crate):
    return sorted(glob.glob(f"{ROOT}/crates/{crate}/src/**/*.rt", recursive=True))


def handed_on(crate):
    """Returns the names that the root of a crate hands on."""
    uses = re.findall(r"^pub use [\w:]+::(?:\{([^}]*)\}|(\w+));", source(f"{ROOT}/crates/{crate}/src/lib.rt"), re.M)
    return {name.strip() for many, one in uses for name in (many or one).split(",") if name.strip()}


def contract(lines, indent):
    """Returns the signature in front of some lines, the kinds and names of the clauses behind it, and their text."""
    head, clauses, promise, open_braces = [], [], [], 0
    for line in lines:
        text = line.strip()
        if line.startswith((f"{indent}{{", f"{indent}}}")):
            break
        if CLAUSE.match(text):
            clauses.append(CLAUSE.match(text).groups())
        elif not clauses:
            head.append(text)
        promise += [text] if clauses else []
        open_braces += (text.count("{") - text.count("}")) if clauses else 0
        if (text.endswith(";") and not open_braces) or (text.endswith("{") and not clauses):
            break
    return " ".join(head), clauses, "\n".join(promise)


def calls_in(path):
    """Returns the calls of a file that may be public, in their order."""
    found, doc, trait, owner, opening = [], [], None, None, ""
    lines = source(path).splitlines()
    for at, line in enumerate(lines):
        if line.strip().startswith("///"):
            doc.append(line.strip()[3:].strip())
            continue
        if OWNER.match(line):
            (trait, owner), opening = OWNER.match(line).groups(), line
        elif line == "}":
            trait, owner, opening = None, None, ""
        it = FUNCTION.match(line)
        if it:
            operator = OPERATORS.get((trait, it[3])) if doc else None
            if it[2] or operator or opening.startswith("pub trait"):
                found.append(Call(owner, operator or it[3], doc, *contract(lines[at:], it[1])))
        if not line.strip().startswith("#["):
            doc = []
    return found


def public_calls(path):
    """Returns the calls that users name by a path, each with its file, and whether it is a law."""
    offered, found = handed_on(path), []
    for file in (file for crate in PATHS[path] for file in files(crate)):
        is_law = os.path.basename(file) == "laws.rt"
        for call in calls_in(file):
            names = {call.owner, f"{call.owner}::{call.name}" if call.owner else call.name}
            is_left_out = names & NOT_NAMED or "ublic for" in " ".join(call.doc)
            if (is_law or (call.owner or call.name) in offered) and not is_left_out:
                found.append((call, file, is_law))
    return found


def public_members(path):
    """Returns what the traits, and the impls of traits, of a path say in ghost members: the owner, its file and their text. `Model` has views."""
    offered, found = handed_on(path), []
    for file in (file for crate in PATHS[path] for file in files(crate)):
        for block in re.findall(r"^(?:impl|pub trait)\b.*?^\}", source(file), re.M | re.S):
            trait, owner = OWNER.match(block).groups()
            members = re.findall(r"^    ghost (?!use\b)\w+.*?\};?$", block, re.M | re.S)
            if owner in offered and trait != "Model" and members:
                found.append((f"{trait} for {owner}" if trait else owner, file, "\n".join(members)))
    return found
