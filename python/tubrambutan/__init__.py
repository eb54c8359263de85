"""Reads Python requirements and merges them into one table, by a library that is proved to do so.

>>> import tubrambutan
>>> table = tubrambutan.merge(lists=["flask>=2.0\\nFlask[async]<3; python_version < '4'"])
>>> flask = table["flask"]
>>> flask.extras, flask.verdict
(('async',), 'open')
>>> flask.ranges
(Range(low=Cut('before 2'), high=Cut('before 3.dev0')),)
>>> flask.admits("2.3.2"), flask.admits("3.0rc1", prereleases=True)
(True, False)

`docs/INPUTS.md` of the project says what an input may hold, and what is printed. The library in C is proved to meet its contracts
(`docs/PROVED.md`). It is tested, and not proved, that this package calls it rightly. A call needs 512 KiB of stack, and may not come from
the forked child of a process with threads.
"""

from ._audit import Audit, Finding, audit
from ._cuts import Cut, Range
from ._environment import default_environment
from ._lines import Line, Lines, Metadata, RequirementsFile, requirements_file, requirements_of
from ._merge import merge
from ._names import canonicalize_name
from ._refused import InvalidMarker, InvalidName, InvalidRequirement, InvalidSpecifier, InvalidVersion, Refused, UndefinedComparison
from ._requirement import Marker, Requirement, admits, requirement_text
from ._shards import split
from ._specifiers import Specifier, SpecifierSet
from ._table import Difference, Package, Table
from ._version import Version
from ._why import Claim, Reason, clashes, why

__all__ = [
    "Audit",
    "Claim",
    "Cut",
    "Difference",
    "Finding",
    "InvalidMarker",
    "InvalidName",
    "InvalidRequirement",
    "InvalidSpecifier",
    "InvalidVersion",
    "Line",
    "Lines",
    "Marker",
    "Metadata",
    "Package",
    "Range",
    "Reason",
    "Refused",
    "Requirement",
    "RequirementsFile",
    "Specifier",
    "SpecifierSet",
    "Table",
    "UndefinedComparison",
    "Version",
    "admits",
    "audit",
    "canonicalize_name",
    "clashes",
    "default_environment",
    "merge",
    "requirement_text",
    "requirements_file",
    "requirements_of",
    "split",
    "why",
]
__version__ = "0.1.0"
