"""What the codes of refusals mean. `docs/CODES.md` of the project has the same words, and says what to do about each."""

from __future__ import annotations

MEANINGS: dict[tuple[int, ...], str] = {
    (51,): "a project file, a table file or the environment file isn't UTF-8",
    (52,): "a project file or the environment file isn't a TOML document, or nests too deep",
    (53,): "a project file has no key `project`",
    (54,): "`dynamic` of a project file names `dependencies`, or `optional-dependencies` where the environment has an extra",
    (55,): "a value of a project file or of the environment file has the wrong shape",
    (56,): "an input has more than 16,777,216 bytes",
    (57, 28): "the marker is undefined in the environment: `~=` stands with `extra`, has no version on its left, or can't take the text on its right",
    (57, 31): "the line begins with no name",
    (57, 32): "the extras are faulty",
    (57, 33, 11): "no operator stands where a clause is wanted",
    (57, 33, 12): "what follows the operator isn't a version, or after `===` isn't an allowed text",
    (57, 33, 13): "`.*` stands after something other than a plain release, or with another operator than `==` and `!=`",
    (57, 33, 14): "a local version label stands with another operator than `==` and `!=`",
    (57, 33, 15): "`~=` stands with a release of one number",
    (57, 33, 16): "a number of the version is above 18446744073709551615",
    (57, 34): "what follows the `@` isn't a URL",
    (57, 35, 26): "the marker (in a requirement, what follows the `;`) isn't valid",
    (57, 35, 27): "the marker has more than 64 parentheses open at once, or more than 1,024 comparisons",
    (57, 36): "a `)` is missing, or something follows the clauses or the URL",
    (57, 37): "the line begins with `-`",
    (57, 38): "a line or text has more than 65,536 bytes",
    (57, 39): "the URL is too long for the reader of URLs",
    (57, 41): "the line can't follow those before it in a table or its header",
    (57, 43): "the table was printed in another environment",
    (57, 51): "the line isn't UTF-8",
    (58,): "a file can't be opened, or reading failed",
    (59, 22): "the environment has a key that isn't a variable",
    (59, 23): "the environment lacks one of the eleven variables",
    (59, 25): "the environment has a control character in a text",
    (60,): "out of memory",
    (61,): "the words on the command line are refused",
    (62, 1): "the text isn't a version",
    (62, 2): "the version has a number above 18446744073709551615",
    (62, 21): "the text isn't a name",
    (63,): "writing failed",
    (64,): "a table file has no requirements for `lines`",
    (65,): "the project file has no dependency group of this name",
    (66,): "two dependency groups of the file have one name when normalized",
    (67,): "a dependency group includes itself, directly or through others",
}


def meaning_of(codes: tuple[int, ...]) -> str:
    """Returns what codes mean, in words.

    >>> meaning_of((57, 37))
    'the line begins with `-`'
    >>> meaning_of((99,))
    'a refusal that this package has no words for'
    """
    return MEANINGS.get(codes, "a refusal that this package has no words for")
