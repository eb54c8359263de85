"""Names."""

from __future__ import annotations

from . import _library
from ._refused import InvalidName, Refused, of_text
from ._texts import encoded, text_in


def canonicalize_name(name: str) -> str:
    """Returns the normalized text of a name (PEP 503).

    >>> import tubrambutan
    >>> tubrambutan.canonicalize_name("Zope.Interface")
    'zope-interface'

    Raises:
        InvalidName: the text isn't a name.
        TypeError: it is no text.
    """
    try:
        return _library.name_text(encoded(text_in(name, "name")))
    except Refused as refused:
        raise of_text(InvalidName, refused, name) from None
