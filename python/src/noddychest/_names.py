"""Names of encodings."""
from __future__ import annotations

from typing import Optional

_FORMS = {"utf8": 0, "utf16le": 1, "utf16be": 2}
STANDARD = ("utf-8", "utf-16-le", "utf-16-be")  # by the numbers of the C library

AUTO = "auto"  # by the byte order mark; without one UTF-8

# The other labels that browsers take for these encodings (encoding.spec.whatwg.org), as far as they are not the three above with other
# signs between their words.
_LABELS = {
    "unicode-1-1-utf-8": 0, "unicode11utf8": 0, "unicode20utf8": 0, "x-unicode20utf8": 0,
    "csunicode": 1, "iso-10646-ucs-2": 1, "ucs-2": 1, "unicode": 1, "unicodefeff": 1, "utf-16": 1,
    "unicodefffe": 2,
}  # fmt: skip


def plain(name: str) -> str:
    """A name without the characters that are allowed between its words."""
    return name.lower().replace("-", "").replace("_", "").replace(" ", "")


def form_of(name: str) -> int:
    """The number of an encoding, by a name of it."""
    found = _FORMS.get(name) if isinstance(name, str) else None
    if found is None and isinstance(name, str):
        label = name.strip("\t\n\f\r ").lower()
        found = _FORMS.get(plain(label), _LABELS.get(label.replace("_", "-")))
    if is_auto(name):
        raise LookupError("the encoding 'auto' is only for a file or a stream that is read from its front: otherwise take the one that encoding_of_bom gives")
    if found is None:
        raise LookupError(f"unknown encoding: {name!r}; there are 'utf8', 'utf16le' and 'utf16be'")
    return found


def is_auto(name: str) -> bool:
    return isinstance(name, str) and name == AUTO


def form_or_auto(name: str) -> Optional[int]:
    """The number of an encoding, or None if the front of the input tells it."""
    return None if is_auto(name) else form_of(name)
