"""What a reader may overlook in a label, for flowlabel-customers and flowlabel-lint."""

import re
import unicodedata


def bare(label: bytes) -> str:
    """Returns a label, which may be one of Latin-1, without what a reader may overlook: case, blanks, and the form of
    characters."""
    try:
        text = label.decode()
    except UnicodeDecodeError:
        text = label.decode("latin-1")
    folded = unicodedata.normalize("NFKC", text).casefold()
    return unicodedata.normalize("NFKC", re.sub(r"[\s\u200b-\u200d\u2060\ufeff]", "", folded))
