"""The first fault of a text, as an exception that keeps the words of its note."""
from typing import Union


class TextFault(Exception):
    """The first fault of an input text; `limit` tells status 4 from status 3."""

    def __init__(self, note: Union[str, bytes], limit: bool = False) -> None:
        super().__init__(note)
        self.note = note if isinstance(note, bytes) else note.encode()
        self.limit = limit
