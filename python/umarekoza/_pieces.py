"""A page text that comes in pieces."""

from . import _calls
from ._limits import STATE_BYTES, TABLE_MOST


class Pieces:
    """A page text that comes in pieces, cut anywhere, some with no bytes. Its table is that of the joined text, which
    is not kept.

    state is what is kept between pieces: a bytearray of STATE_BYTES bytes, or the caller's own buffer of as many or
    more, which may be one that was stored; with a state that no pieces left, any answer may come.

        >>> import pathlib, umarekoza
        >>> page = pathlib.Path('examples/pages/blade-report.txt').read_bytes()
        >>> pieces = umarekoza.Pieces()
        >>> for at in range(0, len(page), 7):
        ...     pieces.piece(page[at : at + 7])
        >>> pieces.table() == umarekoza.table_of(page)
        True
        >>> pieces.start()
        >>> pieces.piece(b'A Tag')
        >>> pieces.table()
        Traceback (most recent call last):
        umarekoza.Refusal: refused 3 at 1
    """

    def __init__(self, state=None):
        self.state = bytearray(STATE_BYTES) if state is None else state
        if state is None:
            self.start()

    def start(self):
        """Begins a text anew, whatever the state held."""
        _calls.text_start(self.state)

    def piece(self, piece):
        """Takes the next bytes of the text, any number of them, none too."""
        _calls.text_piece(self.state, piece)

    def end(self, out):
        """Writes the table of the text so far to the start of out and answers its length; more pieces may follow.

        Refuses by 1 to 11, and by 11 too if the state has fewer than STATE_BYTES bytes.
        """
        return _calls.text_end(self.state, out)

    def table(self):
        """The table of the text so far, as bytes. Refuses by 1 to 11: by 11 if the state is too short."""
        out = bytearray(TABLE_MOST)
        return bytes(memoryview(out)[: self.end(out)])
