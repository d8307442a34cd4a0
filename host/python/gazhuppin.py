"""The proved machine of rewinding sandboxes, for Python.

The static library that `tools/build gazhuppin` writes becomes a shared object by one command, in the project's root:

    gcc -shared -o target/staticlib/libgazhuppin.so -Wl,--whole-archive target/staticlib/libgazhuppin.a -Wl,--no-whole-archive

It is looked for there, or where the environment's GAZHUPPIN_SO says. Nothing else is needed but the standard library.

    >>> from gazhuppin import Machine
    >>> machine = Machine(frames=8)
    >>> machine.open(0, share=8)
    >>> page = machine.map(0, pages=2)
    >>> machine.write(0, address(page, 5), 7)
    >>> machine.snapshot(0)
    2
    >>> machine.write(0, address(page, 5), 9)
    >>> machine.compare(0)
    0
    >>> machine.rewind(0)
    1
    >>> machine.read(0, address(page, 5))
    7
    >>> machine.compare(0) is None
    True
    >>> print(machine.archive(0).decode(), end="")
         1     0     8     0     0     0     0
         2     0     0     2     0     0     3
         6     0     5     7     0     0     0
         7     0     0     0     0     0     0

What is proved of the machine, and what that supposes, stands in docs/CLAIMS.md.
"""

import ctypes
import enum
import operator
import os
import pathlib

FRAME_BYTES = 256
MOST_FRAMES = 128
TABLE_ENTRIES = 512
PAGES = 64
REPLY_BYTES = 19
LINE_BYTES = 43
MOST_ARCHIVE_LINES = 16402


class Rights(enum.IntEnum):
    """The rights of an area."""

    READ = 1
    READ_WRITE = 3


class Refusal(enum.IntEnum):
    """Why a call is refused: the rows of document 01's table "Turned back". Row 15 is of archives, and no call is refused so."""

    MALFORMED = 1
    NO_SUCH_CALL = 2
    UNSOUND = 3
    NOT_OPEN = 4
    ALREADY_OPEN = 5
    OUTSIDE_LIMITS = 6
    SNAPSHOT_TAKEN = 7
    NO_SNAPSHOT = 8
    NOT_MAPPED = 9
    ALREADY_MAPPED = 10
    NO_GAP = 11
    NOT_WRITABLE = 12
    SHARE_EXCEEDED = 13
    TOO_MANY_AREAS = 14
    OUTPUT_TOO_SHORT = 15


class Refused(Exception):
    """A call was refused, and nothing was changed; `refusal` says why."""

    def __init__(self, refusal):
        super().__init__(f"refused {int(refusal)}: {refusal.name.lower().replace('_', ' ')}")
        self.refusal = refusal


class _Request(ctypes.Structure):
    _fields_ = [(name, ctypes.c_uint16) for name in "code sandbox p1 p2 p3 p4 p5".split()]


class _Told(ctypes.Structure):
    _fields_ = [("number", ctypes.c_uint32), ("value", ctypes.c_uint32)]


_BYTES = ctypes.POINTER(ctypes.c_uint8)
_ENTRIES = ctypes.POINTER(ctypes.c_uint16)
_SIZE = ctypes.c_size_t


def _library():
    usual = pathlib.Path(__file__).resolve().parents[2] / "target/staticlib/libgazhuppin.so"
    # PyDLL and not CDLL: calls of several threads on one machine then take turns.
    library = ctypes.PyDLL(os.environ.get("GAZHUPPIN_SO", str(usual)))
    library.gazhuppin_state_bytes.argtypes = []
    library.gazhuppin_state_bytes.restype = _SIZE
    library.gazhuppin_lines.argtypes = [_SIZE]
    library.gazhuppin_lines.restype = _SIZE
    library.gazhuppin_play.argtypes = [_BYTES, _SIZE] * 3 + [_ENTRIES, _SIZE, _BYTES, _SIZE]
    library.gazhuppin_play.restype = _SIZE
    lent = [_BYTES, _SIZE, _BYTES, _SIZE, _ENTRIES, _SIZE, _BYTES, _SIZE]
    library.gazhuppin_start.argtypes = lent
    library.gazhuppin_start.restype = ctypes.c_uint32
    library.gazhuppin_call.argtypes = lent + [_Request]
    library.gazhuppin_call.restype = _Told
    library.gazhuppin_archive.argtypes = lent + [ctypes.c_uint16, _BYTES, _SIZE]
    library.gazhuppin_archive.restype = _Told
    return library


_LIBRARY = _library()


class _Lent:
    """Memory of so many elements. One more is made, since an array of none may have no address."""

    def __init__(self, kind, count, filled=b""):
        self.count = count
        self.array = (kind * (count + 1))()
        ctypes.memmove(self.array, filled, len(filled))

    def elements(self):
        return self.array[: self.count]


def _pool(frames):
    # One frame too many is refused as any greater number is.
    return _Lent(ctypes.c_uint8, FRAME_BYTES * max(0, min(frames, MOST_FRAMES + 1)))


def _pairs(*lent):
    """The arguments of lent memory: an address and a length for each."""
    return [argument for memory in lent for argument in (memory.array, memory.count)]


def _number(value):
    """A 16-bit number; ctypes would cut off what is above it."""
    value = operator.index(value)
    if not 0 <= value <= 0xFFFF:
        raise ValueError(f"{value} is not a number from 0 to 65535")
    return value


def address(page, offset):
    """The address of a byte: its page, 0 to 63, and where in the page it stands, 0 to 255."""
    if not 0 <= offset < FRAME_BYTES:
        raise ValueError(f"a page has no byte {offset}")
    return FRAME_BYTES * page + offset


class Machine:
    """Four sandboxes over a pool of 1 to 128 frames and an image of 0 to 64 pages of 256 bytes.

    State, pool and table are its own, and the properties give copies of them, so that every call gets them as the last one left them.
    A refused call raises `Refused`.
    """

    def __init__(self, image=b"", frames=MOST_FRAMES):
        self._state = _Lent(ctypes.c_uint8, _LIBRARY.gazhuppin_state_bytes())
        self._pool = _pool(frames)
        self._table = _Lent(ctypes.c_uint16, TABLE_ENTRIES)
        self._image = _Lent(ctypes.c_uint8, len(image), bytes(image))
        self._lent = _pairs(self._state, self._pool, self._table, self._image)
        number = _LIBRARY.gazhuppin_start(*self._lent)
        if number != 0:
            raise Refused(Refusal(number))

    def answer(self, code, sandbox, p1=0, p2=0, p3=0, p4=0, p5=0):
        """Any call, in numbers from 0 to 65535. Gives its value."""
        numbers = [_number(value) for value in (code, sandbox, p1, p2, p3, p4, p5)]
        told = _LIBRARY.gazhuppin_call(*self._lent, _Request(*numbers))
        if told.number != 0:
            raise Refused(Refusal(told.number))
        return told.value

    def open(self, sandbox, share):
        """Open a sandbox, 0 to 3, with a share of the pool, 1 to 128 frames."""
        self.answer(1, sandbox, share)

    def map(self, sandbox, pages, at=None, image_page=None, rights=Rights.READ_WRITE):
        """Map so many new pages from page `at` on, or where the lowest gap that is long enough begins. They read zero, or the image from
        `image_page` on. Without both, the first of them get frames that the sandbox keeps, which are zero. Gives the first page."""
        # 64 stands for the lowest gap, so a page 64 is handed on as the next wrong one.
        place = PAGES if at is None else PAGES + 1 if at == PAGES else at
        backing = (0, 0) if image_page is None else (1, image_page)
        return self.answer(2, sandbox, place, pages, *backing, rights)

    def unmap(self, sandbox, first, pages=1):
        """Unmap so many pages. Their frames are freed and cleared. Pages that are not mapped are passed over, so that a whole range can be released
        whatever is in it; where none is mapped, nothing changes."""
        self.answer(3, sandbox, first, pages)

    def protect(self, sandbox, first, pages, rights):
        """Give so many pages other rights."""
        self.answer(4, sandbox, first, pages, rights)

    def read(self, sandbox, address):
        """The byte at an address, 0 to 16383."""
        return self.answer(5, sandbox, address)

    def write(self, sandbox, address, byte):
        """Store a byte at an address, 0 to 16383."""
        self.answer(6, sandbox, address, byte)

    def snapshot(self, sandbox):
        """Take the sandbox's snapshot, once. Gives the number of its pages."""
        return self.answer(7, sandbox)

    def rewind(self, sandbox):
        """Return to the sandbox's snapshot: its mappings, rights and bytes. The frames of anonymous areas mapped since are cleared and kept, within
        the share, for maps to come. Gives the number of pages put back: those of the snapshot that were mapped all the while, since it or the last
        rewind, and whose bytes differed."""
        return self.answer(8, sandbox)

    def report(self, sandbox):
        """How many frames the sandbox holds: those of its pages, those of its snapshot, and those it keeps from finished requests. Of all answers
        after a rewind only this one may tell of the request that was rewound."""
        return self.answer(9, sandbox)

    def compare(self, sandbox):
        """Still clean? The lowest page at which the sandbox and its snapshot differ in being mapped, in rights or in bytes; None where they nowhere
        differ. Ask with `is None`, since page 0 is false too."""
        page = self.answer(10, sandbox)
        # The machine says 64 there, which is no page.
        return None if page == PAGES else page

    def archive(self, sandbox):
        """The sandbox's snapshot as a roll that rebuilds it: lines of 43 bytes, which `play` accepts with the same image and as many frames. It is no
        call, and changes nothing."""
        out = _Lent(ctypes.c_uint8, LINE_BYTES * MOST_ARCHIVE_LINES)
        told = _LIBRARY.gazhuppin_archive(*self._lent, _number(sandbox), *_pairs(out))
        if told.number != 0:
            raise Refused(Refusal(told.number))
        return ctypes.string_at(out.array, LINE_BYTES * told.value)

    @property
    def state(self):
        """The state's bytes."""
        return bytes(self._state.elements())

    @property
    def pool(self):
        """The pool: frame f is `pool[256 * f : 256 * f + 256]`."""
        return bytes(self._pool.elements())

    @property
    def table(self):
        """For sandbox s and page i the front entry is `table[128 * s + i]`, the back entry `table[128 * s + 64 + i]`: 0, or a frame's number plus one."""
        return tuple(self._table.elements())


def play(roll, image=b"", frames=MOST_FRAMES):
    """Start a machine, play the roll on it, and give the replies, 19 bytes for each line."""
    lines = _LIBRARY.gazhuppin_lines(len(roll))
    read = [_Lent(ctypes.c_uint8, len(lent), bytes(lent)) for lent in (roll, image)]
    out = _Lent(ctypes.c_uint8, REPLY_BYTES * lines)
    _LIBRARY.gazhuppin_play(*_pairs(*read, _pool(frames), _Lent(ctypes.c_uint16, TABLE_ENTRIES), out))
    return bytes(out.elements())
