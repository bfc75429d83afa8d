"""The twin of the graphics function, for Python: one state record that the library updates where it lies, and every entry over it.

    import twin
    t = twin.Twin()
    t.write(0x2C, 0x3, 0x1234)       # SVID2 is written, and closed
    t.write(0xA8, 0x1, 0x0001)       # starts a function reset
    t.busy                           # True: every byte reads FF
    t.end_signal()                   # ends it
    t.write(0x2C, 0x3, 0xFFFF)       # accepted, and changes nothing
    hex(t.read(0x2C, 0x3))           # '0xffff1234': lanes 2 and 3 aren't enabled

A refused access changes nothing and raises Refused, which has the paper's number. A number that does not fit an entry's type raises ValueError before the library sees it.

The library is the shared object that the variable TWIN_LIBRARY names, or target/libtwin.so of this repository. To make it (x86-64 Linux):

    tools/build lent
    cc -shared -o target/libtwin.so -Wl,--whole-archive target/staticlib/liblent.a -Wl,--no-whole-archive

What the library does is proved; what stands here only packs and unpacks, and is tested. One Twin is for one thread at a time; different ones share nothing.
"""
import collections
import ctypes
import enum
import os
import pathlib

__all__ = ["Claim", "Closed", "Found", "Kind", "Range", "Refusal", "Refused", "Register", "Registers", "State", "Twin", "Window", "probe", "walk"]


class Refusal(enum.IntEnum):
    """The paper's refusal numbers."""
    LENGTH = 1
    WIDTH = 2
    NOT_OURS = 3
    OTHER_FUNCTION = 4
    OFFSET = 5
    LANES = 6
    NOT_HOST = 7
    NO_RANGE = 8
    LINE = 9
    POINTER = 10
    ENDLESS = 11
    WINDOW_OFFSET = 16


class Refused(Exception):
    """An access was refused, and changed nothing. `number` is a Refusal; `count` is a walk's count, 0 for others."""

    def __init__(self, number, count=0):
        self.number = Refusal(number)
        self.count = count
        super().__init__(f"refusal {int(self.number)}, {self.number.name.replace('_', ' ')}")


class Window(enum.IntEnum):
    """The window that claims an address."""
    TRANSLATION = 1  # GTTMMADR
    APERTURE = 2     # GMADR
    IO = 3           # IOBAR


class Register(enum.IntEnum):
    """The registers in GTTMMADR's window by their offsets, as a claim of Window.TRANSLATION gives them. Any other dword of the window reads 0 and ignores writes."""
    FAULT_REG = 0x04094
    ASSRREQ = 0x0810C
    MTOUUD = 0x108080
    MTOUUD_HIGH = 0x108084
    MBDSM = 0x1080C0
    DRAM_CYCLES = 0x138078


class Kind(enum.IntEnum):
    """The kind of range that a size probe tells."""
    IO = 1
    MEMORY32 = 2
    MEMORY64 = 3


Claim = collections.namedtuple("Claim", "window offset")
Range = collections.namedtuple("Range", "kind exponent")
Found = collections.namedtuple("Found", "offset count")  # the offset is None where the item is absent


class Closed(ctypes.Structure):
    """Which write-once fields are closed: 0 open, any other number closed."""
    _fields_ = [("svid2", ctypes.c_uint8), ("sid2", ctypes.c_uint8), ("swsci15", ctypes.c_uint8)]


class Registers(ctypes.Structure):
    """What the registers in GTTMMADR's window hold, in ascending order of their offsets. Any numbers are a state: a guest reads what is held, but ASSRREQ's bits 31:16 as 0."""
    _fields_ = [(name, ctypes.c_uint32) for name in ("fault", "assrreq", "mtouud", "mtouud_high", "mbdsm", "cycles")]


class State(ctypes.Structure):
    """The record: 256 configuration bytes, the port latch, the write-once fields, whether a function reset runs (busy: 0 no, any other number yes), and the window's registers. Every pattern of bytes is a state."""
    _fields_ = [("bytes", ctypes.c_uint8 * 256), ("latch", ctypes.c_uint32), ("closed", Closed), ("busy", ctypes.c_uint8), ("window", Registers)]


def _places(structure):
    return [getattr(structure, name).offset for name, _ in structure._fields_]


assert ctypes.sizeof(State) == 288 and ctypes.alignment(State) == 4
assert _places(State) == [0, 256, 260, 263, 264]
assert _places(Closed) == [0, 1, 2]
assert _places(Registers) == [0, 4, 8, 12, 16, 20]

# The operations of the door.
(_PLATFORM_RESET, _WRITE, _READ, _HOST_UPDATE, _PORT_WRITE, _PORT_READ, _CLAIM_MEMORY, _CLAIM_PORT, _PROBE, _WALK, _END_SIGNAL,
 _WINDOW_WRITE, _WINDOW_READ, _COMPLETE, _FAULT, _ADD_CYCLES, _MIRROR_UPDATE) = range(17)


def _library():
    usual = pathlib.Path(__file__).resolve().parents[2] / "target" / "libtwin.so"
    path = os.environ.get("TWIN_LIBRARY") or str(usual)
    if not os.path.exists(path):
        raise OSError(f"{path} is missing. In the repository: tools/build lent && cc -shared -o target/libtwin.so "
                      "-Wl,--whole-archive target/staticlib/liblent.a -Wl,--no-whole-archive. TWIN_LIBRARY names another place")
    lib = ctypes.CDLL(path)
    state, u32, u64 = ctypes.POINTER(State), ctypes.c_uint32, ctypes.c_uint64
    for name, result, arguments in [
            ("twin_platform_reset", None, [state]),
            ("twin_write", u32, [state, u32, u32, u32]),
            ("twin_write_by_value", u32, [state, u32, u32, u32]),
            ("twin_read", u64, [state, u32, u32]),
            ("twin_do", u64, [state, u32, u32, u32, u32]),
            ("twin_probe", u64, [u32, u32]),
            ("twin_walk", u64, [ctypes.c_char_p, ctypes.c_size_t, ctypes.c_uint8])]:
        function = getattr(lib, name)
        function.restype, function.argtypes = result, arguments
    return lib


_lib = _library()


def _fits(bits, *numbers):
    """ctypes would cut a number that does not fit."""
    for n in numbers:
        if not 0 <= n < 1 << bits:
            raise ValueError(f"{n} is no number of {bits} bits")


def _accepted(number):
    if number:
        raise Refused(number)


def _value(result):
    _accepted(result >> 48)
    return result & 0xFFFFFFFF


def _claim(result):
    window = result >> 32 & 0xFFFF
    return Claim(Window(window), result & 0xFFFFFFFF) if window else None


def _found(result):
    number, count = result >> 48, result & 0xFFFFFFFF
    if number:
        raise Refused(number, count)
    return Found(result >> 32 & 0xFF if result >> 40 & 1 else None, count)


class Twin:
    """The function, fresh, or over a record of any making. `state` is the record itself.

    A write of 1 to AFCTL bit 0 starts a function reset, and end_signal() or a platform reset ends it. Between the two the function is busy: guest reads give ones, guest writes are accepted and dropped, both through the port pair and in the window too, and nothing is claimed. All that the host does and the port latch work, and refusals are the same. A function reset leaves what the window holds.
    """

    def __init__(self, record=None):
        """Without a record, the fresh state. A record is 288 bytes, which are copied. In one that was stored by a program without a busy byte, byte 263 is undefined, and has to be set to 0; one that was stored by a program without a window is 24 bytes shorter, and has to be followed by as many of 0."""
        self.state = State()
        if record is None:
            self.platform_reset()
        elif len(record) != ctypes.sizeof(State):
            raise ValueError(f"a record has {ctypes.sizeof(State)} bytes, and not {len(record)}")
        else:
            ctypes.memmove(ctypes.byref(self.state), bytes(record), ctypes.sizeof(State))

    def record(self):
        """A copy of the record's 288 bytes."""
        return bytes(self.state)

    def _do(self, op, a=0, b=0, c=0):
        return _lib.twin_do(ctypes.byref(self.state), op, a, b, c)

    def platform_reset(self):
        """Returns everything to the fresh state: defaults, fields open, latch 0, not busy, the window 0."""
        _lib.twin_platform_reset(ctypes.byref(self.state))

    def write(self, offset, lanes, value):
        """A guest write of the lanes' bytes at offset; refusals 5 and 6. Writing 1 to AFCTL bit 0 starts a function reset; until its end a write is accepted and dropped."""
        _fits(32, offset, lanes, value)
        _accepted(_lib.twin_write(ctypes.byref(self.state), offset, lanes, value))

    def read(self, offset, lanes):
        """A guest read: each enabled byte in its place, FF while busy, and FF in the lanes that aren't enabled; lanes 0 reads FFFFFFFF. A caller that wants a word or a byte masks. Refusals 5 and 6."""
        _fits(32, offset, lanes)
        return _value(_lib.twin_read(ctypes.byref(self.state), offset, lanes))

    @property
    def busy(self):
        """Whether a function reset runs. The host knows it; a guest reads ones."""
        return self.state.busy != 0

    def end_signal(self):
        """The host's end signal: it ends the function reset that runs, and gives the F bits and AFCTL bit 0 their defaults. Where none runs it changes nothing."""
        _value(self._do(_END_SIGNAL))

    def host_update(self, offset, mask, value):
        """A host update of the masked bits of one byte; refusals 5 and 7."""
        _fits(32, offset)
        _fits(8, mask, value)
        _value(self._do(_HOST_UPDATE, offset, mask, value))

    def port_write(self, port, width, value):
        """A write of width bytes to a port; refusals 2, 3 and 4. 4 bytes at CF8h store the latch, data goes to the dword that it names, and is dropped while busy."""
        _fits(16, port)
        _fits(32, width, value)
        _value(self._do(_PORT_WRITE, port, width, value))

    def port_read(self, port, width):
        """A read of width bytes from a port, 0 above the width, data of ones while busy; refusals 2, 3 and 4."""
        _fits(16, port)
        _fits(32, width)
        return _value(self._do(_PORT_READ, port, width))

    def claim_memory(self, address):
        """The window that claims a memory address, with the offset inside, or None; always None while busy."""
        _fits(64, address)
        return _claim(self._do(_CLAIM_MEMORY, address & 0xFFFFFFFF, address >> 32))

    def claim_port(self, port):
        """The window that claims an I/O port, with the offset inside, or None; always None while busy."""
        _fits(16, port)
        return _claim(self._do(_CLAIM_PORT, port))

    def image(self):
        """The 256 bytes as a guest reads them, FF all of them while busy."""
        return b"".join(self.read(offset, 0xF).to_bytes(4, "little") for offset in range(0, 256, 4))

    def walk(self, wanted):
        """A capability walk over the function's own bytes as a guest reads them, FF all of them while busy; refusals 10 and 11, with their count."""
        _fits(8, wanted)
        return _found(self._do(_WALK, wanted))

    def window_write(self, offset, lanes, value):
        """A guest write of the lanes' bytes at an offset inside GTTMMADR's window, dropped while busy; refusals 16 and 6.

        In ASSRREQ each of bits 3:0 is set where the value has it and the bit 16 higher, and lanes 0 and 2 are both enabled. FAULT_REG becomes 0 where lane 0 is enabled and the value's bit 0 is 0. A guest changes nothing else in the window.
        """
        _fits(32, offset, lanes, value)
        _value(self._do(_WINDOW_WRITE, offset, lanes, value))

    def window_read(self, offset, lanes):
        """A guest read at an offset inside GTTMMADR's window, of ones while busy and in the lanes that aren't enabled; refusals 16 and 6."""
        _fits(32, offset, lanes)
        return _value(self._do(_WINDOW_READ, offset, lanes))

    def complete(self, mask):
        """The host completes requests: ASSRREQ's masked bits become 0; refusal 7 for a mask with a bit outside Fh."""
        _fits(32, mask)
        _value(self._do(_COMPLETE, mask))

    def fault(self, word):
        """The host gives a fault: FAULT_REG holds its word with bit 0, valid, set; but where valid is set already the fault is lost, though accepted. Refusal 7 for a word with a bit outside 77FEh."""
        _fits(32, word)
        _value(self._do(_FAULT, word))

    def add_cycles(self, count):
        """The host adds to the sum of DRAM cycles, which wraps past 32 bits."""
        _fits(32, count)
        _value(self._do(_ADD_CYCLES, count))

    def mirror_update(self, offset, mask, value):
        """A host update of the masked bits of a mirror; refusal 16, and 7 for a mask with a bit outside the mirror's: FFF00001h for MTOUUD and MBDSM, 7Fh for MTOUUD_HIGH, 0 for every other dword of the window."""
        _fits(32, offset, mask, value)
        _value(self._do(_MIRROR_UPDATE, offset, mask, value))


def probe(low, high):
    """The range that the low and high dword tell, read back after ones were written; refusal 8."""
    _fits(32, low, high)
    result = _lib.twin_probe(low, high)
    _accepted(result >> 48)
    return Range(Kind(result >> 32 & 0xFFFF), result & 0xFFFFFFFF)


def walk(data, wanted):
    """A capability walk over any bytes; refusals 1, 10 and 11, with their count."""
    _fits(8, wanted)
    data = bytes(data)
    return _found(_lib.twin_walk(data, len(data), wanted))
