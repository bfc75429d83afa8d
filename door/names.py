"""Numbers and names in what people write: hex digits, registers, setpci's names, and the lanes of some bytes."""
import re

from door import registers
from door.forms import Bad

HEX = re.compile(r"(?:0[xX])?([0-9A-Fa-f]+)")

# setpci's own names for the standard header: offset and bytes
HEADER = {
    "VENDOR_ID": (0x00, 2), "DEVICE_ID": (0x02, 2), "COMMAND": (0x04, 2), "STATUS": (0x06, 2), "REVISION": (0x08, 1),
    "CLASS_PROG": (0x09, 1), "CLASS_DEVICE": (0x0A, 2), "CACHE_LINE_SIZE": (0x0C, 1), "LATENCY_TIMER": (0x0D, 1),
    "HEADER_TYPE": (0x0E, 1), "BIST": (0x0F, 1), "BASE_ADDRESS_0": (0x10, 4), "BASE_ADDRESS_1": (0x14, 4),
    "BASE_ADDRESS_2": (0x18, 4), "BASE_ADDRESS_3": (0x1C, 4), "BASE_ADDRESS_4": (0x20, 4), "BASE_ADDRESS_5": (0x24, 4),
    "CARDBUS_CIS": (0x28, 4), "SUBSYSTEM_VENDOR_ID": (0x2C, 2), "SUBSYSTEM_ID": (0x2E, 2), "ROM_ADDRESS": (0x30, 4),
    "CAPABILITY_LIST": (0x34, 1), "INTERRUPT_LINE": (0x3C, 1), "INTERRUPT_PIN": (0x3D, 1), "MIN_GNT": (0x3E, 1), "MAX_LAT": (0x3F, 1),
}
# setpci's names for capabilities, by the register that has the item
CAPABILITIES = {"CAP_MSI": "MSI_CAPID", "CAP_AF": "AFCIDNP", "CAP_PM": "PMCAPID"}


def shown(text):
    """A text of a file as it can stand in a sentence: short, and without control characters."""
    text = text if len(text) <= 60 else text[:57] + ".."
    return "".join(c if c.isprintable() else "\\x%02x" % ord(c) for c in text)


def number_of(text, digits, what):
    """A hex number of at most so many digits; zeros before it do not count."""
    found = HEX.fullmatch(text)
    if not found:
        raise Bad("`%s` is no hex number for %s" % (shown(text), what), near(text))
    kept = found[1].lstrip("0") or "0"
    if len(kept) > digits:
        raise Bad("`%s` has more than the %d hex digit%s of %s" % (shown(text), digits, "s" * (digits > 1), what))
    return int(kept, 16)


def named(word):
    """The offset and bytes of a register's or setpci's name, or None."""
    name = word.upper().replace("-", "_")
    if name in registers.BY_NAME:
        return registers.BY_NAME[name].at, registers.BY_NAME[name].size
    if name in CAPABILITIES:
        return registers.BY_NAME[CAPABILITIES[name]].at, None
    return HEADER.get(name)


def register_named(word):
    """A register by the name that a person writes: case does not count, nor - for _. Bad with a name that is close."""
    register = registers.BY_NAME.get(word.upper().replace("-", "_"))
    if register is None:
        raise Bad("there is no register %s" % shown(word), near(word) or "`twin map` lists them")
    return register


def window_named(word):
    """The offset of a register of the window by its name, or None."""
    name = word.upper().replace("-", "_")
    return next((offset for known, offset in registers.rows.WINDOW if known == name), None)


def near(word):
    """A suggestion: the name that is close to a word, or nothing."""
    import difflib
    names = list(registers.BY_NAME) + list(HEADER)
    close = difflib.get_close_matches(word.upper().replace("-", "_"), names, 1, 0.7) if len(word) < 40 else []
    return "did you mean %s?" % close[0] if close else ""


def lanes_of(at, size):
    """The dword and the lanes of some bytes, or None where they pass a dword."""
    return (at & ~3, ((1 << size) - 1) << (at & 3)) if at % 4 + size <= 4 else None


def lies(at, size):
    """A sentence on where some bytes lie, for a hint."""
    dword, lanes = at & ~3, (((1 << size) - 1) << at % 4) & 0xF
    return "%02X lies in the dword at %02X: lanes %X" % (at, dword, lanes)
