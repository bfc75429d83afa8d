"""A lock, and a function reset that does not undo it."""
import twin


def svid2(t):
    """SVID2 is the low word of its dword; the lanes above it read FF."""
    return t.read(0x2C, 0x3) & 0xFFFF


t = twin.Twin()
t.write(0x2C, 0x3, 0x1234)  # SVID2 is written, and closed
print(f"locked: {svid2(t):04X}")
t.write(0xA8, 0x1, 0x0001)  # starts a function reset
print(f"while a reset runs: {svid2(t):04X}")
t.end_signal()  # the host's part
t.write(0x2C, 0x3, 0xFFFF)  # accepted, and changes nothing
print(f"after a reset and another write: {svid2(t):04X}")
try:
    t.write(0x2D, 0x1, 0x00)
except twin.Refused as refused:
    print(f"an unaligned write: {refused}")
