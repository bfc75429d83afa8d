"""The paper's checked examples, its refusals, and the record's layout, through the Python module."""
import random
import unittest

import twin
from twin import Claim, Found, Kind, Range, Refusal, Refused, Register, Registers, Twin, Window

ALL = 0xFFFFFFFF
FOREIGN = (0x5A001153, 0x1234567A, 0x45600A01, 0x000003F1, 0x9AB00001, 0xFFFFFFFE)  # numbers that a window's registers may hold


def with_busy(t, busy):
    """A twin of the same state but for its busy byte."""
    other = Twin(t.record())
    other.state.busy = busy
    return other


def in_lanes(dword, lanes):
    """A dword as it is read with these lanes: FF in those that aren't enabled."""
    held = dword.to_bytes(4, "little")
    return int.from_bytes(bytes(held[lane] if lanes >> lane & 1 else 0xFF for lane in range(4)), "little")


class Paper(unittest.TestCase):
    def refused(self, number, call, *arguments, count=0):
        with self.assertRaises(Refused) as caught:
            call(*arguments)
        self.assertEqual((caught.exception.number, caught.exception.count), (number, count))

    def after(self, *writes):
        t = Twin()
        for write in writes:
            t.write(*write)
        return t

    def test_reads_and_writes(self):
        for writes, offset, lanes, value in [
                ([], 0x00, 0xF, 0x01528086),
                ([(0x04, 0xF, ALL)], 0x04, 0xF, 0x00900407),
                ([(0x10, 0xF, ALL)], 0x10, 0xF, 0xFFC00004),
                ([(0x18, 0xF, ALL)], 0x18, 0xF, 0xF000000C),
                ([(0x18, 0xF, ALL), (0x60, 0x4, 0x00060000)], 0x18, 0xF, 0xE000000C),
                ([(0x60, 0x4, 0x00F40000)], 0x60, 0x4, 0xFFF2FFFF),
                ([(0x20, 0xF, ALL)], 0x20, 0xF, 0x0000FFC1),
                ([(0x7C, 0x8, 0x01000000)], 0x34, 0xF, 0x000000D0),
                ([(0xD4, 0x1, 1)], 0xD4, 0x1, 0xFFFFFF00),
                ([(0xD4, 0x1, 1), (0xD4, 0x1, 3)], 0xD4, 0x1, 0xFFFFFF03),
                ([(0xE8, 0x2, 0), (0xE8, 0xF, 0x8001)], 0xE8, 0xF, 1)]:
            with self.subTest(writes=writes):
                self.assertEqual(self.after(*writes).read(offset, lanes), value)

    def test_a_lock_holds_through_a_function_reset(self):
        t = self.after((0x2C, 0x3, 0x1234), (0xA8, 0x1, 1))
        t.end_signal()
        t.write(0x2C, 0x3, 0xFFFF)
        self.assertEqual(t.read(0x2C, 0x3), 0xFFFF1234)

    def test_lanes_that_are_not_enabled_read_as_ones(self):
        idle = self.after((0xFC, 0xF, 0x44332211))
        busy = with_busy(idle, 1)
        for offset, dword in [(0x00, 0x01528086), (0x04, 0x00900000), (0x0C, 0x00000000), (0x34, 0x00000090), (0xFC, 0x44332211)]:
            for lanes in range(16):
                with self.subTest(offset=offset, lanes=lanes):
                    self.assertEqual(idle.read(offset, lanes), in_lanes(dword, lanes))
                    self.assertEqual(busy.read(offset, lanes), ALL)
        self.assertEqual([idle.read(0xFC, lanes) for lanes in (0x0, 0x2, 0x9)], [ALL, 0xFFFF22FF, 0x44FFFF11])
        for t in [idle, busy]:
            before = t.record()
            for lanes in range(16):
                self.refused(Refusal.OFFSET, t.read, 0x2D, lanes)
                self.refused(Refusal.LANES, t.read, 0x2C, 0x10 | lanes)
                self.assertEqual(t._do(twin._READ, 0x2D, lanes), Refusal.OFFSET << 48)  # 0 beside the number
                self.assertEqual(t._do(twin._READ, 0x2C, 0x10 | lanes), Refusal.LANES << 48)
            self.assertEqual(t.record(), before)

    def test_layout(self):
        t = self.after((0x2C, 0x8, 0xAB000000), (0xFC, 0xF, 0x44332211), (0xA8, 0x1, 1))
        t.port_write(0xCF8, 4, 0x80FEDCB8)
        t.fault(0x1152)
        t.add_cycles(0xF0E0D0C0)
        t.mirror_update(0x108080, 0xFFF00001, 0x45600001)
        t.mirror_update(0x108084, 0x7F, 0x71)
        t.mirror_update(0x1080C0, 0xFFF00001, 0x9AB00000)
        record = t.record()
        self.assertEqual(len(record), 288)
        self.assertEqual(record[0x00:0x04].hex(), "86805201")
        self.assertEqual(record[0x2C:0x30].hex(), "000000ab")
        self.assertEqual(record[0xFC:0x104].hex(), "11223344b8dcfe80")
        self.assertEqual(record[0x104:0x108].hex(), "00010001")
        self.assertEqual(record[0x108:].hex(), "53110000" "00000000" "01006045" "71000000" "0000b09a" "c0d0e0f0")
        self.assertEqual((t.state.latch, t.state.closed.sid2, t.state.busy), (0x80FEDCB8, 1, 1))

    def test_host_updates(self):
        t = Twin()
        t.host_update(0x02, 0x0F, 0xFA)
        self.assertEqual(t.read(0x00, 0xF), 0x015A8086)
        t.host_update(0x00, 0x00, 0xFF)
        self.refused(Refusal.NOT_HOST, t.host_update, 0x00, 0x01, 0x01)
        self.refused(Refusal.OFFSET, t.host_update, 0x100, 0x00, 0x00)

    def test_ports(self):
        t = Twin()
        self.refused(Refusal.NOT_OURS, t.port_read, 0xCFC, 4)
        t.port_write(0xCF8, 4, 0x80001000)
        self.assertEqual(t.port_read(0xCF8, 4), 0x80001000)
        self.assertEqual(t.port_read(0xCFE, 2), 0x0152)
        self.refused(Refusal.NOT_OURS, t.port_read, 0xCFF, 2)
        self.refused(Refusal.WIDTH, t.port_read, 0xCFC, 3)
        t.port_write(0xCF8, 4, 0x80000000)
        self.refused(Refusal.OTHER_FUNCTION, t.port_write, 0xCFC, 1, 0)

    def test_port_reads_are_0_above_the_width(self):
        idle = self.after((0xFC, 0xF, 0x44332211))
        idle.port_write(0xCF8, 4, 0x800010FC)
        busy = with_busy(idle, 1)
        for port, width, value, ones in [
                (0xCFC, 1, 0x11, 0xFF), (0xCFD, 1, 0x22, 0xFF), (0xCFE, 1, 0x33, 0xFF), (0xCFF, 1, 0x44, 0xFF),
                (0xCFC, 2, 0x2211, 0xFFFF), (0xCFD, 2, 0x3322, 0xFFFF), (0xCFE, 2, 0x4433, 0xFFFF), (0xCFC, 4, 0x44332211, ALL)]:
            with self.subTest(port=port, width=width):
                self.assertEqual((idle.port_read(port, width), busy.port_read(port, width)), (value, ones))

    def test_claims(self):
        t = self.after((0x04, 0x1, 0x03), (0x10, 0xF, 0x00400000), (0x14, 0xF, 0x12),
                       (0x18, 0xF, 0xF0000000), (0x1C, 0xF, ALL), (0x20, 0xF, 0xE040))
        self.assertEqual(t.claim_memory(0x12007FFFFF), Claim(Window.TRANSLATION, 0x3FFFFF))
        self.assertIsNone(t.claim_memory(0x1200800000))
        self.assertEqual(t.claim_memory((1 << 64) - 1), Claim(Window.APERTURE, 0x0FFFFFFF))
        self.assertEqual(t.claim_port(0xE07F), Claim(Window.IO, 0x3F))
        self.assertIsNone(t.claim_port(0xE080))

    def test_probe(self):
        self.assertEqual(twin.probe(0xF000000C, ALL), Range(Kind.MEMORY64, 28))
        self.assertEqual(twin.probe(0xFFFFFFF0, 0), Range(Kind.MEMORY32, 4))
        self.assertEqual(twin.probe(0x0000FFC1, 0), Range(Kind.IO, 6))
        self.refused(Refusal.NO_RANGE, twin.probe, 2, ALL)

    def test_walk(self):
        t = Twin()
        self.assertEqual(t.walk(0x13), Found(0xA4, 3))
        self.assertEqual(t.walk(0x10), Found(None, 3))
        t.write(0x7C, 0x8, 0x01000000)
        image = bytearray(t.image())
        self.assertEqual((image[0x34], t.state.bytes[0x34]), (0xD0, 0x90))
        self.assertEqual(twin.walk(image, 0x13), Found(0xA4, 2))
        image[0xA5] = 0x3F
        self.refused(Refusal.POINTER, twin.walk, image, 0x77, count=2)
        image[0xA5] = 0xD0
        self.refused(Refusal.ENDLESS, twin.walk, image, 0x77, count=48)
        for other in [b"", image[:255], image + b"\0"]:
            self.refused(Refusal.LENGTH, twin.walk, other, 0x13)

    def busy_ones(self):
        """A twin with windows, a closed field and a function reset that runs, with a busy byte that a start leaves and with foreign ones."""
        t = self.after((0x04, 0x1, 0x07), (0x10, 0xF, 0x00400000), (0x20, 0xF, 0xE040), (0x2C, 0x3, 0x1234), (0xA8, 0x1, 0x01))
        self.assertEqual((t.state.busy, t.busy), (1, True))
        t.state.window = Registers(*FOREIGN)
        return [with_busy(t, busy) for busy in (1, 7, 0xFF)]

    def test_a_start_changes_the_busy_byte_alone(self):
        idle = self.after((0x04, 0x1, 0x07), (0x2C, 0x3, 0x1234))
        before = idle.record()
        for lanes, value in [(0x0, 1), (0xE, ALL), (0x1, 0), (0xF, ALL - 1)]:
            idle.write(0xA8, lanes, value)
            self.assertEqual((idle.record(), idle.busy), (before, False))
        idle.write(0xA8, 0xF, ALL)
        self.assertEqual((idle.record(), idle.busy), (before[:263] + b"\1" + before[264:], True))

    def test_an_end_returns_the_f_bits_and_no_others(self):
        for t in self.busy_ones():
            t.state.bytes[0xA8] = 0x81  # of foreign making
            wanted = bytearray(t.record())
            for at, byte in [(0x04, 0), (0x12, 0), (0x20, 0x01), (0x21, 0), (0xA8, 0x80), (263, 0)]:
                wanted[at] = byte
            t.end_signal()
            self.assertEqual((t.record(), t.busy), (wanted, False))
        idle = self.after((0x04, 0x1, 0x07))
        before = idle.record()
        idle.end_signal()
        self.assertEqual(idle.record(), before)

    def test_a_busy_function_reads_ones_and_drops_writes(self):
        for t in self.busy_ones():
            before = t.record()
            self.assertEqual([t.read(0x00, 0xF), t.read(0xA8, 0x5), t.read(0xA8, 0x0)], [ALL, ALL, ALL])
            self.assertEqual(t.image(), b"\xff" * 256)
            self.refused(Refusal.ENDLESS, t.walk, 0x13, count=48)
            self.assertEqual(t.walk(0xFF), Found(0xFC, 1))
            for offset in range(0, 256, 4):
                t.write(offset, 0xF, 0)
                t.write(offset, 0xF, ALL)
            self.refused(Refusal.LANES, t.read, 0x00, 0x10)
            self.refused(Refusal.OFFSET, t.write, 0x01, 0xF, 0)
            self.assertEqual(t.record(), before)

            self.refused(Refusal.NOT_OURS, t.port_read, 0xCFC, 4)
            t.port_write(0xCF8, 4, 0x8000102C)
            t.port_write(0xCFE, 2, 0x5678)
            self.assertEqual([t.port_read(0xCF8, 4), t.port_read(0xCFE, 2), t.port_read(0xCFF, 1)], [0x8000102C, 0xFFFF, 0xFF])
            self.assertEqual(t.record(), before[:256] + bytes.fromhex("2c100080") + before[260:])

    def test_a_busy_function_claims_nothing_and_hears_its_host(self):
        for t in self.busy_ones():
            idle = with_busy(t, 0)
            self.assertEqual(idle.claim_memory(0x400010), Claim(Window.TRANSLATION, 0x10))
            self.assertEqual(idle.claim_port(0xE041), Claim(Window.IO, 1))
            self.assertEqual((t.claim_memory(0x400010), t.claim_port(0xE041)), (None, None))
            busy = t.state.busy
            t.host_update(0x08, 0xFF, 0x09)
            self.refused(Refusal.NOT_HOST, t.host_update, 0x2C, 0x01, 0x01)
            self.assertEqual((t.state.bytes[0x08], t.state.busy), (0x09, busy))
            t.platform_reset()
            self.assertEqual(t.record(), Twin().record())

    def test_window_reads(self):
        idle = Twin()
        idle.state.window = Registers(*FOREIGN)
        shown = dict(zip(Register, FOREIGN)) | {Register.ASSRREQ: 0x0000567A}
        others = dict.fromkeys([0, 0x04090, 0x08110, 0x10810C, 0x308080, 0x3FFFFC], 0)
        for offset, dword in (shown | others).items():
            for lanes in range(16):
                with self.subTest(offset=offset, lanes=lanes):
                    self.assertEqual(idle.window_read(offset, lanes), in_lanes(dword, lanes))
                    self.assertEqual(with_busy(idle, 1).window_read(offset, lanes), ALL)
        for t in [idle, with_busy(idle, 7)]:
            for offset in [0x0810D, 0x0810E, 0x3FFFFF, 0x400000, 0x8000810C]:
                self.refused(Refusal.WINDOW_OFFSET, t.window_read, offset, 0x10)
            self.refused(Refusal.LANES, t.window_read, Register.ASSRREQ, 0x10)

    def test_requests_and_completions(self):
        t = Twin()
        for lanes, value, held in [
                (0xF, 0x0000000F, 0x0), (0xF, 0x000F0000, 0x0), (0xB, ALL, 0x0), (0xE, ALL, 0x0),
                (0x5, 0x00020002, 0x2), (0xF, 0x000A000C, 0xA), (0xF, 0x000F0000, 0xA), (0xF, ALL, 0xF)]:
            t.window_write(0x0810C, lanes, value)
            self.assertEqual(t.window_read(0x0810C, 0xF), held)
        self.refused(Refusal.NOT_HOST, t.complete, 0x10)
        t.complete(0x6)
        self.assertEqual(t.state.window.assrreq, 0x9)

    def test_faults(self):
        t = Twin()
        for word in [0x0001, 0x0800, 0x8000, 0x10000, ALL]:
            self.refused(Refusal.NOT_HOST, t.fault, word)
        t.fault(0x1152)
        t.fault(0x77FE)  # lost
        for lanes, value in [(0xF, 1), (0xE, 0), (0x0, 0), (0x1, ALL)]:
            t.window_write(0x04094, lanes, value)
            self.assertEqual(t.window_read(0x04094, 0xF), 0x1153)
        t.window_write(0x04094, 0x1, ALL - 1)
        self.assertEqual(t.window_read(0x04094, 0xF), 0)

    def test_the_sum_wraps(self):
        t = Twin()
        for count, total in [(ALL - 1, ALL - 1), (1, ALL), (3, 2), (0, 2)]:
            t.add_cycles(count)
            t.window_write(0x138078, 0xF, 0)  # read-only
            self.assertEqual(t.window_read(0x138078, 0xF), total)

    def test_mirrors(self):
        t = Twin()
        for offset, mask in [(0x108080, 0xFFF00001), (0x108084, 0x7F), (0x1080C0, 0xFFF00001), (0x04094, 0), (0x0810C, 0), (0x138078, 0), (0, 0)]:
            for bit in (1 << place for place in range(32)):
                if mask & bit:
                    t.mirror_update(offset, bit, ALL)
                else:
                    self.refused(Refusal.NOT_HOST, t.mirror_update, offset, bit, ALL)
            t.mirror_update(offset, 0, 0)
            t.window_write(offset, 0xF, 0)
            self.assertEqual(t.window_read(offset, 0xF), mask)
        for offset in [0x1080C1, 0x1080C2, 0x400000, 0x5080C0]:
            self.refused(Refusal.WINDOW_OFFSET, t.mirror_update, offset, ALL, 0)

    def test_from_a_claimed_address_to_a_register(self):
        t = self.after((0x04, 0x1, 0x02), (0x10, 0xF, 0x00400000), (0x14, 0xF, 0x12))
        claim = t.claim_memory(0x120040810C)
        self.assertEqual(claim, Claim(Window.TRANSLATION, Register.ASSRREQ))
        t.window_write(claim.offset, 0xF, 0x00020002)
        self.assertEqual(t.window_read(claim.offset, 0xF), 0x00000002)

    def test_a_busy_function_keeps_its_window_and_hears_its_host(self):
        for t in self.busy_ones():
            before = t.record()
            for offset in Register:
                t.window_write(offset, 0xF, 0)
                t.window_write(offset, 0xF, ALL)
            self.refused(Refusal.WINDOW_OFFSET, t.window_write, 0x0810D, 0xF, 0)
            self.assertEqual(t.record(), before)
            t.complete(0x2)
            t.fault(0x4008)  # lost
            t.add_cycles(3)
            t.mirror_update(Register.MBDSM, 0xFFF00001, 0x12300000)
            held = Registers(0x5A001153, 0x12345678, 0x45600A01, 0x000003F1, 0x12300000, 0x00000001)
            self.assertEqual(t.record(), before[:264] + bytes(held))
            t.end_signal()
            self.assertEqual(t.record()[264:], bytes(held))
            t.platform_reset()
            self.assertEqual(t.record()[264:], bytes(24))

    def test_refusals_leave_every_byte(self):
        made = random.Random(1)
        for _ in range(20):
            t = Twin(made.randbytes(288))
            t.state.latch &= 0x7FFFFFFF  # no data access is ours
            before = t.record()
            self.refused(Refusal.OFFSET, t.write, 0x2D, 0xF, ALL)
            self.refused(Refusal.LANES, t.write, 0x2C, 0x10, ALL)
            self.refused(Refusal.OFFSET, t.read, 0x100, 0xF)
            self.refused(Refusal.NOT_HOST, t.host_update, 0x2C, 0x01, 0x01)
            self.refused(Refusal.NOT_OURS, t.port_write, 0xCFC, 4, ALL)
            self.refused(Refusal.WIDTH, t.port_write, 0xCF8, 0, ALL)
            self.refused(Refusal.WINDOW_OFFSET, t.window_write, 0x0810D, 0x10, ALL)
            self.refused(Refusal.LANES, t.window_write, 0x0810C, 0x10, ALL)
            self.refused(Refusal.NOT_HOST, t.complete, 0x1F)
            self.refused(Refusal.NOT_HOST, t.fault, 0x77FF)
            self.refused(Refusal.NOT_HOST, t.mirror_update, 0x1080C0, 0x2, ALL)
            self.assertEqual(t._do(17), Refusal.LINE << 48)
            self.assertEqual(t.record(), before)

    def test_numbers_that_do_not_fit(self):
        t = Twin()
        before = t.record()
        for call, arguments in [
                (t.write, (1 << 32, 0xF, 0)), (t.write, (0, 0xF, 1 << 32)), (t.write, (-1, 0xF, 0)), (t.read, (0, 1 << 32)),
                (t.host_update, (0x02, 0x100, 0)), (t.host_update, (0x02, 0, 0x100)), (t.port_write, (0x10CF8, 4, 0)),
                (t.port_read, (0x10CF8, 4)), (t.claim_memory, (1 << 64,)), (t.claim_port, (0x10000,)), (t.walk, (0x113,)),
                (t.window_write, (1 << 32, 0xF, 0)), (t.window_read, (0, -1)), (t.complete, (1 << 32,)), (t.fault, (-1,)),
                (t.add_cycles, (1 << 32,)), (t.mirror_update, (0x1080C0, 1 << 32, 0)),
                (twin.walk, (bytes(256), 0x100)), (twin.probe, (1 << 32, 0)), (Twin, (bytes(264),)), (Twin, (bytes(287),))]:
            with self.subTest(call=call.__name__, arguments=arguments), self.assertRaises(ValueError):
                call(*arguments)
        self.assertEqual(t.record(), before)


if __name__ == "__main__":
    unittest.main()
