"""`twin check`: what is compared, verdicts, statuses, and the forms of a log. Each log here is a few lines, by hand."""
import json
import os
import pty
import shutil
import subprocess
import xml.etree.ElementTree as xml

from common import TOP, TWIN, Test, log_of, made, quick, run, twin

RESET = "W A8 1 00000001\n"


class Log(Test):
    """A log that is checked."""

    def check(self, log, *words, name="board.log"):
        return quick("check", *words, self.put(name, log))

    def report(self, log, status, *words):
        """What --json says of a log that must end with this status."""
        done = self.check(log, "--json", *words)
        self.assertStatus(status, done)
        self.assertEqual(status, done.json["status"])
        return done.json

    def kinds(self, log, status):
        """(line, kind) of each difference."""
        return [(one["line"], one["kind"]) for one in self.report(log, status)["differences"]]

    def lock(self, log, name, status=0):
        return next(lock for lock in self.report(log, status)["locks"] if lock["name"] == name)


class Statuses(Log):
    def test_reads_that_agree(self):
        self.report("R 00 F = 01528086\n", 0)

    def test_a_failure(self):
        self.report("R 00 F = 01528087\n", 1)

    def test_what_cannot_be_read(self):
        self.refused(self.check("R 00 F = 01528086\nR 2C Q\n"), "board.log:2: ")
        self.refused(twin("check", os.path.join(self.room, "none.log")), "none.log")
        self.refused(twin("check"), "LOG")

    def test_nothing_compared(self):
        for log in ("", "# nothing\n\n", "W 2C 3 00001234\n", "R 00 F\n", "K 13\n"):
            with self.subTest(log):
                self.report(log, 3)

    def test_strict(self):
        log = "W 2C F ABCD1234\nR 2C F = ABCD1234\n"
        self.report(log, 0)
        self.report(log, 3, "--strict")
        self.report(log + "W E8 F 00008000\nR E8 F = 00008000\n", 0, "--strict")
        self.report("R 00 F = 01528087\n", 1, "--strict")

    def test_the_status_is_said_last(self):
        for log, status in (("R 00 F = 01528086\n", 0), ("R 00 F = 0\n", 1), ("", 3)):
            self.assertEqual(f"exit status {status}", self.check(log).lines[-1])


class Compared(Log):
    def test_enabled_lanes_alone(self):
        for answer in ("00001234", "FFFF1234", "ABCD1234", "1234"):
            self.report(f"W 2C 3 00001234\nR 2C 3 = {answer}\n", 0)
        self.report("W 2C 3 00001234\nR 2C 3 = FFFF1235\n", 1)
        self.report("R 00 0 = 12345678\nR 00 3 = 8086\n", 0)

    def test_the_bytes_of_a_ports_width(self):
        for answer in ("8086", "00008086", "FFFF8086", "0x8086"):
            self.report(f"O 0CF8 4 80001000\nI 0CFC 2 = {answer}\n", 0)
        self.report("O 0CF8 4 80001000\nI 0CFC 2 = 8087\n", 1)

    def test_an_answer_in_the_wrong_lanes_gets_a_hint(self):
        report = self.report("W 2C C ABCD0000\nR 2C C = ABCD\n", 1)
        self.assertIn("ABCD0000", report["differences"][0]["hint"])

    def test_what_the_board_refuses(self):
        self.assertEqual([(1, "failure")], self.kinds("R 2C F = NO 5\n", 1))

    def test_digits_before_a_number_may_lack(self):
        self.report("R 00 F = 1528086\nR A8 F = 0\n", 0)

    def test_the_window(self):
        self.report("F 00001152\nU 004094 F = 00001153\nU 004094 1 = 53\n", 0)
        self.assertEqual([(2, "failure")], self.kinds("F 00001152\nU 004094 F = 00001152\n", 1))

    def test_words(self):
        good = "R 00 3 = 8086\nW 10 F F7800000\nW 04 3 00000003\nW 20 F 0000F000\n"
        good += "A 00000000F780810C = TRANSLATION 0000810C\nN F001 = OK IO 00000001\nS F000000C FFFFFFFF = MEM64 1C\nK 13 = FOUND A4 03\n"
        self.report(good, 0)
        for old, new in (("TRANSLATION", "APERTURE"), ("IO 00000001", "NONE"), ("1C", "1D"), ("A4 03", "A4 02")):
            self.assertEqual(1, len(self.report(good.replace(old, new), 1)["differences"]), new)

    def test_writes_with_an_answer(self):
        self.report("R 00 3 = 8086\nW 2C 3 00001234 = OK\nH 04 01 01 = NO 7\n", 0)
        self.report("R 00 3 = 8086\nH 04 01 01 = OK\n", 1)

    def test_reads_of_other_functions_are_counted(self):
        report = self.report("R 00 3 = 8086\nO 0CF8 4 80000000\nI 0CFC 2 = 1234\nO 0CF8 4 00001000\nI 0CFC 2 = FFFF\n", 0)
        self.assertEqual(1, report["reads"])
        self.assertIn("2 reads of other functions", self.check("R 00 3 = 8086\nO 0CF8 4 80000000\nI 0CFC 2 = 1234\nI 0CFC 1 = 12\n").out)

    def test_the_latch(self):
        self.assertEqual([(2, "failure")], self.kinds("O 0CF8 4 FFFFFFFF\nI 0CF8 4 = FFFFFFFF\n", 1))
        self.report("O 0CF8 4 FFFFFFFF\nI 0CF8 4 = 80FFFFFC\n", 0)

    def test_a_line_without_an_answer_is_only_played(self):
        self.report("W 3C 1 0000000B\nR 3C F\nR 3C 1 = 0B\n", 0)


class HostBits(Log):
    """A difference in a bit that only the host drives."""

    def test_a_note_where_the_log_has_no_host_update(self):
        self.assertEqual([(1, "note")], self.kinds("R 00 F = 01668086\n", 0))
        self.assertIn("note", self.check("R 00 F = 01668086\n").out)

    def test_a_failure_where_it_has_one(self):
        self.assertEqual([(2, "failure")], self.kinds("H 02 FF 66\nR 00 F = 01528086\n", 1))

    def test_of_that_very_bit(self):
        # bits 7:4 were updated, bits 3:0 were not
        self.assertEqual([(2, "note")], self.kinds("H 02 F0 50\nR 00 F = 01538086\n", 0))
        self.assertEqual([(2, "failure")], self.kinds("H 02 F0 50\nR 00 F = 01428086\n", 1))

    def test_since_the_last_platform_reset(self):
        self.assertEqual([(3, "note")], self.kinds("H 02 FF 66\nP\nR 00 F = 01668086\n", 0))

    def test_a_guest_changed_what_no_guest_may(self):
        agreed, differs = "R 00 F = 01528086\n", "R 00 F = ABCD8086\n"
        self.assertEqual([(3, "failure")], self.kinds(agreed + "W 00 C ABCD0000\n" + differs, 1))
        self.assertEqual([(4, "failure")], self.kinds(agreed + "O 0CF8 4 80001000\nO 0CFE 2 0000ABCD\n" + differs, 1))

    def test_but_for_its_byte_and_its_last_read(self):
        agreed, differs = "R 00 F = 01528086\n", "R 00 F = 01668086\n"
        for between in ("", "W 04 1 00000007\n", "W 00 8 FF000000\n"):
            self.assertEqual("note", self.kinds(agreed + between + differs, 0)[0][1], between)
        # it did not agree when it was last read
        self.assertEqual({"note"}, {kind for _, kind in self.kinds(differs + "W 00 C 01660000\n" + differs, 0)})

    def test_not_a_bit_of_another_kind(self):
        self.assertEqual([(1, "failure")], self.kinds("R 00 F = 01528087\n", 1))
        bits = self.report("R 00 F = 01538087\n", 1)["differences"][0]["bits"]
        self.assertEqual({("VID2", "read-only"), ("DID2", "driven by the host")}, {(one["register"], one["kind"]) for one in bits})


class WindowBits(Log):
    """The same in the window: what only the host gives or clears is a note where the log does not have it."""

    def test_each(self):
        for log, kind in (
            ("U 108080 F = 12300001\n", "note"), ("Y 108080 FFF00001 00000000\nU 108080 F = 12300001\n", "failure"),
            ("U 138078 F = 55\n", "note"), ("T 00000001\nU 138078 F = 55\n", "failure"),
            ("U 004094 F = 00001153\n", "note"), ("F 00001152\nU 004094 F = 00004009\n", "failure"),
            ("V 00810C F 00010001\nU 00810C F = 0\n", "note"), ("V 00810C F 00010001\nU 00810C F = 3\n", "failure"),
            ("V 00810C F 00030003\nC 00000001\nU 00810C F = 3\n", "failure"), ("U 000000 F = 1\n", "failure"), ("U 00810C F = 10\n", "failure"),
        ):
            with self.subTest(log):
                self.assertEqual([kind], [kind for _, kind in self.kinds(log, 1 if kind == "failure" else 0)])


class Ends(Log):
    """E is put in where the log shows the end of a function reset."""

    def test_after_ones(self):
        log = "W 04 3 00000007\n" + RESET + "R A8 1 = FFFFFFFF\nR A8 1 = FFFFFF00\nR 04 3 = FFFF0000\n"
        self.report(log, 0)
        self.assertRegex(self.check(log).out, r"line 4 +E .*AFCTL reads 00")

    def test_through_the_ports(self):
        log = "O 0CF8 4 800010A8\nO 0CFC 1 00000001\nI 0CFC 1 = FF\nI 0CFC 1 = 00\nR 04 3 = FFFF0000\n"
        self.report(log, 0)

    def test_only_where_afctl_is_read(self):
        self.report(RESET + "R A8 E = FFFFFF00\nR 00 3 = FFFF\n", 0)
        self.report("O 0CF8 4 800010A8\nO 0CFC 1 00000001\nI 0CFD 1 = FF\nR 00 3 = FFFF\n", 0)
        self.report(RESET + "R 00 3 = 8086\n", 1)

    def test_not_where_none_is_under_way(self):
        report = self.report("R A8 1 = FFFFFF00\nR 00 3 = 8086\n", 0)
        self.assertEqual([], report["ends"])

    def test_no_end_leaves_it_out(self):
        log = RESET + "R A8 1 = FFFFFFFF\nR A8 1 = FFFFFF00\nR 00 3 = 8086\n"
        self.report(log, 0)
        self.assertEqual(2, len(self.report(log, 1, "--no-end")["differences"]))

    def test_an_end_in_the_log(self):
        self.assertEqual([], self.report(RESET + "R A8 1 = FFFFFFFF\nE\nR A8 1 = FFFFFF00\n", 0)["ends"])

    def test_an_end_behind_the_one_that_was_put_in(self):
        report = self.report(RESET + "R A8 1 = FFFFFF00\nE\nR 04 F = 00900000\n", 0)
        self.assertEqual([(3, "note")], [(one["line"], one["kind"]) for one in report["differences"]])

    def test_whether_ones_were_read_before_is_said(self):
        self.assertRegex(self.check(RESET + "R A8 1 = FF\nR A8 1 = 00\n").out, r"line 3 .*after ones")
        for between in ("", "W 3C 1 00000000\n", "R 00 3 = FFFF\n"):
            self.assertIn("no ones were read before", self.check(RESET + between + "R A8 1 = 00\n").out)
        self.assertRegex(self.check(RESET + "R A8 1 = FF\nR A8 1 = 00\n" + RESET + "R A8 1 = 00\n").out, r"line 5 .*no ones were read before")

    def test_another_read_says_how_to_put_one_in(self):
        out = self.check(RESET + "R 00 3 = 8086\nR 00 3 = 8086\n").out
        self.assertEqual(1, out.count("put a line E before this read"))


class Verdicts(Log):
    def test_passed(self):
        log = "W 2C 3 00001234\nR 2C 3 = FFFF1234\nW 2C 3 0000FFFF\n" + RESET + "E\nR 2C 3 = FFFF1234\nW 2C 1 000000FF\nR 2C F = 00001234\n"
        lock = self.lock(log, "SVID2")
        self.assertEqual(("passed", 1, 2, 1, 3), tuple(lock[key] for key in ("verdict", "closed_at", "attempts", "resets", "reads")))
        self.assertRegex(self.check(log).out, r"(?m)^\[PASSED\] +SVID2 +closed at line 1, held through 1 reset and 2 attempts, 3 reads agree")

    def test_held_is_what_was_read_afterwards(self):
        log = "W 2C 3 00001234\nR 2C 3 = 1234\nW 2C 3 00000001\n" + RESET + "E\n"
        lock = self.lock(log, "SVID2")
        self.assertEqual(("passed", 0, 0, 1), tuple(lock[key] for key in ("verdict", "attempts", "resets", "reads")))
        self.assertIn("1 reset and 1 attempt after the last read of it", lock["why"])
        half = self.lock(log + "R 2C 1 = 34\n", "SVID2")
        self.assertEqual((0, 0), (half["attempts"], half["resets"]))
        whole = self.lock(log + "R 2C 1 = 34\nR 2C 2 = 1200\n", "SVID2")
        self.assertEqual((1, 1), (whole["attempts"], whole["resets"]))

    def test_half_read_is_said(self):
        half = self.lock("W 2C 3 00001234\nR 2C 1 = 34\n", "SVID2")
        self.assertEqual("passed", half["verdict"])
        self.assertIn("bits 15:8 were never read after that", half["why"])
        whole = self.lock("W 2C 3 00001234\nR 2C 1 = 34\nR 2C 2 = 1200\n", "SVID2")
        self.assertEqual("passed", whole["verdict"])
        self.assertNotIn("never read", whole["why"])

    def test_closed_again(self):
        lock = self.lock("W 2C 3 00001234\nR 2C 3 = 1234\nP\nR 2C 3 = 0\nW 2C 3 00005678\nR 2C 3 = 5678\n", "SVID2")
        self.assertEqual(("passed", 1, 2, 2), tuple(lock[key] for key in ("verdict", "closed_at", "closings", "reads")))

    def test_what_is_dropped_or_refused_is_no_attempt(self):
        log = "W 2C 3 00001234\n" + RESET + "W 2C 3 0000FFFF\nE\nW 2C 0 0000FFFF\nW 2C C FFFF0000\nR 2C 3 = FFFF1234\n"
        self.assertEqual(0, self.lock(log, "SVID2")["attempts"])

    def test_failed(self):
        log = "W 2C 3 00001234\nW 2C 3 0000FFFF\nR 2C 3 = FFFFFFFF\n"
        self.assertEqual("failed", self.lock(log, "SVID2", 1)["verdict"])
        out = self.check(log).out
        self.assertIn("SVID2 15:0" if "15:0" in out else "SVID2", out)
        self.assertIn("closed by line 1", out)

    def test_failed_stays_failed(self):
        self.assertEqual("failed", self.lock("W 2C 3 00001234\nR 2C 3 = 1235\nR 2C 3 = 1234\nP\nW 2C 3 1\nR 2C 3 = 1\n", "SVID2", 1)["verdict"])

    def test_failed_though_open(self):
        self.assertEqual("failed", self.lock("R 2C 3 = 1234\n", "SVID2", 1)["verdict"])

    def test_not_tested(self):
        for log in ("R 00 3 = 8086\n", "R 2C F = 0\n", "W 2C 3 00001234\nR 00 3 = 8086\n", "R 2C F = 0\nW 2C 3 00001234\nR 00 3 = 8086\n",
                    "W 2C 3 00001234\n" + RESET + "R 2C 3 = FFFFFFFF\n"):
            with self.subTest(log):
                self.assertEqual("not tested", self.lock(log, "SVID2")["verdict"])

    def test_a_write_while_busy_closes_nothing(self):
        self.assertEqual("not tested", self.lock(RESET + "W 2C 3 00001234\nE\nR 2C 3 = FFFF0000\n", "SVID2")["verdict"])

    def test_half_a_field_closes_it(self):
        self.assertEqual("passed", self.lock("W 2C 2 00001200\nW 2C 1 00000034\nR 2C 3 = 1200\n", "SVID2")["verdict"])
        self.assertEqual("failed", self.lock("W 2C 2 00001200\nW 2C 1 00000034\nR 2C 3 = 1234\n", "SVID2", 1)["verdict"])

    def test_swsci(self):
        self.assertEqual("not tested", self.lock("W E8 1 00000001\nR E8 3 = 1\n", "SWSCI.15")["verdict"])
        self.assertEqual("passed", self.lock("W E8 2 00000000\nW E8 2 0000FF00\nR E8 3 = 7F00\n", "SWSCI.15")["verdict"])
        self.assertEqual("failed", self.lock("W E8 2 00000000\nW E8 2 0000FF00\nR E8 3 = FF00\n", "SWSCI.15", 1)["verdict"])
        # other bits of SWSCI are no lock
        self.assertEqual("not tested", self.lock("R E8 3 = 7F00\n", "SWSCI.15", 1)["verdict"])

    def test_not_modelled_is_said(self):
        names = {lock["name"]: lock["verdict"] for lock in self.report("R 00 3 = 8086\n", 0)["locks"]}
        self.assertEqual(["SVID2", "SID2", "SWSCI.15"], list(names)[:3])
        self.assertIn("not modelled", names.values())
        self.assertRegex(self.check("R 00 3 = 8086\n").out, r"(?m)^\[NOT MODELLED\] .*GGCLCK.*BDSM.*docs/DIFFERENCES.md")


class Decided(Log):
    """What decided a bit, and of what kind it is."""

    def decided(self, log, register):
        bits = [one for difference in self.report(log, 1)["differences"] for one in difference["bits"] if one["register"] == register]
        return bits[-1]["kind"], bits[-1]["decided"]

    def test_each(self):
        for log, register, kind, decided in (
            ("R 2C F = 1\n", "SVID2", "lock, open", "default since the start"),
            ("W 2C F 00000002\nR 2C F = 1\n", "SVID2", "locked", "closed by line 1"),
            ("W 3C 1 00000002\nR 3C 1 = 1\n", "INTRLINE", "plain", "written by line 1"),
            ("W 3C 1 00000002\nP\nR 3C 1 = 2\n", "INTRLINE", "plain", "default since the platform reset at line 2"),
            ("H 06 08 08\nR 04 F = 00900000\n", "PCISTS2", "driven by the host", "host update at line 1"),
            ("R 00 F = 0\n", "VID2", "read-only", "default since the start"),
            ("W 04 3 00000007\n" + RESET + "E\nR 04 3 = 7\n", "PCICMD2", "plain", "returned by the function reset that ended at line 3"),
            (RESET + "R 04 3 = 0\n", "PCICMD2", "busy", "a function reset is under way since line 1"),
            ("W D4 1 00000003\nR D4 1 = 0\n", "PMCS", "power", "written by line 1"),
            ("R 60 4 = 0\n", "MSAC", "size code", "default since the start"),
            ("R 34 1 = D0\n", "CAPPOINT", "computed", "CAPL"),
            ("R A8 1 = 1\n", "AFCTL", "reset start", "default since the start"),
            ("W D4 1 00000001\nR D4 1 = 1\n", "PMCS", "power", "default since the start"),
            ("W 60 4 00040000\nR 60 4 = 00040000\n", "MSAC", "size code", "default since the start"),
            ("W 60 4 00060000\nP\nR 60 4 = 00060000\n", "MSAC", "size code", "default since the platform reset at line 2"),
            ("W 60 4 00060000\nR 18 F = 1000000C\n", "GMADR", "read-only by the size code", "cleared by line 1"),
            ("W 60 4 00000000\nW 18 F 10000000\nR 18 F = 0000000C\n", "GMADR", "plain", "written by line 2"),
            ("W 60 4 00020000\nW 18 F 18000000\nR 18 F = 1800000C\n", "GMADR", "read-only by the size code", "cleared by line 1"),
            ("W D4 1 00000003\n" + RESET + "E\nR D4 1 = 3\n", "PMCS", "power", "returned by the function reset that ended at line 3"),
            ("W 7C 8 01000000\nR 34 1 = 90\n", "CAPPOINT", "computed", "written by line 1"),
            ("W 3C 1 00000002\nW 3C 2 0000FF00\nR 3C 1 = 0\n", "INTRLINE", "plain", "written by line 1"),
            (RESET + "W 3C 1 00000002\nE\nR 3C 1 = 2\n", "INTRLINE", "plain", "default since the start"),
            ("F 00001152\nV 004094 F 00000000\nU 004094 F = 00001153\n", "FAULT_REG", "fault, given by the host", "cleared by line 2"),
            ("F 00001152\nF 00004008\nU 004094 F = 00004009\n", "FAULT_REG", "fault, given by the host", "host update at line 1"),
            ("O 0CF8 4 80001000\nI 0CF8 4 = 80001100\n", "latch", "plain", "written by line 1"),
        ):
            with self.subTest(log):
                said = self.decided(log, register)
                self.assertEqual(kind, said[0])
                self.assertIn(decided, said[1])


class Forms(Log):
    """The forms of a log, told apart by looking or by --format."""

    TRACE = "write 0xcf8 4 0x8000102c\nwrite 0xcfc 4 0xabcd1234\nread 0xcfc 4 0xabcd1234\nread 0xcfe 2 0xffffabcd\n"
    SETPCI = "2c.w=1234\n2e.w=abcd\n2c.w -> 1234\n2e.w -> abcd\nsetpci -s 00:02.0 04.b=7\nCOMMAND -> 0007\n"

    def test_traces(self):
        self.assertEqual(2, self.report(self.TRACE, 0)["reads"])
        self.report(self.TRACE, 0, "--format", "trace")
        self.report(self.TRACE.replace("0xabcd1234\nread", "0xabcd1235\nread", 1), 1)

    def test_a_trace_of_qemu(self):
        row = "1234@1699999999.123456:memory_region_ops_{} cpu 0 mr 0x55d0c1e0 addr 0x{:x} value 0x{:x} size {} name 'pci-conf'\n"
        log = row.format("write", 0xCF8, 0x80001000, 4) + row.format("read", 0xFEE00020, 1, 4) + row.format("read", 0xCFC, 0x8086, 2)
        self.assertEqual(1, self.report(log, 0)["reads"])

    def test_setpci(self):
        self.assertEqual(3, self.report(self.SETPCI, 0)["reads"])
        self.report(self.SETPCI, 0, "--format", "setpci")
        self.assertEqual([(4, "failure")], self.kinds(self.SETPCI.replace("-> abcd", "-> abce"), 1))

    def test_lines_as_people_write_them(self):
        log = "\ufeffw 2c f 0xABCD1234   # closes both\r\n\r\n# a comment\r\n  r\t2c f  =  abcd1234\r\nr SVID2 3 = 0x1234"
        self.assertEqual(2, self.report(log, 0)["reads"])
        self.report(log, 0, "--format", "lines")

    def test_all_in_one(self):
        self.assertEqual(7, self.report("R 00 3 = 8086\n" + self.TRACE + "P\n" + self.SETPCI + "R 00 3 = 8086\n", 0)["reads"])

    def test_a_form_that_was_named_is_held_to(self):
        for form, log in (("lines", self.TRACE), ("trace", self.SETPCI), ("setpci", "R 00 F = 01528086\n")):
            self.refused(self.check(log, "--format", form), "board.log:1: ")
        self.refused(self.check("", "--format", "none"))

    def test_standard_input(self):
        self.assertStatus(0, twin("check", "-", given="R 00 F = 01528086\n"))
        self.assertStatus(1, twin("check", "--json", "-", given="R 00 F = 0\n"))

    def test_a_recorded_boot(self):
        # QEMU's own function is another device: differences, and no trouble in reading
        self.assertStatus(3, twin("check", "tests/data/seabios-linux.console"))


class Outputs(Log):
    BROKEN = "W 2C 3 00001234\nR 2C 3 = FFFF1234\n" + RESET + "E\nW 2C 3 0000FFFF\nR 2C 3 = FFFFFFFF\nR 00 F = 01668086\n"

    def test_json(self):
        report = self.report(self.BROKEN, 1)
        self.assertEqual(7, report["lines"])
        self.assertEqual([6, 7], [one["line"] for one in report["differences"]])
        self.assertEqual(["failure", "note"], [one["kind"] for one in report["differences"]])
        first = report["differences"][0]
        self.assertEqual(("FFFFFFFF", "FFFF1234", "R 2C 3"), (first["board"], first["twin"], first["text"]))
        self.assertEqual(("SVID2", "15:0"), (first["bits"][0]["register"], first["bits"][0]["bits"]))
        self.assertEqual(["failed", "not tested", "not tested"], [lock["verdict"] for lock in report["locks"][:3]])
        self.assertEqual(1, report["locks"][0]["closed_at"])
        self.assertIsNone(report["locks"][1]["closed_at"])

    def test_json_has_a_log_with_any_name(self):
        done = self.check("R 00 F = 01528086\n", "--json", name='a"b\\c<d>.log')
        self.assertEqual('a"b\\c<d>.log', os.path.basename(done.json["log"]))

    def test_junit(self):
        path = os.path.join(self.room, "junit.xml")
        self.assertStatus(1, self.check(self.BROKEN, "--junit", path, name="a&b<c>.log"))
        suites = xml.parse(path).getroot()
        suite = suites if suites.tag == "testsuite" else suites.find("testsuite")
        found = {case.get("name"): case for case in suite.iter("testcase")}
        self.assertTrue({"SVID2", "SID2", "SWSCI.15", "reads"} <= set(found), set(found))
        self.assertIsNotNone(found["SVID2"].find("failure"))
        self.assertIsNotNone(found["SID2"].find("skipped"))
        self.assertEqual(len(found), int(suite.get("tests")))
        self.assertEqual(sum(1 for case in found.values() if case.find("failure") is not None), int(suite.get("failures")))
        self.assertEqual(sum(1 for case in found.values() if case.find("skipped") is not None), int(suite.get("skipped")))

    def test_junit_of_a_good_board(self):
        path = os.path.join(self.room, "junit.xml")
        self.assertStatus(0, self.check("R 00 F = 01528086\n", "--junit", path))
        self.assertEqual([], list(xml.parse(path).getroot().iter("failure")))

    def test_a_log_that_cannot_be_read_is_told_in_every_form(self):
        path = os.path.join(self.room, "junit.xml")
        page = self.put("page.html", "an earlier run's")
        done = self.check(self.BROKEN + "nonsense\n", "--json", "--junit", path, "--html", page)
        self.refused(done, "board.log:8: ")
        self.assertEqual(2, done.json["status"])
        self.assertIn("board.log:8", done.json["error"])
        self.assertEqual(1, len(list(xml.parse(path).getroot().iter("error"))))
        with open(page) as file:
            self.assertNotIn("an earlier run's", file.read())

    def test_a_log_is_not_written_over(self):
        for option in ("--html", "--junit"):
            path = self.put("board.log", self.BROKEN)
            self.refused(quick("check", option, path, path), "board.log")
            with open(path) as file:
                self.assertEqual(self.BROKEN, file.read())

    def test_one_log_for_a_page_or_a_line(self):
        path = self.put("board.log", self.BROKEN)
        for words in (["--html", os.path.join(self.room, "x.html")], ["--explain", 2]):
            self.refused(quick("check", *words, path, path))

    def test_twenty_differences_are_written(self):
        log = "R 00 F = 0\n" * 50
        self.assertEqual(20, self.check(log).out.count("board 00000000"))
        self.assertRegex(self.check(log).out, r"30 more.*--all")
        self.assertEqual(50, self.check(log, "--all").out.count("board 00000000"))
        self.assertEqual(50, len(self.report(log, 1)["differences"]))

    def test_quiet(self):
        out = self.check(self.BROKEN, "--quiet").out
        self.assertNotIn("board FFFFFFFF", out)
        self.assertRegex(out, r"(?m)^\[FAILED\] +SVID2")

    def test_explain(self):
        for line, words in ((1, ("W 2C 3 00001234", "SVID2")), (2, ("R 2C 3", "FFFF1234", "SVID2")), (6, ("FFFFFFFF", "FFFF1234", "closed", "locked")), (7, ("DID2", "host"))):
            done = self.check(self.BROKEN, "--explain", line)
            self.assertNotIn("Traceback", done.err)
            for word in words:
                self.assertIn(word, done.out, str(done))
        self.refused(self.check(self.BROKEN, "--explain", 900))
        self.refused(self.check(self.BROKEN, "--explain", "x"))
        # it plays up to that line only: what stands behind it is not read
        self.assertIn("SVID2", self.check(self.BROKEN + "nonsense\n", "--explain", 2).out)


class ManyBoards(Log):
    def boards(self):
        self.put("boards/good.log", "R 00 F = 01528086\n")
        self.put("boards/broken.log", Outputs.BROKEN)
        self.put("boards/below/none.session", "W 2C 3 00001234\n")
        self.put("boards/notes.txt", "no log\n")
        return os.path.join(self.room, "boards")

    def test_a_table_and_one_status(self):
        done = twin("check", "--jobs", 2, self.boards())
        self.assertStatus(1, done)
        for name in ("good.log", "broken.log", "none.session"):
            self.assertIn(name, done.out)
        self.assertNotIn("notes.txt", done.out)
        names = [line.split()[0] for line in done.lines if line.startswith(self.room)]
        self.assertEqual((3, sorted(names)), (len(names), names))
        row = next(line for line in done.lines if "broken.log" in line)
        self.assertRegex(row, r"FAILED|failed")

    def test_the_worst_counts(self):
        folder = self.boards()
        good, broken, none = (os.path.join(folder, name) for name in ("good.log", "broken.log", "below/none.session"))
        bad = self.put("bad.log", "nonsense\n")
        for files, status in (((good, good), 0), ((good, none), 3), ((none, broken), 1), ((broken, bad), 2), ((good, os.path.join(folder, "gone.log")), 2)):
            with self.subTest(status):
                self.assertStatus(status, twin("check", *files))

    def test_a_bad_board_does_not_stop_the_others(self):
        bad = self.put("bad.log", "nonsense\n")
        done = twin("check", "--jobs", 2, bad, self.boards())
        self.assertStatus(2, done)
        for name in ("bad.log", "good.log", "broken.log"):
            self.assertIn(name, done.out)
        self.assertIn("bad.log:1", done.out + done.err)

    def test_as_many_workers_as_one_likes(self):
        folder = self.boards()
        said = [twin("check", "--jobs", jobs, folder).out for jobs in (1, 2, 9)]
        self.assertEqual([said[0]] * 3, said)

    def test_a_folder_without_logs(self):
        os.mkdir(os.path.join(self.room, "empty"))
        self.refused(twin("check", "--jobs", 2, os.path.join(self.room, "empty")), "empty")
        self.refused(twin("check", "--jobs", 0, self.boards()))

    def test_by_gnu_parallel(self):
        if not shutil.which("parallel"):
            self.skipTest("GNU parallel is not here")
        folder = self.boards()
        files = "\n".join(os.path.join(folder, name) for name in ("good.log", "broken.log")) + "\n"
        done = run(["parallel", "--will-cite", "-j", "2", "--keep-order", *TWIN, "check", "--json", "--quiet", "{}"], files)
        self.assertEqual(1, done.status, str(done))
        found = [json.loads(part)["status"] for part in done.out.replace("}\n{", "}\0{").split("\0")]
        self.assertEqual([0, 1], found)


class Large(Test):
    """A hundred thousand lines: memory stays as it is for a few thousand."""

    def memory(self, words, status, complaints=subprocess.PIPE):
        """The most memory that a run held, itself or a child of it, in KiB."""
        child = subprocess.Popen(words, cwd=TOP, stdin=subprocess.DEVNULL, stdout=subprocess.DEVNULL, stderr=complaints)
        complaint = child.stderr.read() if child.stderr else b""
        _, code, usage = os.wait4(child.pid, 0)
        child.returncode = os.waitstatus_to_exitcode(code)
        if child.stderr:
            child.stderr.close()
        self.assertEqual(status, child.returncode, complaint)
        return usage.ru_maxrss

    def test_a_line_tells_how_far_it_is_on_a_terminal(self):
        path = self.put("long.log", "R 00 F = 01528086\n" * 60000)
        terminal, side = pty.openpty()
        try:
            self.memory(TWIN + ["check", "--quiet", path], 0, side)
            os.set_blocking(terminal, False)
            said = os.read(terminal, 100000).decode()
        finally:
            os.close(terminal)
            os.close(side)
        self.assertRegex(said, r"\r  [2-6]0,000 lines, ")
        # and it is taken away at the end
        self.assertRegex(said, r"\r\x1b\[K$")

    def test_constant_memory(self):
        session = made(3, 20000)
        # a lock that fails at the start, so that differences, notes and events go on for long
        log = log_of(session, "lanes-ignored")
        few, many = self.put("few.log", log), self.put("many.log", log * 6)
        html, junit = os.path.join(self.room, "page.html"), os.path.join(self.room, "junit.xml")
        for words in (["--json"], ["--html", html, "--junit", junit]):
            small, large = (self.memory(TWIN + ["check", *words, path], 1) for path in (few, many))
            self.assertLess(large, 120 * 1024)
            self.assertLess(large - small, 8 * 1024, f"{small} KiB for 20,000 lines, {large} KiB for six times as many")

    def test_run_too(self):
        session = made(4, 20000, "player")
        log = log_of(session)
        few, many = self.put("few.log", log), self.put("many.log", log * 6)
        small, large = (self.memory(TWIN + ["run", path], 0) for path in (few, many))
        self.assertLess(large - small, 12 * 1024)
