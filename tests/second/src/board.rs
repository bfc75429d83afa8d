//! Boards: what a board answers to console lines, as this program's twin has
//! it, or with one fault of a kind that a reviewer looks for.
//!
//! A fault stands around the twin, which stays as it is: it changes a command
//! before it is carried out, or the state behind it, as a record.

use crate::line::{self, Answer, Command, Mode};
use crate::refusal::Refusal;
use crate::twin::{Record, Twin};
use crate::window::Register;

const DID2: usize = 0x02;
const GMADR: usize = 0x18;
const SVID2: usize = 0x2C;
const CAPPOINT: u32 = 0x34;
const MSAC: usize = 0x62;
const CAPL: usize = 0x7F;
const PMCS: usize = 0xD4;

const ADDRESS_PORT: u16 = 0xCF8;
const DATA_PORT: u16 = 0xCFC;

/// A way in which a board can be wrong.
#[derive(Clone, Copy, Debug, PartialEq, Eq)]
pub enum Fault {
    Svid2Reopened,
    Sid2Reopened,
    Swsci15Reopened,
    Svid2Returned,
    LocksKept,
    ClosesByBytes,
    SecondWriteOpens,
    LanesIgnored,
    LanesIgnoredAt2C,
    PmcsStores01,
    SizeCode10,
    ApertureKept,
    FBitsKept,
    Did2Written,
    CappointFixed,
    BusyZeros,
    BusyWrites,
    ResetAtOnce,
    LatchLowBits,
    PortPlace,
    FaultOverwritten,
    RequestUnmasked,
}

/// Every fault by the name that is asked for, and in words.
#[rustfmt::skip]
pub const FAULTS: &[(Fault, &str, &str)] = &[
    (Fault::Svid2Reopened, "svid2-reopened", "a function reset reopens SVID2"),
    (Fault::Sid2Reopened, "sid2-reopened", "a function reset reopens SID2"),
    (Fault::Swsci15Reopened, "swsci15-reopened", "a function reset reopens SWSCI bit 15"),
    (Fault::Svid2Returned, "svid2-returned", "a function reset returns SVID2 to its default; it stays closed"),
    (Fault::LocksKept, "locks-kept", "a platform reset leaves SVID2 and SID2 closed, with their values"),
    (Fault::ClosesByBytes, "closes-by-bytes", "SVID2 and SID2 close byte by byte"),
    (Fault::SecondWriteOpens, "second-write-opens", "a second write of the same value opens SVID2"),
    (Fault::LanesIgnored, "lanes-ignored", "a guest write stores all four bytes, whatever its lanes"),
    (Fault::LanesIgnoredAt2C, "lanes-ignored-at-2c", "the same at 2C alone"),
    (Fault::PmcsStores01, "pmcs-stores-01", "PMCS stores 01"),
    (Fault::SizeCode10, "size-code-10", "MSAC stores size code 10"),
    (Fault::ApertureKept, "aperture-kept", "a write to MSAC leaves the aperture bits that its code takes"),
    (Fault::FBitsKept, "f-bits-kept", "a function reset returns no bit to default"),
    (Fault::Did2Written, "did2-written", "a guest write changes DID2"),
    (Fault::CappointFixed, "cappoint-fixed", "CAPPOINT reads 90 whatever CAPL says"),
    (Fault::BusyZeros, "busy-zeros", "reads give zeros while a function reset is under way"),
    (Fault::BusyWrites, "busy-writes", "guest writes are taken while a function reset is under way"),
    (Fault::ResetAtOnce, "reset-at-once", "a function reset ends within the write that starts it"),
    (Fault::LatchLowBits, "latch-low-bits", "the latch keeps bits 1:0"),
    (Fault::PortPlace, "port-place", "a read of the data port starts at the dword's first byte, whatever the port"),
    (Fault::FaultOverwritten, "fault-overwritten", "a later fault word replaces the one that FAULT_REG holds"),
    (Fault::RequestUnmasked, "request-unmasked", "ASSRREQ's bits are set without their mask bits"),
];

impl Fault {
    /// The fault of that name.
    pub fn named(name: &str) -> Option<Fault> {
        FAULTS
            .iter()
            .find(|(_, known, _)| *known == name)
            .map(|(fault, _, _)| *fault)
    }
}

/// A guest write of a dword's enabled bytes, direct or through the data port.
#[derive(Clone, Copy)]
struct GuestWrite {
    offset: u32,
    lanes: u32,
    value: u32,
}

impl GuestWrite {
    /// What is written to byte `at`, if it is enabled.
    fn byte(self, at: usize) -> Option<u8> {
        let lane = at.checked_sub(self.offset as usize)?;
        let enabled = lane < 4 && self.lanes >> lane & 1 == 1;
        enabled.then(|| self.value.to_le_bytes()[lane])
    }
}

/// A board in the middle of a session.
pub struct Board {
    twin: Twin,
    fault: Option<Fault>,
    /// The lanes of the dword at 2C that are closed by themselves, for the
    /// fault that closes byte by byte.
    shut: u32,
}

impl Board {
    /// A board in its fresh state, faithful or with a fault.
    pub fn fresh(fault: Option<Fault>) -> Board {
        let twin = Twin::fresh();
        Board {
            twin,
            fault,
            shut: 0,
        }
    }

    /// The log's line of a console line: what it says, and behind a line that
    /// asks the board's answer. A line of no form, and an access that no bus
    /// has (an odd width, an offset that is no dword's), a board never saw.
    pub fn log(&mut self, line: &[u8]) -> Option<String> {
        let command = line::parse(line, Mode::Console)?;
        let answer = self.answer(command);
        if matches!(
            answer,
            Answer::Refused(
                Refusal::Width | Refusal::Offset | Refusal::Lanes | Refusal::WindowOffset
            )
        ) {
            return None;
        }
        let line = String::from_utf8_lossy(line);
        Some(if asks(command) {
            let told = heard(command, answer).to_string();
            format!("{line} = {}", told.strip_prefix("OK ").unwrap_or(&told))
        } else {
            line.into_owned()
        })
    }

    /// Carries out a command, with the board's fault.
    pub fn answer(&mut self, command: Command) -> Answer {
        use Fault::*;
        let fault = match self.fault {
            Some(fault) => fault,
            None => return self.right(command),
        };
        match fault {
            Svid2Reopened => self.at_an_end(command, |_, after| after.closed[0] = 0),
            Sid2Reopened => self.at_an_end(command, |_, after| after.closed[1] = 0),
            Swsci15Reopened => self.at_an_end(command, |_, after| after.closed[2] = 0),
            Svid2Returned => self.at_an_end(command, |_, after| {
                after.bytes[SVID2..SVID2 + 2].fill(0);
            }),
            FBitsKept => self.at_an_end(command, |before, after| after.bytes = before.bytes),
            LocksKept => self.locks_kept(command),
            ClosesByBytes => self.closes_by_bytes(command),
            SecondWriteOpens => self.after_a_write(command, second_write_opens),
            LanesIgnored => self.written_as(command, all_lanes),
            LanesIgnoredAt2C => self.written_as(command, |write| {
                let here = write.offset as usize == SVID2;
                if here {
                    all_lanes(write)
                } else {
                    write
                }
            }),
            PmcsStores01 => self.after_a_write(command, pmcs_stores_01),
            SizeCode10 => self.after_a_write(command, size_code_10),
            ApertureKept => self.after_a_write(command, aperture_kept),
            Did2Written => self.after_a_write(command, did2_written),
            CappointFixed => self.cappoint_fixed(command),
            BusyZeros => self.busy_zeros(command),
            BusyWrites => self.busy_writes(command),
            ResetAtOnce => {
                let answer = self.right(command);
                self.twin.end_signal();
                answer
            }
            LatchLowBits => self.latch_low_bits(command),
            PortPlace => self.right(from_the_first_byte(command)),
            FaultOverwritten => self.fault_overwritten(command),
            RequestUnmasked => self.right(with_its_mask(command)),
        }
    }

    /// Carries out a command as the twin does.
    fn right(&mut self, command: Command) -> Answer {
        line::perform(&mut self.twin, command)
    }

    /// Changes the state, as a record.
    fn change(&mut self, change: impl FnOnce(&mut Record)) {
        let mut record = self.twin.record();
        change(&mut record);
        self.twin = Twin::of_record(&record);
    }

    /// The guest write that a command is, if it is accepted and not dropped.
    fn guest_write(&self, command: Command) -> Option<GuestWrite> {
        let accepted = !matches!(
            line::perform(&mut self.twin.clone(), command),
            Answer::Refused(_)
        );
        if !accepted || self.twin.is_busy() {
            return None;
        }
        match command {
            Command::Write {
                offset,
                lanes,
                value,
            } => Some(GuestWrite {
                offset,
                lanes,
                value,
            }),
            Command::PortWrite { port, width, value } if port >= DATA_PORT => {
                let first_lane = u32::from(port - DATA_PORT);
                Some(GuestWrite {
                    offset: self.twin.record().latch & 0xFC,
                    lanes: ((1 << width) - 1) << first_lane,
                    value: value << (8 * first_lane),
                })
            }
            _ => None,
        }
    }
}

/// What a fault does, and when.
impl Board {
    /// Where a function reset ends, the record behind it is changed; what it
    /// was before is at hand.
    fn at_an_end(&mut self, command: Command, change: impl FnOnce(&Record, &mut Record)) -> Answer {
        let before = self.twin.record();
        let answer = self.right(command);
        if command == Command::End && before.busy != 0 {
            self.change(|after| change(&before, after));
        }
        answer
    }

    /// The record behind a guest write is changed, by that write.
    fn after_a_write(
        &mut self,
        command: Command,
        change: impl FnOnce(GuestWrite, &Record, &mut Record),
    ) -> Answer {
        let write = self.guest_write(command);
        let before = self.twin.record();
        let answer = self.right(command);
        if let Some(write) = write {
            self.change(|after| change(write, &before, after));
        }
        answer
    }

    /// Another guest write is carried out in place of one.
    fn written_as(
        &mut self,
        command: Command,
        other: impl FnOnce(GuestWrite) -> GuestWrite,
    ) -> Answer {
        match self.guest_write(command).map(other) {
            Some(GuestWrite {
                offset,
                lanes,
                value,
            }) => self.right(Command::Write {
                offset,
                lanes,
                value,
            }),
            None => self.right(command),
        }
    }

    /// What meets CAPPOINT is read in a state whose CAPL is 0.
    fn cappoint_fixed(&mut self, command: Command) -> Answer {
        let mut record = self.twin.record();
        let meets = match command {
            Command::Read { offset, .. } => offset == CAPPOINT,
            Command::PortRead { port, .. } => port >= DATA_PORT && record.latch & 0xFC == CAPPOINT,
            Command::Walk { .. } => true,
            _ => false,
        };
        if !meets {
            return self.right(command);
        }
        record.bytes[CAPL] = 0;
        line::perform(&mut Twin::of_record(&record), command)
    }

    fn locks_kept(&mut self, command: Command) -> Answer {
        let before = self.twin.record();
        let answer = self.right(command);
        if command == Command::PlatformReset {
            self.change(|after| {
                after.closed[..2].copy_from_slice(&before.closed[..2]);
                after.bytes[SVID2..SVID2 + 4].copy_from_slice(&before.bytes[SVID2..SVID2 + 4]);
            });
        }
        answer
    }

    /// Each of the four bytes from 2C on takes its own first write.
    fn closes_by_bytes(&mut self, command: Command) -> Answer {
        let shut = self.shut;
        if command == Command::PlatformReset {
            self.shut = 0;
        }
        match self.guest_write(command) {
            Some(write) if write.offset as usize == SVID2 => {
                self.shut |= write.lanes;
                self.change(|record| record.closed[..2].fill(0));
                self.written_as(command, |write| GuestWrite {
                    lanes: write.lanes & !shut,
                    ..write
                })
            }
            _ => self.right(command),
        }
    }

    fn busy_zeros(&mut self, command: Command) -> Answer {
        let answer = self.right(command);
        match (answer, command) {
            (Answer::Value(_), Command::PortRead { port, .. }) if port == ADDRESS_PORT => answer,
            (Answer::Value(_), Command::Read { lanes, .. } | Command::WindowRead { lanes, .. })
                if self.twin.is_busy() =>
            {
                Answer::Value(!bytes_of(lanes))
            }
            (Answer::Value(_), _) if self.twin.is_busy() => Answer::Value(0),
            _ => answer,
        }
    }

    /// Guest writes go on as if no function reset were under way.
    fn busy_writes(&mut self, command: Command) -> Answer {
        let writes = matches!(
            command,
            Command::Write { .. } | Command::PortWrite { .. } | Command::WindowWrite { .. }
        );
        if !writes || !self.twin.is_busy() {
            return self.right(command);
        }
        self.change(|record| record.busy = 0);
        let answer = self.right(command);
        self.change(|record| record.busy = 1);
        answer
    }

    fn latch_low_bits(&mut self, command: Command) -> Answer {
        let answer = self.right(command);
        if let (Answer::Done, Command::PortWrite { port, value, .. }) = (answer, command) {
            if port == ADDRESS_PORT {
                self.change(|record| record.latch |= value & 3);
            }
        }
        answer
    }

    fn fault_overwritten(&mut self, command: Command) -> Answer {
        let answer = self.right(command);
        if let (Answer::Done, Command::Fault { word }) = (answer, command) {
            self.change(|record| record.window[Register::FaultReg as usize] = word | 1);
        }
        answer
    }
}

/// Whether a log has the board's answer to such a line.
fn asks(command: Command) -> bool {
    matches!(
        command,
        Command::Read { .. }
            | Command::PortRead { .. }
            | Command::WindowRead { .. }
            | Command::Walk { .. }
            | Command::ClaimMemory { .. }
            | Command::ClaimPort { .. }
            | Command::Probe { .. }
    )
}

/// What a guest hears: where another function is read, or none, ones.
fn heard(command: Command, answer: Answer) -> Answer {
    match (command, answer) {
        (Command::PortRead { width, .. }, Answer::Refused(_)) => {
            Answer::Value(bytes_of((1 << width) - 1))
        }
        _ => answer,
    }
}

/// The bits of the enabled bytes.
fn bytes_of(lanes: u32) -> u32 {
    (0..4)
        .filter(|lane| lanes >> lane & 1 == 1)
        .fold(0, |bits, lane| bits | 0xFF << (8 * lane))
}

/// A write that has a lane has them all.
fn all_lanes(write: GuestWrite) -> GuestWrite {
    let lanes = if write.lanes == 0 { 0 } else { 15 };
    GuestWrite { lanes, ..write }
}

fn second_write_opens(write: GuestWrite, before: &Record, after: &mut Record) {
    let again = |at: usize| write.byte(at) == Some(before.bytes[at]);
    if before.closed[0] != 0 && again(SVID2) && again(SVID2 + 1) {
        after.closed[0] = 0;
    }
}

fn pmcs_stores_01(write: GuestWrite, _: &Record, after: &mut Record) {
    if let Some(byte) = write.byte(PMCS) {
        if byte & 3 == 1 {
            after.bytes[PMCS] = after.bytes[PMCS] & !3 | 1;
        }
    }
}

fn size_code_10(write: GuestWrite, _: &Record, after: &mut Record) {
    if let Some(byte) = write.byte(MSAC) {
        after.bytes[MSAC] = after.bytes[MSAC] & !6 | byte & 6;
    }
}

/// GMADR's bits 28:27 stay as they were.
fn aperture_kept(write: GuestWrite, before: &Record, after: &mut Record) {
    if write.byte(MSAC).is_some() {
        after.bytes[GMADR + 3] = before.bytes[GMADR + 3];
    }
}

fn did2_written(write: GuestWrite, _: &Record, after: &mut Record) {
    for at in DID2..DID2 + 2 {
        after.bytes[at] = write.byte(at).unwrap_or(after.bytes[at]);
    }
}

/// A read of the data port from the dword's first byte on.
fn from_the_first_byte(command: Command) -> Command {
    match command {
        Command::PortRead { port, width }
            if port > DATA_PORT && u32::from(port) + width <= 0xD00 =>
        {
            Command::PortRead {
                port: DATA_PORT,
                width,
            }
        }
        _ => command,
    }
}

/// A write to ASSRREQ that asks for each of its requests by the mask too.
fn with_its_mask(command: Command) -> Command {
    match command {
        Command::WindowWrite {
            offset,
            lanes,
            value,
        } if offset == Register::Assrreq.offset() => Command::WindowWrite {
            offset,
            lanes: lanes | lanes << 2 & 4,
            value: value | value << 16,
        },
        _ => command,
    }
}
