//! Faulty windows, one for each slip that is plausible: every made session of
//! the console finds every one of them.

mod common {
    pub mod lanes;
    pub mod registers;
}

use common::lanes::UNDRIVEN;
use common::registers::*;
use second::difference::lines;
use second::line::Mode::Console;
use second::line::{answer, parse, Answer, Command};
use second::refusal::Refusal;
use second::session::text;
use second::twin::{Record, Twin};

/// The register at that offset in a record.
fn index(offset: u32) -> Option<usize> {
    REGISTERS.iter().position(|register| *register == offset)
}

/// A command as a right twin carries it out, which a fault does otherwise.
struct Deed {
    before: Record,
    command: Command,
    said: Answer,
    after: Record,
}

/// What a fault looks at and changes.
impl Deed {
    fn was_busy(&self) -> bool {
        self.before.busy != 0
    }

    fn is_refused(&self) -> bool {
        matches!(self.said, Answer::Refused(_))
    }

    /// What a register held.
    fn held(&self, register: u32) -> u32 {
        self.before.window[index(register).unwrap()]
    }

    /// What a register holds now.
    fn holds(&mut self, register: u32) -> &mut u32 {
        &mut self.after.window[index(register).unwrap()]
    }

    /// Lanes and value of a write to a register that is neither refused nor
    /// dropped.
    fn write_to(&self, register: u32) -> Option<(u32, u32)> {
        match self.command {
            Command::WindowWrite {
                offset,
                lanes,
                value,
            } if offset == register && !self.was_busy() => Some((lanes, value)),
            _ => None,
        }
    }

    /// The value of such a write to ASSRREQ with lanes 0 and 2 on or off.
    fn request(&self, lane_0: bool, lane_2: bool) -> Option<u32> {
        self.write_to(ASSRREQ)
            .filter(|(lanes, _)| (lanes & 0x1 != 0, lanes & 0x4 != 0) == (lane_0, lane_2))
            .map(|(_, value)| value)
    }

    /// Lets a guest's write go into a register as into plain memory.
    fn store(&mut self, register: u32) {
        if let Some((lanes, value)) = self.write_to(register) {
            let undriven = UNDRIVEN[lanes as usize];
            *self.holds(register) = self.held(register) & undriven | value & !undriven;
        }
    }

    /// Mask and value of an update of a register that isn't refused.
    fn update_of(&self, register: u32) -> Option<(u32, u32)> {
        match self.command {
            Command::MirrorUpdate {
                offset,
                mask,
                value,
            } if offset == register && !self.is_refused() => Some((mask, value)),
            _ => None,
        }
    }

    /// A fault word that isn't refused.
    fn fault(&self) -> Option<u32> {
        match self.command {
            Command::Fault { word } if !self.is_refused() => Some(word),
            _ => None,
        }
    }

    /// A completion that isn't refused.
    fn completion(&self) -> Option<u32> {
        match self.command {
            Command::Complete { mask } if !self.is_refused() => Some(mask),
            _ => None,
        }
    }

    /// The lanes of a read, and what it gives.
    fn read(&self) -> Option<(u32, u32)> {
        match (self.command, self.said) {
            (Command::WindowRead { lanes, .. }, Answer::Value(value)) => Some((lanes, value)),
            _ => None,
        }
    }

    /// The offset of a read that gives something, and what it gives, if the
    /// function isn't busy.
    fn read_at(&self) -> Option<(u32, u32)> {
        match (self.command, self.said) {
            (Command::WindowRead { offset, .. }, Answer::Value(value)) if !self.was_busy() => {
                Some((offset, value))
            }
            _ => None,
        }
    }

    /// Does another command instead, from another state.
    fn do_instead(&mut self, before: Record, command: Command) {
        let mut twin = Twin::of_record(&before);
        self.said = match command {
            Command::WindowWrite {
                offset,
                lanes,
                value,
            } => twin.window_write(offset, lanes, value).into(),
            Command::WindowRead { offset, lanes } => twin.window_read(offset, lanes).into(),
            Command::MirrorUpdate {
                offset,
                mask,
                value,
            } => twin.mirror_update(offset, mask, value).into(),
            _ => return,
        };
        self.after.window = twin.record().window;
    }

    /// The offset that a command names in the window.
    fn offset(&self) -> Option<u32> {
        use Command::{MirrorUpdate, WindowRead, WindowWrite};
        match self.command {
            WindowRead { offset, .. } | WindowWrite { offset, .. } => Some(offset),
            MirrorUpdate { offset, .. } => Some(offset),
            _ => None,
        }
    }

    /// Goes to another offset than the one given.
    fn go_to(&mut self, other: fn(u32) -> u32) {
        let command = match self.command {
            Command::WindowWrite {
                offset,
                lanes,
                value,
            } => Command::WindowWrite {
                offset: other(offset),
                lanes,
                value,
            },
            Command::WindowRead { offset, lanes } => Command::WindowRead {
                offset: other(offset),
                lanes,
            },
            Command::MirrorUpdate {
                offset,
                mask,
                value,
            } => Command::MirrorUpdate {
                offset: other(offset),
                mask,
                value,
            },
            _ => return,
        };
        self.do_instead(self.before, command);
    }

    /// Whether it is the host's and concerns the window.
    fn is_the_hosts(&self) -> bool {
        use Command::{AddCycles, Complete, Fault, MirrorUpdate};
        matches!(
            self.command,
            AddCycles { .. } | Complete { .. } | Fault { .. } | MirrorUpdate { .. }
        )
    }
}

/// A fault by its name.
type Fault = (&'static str, fn(&mut Deed));

const REQUESTS: &[Fault] = &[
    ("a request without its mask bit", |deed| {
        if let Some(value) = deed.request(true, true) {
            *deed.holds(ASSRREQ) |= value & 0xF;
        }
    }),
    ("a request by its mask bit alone", |deed| {
        if let Some(value) = deed.request(true, true) {
            *deed.holds(ASSRREQ) |= value >> 16 & 0xF;
        }
    }),
    ("a request though its mask's lane is off", |deed| {
        if let Some(value) = deed.request(true, false) {
            *deed.holds(ASSRREQ) |= value & value >> 16 & 0xF;
        }
    }),
    ("a request though its own lane is off", |deed| {
        if let Some(value) = deed.request(false, true) {
            *deed.holds(ASSRREQ) |= value & value >> 16 & 0xF;
        }
    }),
    ("no request unless all lanes are on", |deed| {
        if let Some((0x0..=0xE, _)) = deed.write_to(ASSRREQ) {
            *deed.holds(ASSRREQ) = deed.held(ASSRREQ);
        }
    }),
    ("a request cleared by a zero under its mask bit", |deed| {
        if let Some(value) = deed.request(true, true) {
            *deed.holds(ASSRREQ) &= !(value >> 16 & !value);
        }
    }),
    ("a request cleared by a one", |deed| {
        if let Some(value) = deed.request(true, true) {
            *deed.holds(ASSRREQ) = deed.held(ASSRREQ) ^ value & value >> 16 & 0xF;
        }
    }),
    ("requests above bit 3", |deed| {
        if let Some((0xF, value)) = deed.write_to(ASSRREQ) {
            *deed.holds(ASSRREQ) |= value & value >> 16;
        }
    }),
    ("a mask that reads back", |deed| {
        if let Some((0xF, value)) = deed.write_to(ASSRREQ) {
            *deed.holds(ASSRREQ) = *deed.holds(ASSRREQ) & 0xFFFF | value & 0xFFFF_0000;
        }
        if let Some((ASSRREQ, value)) = deed.read_at() {
            deed.said = Answer::Value(value | deed.held(ASSRREQ) & 0xFFFF_0000);
        }
    }),
    ("a completion of all requests", |deed| {
        if deed.completion().is_some() {
            *deed.holds(ASSRREQ) = 0;
        }
    }),
    ("a completion that completes nothing", |deed| {
        if deed.completion().is_some() {
            *deed.holds(ASSRREQ) = deed.held(ASSRREQ);
        }
    }),
    ("a completion that makes requests", |deed| {
        if let Some(mask) = deed.completion() {
            *deed.holds(ASSRREQ) |= mask;
        }
    }),
    ("a completion with other bits, accepted", |deed| {
        if let Command::Complete { mask } = deed.command {
            deed.said = Answer::Done;
            *deed.holds(ASSRREQ) &= !mask;
        }
    }),
];

const FAULTS: &[Fault] = &[
    ("a second fault that overwrites", |deed| {
        if let Some(word) = deed.fault() {
            *deed.holds(FAULT_REG) = word | 1;
        }
    }),
    ("a second fault that adds its bits", |deed| {
        if let Some(word) = deed.fault() {
            *deed.holds(FAULT_REG) |= word;
        }
    }),
    ("a second fault, refused", |deed| {
        if deed.fault().is_some() && deed.held(FAULT_REG) & 1 == 1 {
            deed.said = Answer::Refused(Refusal::NotHost);
        }
    }),
    ("a fault without its valid bit", |deed| {
        if deed.fault().is_some() && deed.held(FAULT_REG) & 1 == 0 {
            *deed.holds(FAULT_REG) &= !1;
        }
    }),
    ("a word of zeros as no fault", |deed| {
        if deed.fault() == Some(0) {
            *deed.holds(FAULT_REG) = deed.held(FAULT_REG);
        }
    }),
    ("a bad word accepted over a held fault", |deed| {
        if matches!(deed.command, Command::Fault { .. }) && deed.held(FAULT_REG) & 1 == 1 {
            deed.said = Answer::Done;
        }
    }),
    ("a bad word, stored under the mask", |deed| {
        if let Command::Fault { word } = deed.command {
            deed.said = Answer::Done;
            if deed.held(FAULT_REG) & 1 == 0 {
                *deed.holds(FAULT_REG) = word & 0x77FE | 1;
            }
        }
    }),
    ("a word with the valid bit, accepted", |deed| {
        if let Command::Fault { word } = deed.command {
            if word & !0x77FF == 0 {
                deed.said = Answer::Done;
            }
        }
    }),
    ("a clear though its lane is off", |deed| {
        if let Some((_, value)) = deed.write_to(FAULT_REG) {
            if value & 1 == 0 {
                *deed.holds(FAULT_REG) = 0;
            }
        }
    }),
    ("a clear by any write to its lane", |deed| {
        if let Some((lanes, _)) = deed.write_to(FAULT_REG) {
            if lanes & 1 == 1 {
                *deed.holds(FAULT_REG) = 0;
            }
        }
    }),
    ("a clear by a one", |deed| {
        if let Some((lanes, value)) = deed.write_to(FAULT_REG) {
            *deed.holds(FAULT_REG) = if lanes & value & 1 == 1 {
                0
            } else {
                deed.held(FAULT_REG)
            };
        }
    }),
    ("a clear of the valid bit alone", |deed| {
        if deed.write_to(FAULT_REG).is_some() && *deed.holds(FAULT_REG) == 0 {
            *deed.holds(FAULT_REG) = deed.held(FAULT_REG) & !1;
        }
    }),
    ("a clear of the enabled lanes alone", |deed| {
        if let Some((lanes, _)) = deed.write_to(FAULT_REG) {
            if *deed.holds(FAULT_REG) == 0 {
                *deed.holds(FAULT_REG) = deed.held(FAULT_REG) & UNDRIVEN[lanes as usize];
            }
        }
    }),
    ("a fault of the guest's making", |deed| {
        deed.store(FAULT_REG);
    }),
];

const CYCLES: &[Fault] = &[
    ("a sum that stops at the top", |deed| {
        if let Command::AddCycles { count } = deed.command {
            *deed.holds(CYCLE_SUM) = deed.held(CYCLE_SUM).saturating_add(count);
        }
    }),
    ("a sum whose carry comes in below", |deed| {
        if let Command::AddCycles { count } = deed.command {
            let (_, carry) = deed.held(CYCLE_SUM).overflowing_add(count);
            *deed.holds(CYCLE_SUM) += u32::from(carry);
        }
    }),
    ("a sum that never wraps", |deed| {
        if let Command::AddCycles { count } = deed.command {
            if deed.held(CYCLE_SUM).checked_add(count).is_none() {
                *deed.holds(CYCLE_SUM) = deed.held(CYCLE_SUM);
            }
        }
    }),
    ("a count in the sum's place", |deed| {
        if let Command::AddCycles { count } = deed.command {
            *deed.holds(CYCLE_SUM) = count;
        }
    }),
    ("a sum that a guest writes", |deed| deed.store(CYCLE_SUM)),
    ("a sum that a guest clears", |deed| {
        if deed.write_to(CYCLE_SUM).is_some() {
            *deed.holds(CYCLE_SUM) = 0;
        }
    }),
];

const MIRRORS: &[Fault] = &[
    ("MTOUUD written by the guest", |deed| deed.store(MTOUUD)),
    ("its high dword written by the guest", |deed| {
        deed.store(MTOUUD_HIGH);
    }),
    ("MBDSM written by the guest", |deed| deed.store(MBDSM)),
    ("a mirror updated as a whole", |deed| {
        for mirror in [MTOUUD, MTOUUD_HIGH, MBDSM] {
            if let Some((_, value)) = deed.update_of(mirror) {
                *deed.holds(mirror) = value;
            }
        }
    }),
    ("a mirror whose ones stay", |deed| {
        for mirror in [MTOUUD, MTOUUD_HIGH, MBDSM] {
            if deed.update_of(mirror).is_some() {
                *deed.holds(mirror) |= deed.held(mirror);
            }
        }
    }),
    ("MBDSM in MTOUUD's place", |deed| {
        if deed.update_of(MTOUUD).is_some() {
            *deed.holds(MBDSM) = *deed.holds(MTOUUD);
        }
    }),
    ("other bits of a mirror dropped", |deed| {
        if let Command::MirrorUpdate { offset, mask, .. } = deed.command {
            if mask != 0 && [MTOUUD, MTOUUD_HIGH, MBDSM].contains(&offset) {
                deed.said = Answer::Done;
            }
        }
    }),
    ("the high dword with the low one's mask", |deed| {
        if let Command::MirrorUpdate {
            offset: MTOUUD_HIGH,
            mask,
            ..
        } = deed.command
        {
            deed.said = if mask & !0xFFF0_0001 == 0 {
                Answer::Done
            } else {
                Answer::Refused(Refusal::NotHost)
            };
        }
    }),
    ("no update where there is no mirror", |deed| {
        if let Command::MirrorUpdate {
            offset, mask: 0, ..
        } = deed.command
        {
            if index(offset).is_none() && deed.said == Answer::Done {
                deed.said = Answer::Refused(Refusal::NotHost);
            }
        }
    }),
    ("an update where there is no mirror", |deed| {
        if let Command::MirrorUpdate { offset, .. } = deed.command {
            if index(offset).is_none() && deed.said == Answer::Refused(Refusal::NotHost) {
                deed.said = Answer::Done;
            }
        }
    }),
    ("an update of the cycle sum", |deed| {
        if let Command::MirrorUpdate {
            offset: CYCLE_SUM, ..
        } = deed.command
        {
            deed.said = Answer::Done;
        }
    }),
    ("7 before 16", |deed| {
        if let Command::MirrorUpdate { mask, .. } = deed.command {
            if mask != 0 && deed.said == Answer::Refused(Refusal::WindowOffset) {
                deed.said = Answer::Refused(Refusal::NotHost);
            }
        }
    }),
];

const RESETS: &[Fault] = &[
    ("a function reset's start that clears", |deed| {
        if deed.after.busy != 0 && !deed.was_busy() {
            deed.after.window = [0; 6];
        }
    }),
    ("a function reset's end that clears", |deed| {
        if deed.command == Command::End && deed.was_busy() {
            deed.after.window = [0; 6];
        }
    }),
    ("an end signal that clears requests", |deed| {
        if deed.command == Command::End {
            *deed.holds(ASSRREQ) = 0;
        }
    }),
    ("a platform reset that leaves it", |deed| {
        if deed.command == Command::PlatformReset {
            deed.after.window = deed.before.window;
        }
    }),
    ("a platform reset that leaves the fault", |deed| {
        if deed.command == Command::PlatformReset {
            *deed.holds(FAULT_REG) = deed.held(FAULT_REG);
        }
    }),
    ("a platform reset that leaves the mirrors", |deed| {
        if deed.command == Command::PlatformReset {
            for mirror in [MTOUUD, MTOUUD_HIGH, MBDSM] {
                *deed.holds(mirror) = deed.held(mirror);
            }
        }
    }),
];

const BUSY: &[Fault] = &[
    ("zeros while busy", |deed| {
        if let (true, Some((lanes, _))) = (deed.was_busy(), deed.read()) {
            deed.said = Answer::Value(UNDRIVEN[lanes as usize]);
        }
    }),
    ("what is held while busy", |deed| {
        if deed.was_busy() && deed.read().is_some() {
            let awake = Record {
                busy: 0,
                ..deed.before
            };
            deed.do_instead(awake, deed.command);
        }
    }),
    ("lanes that aren't enabled as zeros while busy", |deed| {
        if let (true, Some((lanes, value))) = (deed.was_busy(), deed.read()) {
            deed.said = Answer::Value(value & !UNDRIVEN[lanes as usize]);
        }
    }),
    ("a write that isn't dropped while busy", |deed| {
        if deed.was_busy() && matches!(deed.command, Command::WindowWrite { .. }) {
            let awake = Record {
                busy: 0,
                ..deed.before
            };
            deed.do_instead(awake, deed.command);
        }
    }),
    ("a bad read accepted while busy", |deed| {
        if deed.was_busy() && matches!(deed.command, Command::WindowRead { .. }) {
            deed.said = Answer::Value(u32::MAX);
        }
    }),
    ("a bad write accepted while busy", |deed| {
        if deed.was_busy() && matches!(deed.command, Command::WindowWrite { .. }) {
            deed.said = Answer::Done;
        }
    }),
    ("no completion while busy", |deed| {
        if deed.was_busy() && deed.completion().is_some() {
            *deed.holds(ASSRREQ) = deed.held(ASSRREQ);
        }
    }),
    ("no fault while busy", |deed| {
        if deed.was_busy() && deed.fault().is_some() {
            *deed.holds(FAULT_REG) = deed.held(FAULT_REG);
        }
    }),
    ("no cycles while busy", |deed| {
        if deed.was_busy() && matches!(deed.command, Command::AddCycles { .. }) {
            *deed.holds(CYCLE_SUM) = deed.held(CYCLE_SUM);
        }
    }),
    ("no mirror update while busy", |deed| {
        if deed.was_busy() && matches!(deed.command, Command::MirrorUpdate { .. }) {
            deed.after.window = deed.before.window;
        }
    }),
    ("no refusal of the host while busy", |deed| {
        if deed.was_busy() && deed.is_the_hosts() {
            deed.said = Answer::Done;
        }
    }),
];

const LANES_AND_OFFSETS: &[Fault] = &[
    ("lanes that aren't enabled as zeros", |deed| {
        if let (false, Some((lanes, value))) = (deed.was_busy(), deed.read()) {
            deed.said = Answer::Value(value & !UNDRIVEN[lanes as usize]);
        }
    }),
    ("lanes that aren't enabled as held", |deed| {
        if let Command::WindowRead { offset, .. } = deed.command {
            if !deed.is_refused() {
                let lanes = 0xF;
                deed.do_instead(deed.before, Command::WindowRead { offset, lanes });
            }
        }
    }),
    ("no lanes as zeros", |deed| {
        if let Some((0, _)) = deed.read() {
            deed.said = Answer::Value(0);
        }
    }),
    ("unaligned offsets rounded", |deed| {
        deed.go_to(|offset| offset & !3);
    }),
    ("offsets above the window wrapped", |deed| {
        deed.go_to(|offset| offset & 0x3F_FFFF);
    }),
    ("offsets by their low 16 bits", |deed| {
        deed.go_to(|offset| {
            let near = |register: &&u32| (offset ^ *register) & 0xC0_FFFF == 0;
            REGISTERS.iter().find(near).map_or(offset, |found| *found)
        });
    }),
    ("offsets without their bit 2", |deed| {
        deed.go_to(|offset| {
            let near = |register: &&u32| offset ^ *register == 4;
            REGISTERS.iter().find(near).map_or(offset, |found| *found)
        });
    }),
    ("5 for a window's offset", |deed| {
        if deed.said == Answer::Refused(Refusal::WindowOffset) {
            deed.said = Answer::Refused(Refusal::Offset);
        }
    }),
    ("16 where there is no register", |deed| {
        if let Some((offset, _)) = deed.read_at() {
            if index(offset).is_none() {
                deed.said = Answer::Refused(Refusal::WindowOffset);
            }
        }
    }),
    ("ones where there is no register", |deed| {
        if let Some((offset, _)) = deed.read_at() {
            if index(offset).is_none() {
                deed.said = Answer::Value(u32::MAX);
            }
        }
    }),
    ("the window's last dword left out", |deed| {
        if deed.offset() == Some(0x3F_FFFC) {
            deed.said = Answer::Refused(Refusal::WindowOffset);
        }
    }),
    ("a dword more than the window has", |deed| {
        if deed.offset() == Some(0x40_0000) {
            deed.said = Answer::Done;
        }
    }),
];

/// Whether a session of the console shows that a twin with that fault isn't right.
fn finds(session: &[u8], wrong: fn(&mut Deed)) -> bool {
    let (mut right, mut faulty) = (Twin::fresh(), Twin::fresh());
    lines(session).any(|line| {
        let line = line.strip_suffix(b"\n").unwrap_or(line);
        let wanted = answer(&mut right, line, Console);
        let command = match parse(line, Console) {
            Some(command) => command,
            None => return false,
        };
        let before = faulty.record();
        let said = answer(&mut faulty, line, Console);
        let mut deed = Deed {
            before,
            command,
            said,
            after: faulty.record(),
        };
        wrong(&mut deed);
        faulty = Twin::of_record(&deed.after);
        deed.said != wanted
    })
}

/// Holds each of some sessions to find each of the faults.
fn check(faults: &[Fault]) {
    for seed in 0..5 {
        let session = text(seed, 10_000, Console);
        let missed: Vec<&str> = faults
            .iter()
            .filter(|(_, wrong)| !finds(&session, *wrong))
            .map(|(name, _)| *name)
            .collect();
        assert!(missed.is_empty(), "seed {seed}: {missed:?}");
    }
}

#[test]
fn faulty_requests_are_found() {
    check(REQUESTS);
}

#[test]
fn faulty_faults_are_found() {
    check(FAULTS);
}

#[test]
fn faulty_sums_are_found() {
    check(CYCLES);
}

#[test]
fn faulty_mirrors_are_found() {
    check(MIRRORS);
}

#[test]
fn faulty_resets_are_found() {
    check(RESETS);
}

#[test]
fn faults_while_busy_are_found() {
    check(BUSY);
}

#[test]
fn faulty_lanes_and_offsets_are_found() {
    check(LANES_AND_OFFSETS);
}

#[test]
fn a_right_window_is_no_fault() {
    for seed in 0..3 {
        assert!(!finds(&text(seed, 2_000, Console), |_| {}));
    }
}
