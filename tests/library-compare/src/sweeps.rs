//! Calls in order, not made: every dword with every lanes, every bit by a host
//! update, every port near the pair, every length of a walk, every request to
//! the window, and so on, over records that are idle and busy.

use second::window::{Register, REGISTERS};

use crate::call::Call;
use crate::lent::{Lent, BUSY, LATCH, SIZE};
use crate::tally::Tally;
use crate::{Difference, Library, Pair};

/// Records to sweep over: fresh, all zeros, all ones, and two mixed ones, each
/// idle and busy.
fn records(library: Library) -> Vec<[Lent; 2]> {
    let mut fresh = Lent::new([0x77; SIZE]);
    library(&mut fresh, &mut Call::PlatformReset);
    let mixed = |odd: u8| Lent::new(std::array::from_fn(|at| (at as u8).wrapping_mul(odd) ^ odd));
    let made = [
        fresh,
        Lent::new([0; SIZE]),
        Lent::new([0xFF; SIZE]),
        mixed(0x35),
        mixed(0xA7),
    ];
    let with = |record: &Lent, busy: u8| {
        let mut record = *record;
        *record.byte(BUSY) = busy;
        record
    };
    let busy = [1, 0x80, 0xFF, 7, 2];
    made.iter()
        .zip(busy)
        .map(|(record, busy)| [with(record, 0), with(record, busy)])
        .collect()
}

/// Each call on a record as it was.
fn sweep(
    library: Library,
    name: &str,
    record: &Lent,
    calls: impl Iterator<Item = Call>,
    tally: &mut Tally,
) -> Result<(), Difference> {
    for call in calls {
        let mut pair = Pair::new(library, *record);
        pair.step(&call, tally).map_err(|what| Difference {
            place: format!("sweep of {name}"),
            call,
            what,
        })?;
    }
    Ok(())
}

fn writes() -> impl Iterator<Item = Call> {
    let values = [0, u32::MAX, 0x5555_5555, 0x0006_0003];
    (0..64).flat_map(move |dword| {
        (0..16).flat_map(move |lanes| {
            values.into_iter().flat_map(move |value| {
                let offset = dword * 4;
                [
                    Call::Write(offset, lanes, value),
                    Call::WriteByValue(offset, lanes, value),
                    Call::Do(1, offset, lanes, value),
                ]
            })
        })
    })
}

fn reads() -> impl Iterator<Item = Call> {
    (0..64).flat_map(|dword| {
        (0..16).flat_map(move |lanes| {
            [
                Call::Read(dword * 4, lanes),
                Call::Do(2, dword * 4, lanes, 0),
            ]
        })
    })
}

fn updates() -> impl Iterator<Item = Call> {
    (0..256).flat_map(|at| {
        (0..8).flat_map(move |place| [0, 0xFF].map(|value| Call::Do(3, at, 1 << place, value)))
    })
}

/// Bad offsets with bad lanes, which tell the order of refusals.
fn bad_accesses() -> impl Iterator<Item = Call> {
    let offsets = [0, 1, 2, 3, 0xFC, 0xFF, 0x100, 0x104, 0x8000_0000, u32::MAX];
    let lanes = [0, 15, 16, 17, 0x100, 0x8000_000F, u32::MAX];
    offsets.into_iter().flat_map(move |offset| {
        lanes.into_iter().flat_map(move |lanes| {
            [
                Call::Write(offset, lanes, u32::MAX),
                Call::WriteByValue(offset, lanes, u32::MAX),
                Call::Read(offset, lanes),
                Call::Do(1, offset, lanes, u32::MAX),
                Call::Do(2, offset, lanes, u32::MAX),
            ]
        })
    })
}

fn doors() -> impl Iterator<Item = Call> {
    let arguments = [0, 0xFF, 0x100, 0xFFFF, 0x1_0000, 0x1_0CF8, u32::MAX];
    (0..=300)
        .chain([0x8000_0000, u32::MAX])
        .flat_map(move |op| {
            arguments.into_iter().flat_map(move |a| {
                arguments
                    .into_iter()
                    .map(move |b| Call::Do(op, a, b, a ^ b))
            })
        })
}

/// A latch, and an access to a port.
fn ports() -> impl Iterator<Item = (u32, Call)> {
    let latches = [
        0x8000_1000,
        0x8000_10FC,
        0x8000_10A8,
        0x8000_1100,
        0x8000_0000,
        0x8001_1000,
        0x0000_1000,
        0xFF00_1063,
    ];
    latches.into_iter().flat_map(|latch| {
        (0xCF0..0xD08).flat_map(move |port| {
            (0..=5).flat_map(move |width| {
                [
                    Call::Do(4, port, width, 0xA5C3_965B),
                    Call::Do(5, port, width, 0),
                ]
                .map(|call| (latch, call))
            })
        })
    })
}

/// A record that claims what its windows hold.
fn claiming(record: &Lent) -> Lent {
    let mut record = *record;
    *record.byte(0x04) |= 0x03;
    *record.byte(0xD4) &= !0x03;
    record
}

/// Each window's base, the addresses that differ from it in one bit, and the
/// topmost address.
fn claims(record: &Lent) -> impl Iterator<Item = Call> {
    let bytes = record.fields().bytes;
    let base = move |at: usize| {
        let bytes = bytes[at..at + 8].try_into().expect("8 bytes");
        u64::from_le_bytes(bytes)
    };
    let near = |base: u64, bits: u32| {
        (0..bits)
            .map(move |place| base ^ 1 << place)
            .chain([base, u64::MAX])
    };
    let memory = [0x10, 0x18].into_iter().flat_map(move |at| {
        near(base(at), 64).map(|address| Call::Do(6, address as u32, (address >> 32) as u32, 0))
    });
    memory.chain(near(base(0x20), 16).map(|port| Call::Do(7, port as u32 & 0xFFFF, 0, 0)))
}

fn probes() -> impl Iterator<Item = Call> {
    (0..16).flat_map(|kind| {
        (0..32).flat_map(move |place| {
            [0, 1, 0x8000_0000, u32::MAX]
                .into_iter()
                .flat_map(move |high| {
                    let (one, up) = (1 << place & !0xF | kind, u32::MAX << place & !0xF | kind);
                    [
                        Call::Probe(one, high),
                        Call::Do(8, up, high, 0),
                        Call::Do(8, kind, 1 << place, high),
                    ]
                })
        })
    })
}

/// Every length, and a list of as many items as there can be, of which the
/// wanted one is each in turn.
fn walks() -> impl Iterator<Item = Call> {
    let lengths = (0..=520).map(|length| Call::Walk(vec![0x50; length], 0x50));
    let mut chain = vec![0; 256];
    chain[0x06] = 0x10;
    chain[0x34] = 0x43; // low bits are dropped
    for at in (0x40..0x100).step_by(4) {
        chain[at] = at as u8;
        chain[at + 1] = (at + 4) as u8; // the last is 0
    }
    let mut round = chain.clone();
    round[0xFD] = 0x40;
    let whole = chain.clone();
    lengths
        .chain((0..=255).map(move |wanted| Call::Walk(whole.clone(), wanted)))
        .chain((0..=255).map(move |wanted| Call::Walk(round.clone(), wanted)))
        .chain((0..=255).map(move |pointer| {
            let mut bytes = chain.clone();
            bytes[0xFD] = pointer;
            Call::Walk(bytes, 0x01)
        }))
}

/// What the window's registers hold where it is swept over: nothing, all ones,
/// and numbers of foreign making, without a valid fault and with one.
const WINDOWS: [[u32; REGISTERS]; 4] = [
    [0; REGISTERS],
    [u32::MAX; REGISTERS],
    [
        0xFEDC_BA98,
        0x7654_3215,
        0x4560_0A01,
        0x0000_03F1,
        0x9AB0_1234,
        0x8000_0000,
    ],
    [
        0x5A00_1153,
        0x0000_000A,
        0xBA9F_FFFE,
        0xFFFF_FF0E,
        0x654F_FFFF,
        0x7FFF_FFFF,
    ],
];

/// A record with that window.
fn with_window(record: &Lent, window: [u32; REGISTERS]) -> Lent {
    let mut record = *record;
    for (register, number) in Register::ALL.into_iter().zip(window) {
        record.put_register(register, number);
    }
    record
}

fn registers() -> impl Iterator<Item = u32> {
    Register::ALL.into_iter().map(Register::offset)
}

/// The dwords beside each register, the offsets that differ from it in one
/// bit, and the window's ends: dwords that are no register, and refused offsets.
fn near_registers() -> impl Iterator<Item = u32> {
    registers()
        .flat_map(|at| {
            let one_bit_off = (0..32).map(move |place| at ^ 1 << place);
            [at - 4, at + 4].into_iter().chain(one_bit_off)
        })
        .chain([0, 0x3F_FFFC, 0x3F_FFFF, 0x40_0000, u32::MAX])
}

/// Bits, mask bits and lanes of a request, all of them; the bits between are no
/// requests.
fn requests() -> impl Iterator<Item = Call> {
    (0..16).flat_map(|bits| {
        (0..16).flat_map(move |mask| {
            let value = 0x5550_AAA0 | mask << 16 | bits;
            (0..16).map(move |lanes| Call::Do(11, Register::Assrreq.offset(), lanes, value))
        })
    })
}

/// Writes and reads of every register with every lanes, and of what is near one.
fn window_accesses() -> impl Iterator<Item = Call> {
    let calls = |offset, lanes| {
        [
            Call::Do(11, offset, lanes, 0),
            Call::Do(11, offset, lanes, u32::MAX),
            Call::Do(11, offset, lanes, 0xFFFF_FFFE),
            Call::Do(11, offset, lanes, 1),
            Call::Do(12, offset, lanes, u32::MAX),
        ]
    };
    let good = registers().flat_map(|at| (0..16).map(move |lanes| (at, lanes)));
    let near = near_registers().map(|at| (at, 0xF));
    let bad_lanes = registers()
        .chain(near_registers())
        .flat_map(|at| [16, u32::MAX].map(|lanes| (at, lanes)));
    good.chain(near)
        .chain(bad_lanes)
        .flat_map(move |(offset, lanes)| calls(offset, lanes))
}

/// Every bit of a completion, a fault word, a count and a register's mask, and
/// some of their sums; and masks with offsets near a register.
fn window_updates() -> impl Iterator<Item = Call> {
    let few = [0x77FE, 0x77FF, 0x7F, 0xFFF0_0001, u32::MAX];
    let numbers = move || (0..32).map(|place| 1 << place).chain(0..16).chain(few);
    let alone = numbers()
        .flat_map(|number| (13..=15).map(move |op| Call::Do(op, number, u32::MAX, 0x1234_5678)));
    let masked = registers()
        .flat_map(move |at| numbers().map(move |mask| (at, mask)))
        .chain(near_registers().flat_map(|at| [0, 1, u32::MAX].map(|mask| (at, mask))));
    alone.chain(
        masked.flat_map(|(at, mask)| [0, u32::MAX].map(|value| Call::Do(16, at, mask, value))),
    )
}

/// Every sweep.
pub fn all(library: Library, tally: &mut Tally) -> Result<(), Difference> {
    let records = records(library);
    let [idle, busy] = &records[3];
    for record in [idle, busy] {
        sweep(library, "the door", record, doors(), tally)?;
        for window in WINDOWS {
            let record = with_window(record, window);
            sweep(library, "requests", &record, requests(), tally)?;
            sweep(library, "the window", &record, window_accesses(), tally)?;
            sweep(library, "its updates", &record, window_updates(), tally)?;
        }
    }
    for record in records.iter().flatten() {
        sweep(library, "writes", record, writes(), tally)?;
        sweep(library, "reads", record, reads(), tally)?;
        sweep(library, "host updates", record, updates(), tally)?;
        sweep(library, "bad accesses", record, bad_accesses(), tally)?;
        for (latch, call) in ports() {
            let mut record = *record;
            record.put_dword(LATCH, latch);
            sweep(library, "ports", &record, std::iter::once(call), tally)?;
        }
        let record = claiming(record);
        sweep(library, "claims", &record, claims(&record), tally)?;
    }
    sweep(library, "probes", idle, probes(), tally)?;
    sweep(library, "walks", idle, walks(), tally)
}
