//! A comparison that finds nothing would pass as well: here it is given a right
//! library with a fault, and must find it. The right library isn't the archive,
//! so that these tests run on any machine.

use library_compare::call::{answer, Call};
use library_compare::lent::{Lent, BUSY, SIZE};
use library_compare::make::foreign;
use library_compare::tally::Tally;
use library_compare::{compare, session, Library};
use second::rng::Rng;
use second::twin::Twin;
use second::window::Register;

/// A right library: the call carried out on the second program's twin, which is
/// made of the lent record and stored back into it.
fn right(lent: &mut Lent, call: &mut Call) -> u64 {
    let mut twin = Twin::of_record(&lent.fields());
    let answer = answer(&mut twin, call);
    lent.store(&twin.record());
    answer
}

/// Whether the made sessions alone find the fault.
fn sessions_find(library: Library) -> bool {
    (0..100).any(|seed| session(library, seed, &mut Tally::default()).is_err())
}

/// Whether the sweeps alone find it.
fn sweeps_find(library: Library) -> bool {
    compare(library, 0..0, &mut Tally::default()).is_err()
}

fn found_by_both(library: Library) {
    assert!(sessions_find(library), "the sessions miss it");
    assert!(sweeps_find(library), "the sweeps miss it");
}

fn refused(answer: u64) -> bool {
    answer >> 48 != 0
}

/// An accepted write: offset, lanes, value.
fn written(call: &Call, answer: u64) -> Option<(u32, u32, u32)> {
    match *call {
        _ if refused(answer) => None,
        Call::Write(offset, lanes, value)
        | Call::WriteByValue(offset, lanes, value)
        | Call::Do(1, offset, lanes, value) => Some((offset, lanes, value)),
        _ => None,
    }
}

fn is_busy(lent: &Lent) -> bool {
    lent.fields().busy != 0
}

/// A right library, with what a fault does to the record where a call starts a
/// function reset.
fn at_a_start(fault: impl Fn(&mut Lent)) -> impl Fn(&mut Lent, &mut Call) -> u64 {
    move |lent, call| {
        let was_busy = is_busy(lent);
        let answer = right(lent, call);
        if !was_busy && is_busy(lent) {
            fault(lent);
        }
        answer
    }
}

/// A right library, with what a fault does to the record where an end signal
/// ends one; it is given the record before too.
fn at_an_end(fault: impl Fn(&mut Lent, &mut Lent)) -> impl Fn(&mut Lent, &mut Call) -> u64 {
    move |lent, call| {
        let mut before = *lent;
        let answer = right(lent, call);
        if matches!(call, Call::Do(10, ..)) && is_busy(&before) {
            fault(&mut before, lent);
        }
        answer
    }
}

/// A right library, but such calls are carried out as if no function reset ran;
/// the busy byte stays.
fn deaf_to_busy(such: impl Fn(&Call) -> bool) -> impl Fn(&mut Lent, &mut Call) -> u64 {
    move |lent, call| {
        let busy = *lent.byte(BUSY);
        if busy == 0 || !such(call) {
            return right(lent, call);
        }
        *lent.byte(BUSY) = 0;
        let answer = right(lent, call);
        *lent.byte(BUSY) = busy;
        answer
    }
}

/// A right library, but such calls change nothing while a function reset runs.
fn dropped_while_busy(such: impl Fn(&Call) -> bool) -> impl Fn(&mut Lent, &mut Call) -> u64 {
    move |lent, call| {
        let before = *lent;
        let answer = right(lent, call);
        if such(call) && is_busy(&before) {
            *lent = before;
        }
        answer
    }
}

/// The bytes of the lanes that aren't enabled.
fn undriven(lanes: u32) -> u64 {
    (0..4)
        .filter(|lane| lanes >> lane & 1 == 0)
        .map(|lane| 0xFF << (8 * lane))
        .sum()
}

/// A right library, but such reads give 00 in the lanes that aren't enabled.
fn undriven_as_zeros(such: impl Fn(&Call) -> bool) -> impl Fn(&mut Lent, &mut Call) -> u64 {
    move |lent, call| {
        let answer = right(lent, call);
        match *call {
            _ if refused(answer) || !such(call) => answer,
            Call::Read(_, lanes) | Call::Do(2 | 12, _, lanes, _) => answer & !undriven(lanes),
            _ => answer,
        }
    }
}

/// The mirrors in the window.
const MIRRORS: [Register; 3] = [Register::Mtouud, Register::MtouudHigh, Register::Mbdsm];

/// A right library, but where the operation `op` is accepted it makes of a
/// register what the rule says, from what it held and the call's arguments. An
/// operation with an offset does so where that is the register's; what a busy
/// function drops stays dropped.
fn remade(
    op: u32,
    register: Register,
    rule: impl Fn(u32, [u32; 3]) -> u32,
) -> impl Fn(&mut Lent, &mut Call) -> u64 {
    move |lent, call| {
        let held = lent.register(register);
        let drops = op == 11 && is_busy(lent);
        let answer = right(lent, call);
        if let Call::Do(done, a, b, c) = *call {
            let there = !matches!(op, 11 | 16) || a == register.offset();
            if done == op && there && !drops && !refused(answer) {
                lent.put_register(register, rule(held, [a, b, c]));
            }
        }
        answer
    }
}

/// The same of a guest write, by what was held, the lanes and the value.
fn written_as(
    register: Register,
    rule: impl Fn(u32, u32, u32) -> u32,
) -> impl Fn(&mut Lent, &mut Call) -> u64 {
    remade(11, register, move |held, [_, lanes, value]| {
        rule(held, lanes, value)
    })
}

/// The same of a request: a write to ASSRREQ with both its lanes, by what was
/// held, the value's low half, and its mask.
fn requested_as(rule: impl Fn(u32, u32, u32) -> u32) -> impl Fn(&mut Lent, &mut Call) -> u64 {
    written_as(Register::Assrreq, move |held, lanes, value| {
        match lanes & 0x5 {
            0x5 => rule(held, value & 0xFFFF, value >> 16),
            _ => held,
        }
    })
}

/// A right library, but it answers such calls otherwise; the record stays as it
/// is before the call.
fn answered_otherwise(
    otherwise: impl Fn(&Lent, &Call, u64) -> Option<u64>,
) -> impl Fn(&mut Lent, &mut Call) -> u64 {
    move |lent, call| {
        let before = *lent;
        let answer = right(lent, call);
        match otherwise(&before, call, answer) {
            Some(other) => {
                *lent = before;
                other
            }
            None => answer,
        }
    }
}

fn clear_window(lent: &mut Lent) {
    for register in Register::ALL {
        lent.put_register(register, 0);
    }
}

#[test]
fn no_fault_is_not_found() {
    assert!(!sessions_find(&right));
    assert!(!sweeps_find(&right));
}

#[test]
fn every_answer_is_met_without_a_fault() {
    let mut tally = Tally::default();
    compare(&right, 0..100, &mut tally).expect("no difference");
    let faults = tally.faults();
    assert!(faults.is_empty(), "{faults:#?}");
}

/// A right library that loses something of a foreign record would hide a fault
/// that does the same.
#[test]
fn a_foreign_record_is_stored_whole() {
    let mut rng = Rng::new(0);
    for _ in 0..1000 {
        let before = foreign(&mut rng);
        let mut after = Lent::new([0x77; SIZE]);
        after.store(&Twin::of_record(&before.fields()).record());
        assert!(after == before, "{:X?}", before.fields());
    }
}

#[test]
fn a_guest_mask_with_one_bit_more() {
    found_by_both(&|lent, call| {
        let answer = right(lent, call);
        if let Some((0x04, lanes, value)) = written(call, answer) {
            if lanes & 2 != 0 {
                let byte = lent.byte(0x05);
                *byte = *byte & !1 | (value >> 8) as u8 & 1;
            }
        }
        answer
    });
}

#[test]
fn a_start_that_reopens() {
    found_by_both(&at_a_start(|lent| *lent.byte(260) = 0));
}

#[test]
fn a_start_that_returns_f_bits() {
    found_by_both(&at_a_start(|lent| *lent.byte(0x04) &= !0x07));
}

#[test]
fn a_start_that_leaves_another_number_than_1() {
    found_by_both(&at_a_start(|lent| *lent.byte(BUSY) = 0xFF));
}

#[test]
fn a_start_that_sets_the_held_bit() {
    found_by_both(&at_a_start(|lent| *lent.byte(0xA8) |= 1));
}

#[test]
fn a_start_that_clears_the_held_bit() {
    found_by_both(&at_a_start(|lent| *lent.byte(0xA8) &= !1));
}

#[test]
fn a_function_reset_within_the_write() {
    found_by_both(&|lent, call| {
        let was_busy = is_busy(lent);
        let answer = right(lent, call);
        if !was_busy && is_busy(lent) {
            right(lent, &mut Call::Do(10, 0, 0, 0));
        }
        answer
    });
}

#[test]
fn an_end_signal_that_reopens() {
    found_by_both(&at_an_end(|_, lent| *lent.byte(261) = 0));
}

#[test]
fn an_end_signal_that_leaves_busy() {
    found_by_both(&at_an_end(|_, lent| *lent.byte(BUSY) = 1));
}

#[test]
fn an_end_signal_that_leaves_f_bits() {
    found_by_both(&at_an_end(|before, lent| {
        *lent.byte(0x92) = *before.byte(0x92)
    }));
}

#[test]
fn an_end_signal_that_leaves_the_held_bit() {
    found_by_both(&at_an_end(|before, lent| {
        *lent.byte(0xA8) = *before.byte(0xA8)
    }));
}

#[test]
fn an_end_signal_that_returns_more_than_f_bits() {
    found_by_both(&at_an_end(|_, lent| *lent.byte(0x62) = 0x02));
}

#[test]
fn an_end_signal_that_clears_the_latch() {
    found_by_both(&at_an_end(|_, lent| *lent.byte(256) = 0));
}

#[test]
fn an_end_signal_that_resets_where_none_runs() {
    found_by_both(&|lent, call| {
        if matches!(call, Call::Do(10, ..)) {
            *lent.byte(BUSY) = 1;
        }
        right(lent, call)
    });
}

#[test]
fn an_end_signal_that_looks_at_its_arguments() {
    found_by_both(&|lent, call| match call {
        Call::Do(10, a, ..) if *a > 0xFF => 9 << 48,
        _ => right(lent, call),
    });
}

#[test]
fn a_platform_reset_that_leaves_busy() {
    found_by_both(&|lent, call| {
        let busy = *lent.byte(BUSY);
        let answer = right(lent, call);
        if matches!(call, Call::PlatformReset | Call::Do(0, ..)) {
            *lent.byte(BUSY) = busy;
        }
        answer
    });
}

#[test]
fn a_busy_write_that_closes() {
    found_by_both(&|lent, call| {
        let was_busy = is_busy(lent);
        let answer = right(lent, call);
        if let Some((0x2C, lanes, _)) = written(call, answer) {
            if was_busy && lanes & 0x3 != 0 {
                *lent.byte(260) = 1;
            }
        }
        answer
    });
}

#[test]
fn a_busy_write_that_is_stored() {
    found_by_both(&deaf_to_busy(|call| matches!(call, Call::Write(..))));
    found_by_both(&deaf_to_busy(|call| matches!(call, Call::WriteByValue(..))));
    found_by_both(&deaf_to_busy(|call| matches!(call, Call::Do(1, ..))));
}

#[test]
fn a_busy_port_write_that_is_stored() {
    found_by_both(&deaf_to_busy(|call| matches!(call, Call::Do(4, ..))));
}

#[test]
fn a_busy_write_that_makes_a_foreign_busy_byte_1() {
    found_by_both(&|lent, call| {
        let answer = right(lent, call);
        if written(call, answer).is_some() {
            let busy = lent.byte(BUSY);
            *busy = (*busy).min(1);
        }
        answer
    });
}

#[test]
fn a_busy_write_that_is_not_refused() {
    found_by_both(&|lent, call| {
        let was_busy = is_busy(lent);
        let answer = right(lent, call);
        match call {
            Call::Write(..) if was_busy => 0,
            _ => answer,
        }
    });
}

#[test]
fn a_busy_byte_of_which_one_bit_counts() {
    found_by_both(&|lent, call| {
        let busy = *lent.byte(BUSY);
        if busy & 1 == 1 || !matches!(call, Call::Read(..)) {
            return right(lent, call);
        }
        *lent.byte(BUSY) = 0;
        let answer = right(lent, call);
        *lent.byte(BUSY) = busy;
        answer
    });
}

#[test]
fn a_busy_read_that_shows_the_held_bytes() {
    found_by_both(&deaf_to_busy(|call| matches!(call, Call::Read(..))));
    found_by_both(&deaf_to_busy(|call| matches!(call, Call::Do(2, ..))));
}

#[test]
fn a_busy_port_read_that_shows_the_held_bytes() {
    found_by_both(&deaf_to_busy(|call| matches!(call, Call::Do(5, ..))));
}

#[test]
fn a_read_with_zeros_in_lanes_that_are_not_enabled() {
    found_by_both(&undriven_as_zeros(|call| matches!(call, Call::Read(..))));
    found_by_both(&undriven_as_zeros(|call| matches!(call, Call::Do(2, ..))));
}

#[test]
fn a_busy_read_with_zeros_in_lanes_that_are_not_enabled() {
    found_by_both(&|lent, call| {
        let was_busy = is_busy(lent);
        let answer = right(lent, call);
        match *call {
            Call::Read(_, lanes) if was_busy && !refused(answer) => answer & !undriven(lanes),
            _ => answer,
        }
    });
}

#[test]
fn lanes_0_that_read_0() {
    found_by_both(&undriven_as_zeros(|call| matches!(call, Call::Read(_, 0))));
    found_by_both(&undriven_as_zeros(|call| {
        matches!(call, Call::Do(2, _, 0, _))
    }));
}

#[test]
fn a_refused_read_of_ones() {
    found_by_both(&|lent, call| {
        let answer = right(lent, call);
        match call {
            Call::Read(..) if refused(answer) => answer | u64::from(u32::MAX),
            _ => answer,
        }
    });
}

#[test]
fn a_port_read_with_ones_above_the_width() {
    found_by_both(&|lent, call| {
        let answer = right(lent, call);
        match *call {
            Call::Do(5, 0xCFC.., width @ (1 | 2), _) if !refused(answer) && !is_busy(lent) => {
                answer | u64::from(u32::MAX << (8 * width))
            }
            _ => answer,
        }
    });
}

#[test]
fn a_port_read_that_is_a_direct_read_moved_down() {
    found_by_both(&|lent, call| {
        let answer = right(lent, call);
        match *call {
            Call::Do(5, port @ 0xCFC.., width, _) if !refused(answer) => {
                let first = port - 0xCFC;
                let lanes = ((1 << width) - 1) << first;
                answer | undriven(lanes) >> (8 * first)
            }
            _ => answer,
        }
    });
}

#[test]
fn a_busy_port_read_with_ones_above_the_width() {
    found_by_both(&|lent, call| {
        let was_busy = is_busy(lent);
        let answer = right(lent, call);
        match call {
            Call::Do(5, 0xCFC.., ..) if was_busy && !refused(answer) => u32::MAX.into(),
            _ => answer,
        }
    });
}

#[test]
fn a_claim_while_busy() {
    found_by_both(&deaf_to_busy(|call| matches!(call, Call::Do(6, ..))));
    found_by_both(&deaf_to_busy(|call| matches!(call, Call::Do(7, ..))));
}

#[test]
fn a_walk_over_the_held_bytes_while_busy() {
    found_by_both(&deaf_to_busy(|call| matches!(call, Call::Do(9, ..))));
}

#[test]
fn a_host_update_that_is_dropped_while_busy() {
    found_by_both(&dropped_while_busy(|call| matches!(call, Call::Do(3, ..))));
}

#[test]
fn a_latch_that_is_not_stored_while_busy() {
    found_by_both(&dropped_while_busy(|call| {
        matches!(call, Call::Do(4, 0xCF8, ..))
    }));
}

#[test]
fn a_foreign_flag_made_1_by_any_write() {
    found_by_both(&|lent, call| {
        let answer = right(lent, call);
        if written(call, answer).is_some() {
            let flag = lent.byte(262);
            *flag = (*flag).min(1);
        }
        answer
    });
}

#[test]
fn a_closed_flag_that_a_write_makes_one() {
    found_by_both(&|lent, call| {
        let closed = *lent.byte(261) != 0;
        let answer = right(lent, call);
        match written(call, answer) {
            Some((0x2C, lanes, _)) if closed && lanes & 0xC != 0 => *lent.byte(261) = 1,
            _ => {}
        }
        answer
    });
}

#[test]
fn a_busy_byte_changed_by_a_refusal() {
    found_by_both(&|lent, call| {
        let answer = right(lent, call);
        if refused(answer) {
            *lent.byte(BUSY) ^= 1;
        }
        answer
    });
}

#[test]
fn a_byte_behind_the_record() {
    found_by_both(&|lent, call| {
        let answer = right(lent, call);
        if written(call, answer).is_some() {
            *lent.byte(SIZE) = 0;
        }
        answer
    });
}

#[test]
fn a_read_that_changes_the_latch() {
    found_by_both(&|lent, call| {
        let answer = right(lent, call);
        if matches!(call, Call::Do(5, 0xCFC, ..)) {
            *lent.byte(256) ^= 4;
        }
        answer
    });
}

#[test]
fn lanes_refused_before_the_offset() {
    found_by_both(&|lent, call| {
        let answer = right(lent, call);
        match call {
            Call::Write(_, lanes, _) if *lanes > 15 => 6 << 48,
            _ => answer,
        }
    });
}

#[test]
fn a_write_in_place_that_is_dropped() {
    found_by_both(&|lent, call| {
        let before = *lent;
        let answer = right(lent, call);
        if matches!(call, Call::Write(0xE4, ..)) {
            *lent = before;
        }
        answer
    });
}

#[test]
fn a_write_by_value_that_is_dropped() {
    found_by_both(&|lent, call| {
        let before = *lent;
        let answer = right(lent, call);
        if matches!(call, Call::WriteByValue(0x18, ..)) {
            *lent = before;
        }
        answer
    });
}

#[test]
fn a_port_cut_to_16_bits() {
    found_by_both(&|lent, call| match call {
        Call::Do(5, port, width, c) if *port > 0xFFFF => {
            right(lent, &mut Call::Do(5, *port & 0xFFFF, *width, *c))
        }
        _ => right(lent, call),
    });
}

#[test]
fn an_operation_cut_to_8_bits() {
    found_by_both(&|lent, call| match call {
        Call::Do(op, a, b, c) if *op > 0xFF => right(lent, &mut Call::Do(*op & 0xFF, *a, *b, *c)),
        _ => right(lent, call),
    });
}

#[test]
fn a_walk_of_49_items() {
    found_by_both(&|lent, call| match right(lent, call) {
        0x000B_0000_0000_0030 => 0x000B_0000_0000_0031,
        answer => answer,
    });
}

#[test]
fn a_walk_that_changes_its_bytes() {
    found_by_both(&|lent, call| {
        let answer = right(lent, call);
        if let Call::Walk(bytes, _) = call {
            if let Some(byte) = bytes.get_mut(0x34) {
                *byte &= 0xFC;
            }
        }
        answer
    });
}

#[test]
fn an_aperture_tested_by_base_and_size() {
    let library = |lent: &mut Lent, call: &mut Call| {
        let answer = right(lent, call);
        let top = matches!(call, Call::Do(6, _, u32::MAX, _));
        if top && answer >> 32 == 2 {
            return 0;
        }
        answer
    };
    assert!(sessions_find(&library), "the sessions miss it");
}

// ---- the window

#[test]
fn a_request_without_its_mask_bit() {
    found_by_both(&requested_as(|held, bits, _| held | bits & 0xF));
}

#[test]
fn a_request_by_its_mask_bit_alone() {
    found_by_both(&requested_as(|held, _, mask| held | mask & 0xF));
}

#[test]
fn a_request_with_one_of_its_lanes() {
    for lane in [0x1, 0x4] {
        found_by_both(&written_as(
            Register::Assrreq,
            |held, lanes, value| match lanes & lane {
                0 => held,
                _ => held | value & value >> 16 & 0xF,
            },
        ));
    }
}

#[test]
fn a_request_that_needs_every_lane() {
    found_by_both(&written_as(
        Register::Assrreq,
        |held, lanes, value| match lanes {
            0xF => held | value & value >> 16 & 0xF,
            _ => held,
        },
    ));
}

#[test]
fn a_guest_write_that_clears_a_request() {
    found_by_both(&requested_as(|held, bits, mask| {
        held & !(mask & 0xF) | bits & mask & 0xF
    }));
}

#[test]
fn a_request_above_bit_3() {
    found_by_both(&requested_as(|held, bits, mask| held | bits & mask & 0x1F));
}

#[test]
fn a_mask_that_is_shown() {
    found_by_both(&answered_otherwise(|before, call, answer| {
        let mask = before.register(Register::Assrreq) & 0xFFFF_0000;
        let shows = matches!(call, Call::Do(12, 0x0810C, ..)) && !refused(answer);
        shows.then_some(answer | u64::from(mask))
    }));
}

#[test]
fn a_completion_of_every_request() {
    found_by_both(&remade(13, Register::Assrreq, |held, _| held & !0xF));
}

#[test]
fn a_completion_that_clears_more_than_requests() {
    found_by_both(&remade(13, Register::Assrreq, |held, [mask, ..]| {
        held & 0xF & !mask
    }));
}

#[test]
fn a_second_fault_that_overwrites() {
    found_by_both(&remade(14, Register::FaultReg, |_, [word, ..]| word | 1));
}

#[test]
fn a_fault_without_valid() {
    found_by_both(&remade(14, Register::FaultReg, |held, [word, ..]| {
        match held & 1 {
            0 => word,
            _ => held,
        }
    }));
}

#[test]
fn a_fault_beside_what_was_held() {
    found_by_both(&remade(14, Register::FaultReg, |held, [word, ..]| {
        match held & 1 {
            0 => held | word | 1,
            _ => held,
        }
    }));
}

#[test]
fn a_lost_fault_that_is_refused() {
    found_by_both(&answered_otherwise(|before, call, answer| {
        let lost = matches!(call, Call::Do(14, ..)) && before.register(Register::FaultReg) & 1 == 1;
        (lost && !refused(answer)).then_some(7 << 48)
    }));
}

#[test]
fn a_fault_that_is_cleared_without_lane_0() {
    found_by_both(&written_as(
        Register::FaultReg,
        |held, lanes, value| match (lanes, value & 1) {
            (1.., 0) => 0,
            _ => held,
        },
    ));
}

#[test]
fn a_fault_that_is_cleared_by_a_one() {
    found_by_both(&written_as(Register::FaultReg, |held, lanes, _| {
        match lanes & 1 {
            1 => 0,
            _ => held,
        }
    }));
}

#[test]
fn a_fault_of_which_valid_alone_is_cleared() {
    found_by_both(&written_as(
        Register::FaultReg,
        |held, lanes, value| match (lanes & 1, value & 1) {
            (1, 0) => held & !1,
            _ => held,
        },
    ));
}

#[test]
fn a_sum_that_stops_at_the_top() {
    found_by_both(&remade(15, Register::CycleSum, |held, [count, ..]| {
        held.saturating_add(count)
    }));
}

#[test]
fn a_sum_that_is_the_last_count() {
    found_by_both(&remade(15, Register::CycleSum, |_, [count, ..]| count));
}

#[test]
fn a_guest_write_that_clears_a_mirror_or_the_sum() {
    for register in MIRRORS.into_iter().chain([Register::CycleSum]) {
        found_by_both(&written_as(register, |held, lanes, value| {
            match (lanes, value) {
                (0xF, 0) => 0,
                _ => held,
            }
        }));
    }
}

#[test]
fn a_mirror_update_of_every_bit() {
    for register in MIRRORS {
        found_by_both(&remade(16, register, |held, [_, mask, value]| match mask {
            0 => held,
            _ => value & register.update_mask(),
        }));
    }
}

#[test]
fn a_mirror_with_another_ones_mask() {
    let wide = Register::Mbdsm.update_mask();
    found_by_both(&answered_otherwise(|_, call, answer| match call {
        Call::Do(16, 0x108084, mask, _) if mask & !wide == 0 && refused(answer) => Some(0),
        _ => None,
    }));
}

#[test]
fn bits_outside_the_masks_that_are_not_refused() {
    for op in [13, 14, 16] {
        found_by_both(&answered_otherwise(|_, call, answer| match call {
            Call::Do(done, ..) if *done == op && answer >> 48 == 7 => Some(0),
            _ => None,
        }));
    }
}

#[test]
fn a_mask_of_0_that_is_refused_where_no_mirror_is() {
    found_by_both(&answered_otherwise(|_, call, answer| match call {
        Call::Do(16, offset, 0, _) if !refused(answer) => {
            let mirror = Register::at(*offset).map_or(false, |named| MIRRORS.contains(&named));
            (!mirror).then_some(7 << 48)
        }
        _ => None,
    }));
}

#[test]
fn a_mask_refused_before_the_window_offset() {
    found_by_both(&answered_otherwise(|_, call, answer| match call {
        Call::Do(16, _, 1.., _) if answer >> 48 == 16 => Some(7 << 48),
        _ => None,
    }));
}

#[test]
fn lanes_refused_before_the_window_offset() {
    for op in [11, 12] {
        found_by_both(&answered_otherwise(|_, call, _| match call {
            Call::Do(done, _, 16.., _) if *done == op => Some(6 << 48),
            _ => None,
        }));
    }
}

#[test]
fn a_window_offset_cut_to_22_bits() {
    for op in [11, 12, 16] {
        found_by_both(&|lent, call| match *call {
            Call::Do(done, offset, b, c) if done == op && offset % 4 == 0 => {
                right(lent, &mut Call::Do(op, offset & 0x3F_FFFF, b, c))
            }
            _ => right(lent, call),
        });
    }
}

#[test]
fn an_unaligned_window_offset_that_is_rounded() {
    for op in [11, 12, 16] {
        found_by_both(&|lent, call| match *call {
            Call::Do(done, offset, b, c) if done == op => {
                right(lent, &mut Call::Do(op, offset & !3, b, c))
            }
            _ => right(lent, call),
        });
    }
}

#[test]
fn an_offset_of_which_a_bit_does_not_count() {
    for place in [2, 8, 15, 21] {
        let library = |lent: &mut Lent, call: &mut Call| match *call {
            Call::Do(12, offset, lanes, c) if Register::at(offset).is_none() => {
                let beside = Register::at(offset ^ 1 << place).map_or(offset, Register::offset);
                right(lent, &mut Call::Do(12, beside, lanes, c))
            }
            _ => right(lent, call),
        };
        assert!(sweeps_find(&library), "the sweeps miss bit {place}");
    }
}

#[test]
fn a_window_that_is_there_only_with_memory_on() {
    found_by_both(&answered_otherwise(|before, call, answer| {
        let off = before.fields().bytes[0x04] & 0x02 == 0;
        let written = matches!(call, Call::Do(11, ..)) && !refused(answer);
        (off && written).then_some(0)
    }));
}

#[test]
fn a_window_read_with_zeros_in_lanes_that_are_not_enabled() {
    found_by_both(&undriven_as_zeros(|call| matches!(call, Call::Do(12, ..))));
}

#[test]
fn a_window_read_that_clears_what_it_shows() {
    found_by_both(&|lent, call| {
        let answer = right(lent, call);
        if matches!(call, Call::Do(12, 0x04094, ..)) && !refused(answer) {
            lent.put_register(Register::FaultReg, 0);
        }
        answer
    });
}

#[test]
fn a_busy_window_read_of_zeros() {
    found_by_both(&answered_otherwise(|before, call, answer| {
        let read = matches!(call, Call::Do(12, ..)) && !refused(answer);
        (read && is_busy(before)).then_some(0)
    }));
}

#[test]
fn a_busy_window_read_that_shows_what_is_held() {
    found_by_both(&deaf_to_busy(|call| matches!(call, Call::Do(12, ..))));
}

#[test]
fn a_busy_window_write_that_is_stored() {
    found_by_both(&deaf_to_busy(|call| matches!(call, Call::Do(11, ..))));
}

#[test]
fn a_host_that_is_not_heard_in_the_window_while_busy() {
    for op in 13..=16 {
        found_by_both(&dropped_while_busy(
            |call| matches!(call, Call::Do(done, ..) if *done == op),
        ));
    }
}

#[test]
fn a_start_that_clears_the_window() {
    found_by_both(&at_a_start(clear_window));
}

#[test]
fn an_end_signal_that_clears_the_window() {
    found_by_both(&at_an_end(|_, lent| clear_window(lent)));
}

#[test]
fn a_platform_reset_that_leaves_a_register() {
    for register in Register::ALL {
        found_by_both(&|lent, call| {
            let held = lent.register(register);
            let answer = right(lent, call);
            if matches!(call, Call::PlatformReset | Call::Do(0, ..)) {
                lent.put_register(register, held);
            }
            answer
        });
    }
}

#[test]
fn a_configuration_write_that_changes_the_window() {
    for register in Register::ALL {
        found_by_both(&|lent, call| {
            let answer = right(lent, call);
            if let Some((0x10, _, value)) = written(call, answer) {
                lent.put_register(register, value);
            }
            answer
        });
    }
}

#[test]
fn a_register_changed_by_a_refusal() {
    found_by_both(&|lent, call| {
        let answer = right(lent, call);
        if refused(answer) {
            *lent.byte(SIZE - 1) ^= 0x80;
        }
        answer
    });
}

#[test]
fn an_operation_more() {
    found_by_both(&answered_otherwise(|_, call, _| {
        matches!(call, Call::Do(17, ..)).then_some(0)
    }));
}
