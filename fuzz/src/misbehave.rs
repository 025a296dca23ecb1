//! Functions that do on purpose what no call may do. Each must be caught: otherwise a clean run would say nothing.
use crate::alarm::FAULT;
use crate::calls::{self, Call, Reach};
use crate::lend::{cell, changed, input, output, After, Arg};
use crate::numbers::Numbers;
use crate::MANY;
use std::process::Command;

// an input of seven; an output of seven, of which an answer may change the first four but one; a lent count; four floats lent to be
// changed, which no answer does; and a lent float
fn draw(_: &mut Numbers) -> Vec<Arg> {
    vec![input(&[1.5; 7]), output::<f64>(7), cell::<usize>(), changed(&[0.5_f32; 4], 4), cell::<f64>()]
}
fn none(_: &mut Numbers, _: u64) -> Option<Vec<Arg>> {
    None
}
fn reach(_: &[Arg], _: &After) -> Reach {
    Ok(vec![(1, 0..2), (1, 3..4), (2, 0..1)])
}

// an output of up to three slots, of which an answer may change the first
fn draw_room(r: &mut Numbers) -> Vec<Arg> {
    vec![output::<f64>(r.between(0, 3))]
}
fn reach_first(_: &[Arg], _: &After) -> Reach {
    Ok(vec![(0, 0..1)])
}

// bounds of a tempo, and an output of one to three slots likewise
fn draw_open(r: &mut Numbers) -> Vec<Arg> {
    vec![Arg::Real(30.0), Arg::Real(f64::NAN), output::<f64>(r.between(1, 3))]
}
fn draw_usual(r: &mut Numbers) -> Vec<Arg> {
    vec![Arg::Real(30.0), Arg::Real(300.0), output::<f64>(r.between(1, 3))]
}
fn reach_behind_bounds(_: &[Arg], _: &After) -> Reach {
    Ok(vec![(2, 0..1)])
}

// a meter and an output of one to three slots likewise: one that is none where there is one slot, else some from 1 to 16; three; the usual
// one; and only some that are none
fn draw_meter(r: &mut Numbers) -> Vec<Arg> {
    let slots = r.between(1, 3);
    vec![Arg::Meter(if slots == 1 { r.one_of(&[0, 17]) } else { r.one_of(&[3, 4, 16]) }), output::<f64>(slots)]
}
fn draw_three(r: &mut Numbers) -> Vec<Arg> {
    vec![Arg::Meter(3), output::<f64>(r.between(1, 3))]
}
fn draw_four(r: &mut Numbers) -> Vec<Arg> {
    vec![Arg::Meter(4), output::<f64>(r.between(1, 3))]
}
fn draw_none(r: &mut Numbers) -> Vec<Arg> {
    vec![Arg::Meter(r.one_of(&[0, 17, usize::MAX])), output::<f64>(r.between(1, 3))]
}
fn reach_behind_meter(_: &[Arg], _: &After) -> Reach {
    Ok(vec![(1, 0..1)])
}

macro_rules! does {
    ($name:literal, $does:expr) => {
        Call { name: $name, function: $does, refuses: &[1, 3], draw, bound: none, reach, chosen: &[] }
    };
}
// gives a number by the slots of its room
macro_rules! by_room {
    ($name:literal, $numbers:expr) => {
        Call {
            name: $name,
            function: |w| $numbers[w[0].slots()],
            refuses: &[1, 3],
            draw: draw_room,
            bound: none,
            reach: reach_first,
            chosen: &[],
        }
    };
}

// takes bounds of a tempo
macro_rules! with_bounds {
    ($name:literal, $draw:ident, $does:expr) => {
        Call {
            name: $name,
            function: $does,
            refuses: &[1, 3],
            draw: $draw,
            bound: none,
            reach: reach_behind_bounds,
            chosen: &[],
        }
    };
}

// takes a meter
macro_rules! with_meter {
    ($name:literal, $draw:ident, $does:expr) => {
        Call {
            name: $name,
            function: $does,
            refuses: &[1, 3],
            draw: $draw,
            bound: none,
            reach: reach_behind_meter,
            chosen: &[],
        }
    };
}

// SAFETY, of each: none; a fault or a wrong slot is what is asked for, in memory that nothing else uses
pub const CALLS: [Call; 31] = [
    does!("reads_past", |w| unsafe { w[0].at::<f64>().add(7).read_volatile() as u32 }),
    does!("reads_before", |w| unsafe { w[0].at::<f64>().sub(1).read_volatile() as u32 }),
    does!("reads_an_output_past", |w| unsafe { w[1].at::<f64>().add(7).read_volatile() as u32 }),
    does!("writes_past", |w| unsafe { put(w[1].at::<f64>().add(7)) }),
    does!("writes_before", |w| unsafe { put(w[1].at::<f64>().sub(1)) }),
    does!("writes_an_input", |w| unsafe { put(w[0].at::<f64>().add(3)) }),
    does!("writes_and_refuses", |w| unsafe { put(w[1].at::<f64>()) + 3 }),
    does!("counts_and_refuses", |w| unsafe { put(w[2].at::<f64>()) + 1 }),
    does!("writes_past_its_formula", |w| unsafe { put(w[1].at::<f64>().add(4)) }),
    does!("writes_between_its_slots", |w| unsafe { put(w[1].at::<f64>().add(2)) }),
    // what no proof tells: a NaN in the place of another
    does!("overwrites_a_nan_and_refuses", |w| unsafe { one_nan(w[1].at::<f64>().add(5)) + 3 }),
    does!("overwrites_a_lent_nan_and_refuses", |w| unsafe { one_nan(w[4].at::<f64>()) + 1 }),
    does!("overwrites_a_nan_past_its_formula", |w| unsafe { one_nan(w[1].at::<f64>().add(6)) }),
    does!("overwrites_a_nan_to_change_and_refuses", |w| unsafe { one_single_nan(w[3].at::<f32>().add(2)) + 3 }),
    does!("quietens_nans_and_refuses", |w| unsafe { quieten(w[1].at(), w[1].slots()) + 3 }),
    does!("moves_a_nan_and_refuses", |w| unsafe { copy(w[1].at(), 0, 1) + 3 }),
    does!("answers_what_its_room_held", |w| unsafe { copy(w[1].at(), 6, 0) }),
    does!("refuses_with_no_number_of_its_own", |_| 2),
    does!("refuses_everything", |_| 1),
    does!("answers_everything", |_| 0),
    by_room!("refuses_where_no_slot_shows_it", [3, 1, 0, 0]),
    by_room!("answers_where_no_slot_shows_it", [0, 0, 1, 3]),
    with_bounds!("refuses_a_bound", draw_open, |w| u32::from(!w[1].real().is_finite())),
    with_bounds!("answers_no_open_bound", draw_usual, |w| [1, 3, 0][w[2].slots() - 1]),
    with_meter!("answers_a_meter_that_is_none", draw_none, |_| 0),
    with_meter!("refuses_a_meter_with_3", draw_none, |_| 3),
    with_meter!("refuses_a_meter_from_1_to_16", draw_three, |w| u32::from(w[0].size() != 4)),
    with_meter!("answers_by_the_meter", draw_three, |w| unsafe { put_number(w[1].at(), w[0].size()) }),
    with_meter!("answers_no_other_meter", draw_four, |w| [1, 3, 0][w[1].slots() - 1]),
    with_meter!("refuses_no_meter_alone", draw_meter, |w| [1, 0, 3][w[1].slots() - 1]),
    // the library's own downbeats, in bars of four whatever the meter is
    calls::BARS_OF_FOUR,
];

// SAFETY, of each: none, see above
unsafe fn put(at: *mut f64) -> u32 {
    unsafe { at.write_volatile(0.25) };
    0
}
unsafe fn put_number(at: *mut f64, number: usize) -> u32 {
    unsafe { at.write_volatile(number as f64) };
    0
}
// the one NaN of the logic in the place of any
unsafe fn one_nan(at: *mut f64) -> u32 {
    unsafe {
        if at.read_volatile().is_nan() {
            at.cast::<u64>().write_volatile(0x7ff8_0000_0000_0000);
        }
    }
    0
}
unsafe fn one_single_nan(at: *mut f32) -> u32 {
    unsafe {
        if at.read_volatile().is_nan() {
            at.cast::<u32>().write_volatile(0x7fc0_0000);
        }
    }
    0
}
// as an operation on a signalling NaN does
unsafe fn quieten(at: *mut u64, slots: usize) -> u32 {
    for i in 0..slots {
        unsafe { at.add(i).write_volatile(at.add(i).read_volatile() | 1 << 51) };
    }
    0
}
unsafe fn copy(at: *mut u64, from: usize, to: usize) -> u32 {
    unsafe { at.add(to).write_volatile(at.add(from).read_volatile()) };
    0
}

// how each of them is found out, in that order: by a guard, by the bytes beside a slice, by its slots, by what it answers in other
// memory, by its number, by the bounds or the meters that it refuses or doesn't, or by what came of it in a run, or never did
const GUARD: (i32, &str) = (FAULT, "fault (SIGSEGV)");
const BESIDE: (i32, &str) = (1, "memory beside it was written");
const SLOTS: (i32, &str) = (1, "changed slot");
const MEMORY: (i32, &str) = (1, "in other memory gives another outcome");
const NUMBER: (i32, &str) = (1, "which is no number that it has");
const BOUND: (i32, &str) = (1, "refuses a bound of the tempo");
const METER: [(i32, &str); 4] = [
    (1, "gives 0 for the meter"),
    (1, "gives 3 for the meter"),
    (1, "gives 1 for the meter 3, and 0 for 4"),
    (1, "the meter makes a difference to more than downbeats"),
];
const IN_A_RUN: [(i32, &str); 8] = [
    (1, "never answered\n"),
    (1, "never refused with 3\n"),
    (1, "never refused with 3 with a NaN in every slot of floats\n"),
    (1, "never answered with a NaN in a slot that it leaves alone\n"),
    (1, "never answered with a bound that isn't finite\n"),
    (1, "never answered with another meter than 4\n"),
    (1, "never refused with 1 for the meter alone\n"),
    (1, "other downbeats than the beats give\n"),
];
#[rustfmt::skip]
const FOUND_OUT: [(i32, &str); CALLS.len()] = [
    GUARD, GUARD, GUARD, GUARD, BESIDE, GUARD, SLOTS, SLOTS, SLOTS, SLOTS,
    SLOTS, SLOTS, SLOTS, SLOTS, SLOTS, SLOTS, MEMORY,
    NUMBER, IN_A_RUN[0], IN_A_RUN[1], IN_A_RUN[2], IN_A_RUN[3], BOUND, IN_A_RUN[4],
    METER[0], METER[1], METER[2], METER[3], IN_A_RUN[5], IN_A_RUN[6], IN_A_RUN[7],
];

/// Runs each in a process of its own, and looks how it ended and what was told.
pub fn all_are_caught() -> bool {
    let me = std::env::current_exe().expect("this program has a path");
    let mut caught = 0;
    for (call, (status, word)) in CALLS.iter().zip(FOUND_OUT) {
        let (many, one) = (MANY.to_string(), ["case", call.name, "1", "1"]);
        let run = IN_A_RUN.contains(&(status, word));
        let words = if run { ["run", "1", &many, call.name] } else { one };
        let said = Command::new(&me).args(words).output().expect("runs itself");
        let text = String::from_utf8_lossy(&said.stdout);
        let fine = said.status.code() == Some(status) && text.contains(word);
        caught += usize::from(fine);
        if !fine {
            println!("{} was not caught: {text}", call.name);
        }
    }
    println!("guards: {caught} of {} misdeeds caught", CALLS.len());
    caught == CALLS.len()
}
