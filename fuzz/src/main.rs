//! Guarded runs: the exported functions on random and damaged input, with every lent slice against an unmapped page, once behind it and
//! once before it. No read or write may go outside what was lent, no input may be written, a refusal may change nothing, and an answer
//! may change nothing past its count or its formula; and neither the place of the memory nor what room held may make a difference. A call
//! gives no number of refusal that it doesn't have, and none for a bound of the tempo, which may be any float; it refuses a meter outside 1
//! to 16 with 1, and no other, and the meter makes no difference but to downbeats, which are those of their rule; and among 2,000 inputs and
//! more it answers, with such bounds and with other meters than 4 too, and refuses with each number that it has, and for a meter alone, while
//! NaNs show that slots stay.
//!
//!   fuzz run SEED COUNT [CALL]    COUNT inputs a call, and those at the bounds; the last line is 'N calls, 0 faults', or the exit is not 0
//!   fuzz case CALL SEED NUMBER    one of the inputs again, and what came of it; `fuzz case CALL bound NUMBER` for one at the bounds
//!   fuzz guards                   whether the guards and the checks catch functions that misbehave on purpose
mod alarm;
mod calls;
// one that is not called is not tried
#[deny(dead_code)]
#[path = "../../rust/src/ffi.rs"]
#[rustfmt::skip]
mod ffi;
mod guard;
mod lend;
mod misbehave;
mod numbers;

use alarm::Case;
use calls::{Call, CALLS};
use guard::Pool;
use lend::{emptied, own_nan, After, Arg, Fill, Guard, Kind};
use numbers::Numbers;
use std::ops::Range;
use std::process::exit;

// the numbers that a case is made of
fn numbers_of(what: &str, case: Case) -> Numbers {
    match case {
        Case::Drawn { seed, number } => Numbers::of(seed, what, number),
        Case::Bound { number } => Numbers::of(0, what, number),
    }
}

fn arguments(call: &Call, case: Case) -> Option<Vec<Arg>> {
    let mut r = numbers_of(call.name, case);
    match case {
        Case::Drawn { .. } => Some((call.draw)(&mut r)),
        Case::Bound { number } => (call.bound)(&mut r, number),
    }
}

// the bytes outside the free ranges, range by range
fn kept(bytes: usize, mut free: Vec<Range<usize>>) -> Vec<Range<usize>> {
    free.push(bytes..bytes);
    free.sort_by_key(|r| r.start);
    let mut from = 0;
    let before = |r: Range<usize>| {
        let kept = from..r.start.clamp(from, bytes);
        from = r.end.clamp(kept.end, bytes);
        kept
    };
    free.into_iter().map(before).filter(|r| !r.is_empty()).collect()
}

/// A call that was made: what it was lent, and what came of it.
struct Made {
    lent: Vec<Vec<u8>>,
    after: After,
    /// Whether NaNs showed that slots stay: of a refusal in every slot of floats that the call may write, of an answer in one that it
    /// may not.
    shown: bool,
}

// whether NaNs showed that slots stay; or what a call may not have done to the memory it was lent
fn stays(call: &Call, args: &[Arg], lent: &[Vec<u8>], after: &After) -> Result<bool, String> {
    if after.number != 0 && !call.refuses.contains(&after.number) {
        return Err(format!("refuses with {}, which is no number that it has", after.number));
    }
    let reach = if after.number == 0 { (call.reach)(args, after)? } else { Vec::new() };
    let (mut nans, mut others) = (0, 0);
    for (k, arg) in args.iter().enumerate() {
        let Arg::Lent { kind, written: true, .. } = arg else { continue };
        let (was, is) = (&lent[k], &after.held[k]);
        let free = reach.iter().filter(|r| r.0 == k).map(|r| r.1.start * kind.bytes..r.1.end * kind.bytes).collect();
        for range in kept(was.len(), free) {
            if was[range.clone()] != is[range.clone()] {
                let slot = range.into_iter().find(|&i| was[i] != is[i]).unwrap() / kind.bytes;
                let when = if after.number == 0 { "an answer" } else { "a refusal" };
                return Err(format!("{when} ({}) changed slot {slot} of argument {k}", after.number));
            }
            if kind.float {
                let own = was[range.clone()].chunks(kind.bytes).filter(|slot| own_nan(*kind, slot)).count();
                nans += own;
                others += range.len() / kind.bytes - own;
            }
        }
    }
    Ok(nans > 0 && (after.number == 0 || others == 0))
}

// each slot of an argument, before and after
fn slots(made: &Made, k: usize, kind: Kind) -> impl Iterator<Item = (&[u8], &[u8])> {
    made.lent[k].chunks(kind.bytes).zip(made.after.held[k].chunks(kind.bytes))
}

// whether two calls did the same, but for these arguments: each slot stayed in both, or holds the same bits after both
fn alike(args: &[Arg], one: &Made, other: &Made, but: &[usize]) -> bool {
    let same = |(k, arg): (usize, &Arg)| {
        let Arg::Lent { kind, written: true, .. } = arg else { return true };
        but.contains(&k)
            || slots(one, k, *kind).zip(slots(other, k, *kind)).all(|((a, b), (c, d))| b == d || a == b && c == d)
    };
    one.after.number == other.after.number && args.iter().enumerate().all(same)
}

/// What came of an input: the number, the calls made, whether NaNs showed that slots stay, and whether it is refused for its meter alone.
struct Came {
    number: u32,
    calls: u64,
    shown: bool,
    for_meter: bool,
}

/// The calls on one input: what came of them, or what is wrong.
fn tried(call: &Call, case: Case, args: &[Arg], pool: &mut Pool) -> Result<Came, String> {
    let mut made = |args: &[Arg], guard, fill| {
        let lent = lend::contents(args, fill, &mut numbers_of("room", case));
        let after = lend::call(call.name, call.function, case, args, &lent, guard, pool)?;
        let shown = stays(call, args, &lent, &after)?;
        Ok::<_, String>(Made { lent, after, shown })
    };
    let (one, other) = (made(args, Guard::Behind, Fill::Nans)?, made(args, Guard::Before, Fill::Bytes)?);
    if !alike(args, &one, &other, &[]) {
        return Err("the same input in other memory gives another outcome".into());
    }
    let (number, shown) = (one.after.number, one.shown);
    let (mut calls, mut for_meter) = (2, false);
    if let Some(meter) = calls::meter_of(args).filter(|&meter| meter != 4) {
        if !calls::is_meter(meter) && number != 1 {
            return Err(format!("gives {number} for the meter {meter}, and not 1"));
        }
        // with the usual one: what is refused for its meter is not, and all else stays but what is chosen by it
        let usual = made(&calls::with_usual_meter(args), Guard::Behind, Fill::Nans)?;
        calls += 1;
        if calls::is_meter(meter) {
            if usual.after.number != number {
                return Err(format!("gives {number} for the meter {meter}, and {} for 4", usual.after.number));
            }
            if !alike(args, &one, &usual, call.chosen) {
                return Err("the meter makes a difference to more than downbeats".into());
            }
        }
        for_meter = usual.after.number == 0 && number == 1;
    }
    if number == 1 && !for_meter && calls::bounds(args).is_some() {
        // no bound is out of bounds, so the usual ones are refused too
        let usual = made(&calls::with_usual_bounds(args), Guard::Behind, Fill::Nans)?;
        calls += 1;
        if usual.after.number != 1 {
            return Err("refuses a bound of the tempo".into());
        }
    }
    if number == 0 || !args.iter().any(Arg::is_changed) {
        return Ok(Came { number, calls, shown, for_meter });
    }
    // It stays this refusal where what the call was lent to change is NaNs: numbers 1 to 3 come before a look at values, and number 4 is
    // theirs too.
    let refused = made(&emptied(args), Guard::Behind, Fill::Nans)?;
    if refused.after.number != number {
        return Err(format!("with NaNs to change it gives {} in place of {number}", refused.after.number));
    }
    Ok(Came { number, calls: calls + 1, shown: refused.shown, for_meter })
}

// the numbers that the calls give, in the order of the columns, and one more than the greatest: 5 is the reporting program's
const NUMBERS: [usize; 11] = [0, 1, 2, 3, 4, 6, 7, 8, 9, 10, 11];
const SLOTS: usize = 12;

#[derive(Default)]
struct Tally {
    numbers: [u64; SLOTS],
    // inputs with each number of which NaNs showed that slots stay
    shown: [u64; SLOTS],
    // whether the call may write floats
    floats: bool,
    // whether it takes bounds of the tempo, and the answers with one that isn't finite
    bounds: bool,
    open: u64,
    // whether it takes a meter, the answers with another than 4, and the refusals for the meter alone
    meter: bool,
    other: u64,
    for_meter: u64,
    faults: u64,
}

fn all_of(call: &Call, seed: u64, count: u64, pool: &mut Pool) -> Tally {
    let mut tally = Tally::default();
    let drawn = (0..count).map(|number| Case::Drawn { seed, number });
    let bound = (0..).map(|number| Case::Bound { number });
    for case in drawn.chain(bound) {
        let Some(args) = arguments(call, case) else { break };
        tally.floats |= args.iter().any(|arg| matches!(arg, Arg::Lent { kind, written: true, .. } if kind.float));
        let bounds = calls::bounds(&args);
        tally.bounds |= bounds.is_some();
        let meter = calls::meter_of(&args);
        tally.meter |= meter.is_some();
        match tried(call, case, &args, pool) {
            Ok(came) => {
                let open = came.number == 0 && bounds.is_some_and(|pair| pair.iter().any(|bound| !bound.is_finite()));
                tally.open += u64::from(open);
                tally.other += u64::from(came.number == 0 && meter.is_some_and(|meter| meter != 4));
                tally.for_meter += u64::from(came.for_meter);
                tally.numbers[came.number as usize] += came.calls;
                tally.shown[came.number as usize] += u64::from(came.shown);
            }
            Err(what) => {
                tally.faults += 1;
                if tally.faults <= 3 {
                    println!("ph_{}: {what}\n  again: tools/fuzz case {} {case}", call.name, call.name);
                }
            }
        }
    }
    tally
}

// from so many inputs on a call must have given whatever it can: the rarest number comes of one input in eighty
const MANY: u64 = 2_000;

// what never came of a call, though some input gives it: a number, or one while NaNs showed that slots stay
fn never(call: &Call, tally: &Tally) -> Vec<String> {
    let lacks = |&number: &u32| {
        let of = number as usize;
        let what = if number == 0 { "answered".into() } else { format!("refused with {number}") };
        if tally.numbers[of] == 0 {
            Some(format!("never {what}"))
        } else if tally.floats && tally.shown[of] == 0 {
            let slots = if number == 0 { "a slot that it leaves alone" } else { "every slot of floats" };
            Some(format!("never {what} with a NaN in {slots}"))
        } else {
            None
        }
    };
    let others = [
        (tally.bounds && tally.open == 0, "never answered with a bound that isn't finite"),
        (tally.meter && tally.other == 0, "never answered with another meter than 4"),
        (tally.meter && tally.for_meter == 0, "never refused with 1 for the meter alone"),
    ];
    let others = others.into_iter().filter(|other| other.0).map(|(_, what)| what.into());
    [0].iter().chain(call.refuses).filter_map(lacks).chain(others).collect()
}

fn run(list: &[&Call], seed: u64, count: u64) -> bool {
    println!("the library is version {} (ph_version)", calls::version());
    println!("seed {seed}, {count} inputs a call and those at the bounds, each with guards behind and before");
    let columns: String = NUMBERS[1..].iter().map(|number| format!("{:>9}", format!("no. {number}"))).collect();
    println!("{:24}{:>10}{:>10}{columns}{:>8}", "call", "calls", "answered", "faults");
    let (mut calls, mut faults, mut lacks, mut pool) = (0, 0, 0, Pool::default());
    for call in list {
        let t = all_of(call, seed, count, &mut pool);
        let sum = t.numbers.iter().sum::<u64>() + 2 * t.faults;
        let columns: String = NUMBERS[1..].iter().map(|&number| format!("{:>9}", t.numbers[number])).collect();
        println!("{:24}{sum:>10}{:>10}{columns}{:>8}", call.name, t.numbers[0], t.faults);
        calls += sum;
        faults += t.faults;
        for what in never(call, &t) {
            let asked =
                if count < MANY { format!(", which is asked for from {MANY} inputs on") } else { String::new() };
            println!("ph_{} {what}{asked}", call.name);
            lacks += usize::from(count >= MANY);
        }
    }
    let lacking = match lacks {
        0 => String::new(),
        1 => ", and an outcome that never came".into(),
        _ => format!(", and {lacks} outcomes that never came"),
    };
    println!("{calls} calls, {faults} faults{lacking}");
    faults == 0 && lacks == 0
}

fn named(name: &str) -> &'static Call {
    CALLS.iter().chain(misbehave::CALLS.iter()).find(|c| c.name == name).unwrap_or_else(|| {
        println!("no call {name}");
        exit(2)
    })
}

fn case(name: &str, case: Case) -> bool {
    let call = named(name);
    let Some(args) = arguments(call, case) else {
        println!("no case {case}");
        exit(2)
    };
    for (k, arg) in args.iter().enumerate() {
        match arg {
            Arg::Lent { slots, kind, written, .. } => {
                let written = if *written { ", written" } else { "" };
                println!("argument {k}: {slots} slots of {} bytes{written}", kind.bytes)
            }
            number => println!("argument {k}: {number:?}"),
        }
    }
    let came = tried(call, case, &args, &mut Pool::default());
    match &came {
        Ok(Came { number, .. }) => println!("ph_{name}: number {number}, nothing wrong"),
        Err(what) => println!("ph_{name}: {what}"),
    }
    came.is_ok()
}

fn number(word: &str) -> u64 {
    word.parse().unwrap_or_else(|_| {
        eprintln!("fuzz: {word} is no whole number");
        exit(2)
    })
}

fn main() {
    alarm::install();
    let words: Vec<String> = std::env::args().skip(1).collect();
    let words: Vec<&str> = words.iter().map(String::as_str).collect();
    let fine = match words[..] {
        ["run", seed, count] => run(&CALLS.iter().collect::<Vec<_>>(), number(seed), number(count)),
        ["run", seed, count, name] => run(&[named(name)], number(seed), number(count)),
        ["case", name, "bound", n] => case(name, Case::Bound { number: number(n) }),
        ["case", name, seed, n] => case(name, Case::Drawn { seed: number(seed), number: number(n) }),
        ["guards"] => misbehave::all_are_caught(),
        _ => {
            eprintln!("fuzz run SEED COUNT [CALL] | case CALL SEED NUMBER | case CALL bound NUMBER | guards");
            exit(2)
        }
    };
    exit(if fine { 0 } else { 1 })
}
