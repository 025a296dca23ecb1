// The leaves by Rust's own: libm's log, log2 and exp, and std's sqrt, round, ceil and total_cmp.
//
//   reference inputs N      N inputs, a line of sixteen hexadecimal digits for each: the bits of an f64
//   reference sample        some hundred inputs, the fixed list of crates/run_leaves/stdin
//   reference answers       for each line of standard input a line: the input, then the bits of log, log2, exp and sqrt, then
//                           round and ceil as whole numbers and the place in the total order, all in hexadecimal
//   reference compare A B   counts, per leaf, the inputs at which two lists of answers differ; the last line is the sum
use std::io::{stdin, stdout, BufRead, BufReader, BufWriter, Write};

const NAMES: [&str; 7] = ["log", "log2", "exp", "sqrt", "round", "ceil", "order"];

// The one NaN of the port.
fn bits(x: f64) -> u64 {
    if x.is_nan() { 0x7ff8_0000_0000_0000 } else { x.to_bits() }
}

// f64::total_cmp compares these numbers, as signed ones.
fn place(x: f64) -> u64 {
    let n = bits(x) as i64;
    ((n ^ (((n >> 63) as u64) >> 1) as i64) as u64) ^ (1 << 63)
}

fn answers(n: u64) -> [u64; 7] {
    let x = f64::from_bits(n);
    [
        bits(libm::log(x)),
        bits(libm::log2(x)),
        bits(libm::exp(x)),
        bits(x.sqrt()),
        x.round() as u64,
        x.ceil() as u64,
        place(x),
    ]
}

// A fixed sequence of numbers (xorshift64*), so that every run has the same inputs.
struct Numbers(u64);

impl Numbers {
    fn next(&mut self) -> u64 {
        self.0 ^= self.0 >> 12;
        self.0 ^= self.0 << 25;
        self.0 ^= self.0 >> 27;
        self.0.wrapping_mul(0x2545_f491_4f6c_dd1d)
    }

    // from lo to hi
    fn whole(&mut self, lo: u64, hi: u64) -> u64 {
        lo + self.next() % (hi - lo + 1)
    }

    fn real(&mut self, lo: f64, hi: f64) -> f64 {
        lo + (hi - lo) * ((self.next() >> 11) as f64 / 9007199254740992.0)
    }
}

// x and the k floats on either side of it.
fn near(out: &mut Vec<u64>, x: f64, k: u64) {
    let n = x.to_bits();
    for i in 0..=2 * k {
        out.push(n.wrapping_add(i).wrapping_sub(k));
    }
}

// The values at which a leaf changes its way, each with its neighbours.
fn edges(out: &mut Vec<u64>, k: u64) {
    let ln2 = std::f64::consts::LN_2;
    for x in [
        1.0, 2.0, 0.5, 1.5, 0.1, 10.0, 2f64.sqrt(), 0.5f64.sqrt(), 0.5 * ln2, 1.5 * ln2, 2.5 * ln2, 709.782712893383973096,
        708.39641853226410622, 745.13321910194110842, 2f64.powi(-28), 2f64.powi(-29), 2f64.powi(-1022), 2f64.powi(52),
        2f64.powi(53), 2f64.powi(62), 2f64.powi(63), 2f64.powi(64), 4503599627370495.5, 0.49999999999999994, 1e300, 1e-310,
    ] {
        near(out, x, k);
        near(out, -x, k);
    }
    for high in [
        0x3fe6_a09e, 0x3ff6_a09e, 0x4086_232b, 0x3fd6_2e42, 0x3fd6_2e43, 0x3ff0_a2b2, 0x3e30_0000, 0x3e30_0001, 0x7ff0_0000,
        0x7ff8_0000, 0x0010_0000, 0,
    ] {
        near(out, f64::from_bits(high << 32), k);
        near(out, -f64::from_bits(high << 32), k);
    }
}

// What the callers hand to the leaves: see tempo.rs and structure.rs.
fn called(out: &mut Vec<u64>, r: &mut Numbers) {
    let rate = r.whole(1, 192_000) as f64;
    let lag = r.whole(1, 45_000) as f64;
    let bpm = rate / 256.0 * 60.0 / lag;
    let z = libm::log2(bpm / 120.0) / 1.3;
    let length = r.whole(1, 1 << 31) as f64;
    let frame_ms = length / rate * 1000.0;
    for x in [
        r.whole(1, 90_000) as f64 / lag,
        bpm / 120.0,
        -0.5 * z * z,
        rate / 256.0 * 60.0 / r.real(1.0, 1000.0),
        30.0 / 1000.0 * rate / 256.0,
        4000.0 / frame_ms,
        r.real(0.0, 1.0) * 2f64.powi(r.whole(0, 600) as i32 - 300),
    ] {
        out.push(x.to_bits());
    }
}

fn inputs(count: usize) -> Vec<u64> {
    let mut out = Vec::new();
    let mut r = Numbers(0x9e37_79b9_7f4a_7c15);
    edges(&mut out, 40);
    for n in -1074..1024 {
        near(&mut out, 2f64.powi(n), 2);
    }
    for u in -8i32..8 {
        for v in -8i32..8 {
            out.push((-((u * u + v * v) as f64) / 32.0).to_bits());
        }
    }
    for n in 0..46_000u64 {
        near(&mut out, n as f64 + 0.5, 1);
    }
    while out.len() < count {
        called(&mut out, &mut r);
        out.push(r.next());
        let short = r.whole(1, 52);
        out.push(r.next() >> (64 - short));
        out.push(r.real(0.5, 2.0).to_bits());
        out.push(r.real(-750.0, 712.0).to_bits());
        let small = 2f64.powi(-(r.whole(0, 40) as i32));
        out.push((r.real(-2.0, 2.0) * small).to_bits());
        let digits = r.whole(1, 54);
        let whole = r.next() >> (64 - digits);
        near(&mut out, whole as f64, 1);
        near(&mut out, whole as f64 / 2.0, 1);
    }
    out.truncate(count);
    out
}

fn sample() -> Vec<u64> {
    let mut out = Vec::new();
    edges(&mut out, 1);
    let mut r = Numbers(0x2545_f491_4f6c_dd1d);
    for i in 0..20 {
        called(&mut out, &mut r);
        out.push(r.next());
        near(&mut out, i as f64 + 0.5, 1);
    }
    out.retain(|&n| !f64::from_bits(n).is_nan());
    out.push(0x7ff8_0000_0000_0000);
    out
}

fn write_inputs(list: Vec<u64>) {
    let mut to = BufWriter::new(stdout());
    for n in list {
        writeln!(to, "{n:016x}").unwrap();
    }
}

fn write_answers() {
    let mut to = BufWriter::new(stdout());
    for line in BufReader::new(stdin()).lines() {
        let line = line.unwrap();
        let n = u64::from_str_radix(&line, 16).unwrap();
        write!(to, "{n:016x}").unwrap();
        for answer in answers(n) {
            write!(to, " {answer:016x}").unwrap();
        }
        writeln!(to).unwrap();
    }
}

fn compare(one: &str, other: &str) -> bool {
    let read = |path: &str| std::fs::read_to_string(path).unwrap();
    let (one, other) = (read(one), read(other));
    let (one, other): (Vec<&str>, Vec<&str>) = (one.lines().collect(), other.lines().collect());
    let mut differing = [0u64; 7];
    let mut bad = one.len().abs_diff(other.len()) as u64;
    for (a, b) in one.iter().zip(&other) {
        let (a, b): (Vec<&str>, Vec<&str>) = (a.split(' ').collect(), b.split(' ').collect());
        if a.len() != 8 || b.len() != 8 || a[0] != b[0] {
            bad += 1;
            continue;
        }
        for i in 0..7 {
            if a[i + 1] != b[i + 1] {
                differing[i] += 1;
                if differing[i] <= 5 {
                    println!("{} at {}: {} and {}", NAMES[i], a[0], a[i + 1], b[i + 1]);
                }
            }
        }
    }
    for i in 0..7 {
        println!("{}: {} inputs, {} differences", NAMES[i], one.len(), differing[i]);
    }
    let sum = bad + differing.iter().sum::<u64>();
    println!("{} inputs, {} differences", one.len(), sum);
    sum == 0 && !one.is_empty()
}

fn main() {
    let words: Vec<String> = std::env::args().collect();
    let words: Vec<&str> = words.iter().map(|w| w.as_str()).collect();
    match words[1..] {
        ["inputs", count] => write_inputs(inputs(count.parse().unwrap())),
        ["sample"] => write_inputs(sample()),
        ["answers"] => write_answers(),
        ["compare", one, other] => std::process::exit(if compare(one, other) { 0 } else { 1 }),
        _ => {
            eprintln!("reference inputs N | sample | answers | compare A B");
            std::process::exit(2)
        }
    }
}
