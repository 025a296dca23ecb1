//! A case: one call with all that it is lent, as a line of text that one can paste, and how a differing case is made smaller.
use std::time::Instant;

/// What is lent in one place. A room is the number of slots of an output that is lent; its slots are poisoned.
#[derive(Clone, Debug, PartialEq)]
pub enum Field {
    Whole(u64),
    Real(f64),
    Reals(Vec<f64>),
    Singles(Vec<f32>),
    Frames(Vec<u32>),
    Bytes(Vec<u8>),
}
use Field::*;

impl Field {
    pub fn whole(&self) -> u64 {
        let Whole(n) = self else { panic!("not a whole number: {self:?}") };
        *n
    }
    pub fn size(&self) -> usize {
        self.whole() as usize
    }
    pub fn small(&self) -> u32 {
        self.whole() as u32
    }
    pub fn real(&self) -> f64 {
        let Real(x) = self else { panic!("not a number: {self:?}") };
        *x
    }
    pub fn reals(&self) -> &[f64] {
        let Reals(xs) = self else { panic!("not numbers: {self:?}") };
        xs
    }
    pub fn singles(&self) -> &[f32] {
        let Singles(xs) = self else { panic!("not magnitudes: {self:?}") };
        xs
    }
    pub fn frames(&self) -> &[u32] {
        let Frames(xs) = self else { panic!("not frames: {self:?}") };
        xs
    }
    pub fn bytes(&self) -> &[u8] {
        let Bytes(xs) = self else { panic!("not bytes: {self:?}") };
        xs
    }

    fn len(&self) -> Option<usize> {
        match self {
            Reals(xs) => Some(xs.len()),
            Singles(xs) => Some(xs.len()),
            Frames(xs) => Some(xs.len()),
            Bytes(xs) => Some(xs.len()),
            _ => None,
        }
    }

    // the same with one slot plainer
    fn plainer(&self, slot: usize) -> Vec<Field> {
        fn set<T: Copy>(xs: &[T], slot: usize, x: T) -> Vec<T> {
            let mut xs = xs.to_vec();
            xs[slot] = x;
            xs
        }
        match self {
            Whole(n) => [0, 1, n / 2, n.saturating_sub(1)].into_iter().filter(|m| m < n).map(Whole).collect(),
            Real(x) => plainer(*x).into_iter().map(Real).collect(),
            Reals(xs) => plainer(xs[slot]).into_iter().map(|y| Reals(set(xs, slot, y))).collect(),
            Singles(xs) => plainer(xs[slot].into()).into_iter().map(|y| Singles(set(xs, slot, y as f32))).collect(),
            Frames(xs) => {
                let less = [0, xs[slot] / 2, xs[slot].saturating_sub(1)].into_iter().filter(|&y| y < xs[slot]);
                less.map(|y| Frames(set(xs, slot, y))).collect()
            }
            Bytes(xs) => {
                let less = [0, xs[slot] / 2, xs[slot].saturating_sub(1)].into_iter().filter(|&y| y < xs[slot]);
                less.map(|y| Bytes(set(xs, slot, y))).collect()
            }
        }
    }

    fn without(&self, from: usize, past: usize) -> Field {
        fn cut<T: Copy>(xs: &[T], from: usize, past: usize) -> Vec<T> {
            [&xs[..from], &xs[past..]].concat()
        }
        match self {
            Reals(xs) => Reals(cut(xs, from, past)),
            Singles(xs) => Singles(cut(xs, from, past)),
            Frames(xs) => Frames(cut(xs, from, past)),
            Bytes(xs) => Bytes(cut(xs, from, past)),
            other => other.clone(),
        }
    }
}

// a float; a NaN by its bits, unless it is the plain one
fn told(x: f64) -> String {
    if x.is_nan() && x.to_bits() != f64::NAN.to_bits() { format!("{:#x}", x.to_bits()) } else { format!("{x:?}") }
}
fn heard(word: &str) -> f64 {
    word.strip_prefix("0x").map_or_else(|| word.parse().unwrap(), |bits| f64::from_bits(u64::from_str_radix(bits, 16).unwrap()))
}

/// A case as a line: the call, then each field with its name. A slot that comes many times in a row is written once, as 0.0*17.
pub fn text(name: &str, names: &[&str], fields: &[Field]) -> String {
    let list = |items: Vec<String>| {
        let runs = items.chunk_by(|a, b| a == b);
        let short = runs.flat_map(|run| if run.len() > 3 { vec![format!("{}*{}", run[0], run.len())] } else { run.to_vec() });
        format!("[{}]", short.collect::<Vec<_>>().join(","))
    };
    let mut line = name.to_string();
    for (name, field) in names.iter().zip(fields) {
        let value = match field {
            Whole(n) => n.to_string(),
            Real(x) => told(*x),
            Reals(xs) => list(xs.iter().map(|&x| told(x)).collect()),
            Singles(xs) => list(xs.iter().map(|x| format!("{x:?}")).collect()),
            Frames(xs) => list(xs.iter().map(|x| x.to_string()).collect()),
            Bytes(xs) => list(xs.iter().map(|x| x.to_string()).collect()),
        };
        line += &format!(" {name}={value}");
    }
    line
}

/// Reads a case's line again; `like` has a field of the right kind in each place.
pub fn parse(line: &str, like: &[Field]) -> Vec<Field> {
    let words: Vec<&str> = line.split_whitespace().skip(1).collect();
    assert_eq!(words.len(), like.len(), "this call has {} fields", like.len());
    let items = |word: &str| -> Vec<String> {
        let inner = word.trim_start_matches('[').trim_end_matches(']');
        let slots = |item: &str| match item.split_once('*') {
            Some((slot, count)) => vec![slot.to_string(); count.parse().unwrap()],
            None => vec![item.to_string()],
        };
        inner.split(',').filter(|s| !s.is_empty()).flat_map(slots).collect()
    };
    words
        .iter()
        .zip(like)
        .map(|(word, like)| {
            let value = word.split_once('=').map_or(*word, |(_, v)| v);
            match like {
                Whole(_) => Whole(value.parse().unwrap()),
                Real(_) => Real(heard(value)),
                Reals(_) => Reals(items(value).iter().map(|s| heard(s)).collect()),
                Singles(_) => Singles(items(value).iter().map(|s| s.parse().unwrap()).collect()),
                Frames(_) => Frames(items(value).iter().map(|s| s.parse().unwrap()).collect()),
                Bytes(_) => Bytes(items(value).iter().map(|s| s.parse().unwrap()).collect()),
            }
        })
        .collect()
}

/// A case that still differs and that no step below makes smaller, or the smallest after twenty seconds.
pub fn smallest(mut fields: Vec<Field>, differs: &dyn Fn(&[Field]) -> bool) -> Vec<Field> {
    let start = Instant::now();
    let mut found = Some(fields.clone());
    while let Some(smaller) = found.take() {
        fields = smaller;
        steps(&fields, &mut |smaller| {
            let over = start.elapsed().as_secs() >= 20;
            if !over && differs(&smaller) {
                found = Some(smaller);
            }
            over || found.is_some()
        });
    }
    fields
}

/// Hands over cases one step smaller until it is told to stop: slots left out, in every list of the same length at once and with the whole
/// numbers that count them; whole rows left out; one list shortened; a number made plainer.
fn steps(fields: &[Field], done: &mut dyn FnMut(Vec<Field>) -> bool) -> bool {
    let mut lengths: Vec<usize> = fields.iter().filter_map(Field::len).filter(|&n| n > 0).collect();
    lengths.sort_unstable();
    lengths.dedup();
    for &n in &lengths {
        for (from, past) in ranges(n) {
            let gone = (past - from) as u64;
            for counts in [true, false] {
                let one = |f: &Field| match f {
                    Whole(w) if counts && *w >= n as u64 && *w <= n as u64 + 8 => Whole(w - gone),
                    f if f.len() == Some(n) => f.without(from, past),
                    f => f.clone(),
                };
                if done(fields.iter().map(one).collect()) {
                    return true;
                }
            }
        }
    }
    for (k, field) in fields.iter().enumerate() {
        let Whole(rows) = field else { continue };
        let rows = *rows as usize;
        if !(1..=1 << 20).contains(&rows) {
            continue;
        }
        for (from, past) in ranges(rows) {
            let one = |(j, f): (usize, &Field)| match (f, f.len()) {
                _ if j == k => Whole((rows - (past - from)) as u64),
                (_, Some(n)) if n > 0 && n % rows == 0 => f.without(from * (n / rows), past * (n / rows)),
                _ => f.clone(),
            };
            if done(fields.iter().enumerate().map(one).collect()) {
                return true;
            }
        }
    }
    for (k, field) in fields.iter().enumerate() {
        let mut with = |f: Field| {
            let mut smaller = fields.to_vec();
            smaller[k] = f;
            done(smaller)
        };
        if let Some(n) = field.len() {
            if ranges(n).into_iter().any(|(from, past)| with(field.without(from, past))) {
                return true;
            }
        }
        for slot in 0..field.len().unwrap_or(1).min(200) {
            if field.plainer(slot).into_iter().any(&mut with) {
                return true;
            }
        }
    }
    false
}

// halves, quarters, .. then single slots
fn ranges(n: usize) -> Vec<(usize, usize)> {
    let mut out = Vec::new();
    let mut size = n;
    while size > 0 {
        let mut from = 0;
        while from + size <= n && out.len() < 400 {
            out.push((from, from + size));
            from += size;
        }
        size /= 2;
    }
    out
}

fn plainer(x: f64) -> Vec<f64> {
    let mut out = Vec::new();
    for y in [0.0, 1.0, -1.0, x.trunc(), (x * 16.0).round() / 16.0] {
        let simpler = y.to_bits().count_ones() < x.to_bits().count_ones() && y.abs() <= x.abs();
        if x != 0.0 && y.to_bits() != x.to_bits() && (simpler || y == 0.0) {
            out.push(y);
        }
    }
    if x.to_bits() == (-0.0f64).to_bits() {
        out.push(0.0);
    }
    out
}
