//! Copies the Rust of docs/src unchanged and appends to each file the lines of open/ that let the judge call its private functions.
//!
//! Some of what the port answers is a local value in the middle of one of those functions. There `{{name}}` in a file of open/ stands for
//! lines of the original, found by how they begin and by what follows them, and copied as they are; but for those of `REPLACED`, in which a
//! constant of the original gives way to a parameter.
use std::{env, fs, path::Path};

// name, the file, the first words of the lines, and the words before which they end
const CUTS: [(&str, &str, &str, &str); 12] = [
    ("picking", "onsets", "    let min_gap_frames =\n", "    let times_ms: Vec<f64> = accepted"),
    ("lag range", "tempo", "    let (lo, hi) = if opts.min_bpm <= opts.max_bpm {", "    let n = flux.len();\n    if n <= max_lag + 1"),
    ("lag curves", "tempo", "    let n = flux.len();\n    // Mean-removed", "    // Winner: best weighted"),
    ("windows", "tempo", "    let n = flux.len();\n    // Each window must", "    Some(agree as f64"),
    ("scores", "tempo", "    let n = flux.len();\n    if n == 0 || period_frames == 0", "    let mut end = 0;"),
    ("estimate", "tempo", "    if sample_rate == 0 || stft.magnitudes.len() < 3 {\n", "/// The beat-phase (`0..beats_per_bar`)"),
    ("downbeats", "tempo", "    let downbeat_phase = downbeat_phase(&flux,", "    let stability = stability_of("),
    ("frame length", "structure", "    let frame_ms = frame_len as f64", "    let features = feature_vectors"),
    ("frame time", "structure", "    let frame_ms = frame_len as f64", "    if frame_count < 2 * KERNEL_HALF_WIDTH"),
    ("feature rows", "structure", "    let mut chroma_acc = vec![", "/// Map a time in milliseconds"),
    ("boundaries", "structure", "    let min_gap_frames = ((MIN_BOUNDARY_GAP_S", "    if picked.is_empty()"),
    ("report", "structure", "    if picked.is_empty() {\n        return one_section_report();", "/// Per-frame 16-dim feature"),
];

// name of the lines, the constant, what stands in its place, and how often the lines have it
const REPLACED: [(&str, &str, &str, usize); 2] =
    [("estimate", "DEFAULT_BEATS_PER_BAR", "beats_per_bar", 4), ("downbeats", "DEFAULT_BEATS_PER_BAR", "beats_per_bar", 2)];

fn cut<'a>(text: &'a str, from: &str, to: &str) -> &'a str {
    assert_eq!(text.matches(from).count(), 1, "not once in the original: {from}");
    let start = text.find(from).unwrap();
    let len = text[start..].find(to).unwrap_or_else(|| panic!("not in the original: {to}"));
    &text[start..start + len]
}

fn main() {
    let here = env::var("CARGO_MANIFEST_DIR").unwrap();
    let out = env::var("OUT_DIR").unwrap();
    let mut modules = String::new();
    for name in ["onsets", "tempo", "structure"] {
        let given = Path::new(&here).join("../docs/src").join(format!("{name}.rs"));
        let open = Path::new(&here).join("open").join(format!("{name}.rs"));
        println!("cargo:rerun-if-changed={}", given.display());
        println!("cargo:rerun-if-changed={}", open.display());
        let original = fs::read_to_string(&given).unwrap();
        let mut opened = fs::read_to_string(&open).unwrap();
        for (what, file, from, to) in CUTS {
            if file == name {
                let mut lines = cut(&original, from, to).trim().to_string();
                for (_, constant, parameter, times) in REPLACED.iter().filter(|r| r.0 == what) {
                    assert_eq!(lines.matches(constant).count(), *times, "not so often in the original's {what}: {constant}");
                    lines = lines.replace(constant, parameter);
                }
                opened = opened.replace(&format!("{{{{{what}}}}}"), &lines);
            }
        }
        assert!(!opened.contains("{{"), "{}: lines that build.rs does not know", open.display());
        let to = Path::new(&out).join(format!("{name}.rs"));
        fs::write(&to, original + "\n" + &opened).unwrap();
        modules += &format!("#[allow(dead_code)]\n#[path = {:?}]\npub mod {name};\n", to);
    }
    fs::write(Path::new(&out).join("original.rs"), modules).unwrap();
}
