//! Compares the made crate with the original.
//!
//! ```text
//! compare texts FILE COUNT SEED      what both say of each line of FILE and of COUNT mutations
//! compare panics                     what calls that may panic say
//! compare values                     what default values, tables and formats are
//! compare time FILE ROUNDS           nanoseconds a call, the least of ROUNDS rounds, in turns
//! compare count FILE CRATE CALL N    for callgrind: CALL of CRATE on each line, N times
//! ```
mod speed;
mod texts;

mod of_original {
    use original as crate_of;
    include!("report.rs");
    pub mod values {
        use original as crate_of;
        include!("values.rs");
    }
}

mod of_rattle {
    use rattle as crate_of;
    include!("report.rs");
    pub mod values {
        use rattle as crate_of;
        include!("values.rs");
    }
}

use std::process::ExitCode;
use texts::{mutated, with_ports, Random};

/// The formatting characters of bidirectional text, which only the original decodes when it
/// normalizes (docs/RUST.md).
const FORMATTING: [char; 7] =
    ['\u{200E}', '\u{200F}', '\u{202A}', '\u{202B}', '\u{202C}', '\u{202D}', '\u{202E}'];

/// How two reports of one text compare.
enum Comparison {
    Same,
    /// They differ by formatting characters of bidirectional text in normal forms, and nowhere else.
    ByFormatting,
    Different,
}

fn compare(ours: &str, theirs: &str) -> Comparison {
    if ours == theirs {
        return Comparison::Same;
    }
    let are_normal_forms = ours.lines().count() == theirs.lines().count()
        && ours
            .lines()
            .zip(theirs.lines())
            .all(|(ours, theirs)| ours == theirs || ours.starts_with("normal"));
    if are_normal_forms && encoded(ours) == encoded(theirs) {
        Comparison::ByFormatting
    } else {
        Comparison::Different
    }
}

/// The report with formatting characters as percent-encoded octets.
fn encoded(report: &str) -> String {
    FORMATTING.iter().fold(report.to_string(), |text, &character| {
        let bytes = character.to_string().into_bytes();
        let octets: String = bytes.iter().map(|byte| format!("%{byte:02X}")).collect();
        text.replace(character, &octets).replace(&character.escape_unicode().to_string(), &octets)
    })
}

fn print_difference(text: &str, ours: &str, theirs: &str) {
    println!("different: {text:?}");
    for (ours, theirs) in ours.lines().zip(theirs.lines()).filter(|(a, b)| a != b).take(3) {
        println!("  original {theirs}\n  rattle   {ours}");
    }
}

/// Compares the reports, and prints how many differ. Whether none does but by formatting.
fn compare_texts(lines: Vec<String>, count: usize, seed: u64) -> bool {
    let lines = with_ports(lines);
    let mut random = Random::new(seed);
    let (mut valid, mut by_formatting, mut different) = (0, 0, 0);
    for i in 0..lines.len() + count {
        let text = lines.get(i).cloned().unwrap_or_else(|| mutated(&lines, &mut random));
        let (ours, theirs) = (of_rattle::report(&text), of_original::report(&text));
        valid += usize::from(original::IriRef::parse(text.as_str()).is_ok());
        match compare(&ours, &theirs) {
            Comparison::Same => (),
            Comparison::ByFormatting => by_formatting += 1,
            Comparison::Different => {
                different += 1;
                if different <= 10 {
                    print_difference(&text, &ours, &theirs);
                }
            }
        }
    }
    println!(
        "{} lines and {count} mutations, of which {valid} are IRI references: {different} \
         different, {by_formatting} by formatting characters in normal forms alone",
        lines.len()
    );
    different == 0
}

fn compare_panics() -> bool {
    std::panic::set_hook(Box::new(|_| ()));
    let (ours, theirs) = (of_rattle::panics(), of_original::panics());
    for (name, (ours, theirs)) in ours.iter().zip(&theirs).enumerate() {
        if ours != theirs {
            println!("call {name}: original {theirs:?}, rattle {ours:?}");
        }
    }
    println!("{} calls that may panic: {} say the same", theirs.len(), ours.len());
    ours == theirs
}

fn compare_values() -> bool {
    std::panic::set_hook(Box::new(|_| ()));
    let (ours, theirs) = (of_rattle::values::values(), of_original::values::values());
    let mut different = 0;
    for (ours, theirs) in ours.iter().zip(&theirs).filter(|(ours, theirs)| ours != theirs) {
        different += 1;
        println!("original {theirs}\nrattle   {ours}");
    }
    println!("{} lines of values: {different} different", theirs.len());
    ours == theirs
}

fn lines_of(path: &str) -> Vec<String> {
    let text = std::fs::read_to_string(path).expect("the file of texts");
    text.lines().map(String::from).collect()
}

fn main() -> ExitCode {
    let arguments: Vec<String> = std::env::args().skip(1).collect();
    let words: Vec<&str> = arguments.iter().map(String::as_str).collect();
    let number = |word: &str| word.parse::<usize>().expect("a number");
    let is_same = match words[..] {
        ["texts", file, count, seed] => {
            compare_texts(lines_of(file), number(count), number(seed) as u64)
        }
        ["panics"] => compare_panics(),
        ["values"] => compare_values(),
        ["time", file, rounds] => {
            speed::time(&lines_of(file), number(rounds));
            true
        }
        ["count", file, name, call, times] => {
            speed::repeat(&lines_of(file), name, call, number(times));
            true
        }
        _ => panic!("texts FILE COUNT SEED, panics, values, time FILE ROUNDS or count FILE CRATE CALL N"),
    };
    ExitCode::from(u8::from(!is_same))
}
