//! The table's lines.

pub fn head() {
    println!("| | the Rust | ours | ratio |\n|---|---|---|---|");
}

/// The ns of one call.
pub fn times(what: &str, rust: f64, ours: f64) {
    let ratio = ours / rust;
    println!("| {what} | {rust:.1} ns | {ours:.1} ns | {ratio:.2} |");
}

/// How many of something replay answers in a second.
pub fn rate(what: &str, unit: &str, a_second: f64) {
    println!("| {what} | | {} {unit} a second | |", grouped(a_second));
}

pub fn aims() {
    println!(
        "\nThe aims: a frame in place at most 2 times the Rust's, encode_mit_command at most 1.5 times, \
         replay from a file at least 500,000 lines a second."
    );
}

/// A whole number, its digits in groups of three.
fn grouped(n: f64) -> String {
    let digits = format!("{n:.0}");
    let mut text = String::new();
    for (i, digit) in digits.chars().enumerate() {
        if i > 0 && (digits.len() - i) % 3 == 0 {
            text.push(',');
        }
        text.push(digit);
    }
    text
}
