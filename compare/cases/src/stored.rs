//! The stored samples, which programs of the gate replay.

/// A program's room.
const NUMBERS: usize = 40_000;
const BYTES: usize = 250_000;

fn numbers(text: &str) -> usize {
    text.split(|c: char| !c.is_ascii_digit())
        .filter(|n| !n.is_empty())
        .count()
}

/// A line of the sample: a case behind how many numbers it has, or a comment, which has none.
fn line(line: &str) -> String {
    let n = numbers(line);
    if line.starts_with("--") {
        assert!(n == 0, "a number in {line}");
        return format!("{line}\n");
    }
    format!("{n}: {line}\n")
}

/// Prints a sample of these lines, less than the program has room for.
pub fn print(lines: &str) {
    let text: String = lines.lines().map(line).collect();
    let n = numbers(&text);
    assert!(
        n < NUMBERS && text.len() < BYTES,
        "{n} numbers in {} bytes",
        text.len()
    );
    print!("{text}");
}
