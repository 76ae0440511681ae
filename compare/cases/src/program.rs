//! The listing program as it is built, run on lists of lines, beside the model and the plan in place.

mod draw;
mod through;

pub use through::through;

use crate::plan::{answered, calls_in, listing, listing_in_place, opened_in_place};
use crate::random::Random;
use crate::table::{grows, median, row};
use std::env;
use std::fs::{self, File};
use std::io::Write;
use std::path::PathBuf;
use std::process::{Child, Command, Stdio};
use std::thread;

/// Where compare/common.sh puts it.
fn program() -> Command {
    Command::new(env::var("PROGRAM").expect("PROGRAM names the program"))
}

fn text(child: Child) -> Result<String, String> {
    let out = child.wait_with_output().expect("it ends");
    if !out.status.success() {
        return Err(format!("it ends with {}", out.status));
    }
    String::from_utf8(out.stdout).map_err(|_| String::from("it writes what is no text"))
}

/// What it writes, given the input in pieces of these lengths, in turn.
fn written(input: &[u8], pieces: &[usize]) -> Result<String, String> {
    let mut child = program()
        .stdin(Stdio::piped())
        .stdout(Stdio::piped())
        .spawn()
        .expect("the program starts");
    let mut pipe = child.stdin.take().expect("it has a standard input");
    let (mut rest, pieces) = (input.to_vec(), pieces.to_vec());
    let writer = thread::spawn(move || {
        for n in pieces.iter().cycle() {
            if rest.is_empty() {
                break;
            }
            let behind = rest.split_off(rest.len().min(*n));
            if pipe.write_all(&rest).is_err() {
                break;
            }
            rest = behind;
        }
    });
    let found = text(child);
    writer.join().expect("the writer ends");
    found
}

/// Whether it writes what is due, or the first line on which it does not.
fn held_to(whose: &str, input: &[u8], found: &str, due: &str) -> Result<usize, String> {
    if found == due {
        return Ok(due.lines().count());
    }
    let k = due
        .lines()
        .zip(found.lines())
        .take_while(|(a, b)| a == b)
        .count();
    let line = |text: &str| text.lines().nth(k).unwrap_or("nothing").to_string();
    let asked = input.split(|b| *b == b'\n').nth(k).unwrap_or_default();
    let kept = env::temp_dir().join("listing-that-differs.in");
    fs::write(&kept, input).expect("it is kept");
    Err(format!(
        "line {}, {}: {whose} {}, the program {}; the list is kept in {}",
        k + 1,
        asked.escape_ascii(),
        line(due),
        line(found),
        kept.display()
    ))
}

/// How many lines the program answers as it is due, or as the model and the plan in place do.
pub fn compare(random: &mut Random) -> Result<usize, String> {
    let mut lines = 0;
    let lists = answered()?;
    for (name, input, due) in &lists {
        lines += held_to(name, input, &written(input, &[input.len().max(1)])?, due)?;
    }
    println!("lists answered beforehand: {}, {lines} lines", lists.len());
    let mut refusals = [0usize; 26];
    for k in 0..600 {
        let calls = if k % 50 == 49 { 20_000 } else { 250 };
        let input = draw::list(random, calls);
        let due = listing(&input);
        held_to("the plan in place", &input, &listing_in_place(&input), &due)?;
        let pieces: Vec<usize> = (0..16).map(|_| 1 + random.below(9000) as usize).collect();
        lines += held_to("the model", &input, &written(&input, &pieces)?, &due)?;
        for line in due.lines() {
            let number = line
                .strip_prefix("refusal=")
                .and_then(|l| l.split(' ').next());
            let number: usize = number.and_then(|n| n.parse().ok()).expect("a number");
            refusals[number] += 1;
        }
    }
    // those that a line can reach
    for number in [0, 2, 3, 10, 14, 16, 18, 19, 21, 22, 23, 24, 25] {
        if refusals[number] == 0 {
            return Err(format!("no line was answered {number}"));
        }
    }
    Ok(lines)
}

/// A file of lines for the benchmark.
fn stored(name: &str, input: &[u8]) -> PathBuf {
    let path = env::temp_dir().join(name);
    fs::write(&path, input).expect("it is written");
    path
}

/// The program on a file, with its answers in another.
fn run(path: &PathBuf) {
    let out = env::temp_dir().join("listing-answers.out");
    let status = program()
        .stdin(File::open(path).expect("it is there"))
        .stdout(File::create(out).expect("it is made"))
        .status();
    assert!(status.expect("it runs").success());
}

/// A million lines: the whole of both, the calls of the plan in place alone, and what is no call.
pub fn bench(random: &mut Random) {
    println!("\nlisting, a million lines: nanoseconds a line");
    let lines = 1_000_000;
    let each = |time: f64| time / lines as f64;
    for (what, input) in [
        (
            "  mixed calls at 64 regions",
            draw::mixed(random, lines, 40),
        ),
        (
            "  mixed, few creates and grows",
            draw::mixed(random, lines, 4),
        ),
        ("  locates", draw::located(random, lines)),
        ("  malformed lines", draw::malformed(lines)),
    ] {
        let path = stored("listing-bench.in", &input);
        let ours = each(median(7, || (), |_| run(&path)));
        let rust = each(median(
            7,
            || (),
            |_| {
                std::hint::black_box(listing_in_place(&input));
            },
        ));
        row(what, rust, ours);
        let calls = calls_in(&input);
        if let Some(mut many) = opened_in_place(&input) {
            let alone = each(median(
                1,
                || (),
                |_| {
                    many(&calls);
                },
            ));
            row("    beside the calls of the plan in place", alone, ours);
        }
    }
}

/// By the number of lines, the program's start in each time.
pub fn growth(random: &mut Random) {
    let sizes = [1000, 10_000, 100_000, 1_000_000, 10_000_000];
    let kinds: [(&str, &dyn Fn(&mut Random, usize) -> Vec<u8>); 3] = [
        ("listing, mixed calls at 64 regions", &|r, n| {
            draw::mixed(r, n, 40)
        }),
        ("listing, locates", &draw::located),
        ("listing, malformed lines", &|_, n| draw::malformed(n)),
    ];
    for (what, lines) in kinds {
        grows(what, &sizes, |n| {
            let path = stored("listing-growth.in", &lines(random, n));
            median(if n > 1_000_000 { 1 } else { 7 }, || (), |_| run(&path))
        });
    }
}
