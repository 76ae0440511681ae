//! A long input through the program as it takes it, beside the model: checksums of the answers, and the program's
//! memory on the way.

use super::{draw, program};
use crate::plan::model_lines;
use crate::random::Random;
use std::fs;
use std::io::{Read, Write};
use std::process::Stdio;
use std::sync::Arc;
use std::sync::mpsc::sync_channel;
use std::thread;

/// How many bytes of answers there are, and their checksum (FNV-1a of 64 bits).
#[derive(Clone, Copy, PartialEq, Eq)]
struct Sum {
    bytes: u64,
    hash: u64,
}

impl Sum {
    const EMPTY: Self = Self {
        bytes: 0,
        hash: 0xcbf2_9ce4_8422_2325,
    };

    fn add(&mut self, text: &[u8]) {
        self.bytes += text.len() as u64;
        for byte in text {
            self.hash = (self.hash ^ u64::from(*byte)).wrapping_mul(0x100_0000_01b3);
        }
    }
}

/// The most memory that a process has held so far, in KB.
fn most_memory(process: u32) -> u64 {
    let status = fs::read_to_string(format!("/proc/{process}/status")).unwrap_or_default();
    let line = status.lines().find_map(|l| l.strip_prefix("VmHWM:"));
    let number = line.and_then(|l| l.trim().strip_suffix(" kB"));
    number.and_then(|n| n.trim().parse().ok()).unwrap_or(0)
}

/// Lines of which most calls are accepted, and some of every kind, in turn; all end.
fn block(random: &mut Random, mixed: &mut draw::Mixed, turn: usize) -> Vec<u8> {
    if turn % 4 < 3 {
        return mixed.lines(random, 10_000);
    }
    let mut lines = draw::list(random, 1000);
    if !lines.ends_with(b"\n") {
        lines.push(b'\n');
    }
    lines
}

/// So many bytes or a few more. Answers the number of lines, or how the program's answers differ from the model's.
pub fn through(random: &mut Random, bytes: u64) -> Result<u64, String> {
    let mut child = program()
        .stdin(Stdio::piped())
        .stdout(Stdio::piped())
        .spawn()
        .expect("the program starts");
    let process = child.id();
    let mut input = child.stdin.take().expect("it has a standard input");
    let mut output = child.stdout.take().expect("it has a standard output");
    let reader = thread::spawn(move || {
        let (mut sum, mut part) = (Sum::EMPTY, vec![0; 1 << 16]);
        loop {
            match output.read(&mut part).expect("it is read") {
                0 => return sum,
                n => sum.add(&part[..n]),
            }
        }
    });
    let (blocks, given) = sync_channel::<Arc<Vec<u8>>>(16);
    let model = thread::spawn(move || {
        let (mut answer, mut sum, mut text, mut lines) =
            (model_lines(), Sum::EMPTY, String::new(), 0u64);
        for block in given {
            for line in block[..block.len() - 1].split(|b| *b == b'\n') {
                answer(line, &mut text);
                lines += 1;
            }
            sum.add(text.as_bytes());
            text.clear();
        }
        (sum, lines)
    });
    let (mut mixed, mut sent) = (draw::Mixed::opened(40), 0u64);
    let mut shown = 0;
    for turn in 0.. {
        if sent >= bytes {
            break;
        }
        let block = Arc::new(block(random, &mut mixed, turn));
        sent += block.len() as u64;
        blocks.send(block.clone()).expect("the model goes on");
        input.write_all(&block).map_err(|e| e.to_string())?;
        if sent * 8 / bytes > shown {
            shown = sent * 8 / bytes;
            println!(
                "{sent:>12} bytes in: {:>6} KB of memory at most",
                most_memory(process)
            );
        }
    }
    drop((input, blocks));
    let ours = reader.join().expect("the reader ends");
    let (due, lines) = model.join().expect("the model ends");
    let status = child.wait().expect("it ends");
    println!(
        "the program: {} bytes, checksum {:016x}, {status}",
        ours.bytes, ours.hash
    );
    println!(
        "the model:   {} bytes, checksum {:016x}",
        due.bytes, due.hash
    );
    if ours != due || !status.success() {
        return Err(String::from("the answers differ"));
    }
    Ok(lines)
}
