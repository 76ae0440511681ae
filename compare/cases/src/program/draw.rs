//! Lists of lines: calls that are mostly accepted, and lines that are nearly one.

use crate::random::Random;

const STEPS: u64 = 23;

/// A step's blocks.
fn step(n: u64) -> u64 {
    if n > STEPS { 32_768 } else { 16 << (n / 2) }
}

/// Small numbers mostly, and some that are far too large.
fn number(random: &mut Random, most: u64) -> String {
    match random.below(40) {
        0 => random.number().to_string(),
        1 => format!("{}0", u64::MAX),
        _ => random.below(most).to_string(),
    }
}

fn name(random: &mut Random) -> Vec<u8> {
    match random.below(12) {
        0 => Vec::new(),
        1 => (0..23 + random.below(3)).map(|_| b'n').collect(),
        2 => (0..random.below(8)).map(|_| random.next() as u8).collect(),
        _ => format!("r{}", random.below(90)).into_bytes(),
    }
}

fn call(random: &mut Random) -> Vec<u8> {
    let id = number(random, 80);
    let line = match random.below(16) {
        0..4 => {
            let tag = number(random, 110);
            let mut line = format!("call=create id={id} tag={tag} name=").into_bytes();
            line.extend(name(random));
            return line;
        }
        4..8 => format!("call=grow id={id}"),
        8..10 => {
            let len = match random.below(4) {
                0 => number(random, 1 << 20),
                _ => (random.below(600) * 4096).to_string(),
            };
            format!("call=publish id={id} len={len}")
        }
        10 => format!("call=drop id={id}"),
        11 => {
            let max = match random.below(3) {
                0 => String::from("none"),
                _ => number(random, 1 << 22),
            };
            format!("call=cap tag={} max={max}", number(random, 110))
        }
        _ => {
            let (pos, n) = (number(random, 1 << 20), number(random, 1 << 17));
            format!("call=locate id={id} pos={pos} n={n}")
        }
    };
    line.into_bytes()
}

fn open(random: &mut Random) -> Vec<u8> {
    let log2 = match random.below(6) {
        0 => number(random, 20),
        _ => (12 + random.below(5)).to_string(),
    };
    let table = match random.below(3) {
        0 => number(random, 1 << 16),
        _ => (random.below(4) << 12).to_string(),
    };
    let len = match random.below(6) {
        0 => number(random, 1 << 24),
        // up to 2^63 - 1, or past it
        1 => ((1u64 << 63) - 3 + random.below(6)).to_string(),
        _ => (random.below(1 << 12) << 16).to_string(),
    };
    format!("call=open table_end={table} len={len} log2={log2}").into_bytes()
}

/// The line with some of it changed.
fn spoilt(random: &mut Random, mut line: Vec<u8>) -> Vec<u8> {
    let at = |random: &mut Random, n: usize| random.below(n as u64) as usize;
    for _ in 0..1 + random.below(2) {
        let n = line.len();
        match random.below(7) {
            0 if n > 0 => {
                line.remove(at(random, n));
            }
            1 => line.insert(at(random, n + 1), b" =0x\r"[at(random, 5)]),
            2 if n > 0 => {
                let i = at(random, n);
                line[i] = random.next() as u8;
            }
            3 if n > 0 => line.truncate(at(random, n)),
            4 => line.resize(125 + at(random, 8), b' '),
            5 => line.resize(at(random, 400), b'7'),
            _ => {
                let mut words: Vec<_> = line.split(|b| *b == b' ').map(<[u8]>::to_vec).collect();
                let (i, j) = (at(random, words.len()), at(random, words.len()));
                words.swap(i, j);
                line = words.join(&b' ');
            }
        }
    }
    line
}

/// So many lines, the last with or without its line end.
pub fn list(random: &mut Random, lines: usize) -> Vec<u8> {
    let mut text = Vec::new();
    for k in 0..lines {
        let line = match random.below(24) {
            0 => open(random),
            _ if k < 6 => open(random),
            _ => call(random),
        };
        match random.below(12) {
            0 => text.extend(spoilt(random, line)),
            _ => text.extend(line),
        }
        text.push(b'\n');
    }
    if random.below(2) == 0 {
        text.pop();
    }
    text
}

/// What a list of accepted calls has made of the regions.
struct Shadow {
    text: Vec<u8>,
    lines: usize,
    extents: [u64; 64],
    capacity: [u64; 64],
    published: [u64; 64],
}

impl Shadow {
    fn line(&mut self, line: String) {
        self.text.extend(line.bytes());
        self.text.push(b'\n');
        self.lines += 1;
    }

    fn create(&mut self, i: usize) {
        self.line(format!("call=create id={i} tag={} name=r{i}", i % 90));
        (self.extents[i], self.capacity[i], self.published[i]) = (0, 0, 0);
    }

    fn grow(&mut self, i: usize) {
        self.line(format!("call=grow id={i}"));
        self.capacity[i] += step(self.extents[i]);
        self.extents[i] += 1;
    }

    fn publish(&mut self, i: usize, blocks: u64) {
        self.line(format!("call=publish id={i} len={}", blocks * 4096));
        self.published[i] = self.published[i].max(blocks);
    }

    fn locate(&mut self, random: &mut Random, i: usize) {
        let pos = random.below(self.published[i] * 4096);
        self.line(format!("call=locate id={i} pos={pos} n=1"));
    }

    /// One turn of `mixed`.
    fn turn(&mut self, random: &mut Random, anew: u64) {
        let i = random.below(64) as usize;
        let turn = random.below(400);
        if turn < anew {
            self.line(format!("call=drop id={i}"));
            self.create(i);
            self.grow(i);
            self.publish(i, 16);
        } else if turn < 3 * anew && self.extents[i] < 60 {
            self.grow(i);
        } else if turn < 150 {
            let blocks = random.below(self.capacity[i] + 1);
            self.publish(i, blocks);
        } else if turn < 180 {
            self.line(format!("call=cap tag={} max=none", i % 90));
        } else {
            self.locate(random, i);
        }
    }

    /// 64 regions of so many extents, all published.
    fn opened(extents: u64) -> Self {
        let mut shadow = Self {
            text: Vec::new(),
            lines: 0,
            extents: [0; 64],
            capacity: [0; 64],
            published: [0; 64],
        };
        shadow.line(format!(
            "call=open table_end=4096 len={} log2=12",
            u64::MAX >> 1
        ));
        (0..64).for_each(|i| shadow.create(i));
        for _ in 0..extents {
            (0..64).for_each(|i| shadow.grow(i));
        }
        for i in 0..64 {
            shadow.publish(i, shadow.capacity[i]);
        }
        shadow
    }
}

/// The lines of `mixed`, so many at a time.
pub struct Mixed {
    shadow: Shadow,
    anew: u64,
}

impl Mixed {
    pub fn opened(anew: u64) -> Self {
        let shadow = Shadow::opened(12);
        Self { shadow, anew }
    }

    /// The next ones, at least so many.
    pub fn lines(&mut self, random: &mut Random, lines: usize) -> Vec<u8> {
        let most = self.shadow.lines + lines;
        while self.shadow.lines < most {
            self.shadow.turn(random, self.anew);
        }
        std::mem::take(&mut self.shadow.text)
    }
}

/// Calls that are all accepted. Of 400 lines so many begin to drop a region and make it anew, and twice as many
/// grow one; the others locate, publish and cap.
pub fn mixed(random: &mut Random, lines: usize, anew: u64) -> Vec<u8> {
    let mut shadow = Shadow::opened(12);
    while shadow.lines + 4 < lines {
        shadow.turn(random, anew);
    }
    while shadow.lines < lines {
        shadow.locate(random, 0);
    }
    shadow.text
}

/// Locates alone, behind what makes the regions.
pub fn located(random: &mut Random, lines: usize) -> Vec<u8> {
    let mut shadow = Shadow::opened(12);
    while shadow.lines < lines {
        let i = random.below(64) as usize;
        shadow.locate(random, i);
    }
    shadow.text
}

/// Lines of which none is a call.
pub fn malformed(lines: usize) -> Vec<u8> {
    b"call=locate id=12 n=1 pos=65536\n".repeat(lines)
}
