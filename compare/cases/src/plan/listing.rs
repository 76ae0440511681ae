//! The listing program by a side, and document 01's forty lists with their answers.

use super::call::{Answer, Call, Limits, NAME, Opening, Places};
use super::side::{Maker, Side};
use std::fs;
use std::path::Path;

/// The lists and their answers, beside a checkout.
const VECTORS: &str = concat!(
    env!("CARGO_MANIFEST_DIR"),
    "/../../../shared/vectors/listing"
);

/// A line's longest, without its end.
const LINE: usize = 128;

enum Line {
    Open(Limits),
    Call(Call),
}

/// A number that fits its width, without leading zeros.
fn number(text: &[u8], most: u64) -> Option<u64> {
    if text.is_empty() || text.len() > 1 && text[0] == b'0' {
        return None;
    }
    let mut value = 0u64;
    for digit in text {
        if !digit.is_ascii_digit() {
            return None;
        }
        value = value.checked_mul(10)?.checked_add((digit - b'0').into())?;
    }
    (value <= most).then_some(value)
}

/// The values of a line that has just these keys in this order, one space between them.
fn values<'a, const N: usize>(line: &'a [u8], keys: [&str; N]) -> Option<[&'a [u8]; N]> {
    let parts: Vec<&[u8]> = line.split(|b| *b == b' ').collect();
    if parts.len() != N {
        return None;
    }
    let mut values = [&line[..0]; N];
    for ((value, part), key) in values.iter_mut().zip(parts).zip(keys) {
        *value = part.strip_prefix(key.as_bytes())?.strip_prefix(b"=")?;
    }
    Some(values)
}

/// None if it is malformed.
fn parsed(line: &[u8]) -> Option<Line> {
    if line.len() > LINE {
        return None;
    }
    let call = line.strip_prefix(b"call=")?;
    let call = call.split(|b| *b == b' ').next()?;
    let any = |text| number(text, u64::MAX);
    let tagged = |text| number(text, u32::MAX.into()).map(|tag| tag as u32);
    Some(match call {
        b"open" => {
            let [_, table_end, len, log2] = values(line, ["call", "table_end", "len", "log2"])?;
            Line::Open(Limits {
                table_end: any(table_end)?,
                file_len: any(len)?,
                log2_block: number(log2, u8::MAX.into())? as u8,
            })
        }
        b"create" => {
            let [_, id, tag, name] = values(line, ["call", "id", "tag", "name"])?;
            if name.len() > NAME {
                return None;
            }
            let (id, tag, name) = (any(id)?, tagged(tag)?, name.to_vec());
            Line::Call(Call::Create { id, tag, name })
        }
        b"grow" => {
            let [_, id] = values(line, ["call", "id"])?;
            Line::Call(Call::Grow { id: any(id)? })
        }
        b"publish" => {
            let [_, id, len] = values(line, ["call", "id", "len"])?;
            let (id, len) = (any(id)?, any(len)?);
            Line::Call(Call::Publish { id, len })
        }
        b"drop" => {
            let [_, id] = values(line, ["call", "id"])?;
            Line::Call(Call::Drop { id: any(id)? })
        }
        b"cap" => {
            let [_, tag, max] = values(line, ["call", "tag", "max"])?;
            let tag = tagged(tag)?;
            let max = match max {
                b"none" => None,
                max => Some(any(max)?),
            };
            Line::Call(Call::Cap { tag, max })
        }
        b"locate" => {
            let [_, id, pos, n] = values(line, ["call", "id", "pos", "n"])?;
            let (id, pos, n) = (any(id)?, any(pos)?, any(n)?);
            Line::Call(Call::Locate { id, pos, n })
        }
        _ => return None,
    })
}

/// The calls among the lines, but for opens.
pub fn calls(input: &[u8]) -> Vec<Call> {
    let lines = input.split(|b| *b == b'\n');
    lines
        .filter_map(|line| match parsed(line) {
            Some(Line::Call(call)) => Some(call),
            _ => None,
        })
        .collect()
}

/// Opens by the first line, if that is an open that is accepted.
pub fn open_first(side: &mut dyn Side, input: &[u8]) -> bool {
    let first = input.split(|b| *b == b'\n').next();
    match first.and_then(parsed) {
        Some(Line::Open(limits)) => side.open(&Opening::empty(limits)).accepted(),
        _ => false,
    }
}

/// What the listing program writes for a line if the side is its plan, and whether that is open.
pub fn answer(side: &mut dyn Side, opened: &mut bool, line: &[u8], text: &mut String) {
    let answer = match parsed(line) {
        Some(Line::Open(limits)) if !*opened => {
            let answer = side.open(&Opening::empty(limits));
            *opened = answer.accepted();
            answer
        }
        Some(Line::Call(call)) if *opened => side.ask(&call, Places::ALL),
        _ => Answer::Refused(25),
    };
    let at = match answer {
        Answer::At(at) => at,
        _ => 0,
    };
    let (held, free) = match *opened {
        true => (side.held(), side.free()),
        false => (0, 0),
    };
    let refusal = answer.refusal();
    *text += &format!("refusal={refusal} at={at} held={held} free={free}\n");
}

/// And for all lines of an input.
pub fn answers(side: &mut dyn Side, input: &[u8]) -> String {
    let mut lines: Vec<&[u8]> = input.split(|b| *b == b'\n').collect();
    // a last line may lack its line end
    if lines.last().is_some_and(|last| last.is_empty()) {
        lines.pop();
    }
    let (mut opened, mut text) = (false, String::new());
    for line in lines {
        answer(side, &mut opened, line, &mut text);
    }
    text
}

/// Document 01's own listing.
const OWN: &str = "\
call=open table_end=8192 len=106496 log2=12
call=create id=1 tag=7 name=mainA
call=grow id=1
call=publish id=1 len=65536
call=locate id=1 pos=65535 n=1
call=locate id=1 pos=65535 n=2
";

const OWN_ANSWERS: &str = "\
refusal=0 at=0 held=0 free=98304
refusal=0 at=8192 held=8192 free=90112
refusal=0 at=16384 held=73728 free=24576
refusal=0 at=0 held=73728 free=24576
refusal=0 at=81919 held=73728 free=24576
refusal=23 at=0 held=73728 free=24576
";

/// Whether the side writes this, or the first line on which it does not.
fn held_to(name: &str, list: &str, make: Maker, input: &[u8], due: &str) -> Result<(), String> {
    let found = answers(&mut *make(), input);
    if found == due {
        return Ok(());
    }
    let same = due.lines().zip(found.lines()).take_while(|(a, b)| a == b);
    let k = same.count();
    let line = |text: &str| text.lines().nth(k).unwrap_or("nothing").to_string();
    let asked = input.split(|b| *b == b'\n').nth(k).unwrap_or_default();
    Err(format!(
        "{list}, line {}, {}: due is {}, {name} gives {}",
        k + 1,
        asked.escape_ascii(),
        line(due),
        line(&found)
    ))
}

/// A list, its lines, and its answers.
pub type Answered = (String, Vec<u8>, String);

/// Document 01's own listing, and the forty lists where they are at hand.
pub fn answered() -> Result<Vec<Answered>, String> {
    let mut lists = vec![(String::from("01"), OWN.into(), OWN_ANSWERS.to_string())];
    let folder = Path::new(VECTORS);
    let mut files: Vec<_> = match fs::read_dir(folder) {
        Ok(files) => files.map(|f| f.expect("it is read").path()).collect(),
        Err(_) => Vec::new(),
    };
    files.retain(|f| f.extension().is_some_and(|e| e == "in"));
    files.sort();
    for file in &files {
        let read = |f: &Path| fs::read(f).map_err(|e| format!("{}: {e}", f.display()));
        let due = String::from_utf8(read(&file.with_extension("out"))?);
        let name = file.file_name().unwrap_or_default().to_string_lossy();
        lists.push((name.into(), read(file)?, due.expect("answers are text")));
    }
    Ok(lists)
}

/// How many lines the sides answer as it is due.
pub fn compare(sides: &[(&str, Maker)]) -> Result<usize, String> {
    let lists = answered()?;
    let mut lines = 0;
    for (list, input, due) in &lists {
        for &(name, make) in sides {
            held_to(name, list, make, input, due)?;
            lines += due.lines().count();
        }
    }
    match lists.len() - 1 {
        0 => println!("lists answered beforehand: none at hand, {VECTORS}"),
        n => println!("lists answered beforehand: {n}, and 01's own; {lines} lines, no difference"),
    }
    Ok(lines)
}
