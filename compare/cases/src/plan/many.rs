//! Calls one after another with all places lent, also in numbers as ours takes them.

use super::call::Call;

pub struct Many {
    pub calls: Vec<Call>,
    /// Each locates one byte; else none does.
    pub locates: bool,
    pub codes: Vec<u64>,
    pub ids: Vec<u64>,
    pub numbers: Vec<u64>,
    /// Of all regions that are created.
    pub tag: u32,
    pub name: Vec<u8>,
}

impl Many {
    pub fn new(calls: Vec<Call>) -> Self {
        let mut many = Self {
            locates: calls.iter().all(|c| matches!(c, Call::Locate { n: 1, .. })),
            codes: Vec::new(),
            ids: Vec::new(),
            numbers: Vec::new(),
            tag: 0,
            name: Vec::new(),
            calls,
        };
        for call in &many.calls {
            let (code, id, number) = match *call {
                Call::Create { id, tag, ref name } => {
                    (many.tag, many.name) = (tag, name.clone());
                    (0, id, 0)
                }
                Call::Grow { id } => (1, id, 0),
                Call::Publish { id, len } => (2, id, len),
                Call::Drop { id } => (3, id, 0),
                Call::Locate { id, pos, .. } if many.locates => (4, id, pos),
                Call::Locate { .. } | Call::Cap { .. } => panic!("{call:?} among many"),
            };
            many.codes.push(code);
            many.ids.push(id);
            many.numbers.push(number);
        }
        many
    }
}
