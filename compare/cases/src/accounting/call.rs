//! The calls on accounts.

use crate::shrink::places;

/// A call that hands accounts back.
#[derive(Clone, Debug)]
pub enum Call {
    Empty,
    FromUsage {
        tags: Vec<u32>,
        logical: Vec<u64>,
        physical: Vec<u64>,
    },
    FromEntries {
        states: Vec<u8>,
        tags: Vec<u32>,
        data_sizes: Vec<u64>,
        block: u64,
    },
    AddUsage {
        tag: u32,
        logical: u64,
        physical: u64,
    },
    RemoveUsage {
        tag: u32,
        logical: u64,
        physical: u64,
    },
    Add {
        tag: u32,
        data_size: u64,
        block: u64,
    },
    Remove {
        tag: u32,
        data_size: u64,
        block: u64,
    },
    Fits {
        tag: u32,
        extra: u64,
    },
    Reserve {
        tag: u32,
        bytes: u64,
    },
    Unreserve {
        tag: u32,
        bytes: u64,
    },
    SetCap {
        tag: u32,
        cap: Option<u64>,
    },
}

pub const CALLS: [&str; 11] = [
    "empty",
    "from_usage",
    "from_entries",
    "add_usage",
    "remove_usage",
    "add",
    "remove",
    "fits",
    "reserve",
    "unreserve",
    "set_cap",
];

/// The state of a table entry that is counted.
pub const READY: u8 = 1;

impl Call {
    /// Its place in `CALLS`.
    pub fn kind(&self) -> usize {
        match self {
            Self::Empty => 0,
            Self::FromUsage { .. } => 1,
            Self::FromEntries { .. } => 2,
            Self::AddUsage { .. } => 3,
            Self::RemoveUsage { .. } => 4,
            Self::Add { .. } => 5,
            Self::Remove { .. } => 6,
            Self::Fits { .. } => 7,
            Self::Reserve { .. } => 8,
            Self::Unreserve { .. } => 9,
            Self::SetCap { .. } => 10,
        }
    }

    /// The tag that it is about, where it is about one.
    pub fn tag(&self) -> Option<u32> {
        match *self {
            Self::Empty | Self::FromUsage { .. } | Self::FromEntries { .. } => None,
            Self::AddUsage { tag, .. }
            | Self::RemoveUsage { tag, .. }
            | Self::Add { tag, .. }
            | Self::Remove { tag, .. }
            | Self::Fits { tag, .. }
            | Self::Reserve { tag, .. }
            | Self::Unreserve { tag, .. }
            | Self::SetCap { tag, .. } => Some(tag),
        }
    }

    /// Whether there is such a call on a tag's row by itself.
    pub fn is_on_row(&self) -> bool {
        self.tag().is_some() && !matches!(self, Self::Add { .. } | Self::Remove { .. })
    }

    /// Whether it posts one usage.
    pub fn is_usage(&self) -> bool {
        matches!(self, Self::AddUsage { .. } | Self::RemoveUsage { .. })
    }

    /// The tags that its lists count.
    pub fn counted(&self) -> Vec<u32> {
        match self {
            Self::FromUsage { tags, .. } => tags.clone(),
            Self::FromEntries { states, tags, .. } => {
                let ready = states.iter().zip(tags).filter(|(s, _)| **s == READY);
                ready.map(|(_, tag)| *tag).collect()
            }
            _ => Vec::new(),
        }
    }

    /// Whether its lists have different lengths.
    pub fn uneven(&self) -> bool {
        match self {
            Self::FromUsage {
                tags,
                logical,
                physical,
            } => logical.len() != tags.len() || physical.len() != tags.len(),
            Self::FromEntries {
                states,
                tags,
                data_sizes,
                ..
            } => states.len() != tags.len() || data_sizes.len() != tags.len(),
            _ => false,
        }
    }
}

/// A list of another length, told by its distance from this one's.
pub fn resized<T: Clone + Default>(mut list: Vec<T>, told: u64) -> Vec<T> {
    let n = places(told, list.len());
    list.resize(n, T::default());
    list
}
