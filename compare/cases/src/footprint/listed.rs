//! The differences that docs/DIFFERENCES.md lists, each on the input that it names.

use super::records::Case;
use super::{by_ours, by_rust};
use oracle::footprint::Footprint;
use oracle::meta::MetaError;
use ours::Record;

/// A region that both sides accept.
fn base() -> Case {
    Case {
        record: Record {
            log2_block: 12,
            table_end: 0,
            file_len: 8192,
            region_id: 0,
            kind: 1,
            flags: 0,
            extent_count: 0,
            header_a: 0,
            header_b: 4096,
            span_start: 0,
            span_end: 8192,
            data_size: 0,
            capacity: 0,
            footprint_seq: 1,
            header_region_id: 0,
            header_kind: 1,
            header_flags: 0,
            header_ready: true,
            header_log2_block: 12,
            header_extent_count: 0,
        },
        extents: Vec::new(),
        scratch: 4,
    }
}

fn extents(case: &mut Case, list: &[u64]) {
    case.extents = list.to_vec();
    case.record.extent_count = list.len() as u16 / 2;
    case.record.header_extent_count = case.record.extent_count;
    case.scratch = list.len() + 4;
}

fn named(answer: Result<Footprint, MetaError>) -> &'static str {
    match answer {
        Ok(_) => "accepted",
        Err(MetaError::Field(name)) => name,
        Err(MetaError::Overlap) => "Overlap",
        Err(other) => panic!("check_region answers {other:?}"),
    }
}

type Change = fn(&mut Case);

/// How many listed differences were found as they are listed, or the first that was not.
pub fn compare() -> Result<usize, String> {
    let headers = [(0, 4096), (4096, 4096)];
    // the change, what the Rust answers and has at the front of scratch then, our refusal
    let rows: [(Change, &str, &[(u64, u64)], u64); 16] = [
        (|_| (), "accepted", &headers, 0),
        (|c| c.record.capacity = 1, "capacity", &headers, 12),
        (
            |c| {
                extents(c, &[8192, 1]);
                c.record.capacity = 1;
            },
            "extent",
            &headers,
            11,
        ),
        (
            |c| {
                c.scratch = 2;
                c.record.header_region_id = 1;
            },
            "region_id",
            &[],
            1,
        ),
        (|c| c.record.header_log2_block = 10, "accepted", &headers, 2),
        (
            |c| {
                c.record.log2_block = 11;
                c.record.header_log2_block = 11;
            },
            "accepted",
            &[(0, 2048), (4096, 2048)],
            2,
        ),
        (|c| c.record.file_len = 8191, "accepted", &headers, 4),
        (|c| c.record.table_end = 1, "accepted", &headers, 4),
        (
            |c| {
                c.record.header_b = 4097;
                c.record.span_end = 8193;
                c.record.file_len = 8193;
            },
            "accepted",
            &[(0, 4096), (4097, 4096)],
            4,
        ),
        (
            |c| c.record.header_b = 0,
            "Overlap",
            &[(0, 4096), (0, 4096)],
            4,
        ),
        (
            |c| c.record.header_b = 8192,
            "accepted",
            &[(0, 4096), (8192, 4096)],
            4,
        ),
        (
            |c| {
                c.record.span_start = 1;
                c.record.span_end = 0;
            },
            "accepted",
            &headers,
            4,
        ),
        (|c| c.record.data_size = 4096, "accepted", &headers, 4),
        (
            |c| extents(c, &[8192, 0]),
            "accepted",
            &[(0, 4096), (4096, 4096), (8192, 0)],
            4,
        ),
        (
            |c| {
                extents(c, &[8192, 1]);
                c.extents.clear();
            },
            "accepted",
            &[(0, 4096), (4096, 4096), (7_000_004, 7_000_005)],
            1,
        ),
        (
            |c| {
                c.record.span_end = 8437;
                c.record.file_len = 8437;
                c.record.capacity = 245;
                let list: Vec<u64> = (8192..8437).flat_map(|at| [at, 1]).collect();
                extents(c, &list);
            },
            "accepted",
            &headers,
            1,
        ),
    ];
    for (i, (change, word, front, refusal)) in rows.iter().enumerate() {
        let mut case = base();
        change(&mut case);
        let scratch: Vec<u64> = (7_000_000..).take(case.scratch).collect();
        let (answer, left) = by_rust(&case, &scratch);
        let rust = named(answer);
        let ours = by_ours(&case, [9, 9], &scratch);
        let unchanged = *refusal == 0 || ours.scratch == scratch;
        if rust != *word || !left.starts_with(front) || ours.refusal != *refusal || !unchanged {
            return Err(format!(
                "listed difference {i}: the Rust answers {rust} and leaves {left:?}, ours gives {ours:?}"
            ));
        }
    }
    Ok(rows.len())
}
