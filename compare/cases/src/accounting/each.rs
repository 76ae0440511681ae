//! The calls that are there for the benchmark do what the single ones do.

use super::draw::tags;
use crate::random::Random;
use ours::accounts::{self, Accounts, MOST, Posted, Usages};

/// What the last of single calls hands back, one for each usage.
fn single(
    a: Accounts,
    u: Usages,
    call: extern "C" fn(Accounts, u32, u64, u64) -> Posted,
) -> Posted {
    let mut posted = Posted {
        refusal: 0,
        accounts: a,
    };
    for (i, &tag) in u.tags.iter().enumerate() {
        posted = call(posted.accounts, tag, u.logical[i], u.physical[i]);
    }
    posted
}

/// Postings in a row, added or removed.
type Each = fn(Accounts, bool, Usages) -> Posted;

/// How many calls were made, or the first that does something else.
pub fn compare(random: &mut Random) -> Result<usize, String> {
    let rounds = 3000;
    for i in 0..rounds {
        let pool = tags(1 + (i + random.below(3) as usize) % (MOST + 4), random);
        let n = random.below(200) as usize;
        let mut list = || -> Vec<u64> { (0..n).map(|_| random.number()).collect() };
        let (logical, physical, extra) = (list(), list(), list());
        let some: Vec<u32> = (0..n)
            .map(|_| pool[random.below(pool.len() as u64) as usize] as u32)
            .collect();
        let usages = Usages {
            tags: &some,
            logical: &logical,
            physical: &physical,
        };
        let added = single(accounts::empty(), usages, accounts::add_usage);
        let removed = single(added.accounts, usages, accounts::remove_usage);
        for (name, each) in [
            ("post_each", accounts::post_each as Each),
            ("count_each", accounts::count_each),
        ] {
            if each(accounts::empty(), false, usages) != added {
                return Err(format!("{name}, adding {some:?}, differs"));
            }
            if each(added.accounts, true, usages) != removed {
                return Err(format!("{name}, removing {some:?}, differs"));
            }
        }
        let start = accounts::row_at(added.accounts, i % MOST);
        let pairs: Vec<u64> = logical
            .iter()
            .zip(&physical)
            .flat_map(|(l, p)| [*l, *p])
            .collect();
        let mut due = start;
        for pair in pairs.chunks_exact(2) {
            due = accounts::row_add_usage(due, pair[0], pair[1]);
        }
        let mut lent = start;
        accounts::row_count_each(&mut lent, &pairs);
        if lent != due || accounts::row_add_each(start, &pairs) != due {
            return Err(format!("{start:?} after each of {pairs:?} is not {due:?}"));
        }
        let mut capped = added.accounts;
        for row in &mut capped.rows[..capped.count] {
            row.capped = true;
            row.cap = random.number();
        }
        let (mut asked, mut allowed) = ((0, 0), 0);
        let mut after = capped;
        for (&tag, &extra) in some.iter().zip(&extra) {
            let r = accounts::fits(after, tag, extra);
            after = r.accounts;
            asked = (r.refusal, asked.1 + u64::from(r.fits));
            allowed += u64::from(accounts::fits(capped, tag, extra).fits);
        }
        if n > 0 {
            let short = Usages {
                logical: &logical[1..],
                ..usages
            };
            let refused = Posted {
                refusal: 1,
                accounts: capped,
            };
            if accounts::post_each(capped, false, short) != refused
                || accounts::count_each(capped, false, short) != refused
                || accounts::fits_each(capped, &some, &extra[1..]) != (1, 0)
                || accounts::allows_each(capped, &some, &extra[1..]) != 0
            {
                return Err(format!("lists of {n} and {} are taken", n - 1));
            }
        }
        let lent = accounts::allows_each(capped, &some, &extra);
        if lent != allowed {
            return Err(format!(
                "allows_each of {some:?} gives {lent}, the single questions {allowed}"
            ));
        }
        let found = accounts::fits_each(capped, &some, &extra);
        if found != asked {
            return Err(format!(
                "fits_each of {some:?} gives {found:?}, the single calls {asked:?}"
            ));
        }
    }
    Ok(8 * rounds)
}
