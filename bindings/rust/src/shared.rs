//! A listing whose pages are shared among threads.
//!
//! The positions are split into pieces, each piece is walked by pages, and the rows of the pieces
//! are joined in order. Why that is the listing: pages from one position to another give exactly
//! the rows of the pairs between (`Chained` in `crates/listing_calls/specs/Chained.antt`), and
//! pages from the front to the end, none refused, join to the listing's rows (`mutual-chain` and
//! `self-chain` in `ChainedCalls.antt` beside it; with large arcs `LargeChainedCalls.antt` in
//! `crates/large_promise/specs`). The pieces one after the other are such a chain: where one ends
//! the next one starts. A call has no state, so it does not matter when or where it runs.

use std::sync::atomic::{AtomicU64, Ordering};
use std::thread;

use crate::ffi::Of;
use crate::pages::Walk;
use crate::path::Path;
use crate::refusal::Refusal;
use crate::rows::{AnyRow, Row, Rows};

/// So many pieces a thread: a thread whose pieces are quick takes more of them.
const PIECES: u64 = 8;
/// Room for so many rows is lent to each call.
const ROOM: usize = 4096;
/// The stack of a thread, in bytes: a page with large arcs needs some 1,050 KiB.
const STACK: usize = 4 << 20;

/// The joined rows of a shared listing.
#[derive(Debug, Clone, PartialEq)]
pub struct Joined<R: AnyRow = Row> {
    /// The rows in the listing's order.
    pub rows: Rows<R>,
    /// How many pairs were passed, which is all of them, with those that were skipped for their
    /// trace: pages do not tell these apart.
    pub pairs: u64,
}

/// The rows of the positions from one up to another.
fn piece<R: AnyRow>(walk: Walk, from: u64, to: u64) -> Result<Rows<R>, Refusal> {
    let mut rows = Rows::none();
    let mut position = from;
    while position < to {
        (position, _) = walk.step(position, to - position, ROOM, &mut rows)?;
    }
    Ok(rows)
}

pub(crate) fn list<R: AnyRow>(of: Of, epsilon: f64, threads: usize) -> Result<Joined<R>, Refusal> {
    let walk = Walk::new::<R>(of, epsilon);
    // one pair, only to hear how many there are, or a refusal
    let (_, pairs) = walk.step(0, 1, 1, &mut Rows::<R>::none())?;
    let threads = threads.max(1);
    let pieces = PIECES.saturating_mul(threads as u64).min(pairs);
    let start = |k: u64| (u128::from(pairs) * u128::from(k) / u128::from(pieces)) as u64;
    let taken = AtomicU64::new(0);
    let work = || {
        let mut done = Vec::new();
        loop {
            let k = taken.fetch_add(1, Ordering::Relaxed);
            if k >= pieces {
                return done;
            }
            done.push((k, piece::<R>(walk, start(k), start(k + 1))));
        }
    };
    let mut done = thread::scope(|scope| {
        // a thread that cannot be started is left out: the others, and this one, take its pieces
        let others: Vec<_> = (1..threads)
            .map_while(|_| thread::Builder::new().stack_size(STACK).spawn_scoped(scope, work).ok())
            .collect();
        let mut done = work();
        for other in others {
            done.extend(other.join().expect("a thread only calls"));
        }
        done
    });
    done.sort_unstable_by_key(|&(k, _)| k);
    let mut rows = Rows::none();
    for (_, piece) in done {
        rows.append(piece?);
    }
    Ok(Joined { rows, pairs })
}

/// [`mutual`](crate::mutual)'s rows, with the work shared among so many threads; 0 counts as 1.
/// The calling thread is one of them.
///
/// The positions are split, each part is walked by pages, and the rows are joined in order. The
/// theorem `mutual-chain` (`crates/listing_calls/specs/ChainedCalls.antt`) says why these are
/// exactly the listing's rows: the parts one after the other are a chain of pages from the front
/// to the end.
///
/// # Errors
/// Those of [`mutual`](crate::mutual).
///
/// ```
/// use vonjekona::{Path, Vertex, mutual, mutual_shared};
/// let zigzag: Vec<Vertex> = (0..40).map(|i| Vertex::new(i as f64, (i % 2) as f64, 0.0)).collect();
/// let (path, epsilon) = (Path::open(&zigzag), 1.0 / 1024.0);
/// let joined = mutual_shared(&path, &path, epsilon, 2)?;
/// assert_eq!(&joined.rows, mutual(&path, &path, epsilon)?.rows());
/// assert_eq!(joined.pairs, 39 * 39);
/// # Ok::<(), vonjekona::Refusal>(())
/// ```
pub fn mutual_shared(
    first: &Path,
    second: &Path,
    epsilon: f64,
    threads: usize,
) -> Result<Joined, Refusal> {
    list(Of::Two(first, second), epsilon, threads)
}

/// [`self_listing`](crate::self_listing)'s rows, with the work shared among so many threads. The
/// theorem is `self-chain`, beside the one that [`mutual_shared`] names.
///
/// # Errors
/// Those of [`mutual`](crate::mutual).
///
/// ```
/// use vonjekona::{Path, Vertex, self_listing, self_shared};
/// let at = |x, y| Vertex::new(x, y, 0.0);
/// let fold = Path::open(vec![at(0.0, 0.0), at(10.0, 0.0), at(5.0, 0.0)]);
/// assert_eq!(&self_shared(&fold, 1e-3, 2)?.rows, self_listing(&fold, 1e-3)?.rows());
/// # Ok::<(), vonjekona::Refusal>(())
/// ```
pub fn self_shared(path: &Path, epsilon: f64, threads: usize) -> Result<Joined, Refusal> {
    list(Of::One(path), epsilon, threads)
}
