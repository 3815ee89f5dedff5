//! The proved library beside the second model. The crate `sa110` (bindings/rust) wraps the library's
//! exported functions. Both sides have memory lent with the same map of bad words.

pub mod cuts;
pub mod damage;
pub mod full;
pub mod lists;
pub mod met;
pub mod packed;
pub mod printed;
pub mod replays;
mod report;
pub mod side_by_side;
pub mod sound;
pub mod texts;
pub mod traces;

pub use sa110::{plain_run, right, rights_table, walk, PlainRan, NO_CALL};
use sa110_model::Call;

/// The five numbers of each call.
pub fn numbers(calls: &[Call]) -> Vec<u32> {
    calls.iter().flat_map(|call| call.to_numbers()).collect()
}

/// The list with calls dropped, first in long pieces and last one by one, while the test still fails.
pub fn shrunk<T: Clone>(calls: &[T], fails: impl Fn(&[T]) -> bool) -> Vec<T> {
    let mut kept = calls.to_vec();
    let mut size = kept.len();
    while size > 0 {
        let mut at = 0;
        while at < kept.len() {
            let end = (at + size).min(kept.len());
            let shorter = [&kept[..at], &kept[end..]].concat();
            if fails(&shorter) {
                kept = shorter;
            } else {
                at = end;
            }
        }
        size /= 2;
    }
    kept
}
