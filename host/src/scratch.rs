//! Room that a thread keeps from call to call, so that most lines cost no allocation.

use std::cell::Cell;
use std::thread::LocalKey;

type Kept = LocalKey<Cell<Vec<u8>>>;

thread_local! {
    /// For a record that is laid out.
    pub(crate) static RECORD: Cell<Vec<u8>> = const { Cell::new(Vec::new()) };
    /// For a line before it is handed on.
    pub(crate) static LINE: Cell<Vec<u8>> = const { Cell::new(Vec::new()) };
}

/// No more is kept: a line of a megabyte must not take its room for as long as the thread runs.
const MOST_KEPT: usize = 65_536;

/// Lends what the thread keeps. It is taken out meanwhile, so that a call inside a call finds room of its own.
pub(crate) fn lent<T>(kept: &'static Kept, work: impl FnOnce(&mut Vec<u8>) -> T) -> T {
    // A thread that ends keeps nothing any more, and may still log.
    let mut room = kept.try_with(Cell::take).unwrap_or_default();
    let done = work(&mut room);
    if room.capacity() <= MOST_KEPT {
        let _ = kept.try_with(|kept| kept.set(room));
    }
    done
}

#[cfg(test)]
mod tests {
    use super::*;

    fn capacity() -> usize {
        lent(&LINE, |room| room.capacity())
    }

    #[test]
    fn room_is_kept_up_to_a_limit() {
        lent(&LINE, |room| room.reserve_exact(1_000));
        assert_eq!(capacity(), 1_000);
        lent(&LINE, |room| room.reserve_exact(MOST_KEPT + 1));
        assert_eq!(capacity(), 0);
    }

    #[test]
    fn a_call_inside_a_call_has_room_of_its_own() {
        lent(&LINE, |outer| {
            outer.push(1);
            lent(&LINE, |inner| assert_eq!(*inner, []));
            assert_eq!(*outer, [1]);
        });
    }
}
