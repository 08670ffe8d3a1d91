//! Work on all processors, whose results come back in order.

use std::collections::BTreeMap;
use std::ops::Range;
use std::sync::atomic::{AtomicBool, AtomicUsize, Ordering};
use std::sync::mpsc::{channel, RecvTimeoutError, Sender};
use std::thread;
use std::time::Duration;

/// How long nothing may happen until it is told how far it is.
const PAUSE: Duration = Duration::from_millis(100);

/// So many pieces are taken at once, at most.
const MOST_AT_ONCE: usize = 4_096;

/// What is told meanwhile.
pub enum Event<T> {
    /// So many pieces are done.
    Done(usize),
    /// The result of these pieces. They come in their order.
    Result(Range<usize>, T),
}

/// As many threads as there are processors.
pub fn processors() -> usize {
    thread::available_parallelism().map_or(1, usize::from)
}

/// Does pieces 0 to `count` on so many threads, each with a state of its own. Of the pieces that are
/// handed to it `work` does as many as it likes, from the first one on and at least that, and says how
/// many it did. The first error that `tell` gives ends it.
pub fn in_order<S, T: Send, E>(
    count: usize,
    threads: usize,
    state: impl Fn() -> S + Sync,
    work: impl Fn(&mut S, Range<usize>) -> (usize, T) + Sync,
    mut tell: impl FnMut(Event<T>) -> Result<(), E>,
) -> Result<(), E> {
    let threads = threads.clamp(1, count.max(1));
    let at_once = (count / (threads * 32)).clamp(1, MOST_AT_ONCE);
    let pieces = Pieces { count, at_once, next: AtomicUsize::new(0), stopped: false.into() };
    thread::scope(|scope| {
        let (sender, receiver) = channel();
        for _ in 0..threads {
            let sender = sender.clone();
            let (pieces, state, work) = (&pieces, &state, &work);
            scope.spawn(move || pieces.work_off(state(), work, &sender));
        }
        drop(sender);
        let (mut early, mut told, mut done) = (BTreeMap::new(), 0, 0);
        let mut receive = || loop {
            match receiver.recv_timeout(PAUSE) {
                Ok((pieces, result)) => {
                    done += pieces.len();
                    early.insert(pieces.start, (pieces, result));
                }
                Err(RecvTimeoutError::Timeout) => (),
                Err(RecvTimeoutError::Disconnected) => return Ok(()),
            }
            while let Some((pieces, result)) = early.remove(&told) {
                told = pieces.end;
                tell(Event::Result(pieces, result))?;
            }
            tell(Event::Done(done))?;
        };
        let result = receive();
        pieces.stopped.store(true, Ordering::Relaxed);
        result
    })
}

/// The pieces that are left for all threads.
struct Pieces {
    count: usize,
    at_once: usize,
    next: AtomicUsize,
    stopped: AtomicBool,
}

impl Pieces {
    /// What one thread does: it takes pieces until there are none, or all is stopped.
    fn work_off<S, T>(
        &self,
        mut state: S,
        work: impl Fn(&mut S, Range<usize>) -> (usize, T),
        sender: &Sender<(Range<usize>, T)>,
    ) {
        loop {
            let first = self.next.fetch_add(self.at_once, Ordering::Relaxed);
            let mut pieces = first..self.count.min(first + self.at_once);
            if pieces.is_empty() {
                return;
            }
            while !pieces.is_empty() {
                if self.stopped.load(Ordering::Relaxed) {
                    return;
                }
                let (done, result) = work(&mut state, pieces.clone());
                let end = pieces.start + done.clamp(1, pieces.len());
                if sender.send((pieces.start..end, result)).is_err() {
                    return;
                }
                pieces.start = end;
            }
        }
    }
}

#[cfg(test)]
mod tests {
    use super::*;

    #[test]
    fn results_come_in_order() {
        for (count, threads) in [(0, 3), (1, 1), (1, 8), (1_000, 1), (1_000, 3), (90_000, 7)] {
            for most in [1, 5, 10_000] {
                let mut told = Vec::new();
                let slow_first = |_: &mut (), pieces: Range<usize>| {
                    if pieces.start == 0 {
                        thread::sleep(Duration::from_millis(20));
                    }
                    let done = pieces.len().min(most);
                    (done, pieces.take(done).map(|piece| piece * 2).collect::<Vec<_>>())
                };
                let tell = |event| {
                    if let Event::Result(pieces, results) = event {
                        told.extend(pieces.zip(results));
                    }
                    Ok::<(), ()>(())
                };
                in_order(count, threads, || (), slow_first, tell).unwrap();
                assert!(told.into_iter().eq((0..count).map(|piece| (piece, piece * 2))));
            }
        }
    }

    #[test]
    fn an_error_ends_it() {
        let tell = |event| match event {
            Event::Result(pieces, ()) if pieces.contains(&3) => Err("enough"),
            _ => Ok(()),
        };
        let work = |_: &mut (), pieces: Range<usize>| (pieces.len(), ());
        assert_eq!(in_order(100_000, 2, || (), work, tell), Err("enough"));
    }
}
