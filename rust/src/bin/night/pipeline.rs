//! Work that is shared out and comes back in order, with room for so many pieces of it at a time.

use std::sync::mpsc::{sync_channel, Receiver, SyncSender};
use std::thread::{self, Builder, Scope};

// Pieces that may wait before a worker, and behind it.
const WAITING: usize = 64;
// The archive's functions hold their arrays on the stack.
const STACK: usize = 16 << 20;

/// Hands each item to one of `jobs` workers, in turn, and what they make of it to `take`, in the order of the items. It
/// ends with the items, or with the first error of `take`.
pub fn in_order<T: Send, R: Send, E>(
    items: impl Iterator<Item = T> + Send,
    jobs: usize,
    work: impl Fn(T) -> R + Sync,
    mut take: impl FnMut(R) -> Result<(), E>,
) -> Result<(), E> {
    if jobs == 1 {
        return items.map(work).try_for_each(take);
    }
    thread::scope(|scope| {
        let workers = (0..jobs).map(|_| worker(scope, &work));
        let (inputs, outputs): (Vec<SyncSender<T>>, Vec<Receiver<R>>) = workers.unzip();
        start(scope, move || deal(items, &inputs));
        // The first that has no more is the one whose turn it would be, so no other has.
        outputs.iter().cycle().map_while(|output| output.recv().ok()).try_for_each(&mut take)
    })
}

fn start<'scope>(scope: &'scope Scope<'scope, '_>, work: impl FnOnce() + Send + 'scope) {
    Builder::new().stack_size(STACK).spawn_scoped(scope, work).expect("room for a thread");
}

fn worker<'scope, T: Send + 'scope, R: Send + 'scope>(
    scope: &'scope Scope<'scope, '_>,
    work: &'scope (impl Fn(T) -> R + Sync),
) -> (SyncSender<T>, Receiver<R>) {
    let (give, given) = sync_channel(WAITING);
    let (tell, told) = sync_channel(WAITING);
    start(scope, move || {
        for item in given {
            // Whoever takes what is told has gone: nothing more is to be done.
            if tell.send(work(item)).is_err() {
                return;
            }
        }
    });
    (give, told)
}

fn deal<T>(items: impl Iterator<Item = T>, inputs: &[SyncSender<T>]) {
    for (item, input) in items.zip(inputs.iter().cycle()) {
        if input.send(item).is_err() {
            return;
        }
    }
}

#[cfg(test)]
mod tests {
    use super::*;
    use std::sync::atomic::{AtomicUsize, Ordering};
    use std::time::Duration;

    #[test]
    fn what_is_made_comes_in_order() {
        for jobs in [1, 2, 3, 7] {
            let mut made = Vec::new();
            // The first of each turn takes longest.
            let work = |item: u64| {
                thread::sleep(Duration::from_micros(300 * u64::from(item.is_multiple_of(7))));
                item * item
            };
            let ended = in_order(0..1000, jobs, work, |square| {
                made.push(square);
                Ok::<(), ()>(())
            });
            assert_eq!((ended, made), (Ok(()), (0..1000).map(|item| item * item).collect::<Vec<u64>>()), "{jobs}");
        }
    }

    #[test]
    fn an_error_ends_the_work() {
        for jobs in [1, 3] {
            let begun = AtomicUsize::new(0);
            let work = |item: u64| {
                begun.fetch_add(1, Ordering::Relaxed);
                item
            };
            let ended = in_order(0.., jobs, work, |item| if item < 10 { Ok(()) } else { Err(item) });
            assert_eq!(ended, Err(10));
            assert!(begun.load(Ordering::Relaxed) <= 11 + jobs * (2 * WAITING + 2), "{begun:?}");
        }
    }

    #[test]
    fn as_much_waits_as_there_is_room_for() {
        let (jobs, dealt, mut most) = (3, AtomicUsize::new(0), 0);
        let items = (0..5000).inspect(|_| {
            dealt.fetch_add(1, Ordering::Relaxed);
        });
        let mut taken = 0;
        let ended = in_order(
            items,
            jobs,
            |item: u64| item,
            |_| {
                taken += 1;
                most = most.max(dealt.load(Ordering::Relaxed) - taken);
                Ok::<(), ()>(())
            },
        );
        assert_eq!(ended, Ok(()));
        assert!(most <= jobs * (2 * WAITING + 2) + 1, "{most}");
    }
}
