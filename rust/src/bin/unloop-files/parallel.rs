//! Many files on all cores, and what became of them in the files' order.

use std::collections::BTreeMap;
use std::ops::ControlFlow;
use std::sync::atomic::{AtomicUsize, Ordering};
use std::sync::mpsc::{self, Sender};
use std::thread;

/// Does `work` on each item, on as many threads as there are cores, and hands each result to `told` in the items' order; `next` is told
/// which item is waited for. A `told` that breaks ends it: no further item is begun.
pub fn in_order<T: Sync, R: Send>(
    items: &[T],
    work: impl Fn(&T) -> R + Sync,
    mut next: impl FnMut(usize),
    mut told: impl FnMut(usize, R) -> ControlFlow<()>,
) -> ControlFlow<()> {
    let cores = thread::available_parallelism().map_or(1, |cores| cores.get());
    let begun = AtomicUsize::new(0);
    let (sender, results) = mpsc::channel();
    thread::scope(|scope| {
        for _ in 0..cores.min(items.len()) {
            let (sender, begun, work) = (sender.clone(), &begun, &work);
            scope.spawn(move || worker(items, begun, work, &sender));
        }
        drop(sender);
        let mut early = BTreeMap::new();
        for index in 0..items.len() {
            next(index);
            while !early.contains_key(&index) {
                // Every item is sent once, unless its thread ended by a panic, which the scope passes on.
                let Ok((found, result)) = results.recv() else {
                    return ControlFlow::Break(());
                };
                early.insert(found, result);
            }
            let result = early.remove(&index);
            if result.is_some_and(|result| told(index, result).is_break()) {
                begun.store(items.len(), Ordering::Relaxed);
                return ControlFlow::Break(());
            }
        }
        ControlFlow::Continue(())
    })
}

/// Does the items that no other thread has begun, and sends the results.
fn worker<T, R>(
    items: &[T],
    begun: &AtomicUsize,
    work: impl Fn(&T) -> R,
    results: &Sender<(usize, R)>,
) {
    loop {
        let index = begun.fetch_add(1, Ordering::Relaxed);
        let Some(item) = items.get(index) else { break };
        if results.send((index, work(item))).is_err() {
            break;
        }
    }
}
