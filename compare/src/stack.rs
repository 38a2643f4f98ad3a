//! How much stack a call takes. The stack of a thread of its own is painted below the caller; the lowest place where the paint is
//! gone after the call tells.

use std::hint::black_box;
use std::ptr;
use std::thread;

const STACK: usize = 4 << 20;
/// Down to here the stack is painted, in words. The nearest ones are left out: who paints has its own frame there.
const DEEPEST: usize = (3 << 20) / 8;
const NEAREST: usize = 4096 / 8;
const PAINT: u64 = 0x7ff4_3c3c_a5a5_c3c3;

/// Bytes below the caller of a call.
pub fn of(call: impl FnMut() + Send) -> usize {
    let spawned = |call| move || measured(call);
    thread::scope(|scope| {
        let thread = thread::Builder::new().stack_size(STACK);
        let measured = thread.spawn_scoped(scope, spawned(call));
        measured
            .expect("a thread with a stack of this size")
            .join()
            .expect("the call returns")
    })
}

fn measured(mut call: impl FnMut()) -> usize {
    let mut here = 0u64;
    let top: *mut u64 = black_box(&mut here);
    paint(top);
    call();
    lowest(top)
}

#[inline(never)]
fn paint(top: *mut u64) {
    for word in NEAREST..DEEPEST {
        // SAFETY: of this thread's own stack, within its size, below every frame in use
        unsafe { ptr::write_volatile(top.sub(word), PAINT) };
    }
}

#[inline(never)]
fn lowest(top: *mut u64) -> usize {
    let gone = |word: &usize| {
        // SAFETY: as above
        let found = unsafe { ptr::read_volatile(top.sub(*word)) };
        found != PAINT
    };
    8 * (NEAREST..DEEPEST).rev().find(gone).unwrap_or(NEAREST)
}
