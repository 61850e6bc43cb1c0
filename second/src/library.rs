//! The proved code, through its C interface (`record_box`). What is unsafe in this package
//! stands here, and how much stack a call takes is measured here.

use crate::answers::Calls;
use crate::record::Name;
use crate::record_box::{
    record_box_check, record_box_lookup, record_box_lookup_answer, record_box_settle, Answer, Part,
    Settled,
};
use crate::settle::Lent;

/// The proved code.
pub const CALLS: Calls = Calls {
    check,
    lookup,
    lookup_answer,
    settle,
};

// `record_box` declares the calls; here they are linked.
#[link(name = "exports", kind = "static")]
extern "C" {}

// In each: the pointer and the length are a slice's, which is lent for the whole
// call; the call keeps no pointer, and only reads the table.

pub fn check(n: u8, table: &[u8]) -> Answer {
    // SAFETY: see above.
    unsafe { record_box_check(n, table.as_ptr(), table.len()) }
}

pub fn lookup(n: u8, table: &[u8], asked: Name) -> Part {
    let (round, author, mark) = (asked.round, asked.author, asked.mark);
    // SAFETY: see above.
    unsafe { record_box_lookup(n, table.as_ptr(), table.len(), round, author, mark) }
}

pub fn lookup_answer(n: u8, table: &[u8], asked: Name) -> Answer {
    let (round, author, mark) = (asked.round, asked.author, asked.mark);
    // SAFETY: see above.
    unsafe { record_box_lookup_answer(n, table.as_ptr(), table.len(), round, author, mark) }
}

pub fn settle(n: u8, table: &[u8], lent: &mut Lent) -> Settled {
    let Lent {
        cells,
        order,
        taken,
    } = lent;
    // SAFETY: see above; what is lent to be changed is lent to no one else.
    unsafe {
        record_box_settle(
            n,
            table.as_ptr(),
            table.len(),
            cells.as_mut_ptr(),
            cells.len(),
            order.as_mut_ptr(),
            order.len(),
            taken.as_mut_ptr(),
            taken.len(),
        )
    }
}

/// How many bytes of stack a call takes, where it can be measured.
#[cfg(not(target_arch = "x86_64"))]
pub fn stack_of(_call: impl FnMut()) -> Option<usize> {
    None
}

/// How many bytes of stack a call takes: it is run on a stack of its own that was
/// filled with a pattern, and everything above the lowest byte that changed counts.
/// A byte may be written with the very pattern, so two patterns are tried.
#[cfg(target_arch = "x86_64")]
pub fn stack_of(mut call: impl FnMut()) -> Option<usize> {
    let patterns = [0x5A5A_5A5A_5A5A_5A5A, 0xA5A5_A5A5_A5A5_A5A5];
    let taken = patterns.map(|pattern| taken_of(pattern, &mut call));
    taken.into_iter().max()
}

#[cfg(target_arch = "x86_64")]
fn taken_of<F: FnMut()>(pattern: u64, call: &mut F) -> usize {
    /// Words of 8 bytes.
    const WORDS: usize = 1 << 17;

    extern "C" fn enter<F: FnMut()>(call: *mut F) {
        // SAFETY: it is the reference that `taken_of` holds for the whole call.
        unsafe { (*call)() }
    }

    let mut stack = vec![[pattern; 2]; WORDS / 2];
    let enter: extern "C" fn(*mut F) = enter::<F>;
    let call: *mut F = call;
    // The upper end of a stack is a multiple of 16.
    let top = stack.as_mut_ptr_range().end as usize & !15;
    // SAFETY: from `top` down lies a megabyte of our own, which no one else uses
    // meanwhile. The old stack pointer is kept in a register that a callee has to
    // restore, and `enter` does not unwind: a panic in an `extern "C"` function ends
    // the program.
    unsafe {
        std::arch::asm!(
            "mov r12, rsp",
            "mov rsp, {top}",
            "call {enter}",
            "mov rsp, r12",
            top = in(reg) top,
            enter = in(reg) enter,
            in("rdi") call,
            out("r12") _,
            clobber_abi("C"),
        );
    }
    let words = stack.as_flattened();
    let untouched = words.iter().take_while(|&&word| word == pattern).count();
    8 * (words.len() - untouched)
}
