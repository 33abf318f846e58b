//! How much stack a call needs: it runs on a thread whose stack is ours and painted, and what lost its paint is counted.

use crate::job::{Answers, Task};
use std::alloc::{alloc, dealloc, Layout};
use std::arch::asm;
use std::ffi::c_void;
use std::ptr;

const SIZE: usize = 1 << 18;
const PAINT: u8 = 0xA5;
/// What stays unpainted below the stack pointer, since the painting itself may use it.
const MARGIN: usize = 256;

/// Room for the thread's attributes, more than any C library asks for.
#[repr(C, align(16))]
struct Attributes([u8; 256]);

extern "C" {
    fn pthread_attr_init(attributes: *mut Attributes) -> i32;
    fn pthread_attr_setstack(attributes: *mut Attributes, low: *mut c_void, size: usize) -> i32;
    fn pthread_attr_destroy(attributes: *mut Attributes) -> i32;
    fn pthread_create(
        thread: *mut usize,
        attributes: *const Attributes,
        start: extern "C" fn(*mut c_void) -> *mut c_void,
        argument: *mut c_void,
    ) -> i32;
    fn pthread_join(thread: usize, result: *mut *mut c_void) -> i32;
}

/// Calls whose stack is counted; gives the stack pointer of the function that makes them.
pub type Probe = fn(&Task, &mut Answers) -> usize;

struct Call<'a> {
    probe: Probe,
    task: &'a Task,
    answers: &'a mut Answers,
    /// The lowest byte of the thread's stack.
    low: *mut u8,
    /// The bytes from the call down to the lowest that was written.
    bytes: usize,
}

/// The stack pointer of the function that asks.
#[inline(always)]
pub fn pointer() -> usize {
    let at: usize;
    // SAFETY: it reads a register.
    unsafe {
        #[cfg(target_arch = "aarch64")]
        asm!("mov {}, sp", out(reg) at, options(nomem, nostack));
        #[cfg(target_arch = "x86_64")]
        asm!("mov {}, rsp", out(reg) at, options(nomem, nostack));
    }
    at
}

/// Paints what is free of this thread's stack, calls, and looks for the lowest byte without paint.
extern "C" fn start(argument: *mut c_void) -> *mut c_void {
    // SAFETY: `mark` hands over its own call and joins; what lies below the margin is nobody's until the call.
    unsafe {
        let call = &mut *argument.cast::<Call>();
        let free = pointer() - call.low as usize;
        ptr::write_bytes(call.low, PAINT, free - MARGIN);
        let caller = (call.probe)(call.task, call.answers) - call.low as usize;
        let mut clean = 0;
        while clean < free && call.low.add(clean).read_volatile() == PAINT {
            clean += 1;
        }
        call.bytes = caller.saturating_sub(clean);
    }
    ptr::null_mut()
}

/// The bytes of stack that the calls need below their caller. Less than the margin is not told apart.
pub fn mark(probe: Probe, task: &Task) -> usize {
    let mut answers = task.answers();
    // Once on this thread, so that nothing is left to be bound or set up.
    probe(task, &mut answers);
    let layout = Layout::from_size_align(SIZE, 1 << 16).expect("a layout");
    // SAFETY: the memory is the thread's from its creation to its end, and ours before and after.
    unsafe {
        let low = alloc(layout);
        assert!(!low.is_null());
        let mut call = Call {
            probe,
            task,
            answers: &mut answers,
            low,
            bytes: 0,
        };
        let mut attributes = Attributes([0; 256]);
        let mut thread = 0;
        let argument = ptr::from_mut(&mut call).cast();
        let done = [
            pthread_attr_init(&mut attributes),
            pthread_attr_setstack(&mut attributes, low.cast(), SIZE),
            pthread_create(&mut thread, &attributes, start, argument),
            pthread_join(thread, ptr::null_mut()),
            pthread_attr_destroy(&mut attributes),
        ];
        assert_eq!(done, [0; 5]);
        dealloc(low, layout);
        call.bytes
    }
}

#[cfg(test)]
mod tests {
    use super::{mark, pointer, MARGIN};
    use crate::job::{Answers, Task};
    use std::hint::black_box;

    fn nothing(_: &Task, _: &mut Answers) -> usize {
        pointer()
    }

    #[inline(never)]
    fn kilobyte() {
        black_box([1u8; 1024]);
    }

    fn one_kilobyte(_: &Task, _: &mut Answers) -> usize {
        kilobyte();
        pointer()
    }

    #[test]
    fn a_kilobyte_is_seen() {
        let task = Task::new(1, 1, false);
        assert!(mark(nothing, &task) <= MARGIN);
        let bytes = mark(one_kilobyte, &task);
        assert!((1024..8192).contains(&bytes), "{bytes} bytes");
    }
}
