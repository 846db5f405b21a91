//! The peak stack of a call: it runs on a thread whose stack is filled with a pattern first, and
//! whatever no longer has the pattern was used. POSIX threads on Linux.

use std::ffi::{c_int, c_void};
use std::ptr::null_mut;

const STACK: usize = 4 << 20;
const ALIGNMENT: usize = 4_096;
const PATTERN: u64 = 0xa55a_c33c_5aa5_3cc3;

/// Room for the attributes of a thread, whose size the C library keeps to itself.
#[repr(C, align(16))]
struct Attributes([u8; 256]);

extern "C" {
    fn pthread_attr_init(attributes: *mut Attributes) -> c_int;
    fn pthread_attr_setstack(attributes: *mut Attributes, stack: *mut c_void, size: usize)
        -> c_int;
    fn pthread_attr_destroy(attributes: *mut Attributes) -> c_int;
    fn pthread_create(
        thread: *mut usize,
        attributes: *const Attributes,
        run: extern "C" fn(*mut c_void) -> *mut c_void,
        argument: *mut c_void,
    ) -> c_int;
    fn pthread_join(thread: usize, result: *mut *mut c_void) -> c_int;
}

type Call<'a> = &'a mut (dyn FnMut() + Send);

extern "C" fn run_call(argument: *mut c_void) -> *mut c_void {
    // SAFETY: `touched` passes a pointer to a call that it keeps until the thread has ended.
    let call = unsafe { &mut *argument.cast::<Call>() };
    call();
    null_mut()
}

/// Bytes of stack that a call uses, above those of a call that does nothing.
pub fn peak(mut call: impl FnMut() + Send) -> usize {
    touched(&mut call).saturating_sub(touched(&mut || {}))
}

/// Bytes from the top of a fresh stack down to the lowest that was written.
fn touched(mut call: Call) -> usize {
    let mut memory = vec![PATTERN; (STACK + ALIGNMENT) / 8];
    let skipped = memory.as_ptr().align_offset(ALIGNMENT);
    let stack = &mut memory[skipped..skipped + STACK / 8];
    let mut attributes = Attributes([0; 256]);
    let mut thread = 0;
    let argument: *mut Call = &mut call;
    // SAFETY: the attributes are initialised before their use; stack and call outlive the thread,
    // which is joined here, and nothing else touches the stack meanwhile.
    let results = unsafe {
        [
            pthread_attr_init(&mut attributes),
            pthread_attr_setstack(&mut attributes, stack.as_mut_ptr().cast(), STACK),
            pthread_create(&mut thread, &attributes, run_call, argument.cast()),
            pthread_join(thread, null_mut()),
            pthread_attr_destroy(&mut attributes),
        ]
    };
    assert_eq!(results, [0; 5], "a thread on a stack of its own");
    let unused = stack.iter().take_while(|word| std::hint::black_box(**word) == PATTERN).count();
    STACK - 8 * unused
}

#[cfg(test)]
mod tests {
    use super::peak;
    use std::hint::black_box;

    #[test]
    fn an_array_counts() {
        let used = peak(|| {
            black_box([7_u8; 100_000]);
        });
        assert!((99_000..140_000).contains(&used), "{used}");
        assert!(peak(|| {}) < 64);
    }
}
