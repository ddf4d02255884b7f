//! How much stack a call takes: it is made in a thread whose stack was filled with a pattern, and is taken as deep as the
//! pattern is gone.

use std::os::raw::{c_int, c_void};
use std::panic::{catch_unwind, AssertUnwindSafe};
use std::process::abort;
use std::ptr::{addr_of, addr_of_mut, null_mut};

/// The stack of the thread, in words of 8 bytes: 4 MiB, many times what any call takes.
const WORDS: usize = 4 << 17;
/// What it is filled with.
const PATTERN: u64 = 0xa5c3_965a_3c69_0ff1;

/// Room for the attributes of a thread, which have 7 words on x86-64.
#[repr(C)]
struct Attributes([u64; 16]);

type Start = extern "C" fn(*mut c_void) -> *mut c_void;

// Rust's own threads get no stack that is lent to them, and more than they are asked for where that is little.
extern "C" {
    fn pthread_attr_init(attributes: *mut Attributes) -> c_int;
    fn pthread_attr_setstack(attributes: *mut Attributes, lowest: *mut c_void, size: usize) -> c_int;
    fn pthread_attr_destroy(attributes: *mut Attributes) -> c_int;
    fn pthread_create(thread: *mut usize, attributes: *const Attributes, start: Start, lent: *mut c_void) -> c_int;
    fn pthread_join(thread: usize, answer: *mut *mut c_void) -> c_int;
}

/// A page of a stack, so that it begins at one.
#[derive(Clone, Copy)]
#[repr(C, align(4096))]
struct Page([u64; 512]);

/// A call to be made.
struct Made<'a> {
    call: &'a mut dyn FnMut(),
    /// The address in the stack from which it was made.
    from: usize,
}

extern "C" fn make(made: *mut c_void) -> *mut c_void {
    // Safety: `taken` lends a `Made` until the thread has ended, and leaves it alone meanwhile.
    let made = unsafe { &mut *made.cast::<Made>() };
    let here = 0_u8;
    made.from = addr_of!(here) as usize;
    if catch_unwind(AssertUnwindSafe(&mut *made.call)).is_err() {
        abort();
    }
    null_mut()
}

/// How many bytes of stack a call takes, with those of the functions that make it here.
pub fn taken(mut call: impl FnMut() + Send) -> Result<usize, String> {
    let mut stack = vec![Page([PATTERN; 512]); WORDS / 512];
    let lowest: *mut Page = stack.as_mut_ptr();
    let mut made = Made { call: &mut call, from: 0 };
    let done = |what: &str, error: c_int| if error == 0 { Ok(()) } else { Err(format!("{}: error {}", what, error)) };
    let mut attributes = Attributes([0; 16]);
    let mut thread = 0;
    // Safety: the stack, the call and the attributes outlive the thread, which has ended when it is joined.
    unsafe {
        done("pthread_attr_init", pthread_attr_init(&mut attributes))?;
        done("pthread_attr_setstack", pthread_attr_setstack(&mut attributes, lowest.cast(), 8 * WORDS))?;
        done("pthread_create", pthread_create(&mut thread, &attributes, make, addr_of_mut!(made).cast()))?;
        done("pthread_join", pthread_join(thread, null_mut()))?;
        done("pthread_attr_destroy", pthread_attr_destroy(&mut attributes))?;
    }
    let words = stack.iter().flat_map(|page| page.0.iter());
    match words.take_while(|&&word| word == PATTERN).count() {
        0 => Err(format!("more than {} bytes of stack are taken", 8 * WORDS)),
        untouched => Ok(made.from - (lowest as usize + 8 * untouched)),
    }
}

/// How many bytes of stack the C header says that a call takes at most: its table has the name, and then kilobytes.
pub fn stated(call: &str) -> Option<usize> {
    let words: Vec<&str> = include_str!("../../../include/biidhaqun.h").split_whitespace().collect();
    let mut numbers = words.windows(2).filter(|pair| pair[0] == call).filter_map(|pair| pair[1].parse::<usize>().ok());
    numbers.next().map(|kilobytes| kilobytes << 10)
}

#[cfg(test)]
mod tests {
    use super::*;
    use std::ptr::write_volatile;

    /// Takes more than so many bytes.
    fn deep<const BYTES: usize>() {
        let mut room = [0_u8; BYTES];
        room.iter_mut().for_each(|byte| unsafe { write_volatile(byte, 1) });
    }

    #[test]
    fn what_is_taken_is_seen() {
        let nothing = taken(|| ()).unwrap();
        assert!(nothing < 4 << 10, "{}", nothing);
        for (bytes, call) in [(20_000, deep::<20_000> as fn()), (200_000, deep::<200_000>)] {
            let found = taken(call).unwrap();
            assert!((bytes..bytes + (4 << 10)).contains(&found), "{} of {}", found, bytes);
        }
    }

    #[test]
    fn the_header_says_it_of_each_call() {
        let header = include_str!("../../../include/biidhaqun.h");
        let declared =
            header.lines().filter_map(|line| line.strip_prefix("struct biidhaqun_")?.split_once(" biidhaqun_"));
        let calls: Vec<&str> = declared.filter_map(|(_, rest)| rest.strip_suffix('(')).collect();
        assert_eq!(calls.len(), 13);
        for call in calls {
            assert!(stated(&format!("biidhaqun_{}", call)).is_some(), "{}", call);
        }
    }
}
