//! The stack that a call takes: it runs in a thread on a painted stack, and the deepest word that
//! is changed afterwards says how far down the call went.

use std::alloc::{alloc, dealloc, Layout};

/// Far above every promise: a call that went past it would write into what is not its own.
const SIZE: usize = 1 << 20;
const WORDS: usize = SIZE / 8;

/// As large as any C library's `pthread_attr_t`.
#[repr(C, align(16))]
struct Attributes([u8; 512]);

extern "C" {
    fn pthread_attr_init(attributes: *mut Attributes) -> i32;
    fn pthread_attr_setstack(attributes: *mut Attributes, stack: *mut u8, size: usize) -> i32;
    fn pthread_attr_destroy(attributes: *mut Attributes) -> i32;
    fn pthread_create(
        thread: *mut usize,
        attributes: *const Attributes,
        start: extern "C" fn(*mut u8) -> *mut u8,
        argument: *mut u8,
    ) -> i32;
    fn pthread_join(thread: usize, result: *mut *mut u8) -> i32;
}

type Call<'a> = &'a mut dyn FnMut();

extern "C" fn start(argument: *mut u8) -> *mut u8 {
    let call = unsafe { &mut *(argument as *mut Call) };
    call();
    std::ptr::null_mut()
}

/// The paint changes from word to word, so that no run of equal words looks like it.
fn paint(place: usize) -> u64 {
    (place as u64 + 1).wrapping_mul(0x9e37_79b9_7f4a_7c15)
}

/// How many bytes from the top of a thread's stack down a call changes.
fn depth(mut call: Call) -> usize {
    let layout = Layout::from_size_align(SIZE, 4096).expect("whole pages");
    unsafe {
        let stack = alloc(layout);
        assert!(!stack.is_null());
        let words = stack as *mut u64;
        for place in 0..WORDS {
            *words.add(place) = paint(place);
        }
        let mut attributes = Attributes([0; 512]);
        let mut thread = 0;
        let mut result = std::ptr::null_mut();
        let argument = &mut call as *mut Call as *mut u8;
        assert_eq!(pthread_attr_init(&mut attributes), 0);
        assert_eq!(pthread_attr_setstack(&mut attributes, stack, SIZE), 0);
        assert_eq!(pthread_create(&mut thread, &attributes, start, argument), 0);
        assert_eq!(pthread_join(thread, &mut result), 0);
        assert_eq!(pthread_attr_destroy(&mut attributes), 0);
        let kept = (0..WORDS).take_while(|&place| *words.add(place) == paint(place)).count();
        dealloc(stack, layout);
        SIZE - 8 * kept
    }
}

/// The bytes of stack that a call takes beyond a thread that calls nothing.
pub fn taken(call: Call) -> usize {
    depth(call) - depth(&mut || ())
}
