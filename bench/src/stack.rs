//! How much stack a call uses: a thread makes it on a stack that is filled with a mark before and looked through after.

use crate::policies::{draw, Draw};
use crate::sides::{Lent, MOST_PLACES};
use packet_store as library;
use std::ffi::{c_int, c_void};

const STACK: usize = 1 << 20;
const MARK: u8 = 0xa5;
const WORK: usize = 256 << 10;

/// A policy nested as deep as it may be, each part a product of others, at k = 32.
fn deep() -> String {
    let mut text = String::from("x0:=1;x31=1");
    for field in 0..32 {
        text = format!("({text})*;x{field}=0+x{field}:=1");
    }
    text
}

/// The bytes of stack for `new`, the policies of the first table and the deep one, and for the first pairs of those of the first table.
pub fn table(seed: u64, what: Draw) -> String {
    let mut lent = Lent::new(MOST_PLACES, WORK);
    let idle = used(&mut || ());
    let mut largest = |texts: &[String]| {
        texts
            .iter()
            .map(|text| used(&mut || assert!(lent.run(what.fields, text).is_ok())) - idle)
            .max()
    };
    let drawn: Vec<String> = draw(seed, what).into_iter().map(|drawn| drawn.text).collect();
    let mut table = format!("k = {}: bytes of stack\n", what.fields);
    for (title, texts) in [
        ("1", vec!["1".into()]),
        ("drawn policies", drawn.clone()),
        ("nested 32 deep", vec![deep()]),
    ] {
        table += &format!("{title:<20}{:>10}\n", largest(&texts).expect("there are texts"));
    }
    let pairs = drawn.iter().map(|text| first_pair(&mut lent, what.fields, text) - idle);
    table += &format!("{:<20}{:>10}\n", "first pairs", pairs.max().expect("there are texts"));
    table
}

/// The bytes for the first pair of a policy, from all packets to all.
fn first_pair(lent: &mut Lent, fields: u32, text: &str) -> usize {
    let a = lent.run(fields, text).expect("fits");
    let Lent { relations, sets, work } = lent;
    let all = library::set_one(relations, sets, work).expect("held").handle;
    used(&mut || {
        assert!(library::relation_first_path(relations, sets, work, all, a, all).is_ok());
    })
}

/// How much of its stack a thread uses that does this.
fn used(work: &mut dyn FnMut()) -> usize {
    let mut stack = vec![MARK; STACK];
    let mut work = work;
    // SAFETY: the stack outlives the thread, which is waited for; `work` is not used by others meanwhile.
    unsafe {
        let mut attributes = Attributes([0; 16]);
        let mut thread = 0;
        assert_eq!(pthread_attr_init(&mut attributes), 0);
        assert_eq!(pthread_attr_setstack(&mut attributes, stack.as_mut_ptr().cast(), STACK), 0);
        let argument = (&raw mut work).cast();
        assert_eq!(pthread_create(&mut thread, &attributes, begin, argument), 0);
        assert_eq!(pthread_join(thread, std::ptr::null_mut()), 0);
        assert_eq!(pthread_attr_destroy(&mut attributes), 0);
    }
    STACK - stack.iter().take_while(|&&byte| byte == MARK).count()
}

extern "C" fn begin(work: *mut c_void) -> *mut c_void {
    // SAFETY: `used` gives a pointer to its work.
    let work: &mut &mut dyn FnMut() = unsafe { &mut *work.cast() };
    work();
    std::ptr::null_mut()
}

/// Room for the C library's attributes of a thread.
#[repr(C, align(16))]
struct Attributes([u64; 16]);

extern "C" {
    fn pthread_attr_init(attributes: *mut Attributes) -> c_int;
    fn pthread_attr_setstack(attributes: *mut Attributes, stack: *mut c_void, size: usize)
        -> c_int;
    fn pthread_attr_destroy(attributes: *mut Attributes) -> c_int;
    fn pthread_create(
        thread: *mut usize,
        attributes: *const Attributes,
        begin: extern "C" fn(*mut c_void) -> *mut c_void,
        argument: *mut c_void,
    ) -> c_int;
    fn pthread_join(thread: usize, result: *mut *mut c_void) -> c_int;
}
