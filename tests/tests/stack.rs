//! The stack that a call needs, as `include/numlejka.h` states it: the deepest calls run on stacks that are painted before;
//! with the feature `library` only.
#![cfg(feature = "library")]

use std::ffi::{c_int, c_void};
use std::ptr::{null, null_mut};

use numlejka_tests::fractions::MINUS_ZERO;
use numlejka_tests::interface::{choose, measure, refine, size};
use numlejka_tests::plan::{Plan, PlannedWeight, segment_with_sink};

/// What the header says to be enough for a call.
const ENOUGH: usize = 24 * 1024;

/// The length of a painted stack, and the paint.
const LENGTH: usize = 256 * 1024;
const PAINT: u8 = 0xa5;

/// A page of a stack, which has to begin at a page's start.
#[derive(Clone)]
#[repr(C, align(4096))]
struct Page([u8; 4096]);

/// More than `pthread_attr_t` needs.
#[repr(C)]
struct Attributes([u64; 16]);

unsafe extern "C" {
    fn pthread_attr_init(attributes: *mut Attributes) -> c_int;
    fn pthread_attr_setstack(attributes: *mut Attributes, start: *mut c_void, length: usize) -> c_int;
    fn pthread_create(
        thread: *mut usize,
        attributes: *const Attributes,
        run: extern "C" fn(*mut c_void) -> *mut c_void,
        argument: *mut c_void,
    ) -> c_int;
    fn pthread_join(thread: usize, result: *mut *mut c_void) -> c_int;
}

/// A call, and the number that it gave.
struct Task<'a> {
    call: &'a mut dyn FnMut() -> u64,
    number: u64,
}

extern "C" fn run(task: *mut c_void) -> *mut c_void {
    // SAFETY: `painted` hands over its task and waits for this thread.
    let task = unsafe { &mut *task.cast::<Task>() };
    task.number = (task.call)();
    null_mut()
}

/// Runs a call on a painted stack of its own; gives its number and how many bytes of the stack it and its thread used.
fn painted(call: &mut dyn FnMut() -> u64) -> (u64, usize) {
    let mut stack = vec![Page([PAINT; 4096]); LENGTH / 4096];
    let mut task = Task { call, number: 0 };
    let mut attributes = Attributes([0; 16]);
    let mut thread = 0;
    // SAFETY: the stack and the task outlive the thread, which is waited for.
    unsafe {
        assert_eq!(pthread_attr_init(&mut attributes), 0);
        assert_eq!(pthread_attr_setstack(&mut attributes, stack.as_mut_ptr().cast(), LENGTH), 0);
        assert_eq!(pthread_create(&mut thread, &attributes, run, (&raw mut task).cast()), 0);
        assert_eq!(pthread_join(thread, null::<()>() as *mut _), 0);
    }
    let untouched = stack.iter().flat_map(|page| page.0).take_while(|&byte| byte == PAINT).count();
    (task.number, LENGTH - untouched)
}

/// A chain of 64 segments behind 4 stages, with repeaters at its first segments. All weights are 0, so every allowed sizing lies
/// between the bounds; 16 places have two indices each, so the search is as deep as room 65,536 allows.
fn deepest(repeaters: u8) -> Plan {
    let range = |place: usize| [0, u8::from((1..=16).contains(&place))];
    let segment = |i: u8| segment_with_sink(i, 1_000, 100_000, 0, range(4 + usize::from(i)));
    Plan {
        widths: vec![[2, 1], [1, 2]],
        sizes: vec![[2, 1, 1], [1, 2, 1]],
        stages: (0..4).map(range).collect(),
        segments: (0..64).map(segment).collect(),
        repeaters: (0..repeaters).map(|site| [site, 0, 0]).collect(),
        ..Plan::default()
    }
}

/// The same with a weight of 0 for each of the 64 sinks in place of an own byte of 255.
fn deepest_weighed(repeaters: u8) -> Plan {
    let mut plan = deepest(repeaters);
    plan.segments.iter_mut().for_each(|segment| segment.weight = 255);
    plan.weights = (0..64).map(|i| (i, PlannedWeight::Fraction(MINUS_ZERO))).collect();
    plan
}

/// Measures each operation on a deepest job.
fn check(plan: &Plan) {
    let (repeaters, weights) = (plan.repeaters.len(), plan.weights.len());
    let (job, places) = (plan.bytes(), plan.places());
    let (x, y) = (vec![0; places], vec![0; places]);
    let (mut figures, mut ends, mut reply) = ([0; 16], [0; 10], vec![0; 8 * (1 + places)]);
    let (_, own) = painted(&mut || 0);
    let check = |name: &str, wanted: u64, call: &mut dyn FnMut() -> u64| {
        let (number, used) = painted(call);
        println!(
            "stack of {name}, {repeaters} repeaters, {weights} weights: {} bytes",
            used - own
        );
        assert_eq!(number, wanted);
        assert!(used - own <= ENOUGH);
    };
    check("measure", 0, &mut || measure(&job, &x, &mut figures));
    check("refine at the first place", 0, &mut || refine(&job, &x, 0, &mut ends));
    check("refine at the last place", 0, &mut || refine(&job, &x, places - 1, &mut ends));
    check("choose", 1, &mut || choose(&job, &x, &y));
    check("size", 0, &mut || size(&job, &mut reply));
}

#[test]
fn a_call_needs_little_stack() {
    check(&deepest(0));
}

#[test]
fn a_call_with_repeaters_needs_little_stack() {
    check(&deepest(8));
}

#[test]
fn a_call_with_weights_needs_little_stack() {
    check(&deepest_weighed(8));
}
