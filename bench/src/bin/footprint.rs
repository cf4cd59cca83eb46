//! The stack that each call takes at most, and whether memory grows over a million placings.
use bench::cases::{TOLERANCE, along, built, bumpy, full_job, lent, on, placed, search};
use oracle::calls::{Point, Search};
use placing::raw::{self, Lent};
use std::ffi::{c_int, c_void};
use std::fs;
use std::ptr::null_mut;

const PLACINGS: usize = 1_000_000;
const ROOM: usize = 4 << 20;
const PAINT: u8 = 0xa5;

fn main() {
    println!("{:<44} {:>12}", "the stack of a call, at most", "bytes");
    for (name, call) in CALLS {
        let deep = most(|degree| {
            let surface = bumpy(degree, degree + 47);
            let mark = on(&built(&surface), [0.4, 0.6]);
            stack_of(&|| call(&lent(&surface), mark))
        });
        println!("{name:<44} {deep:>12}");
    }
    let deep = most(|degree| {
        let file = full_job(&bumpy(degree, degree + 12), 0.);
        stack_of(&|| print(&file))
    });
    println!("{:<44} {deep:>12}", "job");
    println!();
    let [before, after] = memory_over(PLACINGS);
    println!("{:<44} {:>12}", "memory of the process", "kB");
    println!("{:<44} {before:>12}", "after 1,000 placings");
    println!("{:<44} {after:>12}", format!("after {PLACINGS} more"));
}

fn most(stack: impl Fn(usize) -> usize) -> usize {
    let degrees = [1, 3, 16];
    degrees.into_iter().map(stack).max().expect("some degrees")
}

/// A call on a surface, with a mark on it where the call takes one.
type Call = fn(&Lent, Point);

const CALLS: [(&str, Call); 6] = [
    ("evaluate", evaluate),
    ("invert", invert),
    ("row", row),
    ("derivative", derivative),
    ("nurbs_singular", nurbs_singular),
    ("plane", plane),
];

fn evaluate(surface: &Lent, _: Point) {
    assert_eq!(raw::evaluate(surface, 0.4, 0.6, &mut [0.; 9]), 0);
}

fn invert(surface: &Lent, mark: Point) {
    placed(surface, mark, &search(None));
}

fn row(surface: &Lent, mark: Point) {
    let (budget, index) = (&mut [u64::MAX], &mut [0]);
    let marks = [mark, mark];
    let number = raw::row(
        surface,
        marks.as_flattened(),
        &[],
        TOLERANCE,
        &[],
        &[],
        budget,
        index,
        &mut [0.; 4],
        &mut [0; 4],
    );
    assert_eq!(number, 0);
}

fn derivative(surface: &Lent, _: Point) {
    let number = raw::derivative(surface, 0.4, 0.6, [1.; 3], &mut [1], &mut [0.; 2]);
    assert_eq!(number, 0);
}

fn nurbs_singular(surface: &Lent, _: Point) {
    let number = raw::nurbs_singular(surface, TOLERANCE, &mut [0; 4], &mut [0.; 20]);
    assert_eq!(number, 0);
}

fn plane(_: &Lent, mark: Point) {
    let frame = [[0.; 3], [1., 0., 0.], [0., 1., 0.]];
    assert_eq!(raw::plane(frame, mark, &mut [1], &mut [0.; 2]), 0);
}

fn print(file: &[u8]) {
    let printout = String::from_utf8(placing::job(file)).expect("ASCII");
    assert!(!printout.contains("refused"), "every mark is placed");
}

/// Placings with a hint nearby, and one in a thousand without.
fn memory_over(calls: usize) -> [usize; 2] {
    let surface = bumpy(3, 12);
    let shell = built(&surface);
    let inputs: Vec<(Point, Search)> = along(1000)
        .enumerate()
        .map(|(i, [u, v])| (on(&shell, [u, v]), search((i > 0).then_some([u, v + 1e-3]))))
        .collect();
    let lent = lent(&surface);
    let run = |count: usize| {
        for (mark, search) in inputs.iter().cycle().take(count) {
            placed(&lent, *mark, search);
        }
        resident()
    };
    [run(1000), run(calls)]
}

/// The pages in memory, by the system's own count.
fn resident() -> usize {
    let status = fs::read_to_string("/proc/self/status").expect("Linux");
    let line = status.lines().find(|line| line.starts_with("VmRSS:"));
    let words: Vec<&str> = line.expect("VmRSS").split_whitespace().collect();
    words[1].parse().expect("a number")
}

// A thread on memory of our own, painted before, shows how far down it wrote.
unsafe extern "C" {
    fn pthread_attr_init(attributes: *mut Attributes) -> c_int;
    fn pthread_attr_setstack(attributes: *mut Attributes, low: *mut c_void, size: usize) -> c_int;
    fn pthread_create(
        thread: *mut usize,
        attributes: *const Attributes,
        start: extern "C" fn(*mut c_void) -> *mut c_void,
        argument: *mut c_void,
    ) -> c_int;
    fn pthread_join(thread: usize, answer: *mut *mut c_void) -> c_int;
}

#[repr(C, align(16))]
struct Attributes([u8; 64]);

/// What the call and the thread that makes it take, less what a thread takes that makes none.
fn stack_of(call: &dyn Fn()) -> usize {
    depth(call) - depth(&|| ())
}

extern "C" fn start(call: *mut c_void) -> *mut c_void {
    let call = unsafe { &*call.cast::<&dyn Fn()>() };
    call();
    null_mut()
}

fn depth(mut call: &dyn Fn()) -> usize {
    let mut stack = vec![PAINT; ROOM + 4096];
    let low = stack.as_mut_ptr().align_offset(4096);
    let (mut attributes, mut thread) = (Attributes([0; 64]), 0);
    unsafe {
        assert_eq!(pthread_attr_init(&mut attributes), 0);
        let bottom = stack.as_mut_ptr().add(low).cast();
        assert_eq!(pthread_attr_setstack(&mut attributes, bottom, ROOM), 0);
        let argument = (&raw mut call).cast();
        assert_eq!(pthread_create(&mut thread, &attributes, start, argument), 0);
        assert_eq!(pthread_join(thread, null_mut()), 0);
    }
    let painted = stack[low..low + ROOM]
        .iter()
        .take_while(|&&byte| byte == PAINT);
    ROOM - painted.count()
}
