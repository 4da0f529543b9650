//! Calls on a thread that has exactly the stated stack: the deepest terms, the largest tables, the small examples and the trials.
use mergecheck::{answer, closure, sharing, Closure, Sharing, STACK};
use std::ffi::{c_int, c_void};
use std::path::PathBuf;
use std::ptr::null_mut;

fn file(path: &str) -> Vec<u8> {
    let path = PathBuf::from(env!("CARGO_MANIFEST_DIR")).join("../..").join(path);
    std::fs::read(&path).unwrap_or_else(|e| panic!("{}: {e}", path.display()))
}

/// The corpus of `trials`: each certificate after its length in two bytes.
fn corpus() -> Vec<Vec<u8>> {
    let stream = file("crates/trials/stdin");
    let (mut files, mut at) = (Vec::new(), 0);
    while at + 2 <= stream.len() {
        let length = stream[at] as usize * 256 + stream[at + 1] as usize;
        files.push(stream[at + 2..at + 2 + length].to_vec());
        at += 2 + length;
    }
    files
}

/// A certificate with two tables of the most rows, nothing merged, with this rule written n times. Every class leads to 0 by the symbol 1.
fn certificate(k: usize, side: &str, n: usize) -> Vec<u8> {
    let table = |key: &str| -> String {
        let unary: String = (0..125).map(|i| format!("{key}=1,{},{}\n", i % k, if i < k { 0 } else { i * 7 % k })).collect();
        unary + &format!("{key}=0,0\n{key}=2,0,0,0\n{key}=3,0,0,0,0\n")
    };
    let merge: Vec<String> = (0..k).map(|q| q.to_string()).collect();
    let mut text = format!("budget=33554432\narities=0,1,2,3\nstates={k}\nfinal=0\ntrans=128\n{}", table("t"));
    text += &format!("badstates={k}\nbadfinal=\nbadtrans=128\n{}rules={n}\n", table("u"));
    text += &format!("l={side}\nr={side}\n").repeat(n);
    text += &format!("merge={}\n", merge.join(","));
    text.into_bytes()
}

/// Terms of 24 tokens: as deep as one can be, as deep as one with four variables can be, and combs to the right and to the left.
fn deepest() -> [String; 5] {
    let four = "3,x0,x1,2,x2,x3";
    [
        "1,".repeat(23) + "x0",
        "1,".repeat(23) + "0",
        "1,".repeat(18) + four,
        "3,0,0,".repeat(6) + four,
        "2,".repeat(9) + four + &",0".repeat(9),
    ]
}

fn certificates() -> Vec<Vec<u8>> {
    let mut files = vec![file("examples/K1.cert"), file("examples/frames-accepted.cert"), file("bench/worst/cycles-32.cert"), vec![b'x'; 16384]];
    for side in deepest() {
        for k in [8, 32] {
            files.push(certificate(k, &side, 1));
        }
    }
    files.push(certificate(32, &deepest()[0], 32));
    files.extend(corpus());
    files
}

#[derive(Debug, PartialEq)]
struct Answers {
    verdict: String,
    sharing: Sharing,
    closure: Closure,
}

/// The three calls.
fn ask(file: &[u8]) -> Answers {
    Answers { verdict: answer(file), sharing: sharing(file), closure: closure(file) }
}

/// What the thread is lent.
struct Asked<'a> {
    files: &'a [Vec<u8>],
    answers: Vec<Answers>,
}

extern "C" fn ask_all(asked: *mut c_void) -> *mut c_void {
    // SAFETY: it is the `Asked` of `on_stack`, which waits for this thread and does not touch it meanwhile.
    let asked = unsafe { &mut *asked.cast::<Asked>() };
    asked.answers.extend(asked.files.iter().map(|file| ask(file)));
    null_mut()
}

/// `pthread_attr_t`, which nowhere is larger.
#[repr(C, align(16))]
struct Attributes([u8; 128]);

extern "C" {
    fn mmap(at: *mut c_void, length: usize, access: c_int, flags: c_int, file: c_int, offset: i64) -> *mut c_void;
    fn mprotect(at: *mut c_void, length: usize, access: c_int) -> c_int;
    fn munmap(at: *mut c_void, length: usize) -> c_int;
    fn pthread_attr_init(attributes: *mut Attributes) -> c_int;
    fn pthread_attr_setstack(attributes: *mut Attributes, at: *mut c_void, size: usize) -> c_int;
    fn pthread_attr_destroy(attributes: *mut Attributes) -> c_int;
    fn pthread_create(thread: *mut usize, attributes: *const Attributes, run: extern "C" fn(*mut c_void) -> *mut c_void, lent: *mut c_void) -> c_int;
    fn pthread_join(thread: usize, result: *mut *mut c_void) -> c_int;
}

const NO_ACCESS: c_int = 0;
const READ_AND_WRITE: c_int = 3;
const PRIVATE_AND_OF_NO_FILE: c_int = 0x22;

/// Memory under the stack that may not be touched. The guard of an ordinary thread is one page, and a large frame can reach past that.
const GUARD: usize = 1 << 20;

/// What no byte of the stack is likely to be at the end of what was used.
const PAINT: u8 = 0xA5;

/// The answers of the calls on a thread with a stack of so many bytes, and how many of them were used. Too few end the process.
fn on_stack(size: usize, files: &[Vec<u8>]) -> (Vec<Answers>, usize) {
    let mut asked = Asked { files, answers: Vec::new() };
    // SAFETY: the stack is memory of its own, the thread has ended before it is read and given back, and `asked` outlives the thread.
    let used = unsafe {
        let memory = mmap(null_mut(), GUARD + size, NO_ACCESS, PRIVATE_AND_OF_NO_FILE, -1, 0);
        assert_ne!(memory as isize, -1, "no memory for the stack");
        let stack = memory.cast::<u8>().add(GUARD);
        assert_eq!(mprotect(stack.cast(), size, READ_AND_WRITE), 0);
        stack.write_bytes(PAINT, size);
        let mut attributes = Attributes([0; 128]);
        let mut thread = 0;
        assert_eq!(pthread_attr_init(&mut attributes), 0);
        assert_eq!(pthread_attr_setstack(&mut attributes, stack.cast(), size), 0, "{size} bytes are no stack");
        assert_eq!(pthread_create(&mut thread, &attributes, ask_all, (&raw mut asked).cast()), 0);
        assert_eq!(pthread_join(thread, null_mut()), 0);
        pthread_attr_destroy(&mut attributes);
        let untouched = (0..size).take_while(|&i| *stack.add(i) == PAINT).count();
        munmap(memory, GUARD + size);
        size - untouched
    };
    (asked.answers, used)
}

#[test]
fn the_stated_stack_is_enough() {
    let files = certificates();
    let (answers, used) = on_stack(STACK, &files);
    println!("{used} bytes of {STACK} were used");
    assert_eq!(answers.len(), files.len());
    for (file, got) in files.iter().zip(answers) {
        assert_eq!(got, ask(file), "{}", String::from_utf8_lossy(file));
    }
}

/// For finding the real need: each certificate but those of the trials on a stack of MERGECHECK_TEST_STACK bytes.
#[test]
#[ignore = "ends the process where the stack is too small"]
fn a_named_stack_is_enough() {
    let size = std::env::var("MERGECHECK_TEST_STACK").map_or(STACK, |size| size.parse().unwrap());
    for file in &certificates()[..15] {
        let (answers, used) = on_stack(size, std::slice::from_ref(file));
        println!("{used:>8} bytes: {} {:?}", answers[0].verdict.lines().next().unwrap(), answers[0].closure);
    }
}
