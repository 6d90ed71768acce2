//! No exported function takes more stack than `include/card.h` says: measured over random histories, where each function runs on
//! a stack of its own that was painted before; and added up from the frames in the archive's machine code, for every path of calls.
#![cfg(feature = "engine")]

use comparison::card::{Card, Engine, Verdict, BYTES, IMAGE, LARGE_IMAGE};
use comparison::full_card::{old_card, timed_on};
use comparison::rules::Sizes;
use comparison::run::{run, DEFAULT_SEED};
use std::arch::asm;
use std::collections::BTreeMap;
use std::hint::black_box;
use std::process::Command;

/// The number that the header gives a name.
fn stated(name: &str) -> usize {
    let header = include_str!("../../include/card.h");
    let prefix = format!("#define {name} ");
    let number = header.lines().find_map(|line| line.strip_prefix(&prefix)).expect(name);
    number.parse().expect(name)
}

/// Each exported function, and its name in the header.
const FUNCTIONS: [(&str, &str); 7] = [
    ("card_check", "CARD_STACK_CHECK"),
    ("card_empty", "CARD_STACK_EMPTY"),
    ("card_convert", "CARD_STACK_CONVERT"),
    ("card_enlarge", "CARD_STACK_ENLARGE"),
    ("card_judge", "CARD_STACK_JUDGE"),
    ("card_read_out", "CARD_STACK_READ_OUT"),
    ("card_aid", "CARD_STACK_AID"),
];

/// A painted stack. What no call has written is still paint.
struct Stack(*mut u8);

const PAINT: u8 = 0xA5;
const SIZE: usize = 1 << 16;

impl Stack {
    fn new() -> Stack {
        Stack(vec![PAINT; SIZE].leak().as_mut_ptr())
    }

    /// Its top, where the convention wants it: on a multiple of 16.
    fn top(&self) -> usize {
        (self.0 as usize + SIZE) & !15
    }

    /// Runs a function on this stack.
    ///
    /// # Safety
    /// The function is of the C convention, may be called with the arguments, and needs no more than `SIZE` bytes of stack.
    unsafe fn call(&self, function: unsafe extern "C" fn(), arguments: [usize; 5]) -> Verdict {
        let result: u32;
        asm!(
            "xchg rsp, r12",
            "call r13",
            "mov rsp, r12",
            inout("r12") self.top() => _,
            in("r13") function,
            in("rdi") arguments[0],
            in("rsi") arguments[1],
            in("rdx") arguments[2],
            in("rcx") arguments[3],
            in("r8") arguments[4],
            lateout("eax") result,
            clobber_abi("C"),
        );
        Verdict::new(result >> 16, result & 0xFFFF)
    }

    /// The bytes from the top to the deepest one that a call has written.
    fn depth(&self) -> usize {
        let byte = |at: &usize| unsafe { (*at as *const u8).read_volatile() };
        let deepest = (self.0 as usize..self.top()).find(|at| byte(at) != PAINT);
        self.top() - deepest.unwrap_or(self.top())
    }
}

extern "C" {
    fn card_check();
    fn card_empty();
    fn card_convert();
    fn card_enlarge();
    fn card_judge();
    fn card_read_out();
    fn card_aid();
}

/// The proved engine, each function on its own stack.
struct Painted {
    check: Stack,
    empty: Stack,
    convert: Stack,
    enlarge: Stack,
    judge: Stack,
    read_out: Stack,
    aid: Stack,
}

// SAFETY of every call below: the arguments are those that `include/card.h` declares, out of slices that are lent as it says.
impl Card for Painted {
    fn name(&self) -> &'static str {
        "painted"
    }

    fn check(&self, image: &[u8]) -> Verdict {
        unsafe { self.check.call(card_check, [image.as_ptr() as usize, image.len(), 0, 0, 0]) }
    }

    fn empty(&self, image: &mut [u8]) -> Verdict {
        unsafe { self.empty.call(card_empty, [image.as_mut_ptr() as usize, image.len(), 0, 0, 0]) }
    }

    fn convert(&self, old: &[u8], image: &mut [u8]) -> Verdict {
        let (image, length) = (image.as_mut_ptr() as usize, image.len());
        unsafe { self.convert.call(card_convert, [old.as_ptr() as usize, old.len(), image, length, 0]) }
    }

    fn enlarge(&self, image: &[u8], large: &mut [u8]) -> Verdict {
        let (large, length) = (large.as_mut_ptr() as usize, large.len());
        unsafe { self.enlarge.call(card_enlarge, [image.as_ptr() as usize, image.len(), large, length, 0]) }
    }

    fn judge(&self, image: &mut [u8], record: &[u8]) -> Verdict {
        let (image, length) = (image.as_mut_ptr() as usize, image.len());
        unsafe { self.judge.call(card_judge, [image, length, record.as_ptr() as usize, record.len(), 0]) }
    }

    fn read_out(&self, image: &[u8], number: u32, out: &mut [u8]) -> Verdict {
        let (out, length) = (out.as_mut_ptr() as usize, out.len());
        unsafe {
            self.read_out.call(card_read_out, [image.as_ptr() as usize, image.len(), number as usize, out, length])
        }
    }

    fn aid<'a>(&self, record: &'a [u8]) -> &'a [u8] {
        // Measured here; the wrapper reads it.
        unsafe { self.aid.call(card_aid, [record.as_ptr() as usize, record.len(), 0, 0, 0]) };
        Engine.aid(record)
    }
}

/// A signal's handler would run on the painted stack: this thread takes none from here on.
fn block_signals() {
    extern "C" {
        fn sigfillset(set: *mut [u64; 16]) -> i32;
        fn pthread_sigmask(how: i32, set: *const [u64; 16], old: *mut [u64; 16]) -> i32;
    }
    const SIG_BLOCK: i32 = 0;
    let mut all = [0; 16];
    // SAFETY: a set of signals has 1,024 bits on Linux, and a null pointer asks for no old one.
    let blocked = unsafe { sigfillset(&mut all) == 0 && pthread_sigmask(SIG_BLOCK, &all, std::ptr::null_mut()) == 0 };
    assert!(blocked);
}

#[test]
fn no_call_takes_more_stack_than_the_header_says() {
    block_signals();
    let [check, empty, convert, enlarge, judge, read_out, aid] = [(); 7].map(|_| Stack::new());
    let painted = Painted { check, empty, convert, enlarge, judge, read_out, aid };
    let compared = run(&[&BYTES, &painted], DEFAULT_SEED, 20_000);
    assert!(compared.is_ok(), "{}", compared.err().unwrap().difference);
    for mut timed in Sizes::ALL.into_iter().flat_map(timed_on) {
        if timed.image.len() == IMAGE {
            assert_eq!(painted.enlarge(&timed.image, &mut [0; LARGE_IMAGE]).answer, 0, "{}", timed.name);
        }
        assert_eq!(painted.judge(&mut timed.image, &timed.record).answer, 0, "{}", timed.name);
    }
    assert_eq!(painted.convert(&old_card(), &mut [0; IMAGE]).answer, 0);
    let Painted { check, empty, convert, enlarge, judge, read_out, aid } = &painted;
    let stacks = [check, empty, convert, enlarge, judge, read_out, aid];
    all_fit(stacks.map(Stack::depth));
}

/// Each function takes some bytes, and no more than the header says.
fn all_fit(bytes: [usize; FUNCTIONS.len()]) {
    let stated = FUNCTIONS.map(|(function, name)| (function, stated(name)));
    let lines = stated.iter().zip(bytes).map(|((function, most), bytes)| format!("{function}: {bytes} of {most}\n"));
    let told: String = lines.collect();
    println!("bytes of stack:\n{told}");
    let fits = stated.iter().zip(bytes).all(|((_, most), bytes)| (8..=*most).contains(&bytes));
    assert!(fits, "bytes of stack:\n{told}");
}

#[test]
fn the_paint_shows_what_a_call_takes() {
    extern "C" fn takes_a_thousand() {
        black_box(&mut [0u8; 1000]);
    }
    block_signals();
    let stack = Stack::new();
    assert_eq!(stack.depth(), 0);
    // SAFETY: it takes no argument, and a little more than 1,000 bytes of stack.
    unsafe { stack.call(takes_a_thousand, [0; 5]) };
    assert!((1000..2000).contains(&stack.depth()), "{}", stack.depth());
}

/// A function in machine code: the bytes of its frame, how far below the frame it writes, and what it calls.
#[derive(Default)]
struct Frame {
    bytes: usize,
    below: usize,
    calls: Vec<String>,
}

/// The functions of the archive, out of `objdump`. Whatever moves the stack pointer down is counted, on whichever path it stands;
/// what moves it otherwise, and a call whose target is not written there, is told.
fn frames(listing: &str) -> BTreeMap<String, Frame> {
    let mut frames: BTreeMap<String, Frame> = BTreeMap::new();
    let mut name = String::new();
    let number = |text: &str| usize::from_str_radix(text, 16).expect(text);
    for line in listing.lines() {
        if let Some(named) = line.strip_suffix(">:") {
            name = named.split_once('<').expect("a name").1.to_string();
            continue;
        }
        let Some((_, code)) = line.split_once(":\t").or(line.split_once(": ")) else { continue };
        let frame = frames.entry(name.clone()).or_default();
        if let Some((_, place)) = code.strip_prefix("R_X86_64_").and_then(|code| code.split_once('\t')) {
            let target = place.split(['-', '+']).next().expect("a target").trim_start_matches(".text.");
            let constant = target.starts_with('.');
            frame.calls.extend((!constant).then(|| target.to_string()));
            continue;
        }
        let (operation, operands) = code.split_once(char::is_whitespace).unwrap_or((code, ""));
        match (operation, operands.trim().strip_suffix(",%rsp")) {
            ("push", _) => frame.bytes += 8,
            ("sub", Some(count)) => frame.bytes += number(count.strip_prefix("$0x").expect(line)),
            ("add", Some(_)) => {}
            (_, moved) => assert!(moved.is_none(), "{name}: {line}"),
        }
        assert!(operation != "call" || !operands.contains('*'), "{name}: {line}");
        for place in operands.split("-0x").skip(1) {
            if let Some((offset, _)) = place.split_once("(%rsp") {
                frame.below = frame.below.max(number(offset));
            }
        }
    }
    frames
}

/// What the header says of the C library: of these the return address alone is counted.
const LIBRARY: [&str; 5] = ["memcpy", "memmove", "memset", "memcmp", "bcmp"];

/// The bytes of stack of a call: the return address, the frame, and the deepest of what is below it.
fn bytes_of_call(frames: &BTreeMap<String, Frame>, name: &str, callers: &[&str]) -> usize {
    assert!(!callers.contains(&name), "{name} calls itself");
    let Some(frame) = frames.get(name) else {
        assert!(LIBRARY.contains(&name), "{name} is not in the archive");
        return 8;
    };
    let callers = [callers, &[name]].concat();
    let calls = frame.calls.iter().map(|called| bytes_of_call(frames, called, &callers));
    8 + frame.bytes + calls.fold(frame.below, usize::max)
}

#[test]
fn the_frames_on_each_path_add_up_to_no_more() {
    let archive = env!("CARD_ARCHIVE");
    let listed = Command::new("objdump").args(["-dr", "--no-show-raw-insn", archive]).output().expect("objdump");
    let frames = frames(&String::from_utf8_lossy(&listed.stdout));
    all_fit(FUNCTIONS.map(|(function, _)| bytes_of_call(&frames, function, &[])));
}
