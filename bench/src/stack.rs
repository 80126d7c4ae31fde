//! How much stack each exported function needs: it is called on a stack of its own that is painted first, and the deepest byte that
//! changed is looked for. The inputs are the worst that the limits leave: deep types, deep terms, and full files.

use std::arch::asm;
use std::ffi::c_void;

use generate::raw::{RawTable, RawTrace};
use mirvashol::raw;
use second::service;

use crate::inputs::{full_trace, longest_bytes, shared_terms, tower};
use crate::judge::longest_list;
use crate::tables::LONGEST_LIST;

/// What a stack is here: far more than any function needs.
const STACK: usize = 1 << 17;

/// The goal of document 02's request f) as we read it.
const GOAL: usize = 32 * 1024;

/// A table, its list as the second implementation compiles it, and a trace that fits it as far as values do.
struct Night {
    name: &'static str,
    table: Vec<u8>,
    list: Vec<u8>,
    trace: Vec<u8>,
}

/// Prints the deepest stack of each exported function, and on which input it was seen. Answers whether all are below the goal.
pub fn measure() -> bool {
    let nights = nights();
    let own = painted(&mut || {});
    let mut fine = true;
    println!("{:12} {:>8}   deepest on", "function", "bytes");
    for (name, call) in FUNCTIONS {
        let (mut deepest, mut input) = (0, "");
        for night in &nights {
            let bytes = call(night) - own;
            if bytes > deepest {
                (deepest, input) = (bytes, night.name);
            }
        }
        println!("{name:12} {deepest:8}   {input}");
        fine &= deepest <= GOAL;
    }
    fine
}

/// Each exported function by name: the stack that it takes on the files of a night.
const FUNCTIONS: &[(&str, fn(&Night) -> usize)] = &[
    ("check_table", |n| {
        let mut answer = [0; 8];
        painted(&mut || _ = raw::check_table(&n.table, &mut answer))
    }),
    ("check_list", |n| {
        let mut answer = [0; 8];
        painted(&mut || _ = raw::check_list(&n.list, 96, &mut answer))
    }),
    ("check_trace", |n| {
        let mut answer = [0; 8];
        painted(&mut || _ = raw::check_trace(&n.trace, &mut answer))
    }),
    ("type_of", |n| {
        let mut answer = [0; 8];
        painted(&mut || _ = raw::type_of(&n.list, 0, &mut answer))
    }),
    ("type", |n| {
        let (mut out, mut answer) = (vec![0; LONGEST_LIST], [0; 8]);
        painted(&mut || _ = raw::type_table(&n.table, &mut out, &mut answer))
    }),
    ("compile", |n| {
        let (mut out, mut answer) = (vec![0; LONGEST_LIST], [0; 8]);
        painted(&mut || _ = raw::compile(&n.table, &mut out, &mut answer))
    }),
    ("judge", |n| {
        let mut answer = [0; 8];
        painted(&mut || _ = raw::judge(&n.table, &n.list, &mut answer))
    }),
    ("judge_shelf", |n| {
        let (lists, lengths) = ([&n.list[..]; 2].concat(), [n.list.len() as u64; 2]);
        let (mut verdicts, mut answer) = ([0; 8], [0; 8]);
        painted(&mut || _ = raw::judge_shelf(&n.table, &lists, &lengths, &mut verdicts, &mut answer))
    }),
    ("run", |n| {
        let (mut values, mut log, mut answer) = (vec![0; 5 * (1024 + 512)], vec![0; 5 * 512], [0; 8]);
        painted(&mut || _ = raw::run(&n.table, &n.list, &n.trace, &mut values, &mut log, &mut answer))
    }),
];

// ── The painted stack ──

/// How many bytes of stack the call changes. Two colours, since a call may write one of them.
fn painted(call: &mut dyn FnMut()) -> usize {
    [0x5a, 0xa5]
        .map(|colour| coloured(call, colour))
        .into_iter()
        .max()
        .expect("two")
}

fn coloured(mut call: &mut dyn FnMut(), colour: u8) -> usize {
    let mut stack = vec![colour; STACK];
    let end = stack.as_mut_ptr_range().end;
    // SAFETY: the stack is ours and large enough, its top is on a boundary of 16 bytes, and `enter` takes what it is handed here.
    unsafe { call_on(end.sub(end as usize % 16), enter, (&raw mut call).cast()) };
    let untouched = stack.iter().take_while(|&&byte| byte == colour).count();
    assert!(untouched > 0, "the stack is too small");
    STACK - untouched
}

/// Calls what the argument points to.
unsafe extern "C" fn enter(call: *mut c_void) {
    (*call.cast::<&mut dyn FnMut()>())();
}

/// Calls a function on another stack.
unsafe fn call_on(top: *mut u8, function: unsafe extern "C" fn(*mut c_void), argument: *mut c_void) {
    #[cfg(target_arch = "x86_64")]
    asm!(
        "mov r12, rsp",
        "mov rsp, {top}",
        "call {function}",
        "mov rsp, r12",
        top = in(reg) top,
        function = in(reg) function,
        in("rdi") argument,
        out("r12") _,
        clobber_abi("C"),
    );
    #[cfg(target_arch = "aarch64")]
    asm!(
        "mov x20, sp",
        "mov sp, {top}",
        "blr {function}",
        "mov sp, x20",
        top = in(reg) top,
        function = in(reg) function,
        in("x0") argument,
        out("x20") _,
        out("x30") _,
        clobber_abi("C"),
    );
}

// ── The worst inputs ──

fn nights() -> Vec<Night> {
    let mut nights = vec![
        night("128 shared terms, 64 steps", shared_terms(), full_trace(96)),
        Night {
            name: "511 builds and a full trace",
            ..longest(tower(vec![[3, 127, 127, 0, 0]]))
        },
        night("a pair received and split to the left", splits(true), nested(true)),
        night("a pair received and split to the right", splits(false), nested(false)),
        Night {
            name: "96 types of 255 bytes",
            table: shared_terms(),
            list: longest_bytes(),
            trace: full_trace(96),
        },
    ];
    for inside in (0..=60).step_by(4) {
        for other in (0..=(64 - inside)).step_by(4) {
            nights.push(night(
                "ciphertexts in ciphertexts",
                opened(inside, other, 64 - other),
                full_trace(2),
            ));
        }
    }
    nights
}

/// The table with the list that the second implementation gives it.
fn night(name: &'static str, table: Vec<u8>, trace: Vec<u8>) -> Night {
    let mut list = vec![0; LONGEST_LIST];
    let answer = service::compile(&table, &mut list);
    assert_eq!(answer[0], 0, "{name}: the table is refused");
    list.truncate(answer[3] as usize);
    Night {
        name,
        table,
        list,
        trace,
    }
}

/// The table with a list of 512 statements.
fn longest(table: Vec<u8>) -> Night {
    Night {
        name: "",
        list: longest_list(&table),
        table,
        trace: full_trace(96),
    }
}

/// A variable is received and split, then its left (right) part, and so on: 47 times, as far as there are symbols. Its type has 95
/// bytes, and is as deep as a type of pairs can be.
fn splits(left: bool) -> Vec<u8> {
    let mut raw = RawTable {
        symbols: vec![0],
        ..RawTable::default()
    };
    let channel = raw.term([0, 0, 0]);
    let mut whole = raw.symbol(1);
    raw.steps.push([1, channel, 0, whole, 0]);
    for _ in 0..47 {
        let term = raw.term([0, whole, 0]);
        let (x, y) = (raw.symbol(1), raw.symbol(1));
        raw.steps.push([4, term, 0, x, y]);
        whole = if left { x } else { y };
    }
    raw.bytes()
}

/// A trace for it: a channel, an atom, and pairs of the one before and the atom, to the left (right).
fn nested(left: bool) -> Vec<u8> {
    let mut values = vec![[0, 0, 1, 0, 0], [0, 0, 0, 0, 0]];
    for last in 1..=64 {
        values.push(if left { [1, 0, last, 0, 1] } else { [1, 0, 1, 0, last] });
    }
    RawTrace {
        values,
        starting: vec![0],
        supply: vec![65; 1],
    }
    .bytes()
}

/// A name k and a variable x, encrypted so many times; what that gives is opened so many times, and x by itself as many times as said.
/// So a type is pushed down the term, and meets another.
fn opened(inside: u8, other: u8, times: u8) -> Vec<u8> {
    let mut raw = RawTable {
        symbols: vec![0, 1],
        ..RawTable::default()
    };
    let key = raw.term([0, 0, 0]);
    let mut term = raw.term([0, 1, 0]);
    for _ in 0..inside {
        term = raw.term([2, term, key]);
    }
    open(&mut raw, term, key, times);
    let alone = raw.term([0, 1, 0]);
    open(&mut raw, alone, key, other);
    raw.bytes()
}

/// Opens the term so many times, each time what the time before gave, as far as there are symbols.
fn open(raw: &mut RawTable, mut term: u8, key: u8, times: u8) {
    for _ in 0..times {
        if raw.symbols.len() < 96 {
            let x = raw.symbol(1);
            raw.steps.push([5, term, key, x, 0]);
            term = raw.term([0, x, 0]);
        }
    }
    // The last one is sent nowhere: a term that nothing names would be number 7.
    if raw.terms.last() == Some(&[0, raw.symbols.len() as u8 - 1, 0]) && times > 0 {
        raw.terms.pop();
    }
}
