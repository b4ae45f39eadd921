// Makes each call of bench/layer.rs, on both tables, on a stack of its own that was painted before, and prints how deep it was
// written: `FUNCTION BYTES`, the most over the function's rows. x86-64 alone.
#[path = "layer.rs"]
#[allow(dead_code)]
mod layer;

use layer::Call::*;
use std::arch::asm;
use std::collections::BTreeMap;

extern "C" {
    fn birnenschloss_check(t: *const u8, tl: usize) -> layer::Answer;
}

const STACK: usize = 65536;
/// Arguments from the seventh on are found on the stack; a function has ten at most.
const IN_REGISTERS: usize = 6;
const PUSHED: usize = 4;
/// A byte that is written with one paint shows under the other.
const PAINTS: [u8; 2] = [0xAA, 0x55];

#[repr(align(16))]
struct Stack([u8; STACK]);

struct Made {
    name: &'static str,
    function: *const (),
    arguments: Vec<usize>,
}

/// The function and the arguments of a call, as the C interface has them.
#[rustfmt::skip]
fn made(call: layer::Call, t: &[u8], lent: &mut layer::Lent) -> Made {
    let layer::Lent { memory: m, area, statuses, sheet, text } = lent;
    let (a, al) = (area.as_mut_ptr() as u64, area.len() as u64);
    let (s, sl) = (sheet.as_mut_ptr() as u64, sheet.len() as u64);
    let (x, xl) = (text.as_mut_ptr() as u64, text.len() as u64);
    let (f, fl) = (layer::FRAME.as_ptr() as u64, layer::FRAME.len() as u64);
    let short = matches!(call, StartShort) as usize;
    let statuses = statuses.as_mut_ptr() as u64;
    use layer::*;
    let (name, function, more): (_, _, &[u64]) = match call {
        Group(n, step) => {
            let pairs = Box::leak(pair_bytes(step).into_boxed_slice()).as_ptr() as u64;
            ("send_group", birnenschloss_send_group as *const (), &[a, al, pairs, 5 * n as u64, statuses, n as u64])
        }
        Records(n, step) => {
            let pairs = Box::leak(Box::new(pairs(step))).as_ptr() as u64;
            ("send_records", birnenschloss_send_records as *const (), &[a, al, pairs, n as u64, statuses, n as u64])
        }
        Start | StartShort => ("start", birnenschloss_start as *const (), &[]),
        Stop => ("stop", birnenschloss_stop as *const (), &[]),
        Send(i, v) => ("send", birnenschloss_send as *const (), &[a, al, i.into(), v.into()]),
        Initialise(i, v) => ("initialise", birnenschloss_initialise as *const (), &[i.into(), v.into()]),
        Receive(i) => ("receive", birnenschloss_receive as *const (), &[i.into()]),
        Status(i) => ("status", birnenschloss_status as *const (), &[i.into()]),
        Marks(i) => ("marks", birnenschloss_marks as *const (), &[i.into()]),
        ClearMarks(i) => ("clear_marks", birnenschloss_clear_marks as *const (), &[i.into()]),
        StartPeriodic => ("start_periodic", birnenschloss_start_periodic as *const (), &[]),
        StopPeriodic => ("stop_periodic", birnenschloss_stop_periodic as *const (), &[]),
        Indication(k, good) => ("indication", birnenschloss_indication as *const (), &[k.into(), good.into(), f, fl]),
        Rising(k, n) => ("indication", birnenschloss_indication as *const (), &[k.into(), 1, RISING[n].as_ptr() as u64, fl]),
        Confirm(k, good) => ("confirm", birnenschloss_confirm as *const (), &[k.into(), good.into()]),
        Tick => ("tick", birnenschloss_tick as *const (), &[a, al]),
        Begin(from, n) => {
            let objects = FOLLOWED[from..].as_ptr() as u64;
            ("sheet_begin", birnenschloss_sheet_begin as *const (), &[s, sl, objects, n as u64])
        }
        Drain => ("sheet_drain", birnenschloss_sheet_drain as *const (), &[s, sl, x, xl]),
    };
    let lent = [t.as_ptr() as usize, t.len(), m.as_mut_ptr() as usize, m.len() - short];
    Made { name, function, arguments: lent.into_iter().chain(more.iter().map(|n| *n as usize)).collect() }
}

/// Calls the function on the stack, and gives its number and value.
fn call_on(stack: &mut Stack, made: &Made) -> (u32, u32) {
    let [a, b, c, d, e, f] = std::array::from_fn(|i| *made.arguments.get(i).unwrap_or(&0));
    let more: [usize; PUSHED] = std::array::from_fn(|i| *made.arguments.get(IN_REGISTERS + i).unwrap_or(&0));
    let answer: u64;
    // The arguments are right for the function, and the stack is lent for the call and long enough.
    unsafe {
        asm!(
            "mov r12, rsp", "mov rsp, {top}",
            "push qword ptr [{more} + 24]", "push qword ptr [{more} + 16]", "push qword ptr [{more} + 8]", "push qword ptr [{more}]",
            "call {function}", "mov rsp, r12",
            top = in(reg) stack.0.as_mut_ptr_range().end, more = in(reg) more.as_ptr(), function = in(reg) made.function,
            in("rdi") a, in("rsi") b, in("rdx") c, in("rcx") d, in("r8") e, in("r9") f,
            lateout("rax") answer, out("r12") _, clobber_abi("C"),
        );
    }
    (answer as u32, (answer >> 32) as u32)
}

/// The bytes of stack that the call has written, from its return address on, with those of its arguments that are there.
fn depth(stack: &mut Stack, made: &Made, paint: u8, answer: (u32, u32)) -> usize {
    stack.0.fill(paint);
    assert_eq!(call_on(stack, made), answer, "{}", made.name);
    let deepest = stack.0.iter().position(|&byte| byte != paint).expect("a return address");
    STACK - deepest - 8 * (PUSHED - made.arguments.len().saturating_sub(IN_REGISTERS))
}

fn main() {
    let (mut stack, mut most) = (Box::new(Stack([0; STACK])), BTreeMap::new());
    let mut note = |made: Made, paint, answer| {
        let most = most.entry(made.name).or_insert(0);
        *most = depth(&mut stack, &made, paint, answer).max(*most);
    };
    for (large, paint) in [false, true].into_iter().flat_map(|large| PAINTS.map(|paint| (large, paint))) {
        let t = if large { layer::large() } else { layer::case12() };
        let arguments = vec![t.as_ptr() as usize, t.len()];
        note(Made { name: "check", function: birnenschloss_check as *const (), arguments }, paint, (0, 0));
        for row in layer::rows(large) {
            let mut lent = layer::before_all();
            for &call in &row.before {
                assert_eq!(layer::make(call, &t, &mut lent).number, 0, "a call before {}", row.name);
            }
            note(made(row.call, &t, &mut lent), paint, row.answer);
        }
    }
    most.iter().for_each(|(name, depth)| println!("{name} {depth}"));
}
