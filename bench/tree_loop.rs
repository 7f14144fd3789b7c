//! The loop of the machine written in Rust, to compare its speed with: the same tree, the same places, the same stack of blocks and
//! values, and no proof, so that accesses are unchecked by hand. It runs the plain loop of `bench/machine.py` alone, but has an arm for each
//! kind of instruction, since a loop with fewer is another program.
//!
//! `rustc -O bench/tree_loop.rs -o tree_loop && ./tree_loop` prints the instructions that were executed and the nanoseconds that each took.

// (most kinds of instructions stand in no module here)
#![allow(dead_code)]

use std::time::Instant;

type Instrs = Option<Box<Vec<Instr>>>;

/// An instruction of 24 bytes. Value types are left out where nothing looks at them.
enum Instr {
    Unreachable,
    Nop,
    Block(bool, Instrs),
    Loop(Instrs),
    If(bool, Instrs, Instrs),
    Br(u32),
    BrIf(u32),
    BrTable(Box<Vec<u32>>, u32),
    Return,
    Call(u32),
    CallIndirect(u32),
    Drop,
    Select,
    LocalGet(u32),
    LocalSet(u32),
    LocalTee(u32),
    GlobalGet(u32),
    GlobalSet(u32),
    Load { op: u8, offset: u32 },
    Store { op: u8, offset: u32 },
    MemorySize,
    MemoryGrow,
    I32Const(i32),
    I64Const(i64),
    Numeric(u8),
}

#[derive(Debug)]
enum Trap {
    Unreachable,
    DivideByZero,
    Overflow,
    MemoryBounds,
    TableBounds,
    EmptyEntry,
    WrongType,
    CallDepth,
    StackFull,
}

#[derive(Debug)]
enum Outcome {
    Finished(u64),
    Trapped(u64, Trap),
    Spent(u64),
}

struct Function {
    class: u32,
    params: usize,
    more: usize,
    has_result: bool,
    body: Instrs,
}

struct Program {
    functions: Vec<Function>,
    classes: Vec<u32>,
}

#[derive(Clone, Copy)]
struct Place<'a> {
    code: &'a [Instr],
}

#[derive(Clone, Copy)]
enum Control<'a> {
    Label {
        again: Place<'a>,
        is_loop: bool,
        has_result: bool,
        height: usize,
    },
    Frame {
        rest: Place<'a>,
        has_result: bool,
        depth: usize,
    },
}

/// Where the locals of a frame begin, from where on they are far, and the stamp of the far ones.
#[derive(Clone, Copy)]
struct Span {
    base: usize,
    near: usize,
    epoch: u64,
}

struct Stack<'a> {
    controls: Vec<Control<'a>>,
    depth: usize,
    slots: Vec<u64>,
    stamps: Vec<u64>,
    waiting: Vec<Span>,
    top: Span,
    last: u64,
}

struct Store {
    globals: Vec<u64>,
    memory: Vec<u8>,
    most_pages: usize,
    table: Vec<Option<u32>>,
}

const MOST_FRAMES: usize = 1_000;
const MOST_VALUES: usize = 65_536;
const MOST_CONTROLS: usize = 201_000;
const NEAR: usize = 64;
const PAGE: usize = 65_536;

// The accesses that the machine has proved to be within bounds.

#[inline(always)]
fn at<T: Copy>(items: &[T], index: usize) -> T {
    debug_assert!(index < items.len());
    unsafe { *items.get_unchecked(index) }
}

#[inline(always)]
fn put<T>(items: &mut [T], index: usize, value: T) {
    debug_assert!(index < items.len());
    unsafe { *items.get_unchecked_mut(index) = value }
}

#[inline(always)]
fn push_reserved<T>(items: &mut Vec<T>, value: T) {
    let count = items.len();
    debug_assert!(count < items.capacity());
    unsafe {
        items.as_mut_ptr().add(count).write(value);
        items.set_len(count + 1);
    }
}

#[inline(always)]
fn code_of(body: &Instrs) -> &[Instr] {
    match body {
        Some(body) => body,
        None => &[],
    }
}

/// What the loop keeps at hand: where it is, and the end of the operands.
struct Here<'a> {
    place: Place<'a>,
    end: usize,
}

impl<'a> Stack<'a> {
    fn new() -> Stack<'a> {
        Stack {
            controls: Vec::with_capacity(MOST_CONTROLS),
            depth: 0,
            slots: vec![0; MOST_VALUES],
            stamps: vec![0; MOST_VALUES],
            waiting: Vec::with_capacity(MOST_FRAMES),
            top: Span {
                base: 0,
                near: 0,
                epoch: 0,
            },
            last: 0,
        }
    }

    #[inline(always)]
    fn operand(&self, here: &Here, above: usize) -> u64 {
        at(&self.slots, here.end - 1 - above)
    }

    #[inline(always)]
    fn push(&mut self, here: &mut Here, value: u64) -> Result<(), Trap> {
        if here.end >= MOST_VALUES {
            return Err(Trap::StackFull);
        }
        put(&mut self.slots, here.end, value);
        here.end += 1;
        Ok(())
    }

    #[inline(always)]
    fn replace(&mut self, here: &mut Here, count: usize, value: u64) {
        here.end -= count;
        put(&mut self.slots, here.end, value);
        here.end += 1;
    }

    #[inline(always)]
    fn local(&self, index: u32) -> u64 {
        let slot = self.top.base + index as usize;
        if slot < self.top.near || at(&self.stamps, slot) == self.top.epoch {
            at(&self.slots, slot)
        } else {
            0
        }
    }

    #[inline(always)]
    fn set_local(&mut self, index: u32, value: u64) {
        let slot = self.top.base + index as usize;
        put(&mut self.slots, slot, value);
        if slot >= self.top.near {
            put(&mut self.stamps, slot, self.top.epoch);
        }
    }

    #[inline(always)]
    fn call(&mut self, here: &mut Here<'a>, function: &'a Function) -> Result<(), Trap> {
        if self.waiting.len() >= MOST_FRAMES {
            return Err(Trap::CallDepth);
        }
        if function.more > MOST_VALUES - here.end {
            return Err(Trap::StackFull);
        }
        let base = here.end - function.params;
        let floor = here.end + function.more;
        let near = here.end.max(base + NEAR).min(floor);
        if near < floor {
            self.last += 1;
        }
        for slot in here.end..near {
            put(&mut self.slots, slot, 0);
        }
        push_reserved(&mut self.waiting, self.top);
        push_reserved(
            &mut self.controls,
            Control::Frame {
                rest: here.place,
                has_result: function.has_result,
                depth: self.depth,
            },
        );
        self.depth = self.controls.len();
        self.top = Span {
            base,
            near,
            epoch: self.last,
        };
        *here = Here {
            place: Place {
                code: code_of(&function.body),
            },
            end: floor,
        };
        Ok(())
    }

    #[inline(always)]
    fn enter(&mut self, here: &mut Here<'a>, again: Place<'a>, is_loop: bool, has_result: bool, body: &'a Instrs) {
        push_reserved(
            &mut self.controls,
            Control::Label {
                again,
                is_loop,
                has_result,
                height: here.end,
            },
        );
        here.place = Place { code: code_of(body) };
    }

    #[inline(always)]
    fn cut(&mut self, here: &mut Here, height: usize, has_result: bool) {
        if has_result {
            let value = self.operand(here, 0);
            put(&mut self.slots, height, value);
        }
        here.end = height + usize::from(has_result);
    }

    #[inline(always)]
    fn leave_frame(&mut self, here: &mut Here<'a>, rest: Place<'a>, has_result: bool, depth: usize) {
        self.cut(here, self.top.base, has_result);
        if let Some(span) = self.waiting.pop() {
            self.top = span;
        }
        self.depth = depth;
        here.place = rest;
    }

    #[inline(always)]
    fn branch(&mut self, here: &mut Here<'a>, to: usize) {
        let index = self.controls.len() - 1 - to;
        let target = at(&self.controls, index);
        self.controls.truncate(index);
        match target {
            Control::Label {
                again, has_result, height, ..
            } => {
                self.cut(here, height, has_result);
                here.place = again;
            }
            Control::Frame { rest, has_result, depth } => self.leave_frame(here, rest, has_result, depth),
        }
    }

    /// Leaves the innermost block or frame, and answers whether all is run.
    #[inline(always)]
    fn leave(&mut self, here: &mut Here<'a>) -> bool {
        match self.controls.pop() {
            None => return true,
            Some(Control::Label { again, is_loop, .. }) => {
                here.place = again;
                if is_loop {
                    here.place.code = unsafe { again.code.get_unchecked(1..) };
                }
            }
            Some(Control::Frame { rest, has_result, depth }) => self.leave_frame(here, rest, has_result, depth),
        }
        false
    }
}

#[inline(always)]
fn divided(op: u8, first: u32, second: u32) -> Result<u32, Trap> {
    if second == 0 {
        return Err(Trap::DivideByZero);
    }
    if op == 0x6d && first == 1 << 31 && second == !0 {
        return Err(Trap::Overflow);
    }
    Ok(match op {
        0x6d => (first as i32).wrapping_div(second as i32) as u32,
        0x6e => first / second,
        0x6f => (first as i32).wrapping_rem(second as i32) as u32,
        _ => first % second,
    })
}

/// The instructions on i32, each with an arm of its own.
#[inline(always)]
fn numeric(stack: &mut Stack, here: &mut Here, op: u8) -> Result<(), Trap> {
    let second = stack.operand(here, 0) as u32;
    if op == 0x45 {
        stack.replace(here, 1, u64::from(second == 0));
        return Ok(());
    }
    let first = stack.operand(here, 1) as u32;
    let value = match op {
        0x46 => u32::from(first == second),
        0x47 => u32::from(first != second),
        0x48 => u32::from((first as i32) < second as i32),
        0x49 => u32::from(first < second),
        0x4a => u32::from(first as i32 > second as i32),
        0x4b => u32::from(first > second),
        0x4c => u32::from(first as i32 <= second as i32),
        0x4d => u32::from(first <= second),
        0x4e => u32::from(first as i32 >= second as i32),
        0x4f => u32::from(first >= second),
        0x6a => first.wrapping_add(second),
        0x6b => first.wrapping_sub(second),
        0x6c => first.wrapping_mul(second),
        0x6d..=0x70 => divided(op, first, second)?,
        0x71 => first & second,
        0x72 => first | second,
        0x73 => first ^ second,
        0x74 => first.wrapping_shl(second),
        0x75 => (first as i32).wrapping_shr(second) as u32,
        0x76 => first.wrapping_shr(second),
        0x77 => first.rotate_left(second & 31),
        _ => first.rotate_right(second & 31),
    };
    stack.replace(here, 2, u64::from(value));
    Ok(())
}

#[inline(always)]
fn span(store: &Store, address: u64, width: usize) -> Result<usize, Trap> {
    if address + width as u64 > store.memory.len() as u64 {
        return Err(Trap::MemoryBounds);
    }
    Ok(address as usize)
}

#[inline(always)]
fn width_of(op: u8) -> usize {
    match op {
        0x2c | 0x2d | 0x30 | 0x31 | 0x3a | 0x3c => 1,
        0x2e | 0x2f | 0x32 | 0x33 | 0x3b | 0x3d => 2,
        0x28 | 0x34..=0x36 | 0x3e => 4,
        _ => 8,
    }
}

fn grow(store: &mut Store, by: u32) -> u32 {
    let pages = store.memory.len() / PAGE;
    if by as usize > store.most_pages - pages {
        return u32::MAX;
    }
    store.memory.resize((pages + by as usize) * PAGE, 0);
    pages as u32
}

#[inline(always)]
fn execute<'a>(
    program: &'a Program,
    stack: &mut Stack<'a>,
    store: &mut Store,
    here: &mut Here<'a>,
    again: Place<'a>,
    instr: &'a Instr,
) -> Result<(), Trap> {
    match instr {
        Instr::Unreachable => return Err(Trap::Unreachable),
        Instr::Nop => {}
        Instr::Block(has_result, body) => stack.enter(here, here.place, false, *has_result, body),
        Instr::Loop(body) => stack.enter(here, again, true, false, body),
        Instr::If(has_result, first, second) => {
            let body = if stack.operand(here, 0) as u32 != 0 { first } else { second };
            here.end -= 1;
            stack.enter(here, here.place, false, *has_result, body);
        }
        Instr::Br(to) => stack.branch(here, *to as usize),
        Instr::BrIf(to) => {
            let condition = stack.operand(here, 0) as u32;
            here.end -= 1;
            if condition != 0 {
                stack.branch(here, *to as usize);
            }
        }
        Instr::BrTable(several, last) => {
            let index = stack.operand(here, 0) as u32 as usize;
            here.end -= 1;
            stack.branch(here, several.get(index).copied().unwrap_or(*last) as usize);
        }
        Instr::Return => stack.branch(here, stack.controls.len() - stack.depth),
        Instr::Call(func) => return stack.call(here, &program.functions[*func as usize]),
        Instr::CallIndirect(kind) => {
            let entry = stack.operand(here, 0) as u32 as usize;
            let func = match store.table.get(entry) {
                None => return Err(Trap::TableBounds),
                Some(None) => return Err(Trap::EmptyEntry),
                Some(Some(func)) => &program.functions[*func as usize],
            };
            if func.class != at(&program.classes, *kind as usize) {
                return Err(Trap::WrongType);
            }
            here.end -= 1;
            return stack.call(here, func);
        }
        Instr::Drop => here.end -= 1,
        Instr::Select => {
            let chosen = if stack.operand(here, 0) as u32 == 0 { 1 } else { 2 };
            let value = stack.operand(here, chosen);
            stack.replace(here, 3, value);
        }
        Instr::LocalGet(local) => return stack.push(here, stack.local(*local)),
        Instr::LocalSet(local) => {
            let value = stack.operand(here, 0);
            here.end -= 1;
            stack.set_local(*local, value);
        }
        Instr::LocalTee(local) => stack.set_local(*local, stack.operand(here, 0)),
        Instr::GlobalGet(global) => return stack.push(here, at(&store.globals, *global as usize)),
        Instr::GlobalSet(global) => {
            let value = stack.operand(here, 0);
            here.end -= 1;
            put(&mut store.globals, *global as usize, value);
        }
        Instr::Load { op, offset } => {
            let width = width_of(*op);
            let from = span(store, stack.operand(here, 0) + u64::from(*offset), width)?;
            let mut bytes = [0; 8];
            bytes[..width].copy_from_slice(&store.memory[from..from + width]);
            stack.replace(here, 1, u64::from_le_bytes(bytes));
        }
        Instr::Store { op, offset } => {
            let width = width_of(*op);
            let from = span(store, stack.operand(here, 1) + u64::from(*offset), width)?;
            let bytes = stack.operand(here, 0).to_le_bytes();
            store.memory[from..from + width].copy_from_slice(&bytes[..width]);
            here.end -= 2;
        }
        Instr::MemorySize => return stack.push(here, (store.memory.len() / PAGE) as u64),
        Instr::MemoryGrow => {
            let answer = grow(store, stack.operand(here, 0) as u32);
            stack.replace(here, 1, u64::from(answer));
        }
        Instr::I32Const(number) => return stack.push(here, u64::from(*number as u32)),
        Instr::I64Const(number) => return stack.push(here, *number as u64),
        Instr::Numeric(op) => return numeric(stack, here, *op),
    }
    Ok(())
}

fn run<'a>(program: &'a Program, store: &mut Store, func: usize, fuel: u64) -> Outcome {
    let mut stack = Stack::new();
    let mut here = Here {
        place: Place { code: &[] },
        end: 0,
    };
    if let Err(trap) = stack.call(&mut here, &program.functions[func]) {
        return Outcome::Trapped(0, trap);
    }
    let mut used = 0;
    loop {
        let again = here.place;
        let Some((instr, rest)) = again.code.split_first() else {
            if stack.leave(&mut here) {
                return Outcome::Finished(used);
            }
            continue;
        };
        here.place.code = rest;
        if used >= fuel {
            return Outcome::Spent(used);
        }
        used += 1;
        if let Err(trap) = execute(program, &mut stack, store, &mut here, again, instr) {
            return Outcome::Trapped(used, trap);
        }
    }
}

fn listed(instrs: Vec<Instr>) -> Instrs {
    Some(Box::new(instrs))
}

/// The plain loop of `bench/machine.py`, with so many rounds.
fn plain(rounds: i32) -> Program {
    use Instr::{BrIf, I32Const, LocalGet, LocalSet, LocalTee, Loop, Numeric};
    let (add, sub, mul, xor, shl) = (0x6a, 0x6b, 0x6c, 0x73, 0x74);
    let again = vec![
        LocalGet(1),
        LocalGet(0),
        I32Const(3),
        Numeric(mul),
        Numeric(add),
        LocalSet(1),
        LocalGet(2),
        LocalGet(1),
        I32Const(5),
        Numeric(shl),
        Numeric(xor),
        LocalSet(2),
        LocalGet(0),
        I32Const(1),
        Numeric(sub),
        LocalTee(0),
        BrIf(0),
    ];
    let body = vec![I32Const(rounds), LocalSet(0), Loop(listed(again))];
    Program {
        functions: vec![Function {
            class: 0,
            params: 0,
            more: 3,
            has_result: false,
            body: listed(body),
        }],
        classes: vec![0],
    }
}

fn main() {
    let program = std::hint::black_box(plain(12_000_000));
    let mut best = f64::INFINITY;
    let mut executed = 0;
    for _ in 0..5 {
        let mut store = Store {
            globals: Vec::new(),
            memory: Vec::new(),
            most_pages: 0,
            table: Vec::new(),
        };
        let began = Instant::now();
        let outcome = run(&program, &mut store, 0, std::hint::black_box(u64::MAX));
        let took = began.elapsed().as_secs_f64();
        let Outcome::Finished(used) = outcome else {
            panic!("{outcome:?}");
        };
        best = best.min(took);
        executed = used;
    }
    println!("{executed} {:.2}", best * 1e9 / executed as f64);
}
