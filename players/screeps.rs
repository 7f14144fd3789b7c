//! The calls that a world server offers a player's module, for a player in Rust, and the numbers that they speak in. docs/players.md
//! says what each call answers; players/screeps.h has the same for C, with a note on each. players/build_rust.sh compiles a player.
//!
//! A player has `#![no_std]` and `mod screeps;`, exports a function `loop`, and needs nothing else: the handler of panics stands here.
#![allow(dead_code)]

#[panic_handler]
fn panicked(_: &core::panic::PanicInfo) -> ! {
    core::arch::wasm32::unreachable()
}

/// Functions of the same types as the calls: the name here, and the name by which the call is imported.
macro_rules! calls {
    ($($name:ident, $call:literal, ($($argument:ident: $of:ty),*) -> $answer:ty;)*) => {
        mod imports {
            #[link(wasm_import_module = "screeps")]
            extern "C" {
                $(#[link_name = $call] pub fn $name($($argument: $of),*) -> $answer;)*
                pub fn memory_read(at: *mut u8) -> i32;
                pub fn memory_write(at: *const u8, length: u32) -> i32;
                pub fn spawn_creep(spawn: i64, at: *const u8, length: u32) -> i32;
            }
        }
        $(pub fn $name($($argument: $of),*) -> $answer {
            unsafe { imports::$name($($argument),*) }
        })*
    };
}

calls! {
    tick, "tick", () -> i64;
    me, "me", () -> u32;
    allowance, "allowance", () -> i32;
    bucket, "bucket", () -> i32;
    points, "points", () -> i64;
    level, "level", () -> i32;
    rooms, "rooms", () -> i32;
    room, "room", (place: i32) -> i32;
    room_name, "room_name", (room: i32) -> i32;
    terrain, "terrain", (room: i32, x: i32, y: i32) -> i32;
    count, "count", () -> i32;
    find, "find", (id: i64) -> i32;
    get, "get", (index: i32, field: i32) -> i64;
    memory_length, "memory_length", () -> i32;
    drop_load, "drop", (creep: i64, amount: i32) -> i32;
    transfer, "transfer", (creep: i64, target: i64, amount: i32) -> i32;
    withdraw, "withdraw", (creep: i64, target: i64, amount: i32) -> i32;
    pickup, "pickup", (creep: i64, target: i64) -> i32;
    heal, "heal", (creep: i64, target: i64) -> i32;
    ranged_heal, "ranged_heal", (creep: i64, target: i64) -> i32;
    dismantle, "dismantle", (creep: i64, target: i64) -> i32;
    attack, "attack", (creep: i64, target: i64) -> i32;
    harvest, "harvest", (creep: i64, target: i64) -> i32;
    repair, "repair", (creep: i64, target: i64) -> i32;
    build, "build", (creep: i64, target: i64) -> i32;
    ranged_mass_attack, "ranged_mass_attack", (creep: i64) -> i32;
    ranged_attack, "ranged_attack", (creep: i64, target: i64) -> i32;
    suicide, "suicide", (creep: i64) -> i32;
    claim_controller, "claim_controller", (creep: i64, target: i64) -> i32;
    upgrade, "upgrade", (creep: i64, target: i64) -> i32;
    reserve, "reserve", (creep: i64, target: i64) -> i32;
    attack_controller, "attack_controller", (creep: i64, target: i64) -> i32;
    create_site, "create_site", (room: i32, x: i32, y: i32, kind: i32) -> i32;
    remove_site, "remove_site", (site: i64) -> i32;
    step, "move", (creep: i64, direction: i32) -> i32;
}

/// The front of `text` becomes the memory text, where that is not longer: else INVALID_ARGS.
pub fn memory_read(text: &mut [u8]) -> i32 {
    if memory_length() as usize > text.len() {
        return INVALID_ARGS;
    }
    unsafe { imports::memory_read(text.as_mut_ptr()) }
}

pub fn memory_write(text: &[u8]) -> i32 {
    unsafe { imports::memory_write(text.as_ptr(), text.len() as u32) }
}

/// The spawn begins a creep of a body, each byte the number of a part.
pub fn spawn_creep(spawn: i64, body: &[u8]) -> i32 {
    unsafe { imports::spawn_creep(spawn, body.as_ptr(), body.len() as u32) }
}

// ---- codes

pub const OK: i32 = 0;
pub const NOT_OWNER: i32 = -1;
pub const BUSY: i32 = -4;
pub const NOT_FOUND: i32 = -5;
pub const NOT_ENOUGH_RESOURCES: i32 = -6;
pub const INVALID_TARGET: i32 = -7;
pub const FULL: i32 = -8;
pub const NOT_IN_RANGE: i32 = -9;
pub const INVALID_ARGS: i32 = -10;
pub const TIRED: i32 = -11;
pub const NO_BODYPART: i32 = -12;
pub const ROOM_LEVEL_NOT_ENOUGH: i32 = -14;
pub const GLOBAL_LEVEL_NOT_ENOUGH: i32 = -15;

// ---- fields of objects

pub const ID: i32 = 0;
pub const KIND: i32 = 1;
pub const ROOM: i32 = 2;
pub const X: i32 = 3;
pub const Y: i32 = 4;
pub const OWNER: i32 = 5;
pub const HITS: i32 = 6;
pub const HITS_MAX: i32 = 7;
pub const ENERGY: i32 = 8;
pub const CAPACITY: i32 = 9;
pub const TIMER: i32 = 10;
pub const EXTRA: i32 = 11;
pub const PROGRESS: i32 = 12;
pub const OTHER: i32 = 13;
pub const OTHER_TICKS: i32 = 14;
pub const PARTS: i32 = 15;
pub const PART: i32 = 100;

// ---- kinds of objects

pub const SOURCE: i64 = 1;
pub const CONTROLLER: i64 = 2;
pub const CREEP: i64 = 3;
pub const SPAWN: i64 = 4;
pub const EXTENSION: i64 = 5;
pub const STORAGE: i64 = 6;
pub const CONTAINER: i64 = 7;
pub const ROAD: i64 = 8;
pub const PILE: i64 = 9;
pub const SITE: i64 = 10;

// ---- parts of a body

pub const MOVE: u8 = 1;
pub const WORK: u8 = 2;
pub const CARRY: u8 = 3;
pub const ATTACK: u8 = 4;
pub const RANGED_ATTACK: u8 = 5;
pub const TOUGH: u8 = 6;
pub const HEAL: u8 = 7;
pub const CLAIM: u8 = 8;
