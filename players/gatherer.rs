//! A player in Rust. Each spawn makes creeps of work, carry and move, up to five in its room. A creep harvests at the source that is
//! nearest to it until it is full; then it fills a spawn, and where none has room it upgrades the controller.
//!
//! Creeps go straight towards what they want, and now and then a step aside, so that they get past each other and round small walls:
//! players/path.h finds ways in C. Nothing is kept from tick to tick.
//!
//! Built by players/build_rust.sh.
#![no_std]

mod screeps;

use screeps::*;

const BODY: [u8; 3] = [WORK, CARRY, MOVE];
const CREEPS_OF_A_ROOM: usize = 5;

/// An object, by its index in this tick.
#[derive(Clone, Copy)]
struct Thing(i32);

impl Thing {
    fn get(self, field: i32) -> i64 {
        get(self.0, field)
    }

    fn id(self) -> i64 {
        self.get(ID)
    }

    fn is_own(self, kind: i64) -> bool {
        self.get(KIND) == kind && self.get(OWNER) == i64::from(me())
    }

    /// How many tiles lie between two objects of a room.
    fn distance(self, other: Thing) -> i64 {
        let across = (self.get(X) - other.get(X)).abs();
        let down = (self.get(Y) - other.get(Y)).abs();
        across.max(down)
    }
}

fn things() -> impl Iterator<Item = Thing> {
    (0..count()).map(Thing)
}

/// The things of the room in which another stands.
fn beside(other: Thing) -> impl Iterator<Item = Thing> {
    things().filter(move |thing| thing.get(ROOM) == other.get(ROOM))
}

/// A creep goes a step towards a thing. In one tick of four it goes aside, by its id to the left or to the right.
fn go(creep: Thing, target: Thing) {
    // (top left, top and top right, then the row of the creep, then the row below)
    const DIRECTIONS: [[i32; 3]; 3] = [[8, 1, 2], [7, 1, 3], [6, 5, 4]];
    let across = (target.get(X) - creep.get(X)).signum() + 1;
    let down = (target.get(Y) - creep.get(Y)).signum() + 1;
    let straight = DIRECTIONS.get(down as usize).and_then(|row| row.get(across as usize)).map_or(1, |direction| *direction);
    let turn = match (tick() + creep.id()) % 8 {
        0 => 1,
        4 => 7,
        _ => 0,
    };
    step(creep.id(), (straight - 1 + turn) % 8 + 1);
}

/// Goes towards the target where a call said that it is too far away. Whether there is nothing else to be done.
fn settled(code: i32, creep: Thing, target: Thing) -> bool {
    if code == NOT_IN_RANGE {
        go(creep, target);
    }
    code == OK || code == NOT_IN_RANGE
}

fn harvest_nearest(creep: Thing) {
    let sources = beside(creep).filter(|thing| thing.get(KIND) == SOURCE && thing.get(ENERGY) > 0);
    if let Some(source) = sources.min_by_key(|source| creep.distance(*source)) {
        settled(harvest(creep.id(), source.id()), creep, source);
    }
}

fn fill(creep: Thing) -> bool {
    let spawn = beside(creep).find(|thing| thing.is_own(SPAWN) && thing.get(ENERGY) < thing.get(CAPACITY));
    spawn.map_or(false, |spawn| settled(transfer(creep.id(), spawn.id(), 0), creep, spawn))
}

fn upgrade_own(creep: Thing) -> bool {
    let controller = beside(creep).find(|thing| thing.is_own(CONTROLLER));
    controller.map_or(false, |controller| settled(upgrade(creep.id(), controller.id()), creep, controller))
}

/// One that carries something and isn't full is at work, or it stands at a source.
fn work(creep: Thing) {
    let load = creep.get(ENERGY);
    let at_source = beside(creep).any(|thing| thing.get(KIND) == SOURCE && thing.get(ENERGY) > 0 && creep.distance(thing) <= 1);
    if load == 0 || at_source && load < creep.get(CAPACITY) {
        harvest_nearest(creep);
    } else {
        let _ = fill(creep) || upgrade_own(creep);
    }
}

fn make_creeps(spawn: Thing) {
    if beside(spawn).filter(|thing| thing.is_own(CREEP)).count() < CREEPS_OF_A_ROOM {
        spawn_creep(spawn.id(), &BODY);
    }
}

#[export_name = "loop"]
pub extern "C" fn act() {
    things().filter(|thing| thing.is_own(SPAWN)).for_each(make_creeps);
    things().filter(|thing| thing.is_own(CREEP)).for_each(work);
}
