"""Runs of calls that are drawn tick by tick for the world as it then stands: the program has to make of them what oracle/game.py does."""

import compared_runs
from compared_runs import world_faults
from game import ACTIONS, DIRECTIONS, distance
from scripts import Table
from worlds import Step, Upload, acted, full, ticked


def call_of(random, name, one, around):
    """A call of a creep for an action, whose target is drawn of those in its reach, or None where there is none."""
    action, amounts = ACTIONS[name], {"drop": (0,), "move": (random.choice(list(DIRECTIONS)),)}
    if not action.targets:
        return (name, one["id"], *amounts.get(name, ()))
    fit = [it["id"] for it in around if it["kind"] in action.targets and distance(it, one) <= action.reach and (it is not one or action.itself)]
    return (name, one["id"], random.choice(fit), *((0,) if name in ("transfer", "withdraw") else ())) if fit else None


def count_into(done, counts):
    for key, count in counts.items():
        done[key] = done.get(key, 0) + count


def drawn(first, ticks, players, calls, changes):
    """A run of so many ticks, as oracle/game.py has it. `calls` draws the calls of a player for a world, and `changes` counts what became of a
    world in a tick, by the worlds before and after it and the runs. Answers the uploads, the steps, and how often each action did something, and
    nothing, and how often each change came."""
    it, uploads, steps, done = full(first), [], [], {}
    for tick in range(ticks):
        tables = [(number, Table(calls(it, number))) for number in players]
        uploads += [Upload(tick, number, table) for number, table in tables]
        runs = [table.run(it, number) for number, table in tables]
        count_into(done, acted(full(it), runs))
        before, it = it, ticked(it, runs)
        count_into(done, changes(before, it, runs))
        steps.append(Step([(number, "accepted", table.content) for number, table in tables], runs, it))
    return uploads, steps, done


def play_drawn(checks, name, first, ticks, players, calls, changes):
    """The same in the program, whose journal is then replayed: the run goes room by room, and the replay rules each tick at once. Answers how
    often each action did something, and nothing, and how often each change came."""
    uploads, steps, done = drawn(first, ticks, players, calls, changes)
    checks.note(f"the worlds of {name} keep the rules", world_faults(first, steps))
    compared_runs.play(checks, name, first, ticks, uploads, steps=steps)
    compared_runs.replay(checks, name, first, steps)
    return done


def note_counts(checks, name, done, least):
    """Notes whether each of these came often enough."""
    checks.note(name, [f"{what}: {done.get(what, 0)} times, and not {most}" for what, most in least.items() if done.get(what, 0) < most])
