#!/usr/bin/env python3
"""Lists each answer of each public call that may want memory, and what meets it, into docs/guarantees.md: `checks/answers.py --write`.

Want of memory is the free answer of a call that allocates, so a body that answers it in place of another one is let through by the clauses: only a run
or a test in which the other answer comes refuses it. Without --write the list of the document is held against the sources, as the gate does; it needs
no program. An answer is met by a test where the test, or a function that its file has for it, makes the call, and names the refusal where it is one;
where crates have calls of one name, the test's crate is the call's own or lists it in crates.txt.
What the program meets in the runs of the scripts stands in RUNS below, by the call, and what another call meets that makes it in THROUGH: each script
has to be one of checks/ and to name the refusal, and the crate of that other call has to make this one.
"""

import collections
import os
import re
import sys

TOP = os.path.dirname(os.path.dirname(os.path.abspath(__file__)))
sys.path.insert(0, os.path.join(TOP, "checks/harness"))
from checked_program import Checks  # noqa: E402

CRATES = os.path.join(TOP, "crates")
DOCUMENT = os.path.join(TOP, "docs/guarantees.md")
HEADING = "## Answers, and what meets them"
FREE = {"NoMemory", "AllocError"}
NONE = "none"

# The scripts in whose runs the program comes to all answers of a call, or to one of them alone.
RUNS = {
    "command_words::read_words": "program.py",
    "counted_record::CountedRecord::reserve": "desk.py",
    "changed_rules::Census::enter": "journals.py",
    "changed_rules::Census::leave": "journals.py",
    "changed_rules::has_few_sites": "rooms.py",
    "exit_crossing::all_crossers": "creeps.py",
    "exit_crossing::crossers": "creeps.py",
    "frame_log::Log::append_piece Ok": "journals.py",
    "frame_log::Log::append_piece DiskFault": "failures.py",
    "frame_log::Log::create": "journals.py",
    "frame_log::Log::create DiskFault": "failures.py",
    "frame_log::read_frame": "journals.py",
    "frame_log::read_frame DiskFault": "failures.py",
    "host_calls::Desk::over": "desk.py",
    "host_calls::DeskRoom::new": "desk.py",
    "hosted_tick::Hosted::restored": "journals.py",
    "hosted_tick::Hosted::tick": "desk.py",
    "intent_book::Intents::push": "moves.py",
    "intent_book::Recorded::canonical": "desk.py",
    "intent_book::Recorded::reserve": "desk.py",
    "judged_uploads::tick_piece": "journals.py",
    "kept_entries::intents_by_room": "rooms.py",
    "kept_entries::kept_in_room": "rooms.py",
    "kept_entries::no_intents_by_room": "program.py",
    "object_store::Bytes::of": "desk.py",
    "object_store::Bytes::push": "desk.py",
    "object_store::World::push_account": "program.py",
    "object_store::World::push_room": "program.py",
    "player_run::admit": "program.py",
    "player_run::RunRoom::new": "desk.py",
    "player_run::run_player_in": "desk.py",
    "record_follows::advance": "journals.py",
    "record_follows::fits": "journals.py",
    "record_follows::put": "journals.py",
    "record_follows::put_taken": "program.py",
    "recorded_tick::Recorder::lead": "journals.py",
    "recorded_tick::Recorder::of": "journals.py",
    "recorded_tick::Recorder::record": "journals.py",
    "recorded_tick::catch_up": "rooms.py",
    "recorded_tick::record_tick": "journals.py",
    "room_jobs::stepped_by_workers": "workers.py",
    "room_step::Crossers::push": "rooms.py",
    "room_step::all_intents": "rooms.py",
    "room_step::next_world": "rooms.py",
    "room_step::step_taken": "rooms.py",
    "room_table::RoomTable::copy": "rooms.py",
    "room_table::RoomTable::of": "program.py",
    "room_table::RoomTable::reserve": "fights.py",
    "room_terrain::Terrain::of": "program.py",
    "rule_check::first_broken": "world_files.py",
    "rule_check::keeps_room_rules": "journals.py",
    "rule_check::list_of": "journals.py",
    "ruled_tick::copied": "rooms.py",
    "ruled_tick::tick_table": "rooms.py",
    "ruled_tick::widen": "rooms.py",
    "sight_census::Census::of": "colonies.py",
    "tick_journal::read_base_form": "journals.py",
    "tick_journal::read_tick": "journals.py",
    "tick_journal::write_base": "program.py",
    "tick_journal::write_tick": "journals.py",
    "visible_view::View::among": "desk.py",
    "wasm_link::link": "program.py",
    "wasm_link::Linked::store": "desk.py",
    "wasm_machine::Machine::new": "desk.py",
    "wasm_machine::Machine::run": "desk.py",
    "wasm_module::decode": "modules.py",
    "wasm_stack::Stack::new": "desk.py",
    "wasm_store::FuncTable::new": "desk.py",
    "wasm_store::GlobalValues::new": "desk.py",
    "wasm_store::Pages::new": "desk.py",
    "wasm_typing::Context::of": "modules.py",
    "wasm_typing::is_function": "modules.py",
    "wasm_validate::validate": "modules.py",
    "wasm_values::Entries::of": "modules.py",
    "wasm_values::Entries::push": "modules.py",
    "wasm_values::Instrs::push": "modules.py",
    "wasm_values::blob": "modules.py",
    "wasm_values::bounds": "modules.py",
    "wasm_values::counted": "modules.py",
    "wasm_values::entries": "modules.py",
    "wasm_values::export_desc": "modules.py",
    "wasm_values::global_type": "modules.py",
    "wasm_values::import_desc": "modules.py",
    "wasm_values::indices": "modules.py",
    "wasm_values::inner": "modules.py",
    "wasm_values::mark": "modules.py",
    "wasm_values::name": "modules.py",
    "wasm_values::skim_expression": "modules.py",
    "wasm_values::table_type": "modules.py",
    "wasm_values::val_type": "modules.py",
    "run_lines::later_lines": "program.py",
    "run_lines::start_line": "program.py",
    "run_status::Status::fault_line": "program.py",
    "world_bytes::put_length": "program.py",
    "world_bytes::read_account": "journals.py",
    "world_bytes::read_intent": "journals.py",
    "world_bytes::read_room": "journals.py",
    "world_bytes::write_account": "program.py",
    "world_bytes::write_intent": "desk.py",
    "world_bytes::write_room": "program.py",
    "world_io::read_all": "program.py",
    "world_journal::Journal::append_judged Ok": "journals.py",
    "world_journal::Journal::append_judged DiskFault": "failures.py",
    "world_journal::Journal::create Ok": "journals.py",
    "world_journal::Journal::create DiskFault": "failures.py",
    "world_journal::Journal::recover": "journals.py",
    "world_journal::Journal::recover DiskFault": "failures.py",
    "world_journal::UntestedWalk::next": "program.py",
    "world_journal::UntestedWalk::tested": "program.py",
    "world_journal::read_base": "journals.py",
    "world_roster::Roster::of": "rooms.py",
    "world_run::load_world": "program.py",
    "world_run::record_tick": "program.py",
    "world_run::record_tick DiskFault": "failures.py",
    "world_run::resume": "journals.py",
    "world_run::same_base": "journals.py",
    "world_text::Text::of": "world_files.py",
    "world_text::Text::push": "world_files.py",
    "world_text::Tokens::push": "world_files.py",
    "world_text::read_world": "world_files.py",
    "world_text::read_world TooLong": "program.py",
}

# What a call meets in the tests of another one that makes it.
THROUGH = {
    "kept_entries::kept_entries": "ruled_tick::tick_plain",
    "rule_check::keeps_object_rules": "record_follows::follows",
    "ruled_tick::tick_taken": "ruled_tick::tick_plain",
    "object_store::World::copy": "ruled_tick::tick_plain",
    "object_store::Account::copy": "object_store::World::copy",
    "room_terrain::Terrain::copy": "object_store::World::copy",
}

# How a script names an answer, where it is not by its own name.
NAMES = {"Bad": "Uploads", "Empty": "is_empty"}

# Names of methods that are those of std's types too.
COMMON = {"copy", "new", "of", "push", "reserve"}
# Crates of tests alone, whose functions serve the tests of all their files.
OF_TESTS = {
    "base_examples",
    "content_examples",
    "device_examples",
    "hub_examples",
    "journal_examples",
    "machine_examples",
    "module_round_trip",
    "run_examples",
    "serve_examples",
    "session_examples",
    "socket_examples",
}

# The ends of a call of the program, but for want of memory.
ALL_ENDS = {
    "DiskFault",
    "Differs",
    "Done",
    "IdsExhausted",
    "NoJournal",
    "NoSuchTick",
    "NotAJournal",
    "OtherWorld",
    "ReadFault",
    "Refused",
    "Uploads",
    "Usage",
    "World",
    "WriteFault",
}

# The answers that a clause says never come.
NEVER = {
    "frame_log::Log::create": {"Closed"},
    "world_journal::Journal::create": {"Closed"},
    "world_journal::UntestedWalk::next": {"Empty"},
    "world_journal::UntestedWalk::tested": {"Empty", "DiskFault"},
    "world_journal::records": {"NoSuchTick"},
    "world_journal::span": {"NoSuchTick"},
    "module_round_trip::written_and_read": {"Malformed", "TooLarge"},
    "player_run::admit": {"UnknownPlayer", "WrongToken"},
    "world_run::load_world": ALL_ENDS - {"World", "ReadFault"},
    "world_run::record_tick": ALL_ENDS - {"IdsExhausted", "DiskFault"},
    "world_run::same_base": ALL_ENDS - {"OtherWorld"},
}


def sources():
    """The text of each source, by its crate and file."""
    found = {}
    for crate in sorted(os.listdir(CRATES)):
        folder = os.path.join(CRATES, crate, "src")
        for at, _, names in os.walk(folder):
            for name in sorted(names):
                if name.endswith(".rt"):
                    with open(os.path.join(at, name), encoding="utf-8") as it:
                        found[crate, os.path.relpath(os.path.join(at, name), folder)] = it.read()
    return found


def behind(text, at, opening, closing):
    """The place behind the bracket that closes the one at a place."""
    depth = 0
    for place in range(at, len(text)):
        depth += (text[place] == opening) - (text[place] == closing)
        if depth == 0:
            return place + 1
    return len(text)


# ---- the public calls


def exported(text):
    """The names that a crate's lib.rt offers."""
    names = set(re.findall(r"^pub (?:fn|struct|enum|trait) (\w+)", text, re.M))
    for names_in, name in re.findall(r"^pub use [\w:]+?::(?:\{([^}]*)\}|(\w+));", text, re.M | re.S):
        names |= {it.strip() for it in (names_in or name).split(",")}
    return names


def variants(texts):
    """The answers of each enum that has one for want of memory, but for that one, by its crate and name."""
    found = {}
    for (crate, _), text in texts.items():
        for name, body in re.findall(r"^pub enum (\w+)[^{;]*\{\n(.*?)\n\}", text, re.M | re.S):
            plain, depth = "", 0
            for letter in re.sub(r"//.*", "", body):
                depth += (letter in "({") - (letter in ")}")
                plain += letter if depth == 0 else ""
            answers = re.findall(r"\b([A-Z]\w*)\b", plain)
            if "Memory" in answers:
                found[crate, name] = [it for it in answers if it != "Memory"]
    return found


def public_calls(texts):
    """The public calls that may want memory, each with its answers but that one."""
    by_crate, found = variants(texts), {}
    by_name = {name: answers for (_, name), answers in by_crate.items()}
    for (crate, file), text in texts.items():
        names = exported(texts[crate, "lib.rt"]) if (crate, "lib.rt") in texts else set()
        owners = [(it.start(), it[1]) for it in re.finditer(r"^impl(?:<[^>]*>)? (\w+)(?:<[^>]*>)? \{", text, re.M)]
        for it in re.finditer(r"^( *)pub fn (\w+)(?:<[^(]*>)?(?=\()", text, re.M):
            owner = next((name for at, name in reversed(owners) if at < it.start()), None) if it[1] else None
            answer = re.match(r"\s*->\s*Result<(.*)>\s*(?:\{)?\s*$", text[behind(text, it.end(), "(", ")") :].split("\n", 1)[0])
            if not answer or (owner or it[2]) not in names:
                continue
            error = re.split(r",\s*", answer[1])[-1]
            if error in FREE or error in by_name:
                call = f"{crate}::{owner}::{it[2]}" if owner else f"{crate}::{it[2]}"
                answers = by_crate.get((crate, error), by_name.get(error, []))
                found[call] = ["Ok", *(it for it in answers if it not in NEVER.get(call, ()))]
    return found


# ---- what meets them


def functions(text):
    """The functions of a file with their texts, and which of them are tests."""
    found, tests = {}, []
    for it in re.finditer(r"^(#\[test\]\n)?(?:#\[[^\n]*\]\n)*(?:pub(?:\([a-z]+\))? )?fn (\w+)", text, re.M):
        found[it[2]] = text[it.start() : behind(text, text.index("{", text.index("\n{", it.end()) if "\n{" in text[it.end() :] else it.end()), "{", "}")]
        tests += [it[2]] if it[1] else []
    return found, tests


def reached(name, of):
    """The text of a function with those of the functions of its file that it calls."""
    seen, left = set(), [name]
    while left:
        one = left.pop()
        if one not in seen:
            seen.add(one)
            left += [it for it in set(re.findall(r"\b(\w+)\(", of[one])) if it in of]
    return "".join(of[one] for one in sorted(seen))


def tests_of(texts):
    """Each test with what it reaches."""
    found, shared = {}, collections.defaultdict(dict)
    for (crate, file), text in texts.items():
        if crate in OF_TESTS:
            shared[crate] |= functions(text)[0]
    for (crate, file), text in texts.items():
        of, tests = functions(text)
        for name in tests:
            found[crate, os.path.splitext(file)[0], name] = reached(name, shared[crate] | of)
    return found


def makes(crate, call, text):
    """A text of the crate makes the call."""
    *_, name = call.split("::")
    owner = call.split("::")[1] if call.count("::") == 2 else None
    if owner and name not in COMMON and re.search(rf"\b{owner}\b", text) and f".{name}(" in text:
        return True
    if not owner and call.split("::")[0] != crate and re.search(rf"\bfn {name}\b", text):
        # (the text has a function of its own of this name)
        return False
    return re.search(rf"\b{owner}::{name}\(" if owner else rf"(?<![\w.:]){name}\(", text) is not None


def listed():
    """The crates that each crate's line of crates.txt names, and itself."""
    with open(os.path.join(TOP, "crates.txt"), encoding="utf-8") as it:
        lines = [line.split(":") for line in it if ":" in line]
    return {words[0].split()[0]: {words[0].split()[0], *words[1].split()} for words in lines}


def met_by(call, answer, tests, may_make):
    """What meets an answer: scripts, and modules of tests of crates that may make the call."""
    script = RUNS.get(f"{call} {answer}") or RUNS.get(call)
    found = [f"`checks/{script}`"] if script else []
    modules = collections.defaultdict(set)
    for (crate, file, _), text in tests.items():
        if may_make(crate, call) and makes(crate, call, text) and (answer == "Ok" or re.search(rf"\b{answer}\b", text)):
            modules[crate].add(file)
    found += [f"`{crate}` ({', '.join(sorted(files))})" if len(files) < 3 else f"`{crate}`" for crate, files in sorted(modules.items())]
    return found or ([f"`{THROUGH[call]}`, which makes it"] if call in THROUGH else [])


def table(calls, tests):
    below, named = listed(), collections.Counter(it.split("::", 1)[1] for it in calls)
    may_make = lambda crate, call: named[call.split("::", 1)[1]] == 1 or call.split("::")[0] in below[crate]
    rows = [HEADING, ""]
    rows += ["Each public call that may want memory, with each other answer that it may give, and the scripts and tests in which that answer comes. It is"]
    rows += ["written by `checks/answers.py --write`, and the gate sees that it is the list of the sources.", ""]
    rows += ["| Call | Answer | Met by |", "|---|---|---|"]
    for call, answers in calls.items():
        for answer in answers:
            rows.append(f"| `{call}` | `{answer}` | {', '.join(met_by(call, answer, tests, may_make)) or NONE} |")
    return rows


# ---- the document


def parts_of(document):
    """What stands before the list, the list, and what stands behind it."""
    lines = document.splitlines()
    first = lines.index(HEADING) if HEADING in lines else next(at for at, line in enumerate(lines) if line == "## Tested only")
    last = next(at for at in range(first + 1, len(lines)) if lines[at].startswith("## ")) if HEADING in lines else first
    return lines[:first], lines[first:last], lines[last:]


def script_faults(calls):
    faults = []
    for call, answers in calls.items():
        for answer in answers:
            script = RUNS.get(f"{call} {answer}") or RUNS.get(call)
            if script:
                with open(os.path.join(TOP, "checks", script), encoding="utf-8") as it:
                    faults += [] if answer == "Ok" or NAMES.get(answer, answer) in it.read() else [f"checks/{script} doesn't name {answer} of {call}"]
    return faults


def through_faults(texts):
    faults = []
    for call, other in THROUGH.items():
        name, crate = call.split("::")[-1], other.split("::")[0]
        made = any(re.search(rf"\b{name}\(", text) for (of, _), text in texts.items() if of == crate)
        faults += [] if made else [f"{crate} doesn't make {call}"]
    return faults


def main():
    checks = Checks(__file__, has_program=False)
    texts = sources()
    calls, tests = public_calls(texts), tests_of(texts)
    rows = table(dict(sorted(calls.items())), tests)
    with open(DOCUMENT, encoding="utf-8") as it:
        before, listed, later = parts_of(it.read())
    if "--write" in sys.argv[1:]:
        with open(DOCUMENT, "w", encoding="utf-8") as it:
            it.write("\n".join([*before, *rows, "", *later]) + "\n")
        listed = [*rows, ""]
    checks.note("the list of docs/guarantees.md is that of the sources", [] if listed == [*rows, ""] else ["checks/answers.py --write makes it anew"])
    unknown = sorted({it.split(" ")[0] for it in (*RUNS, *THROUGH, *NEVER, *THROUGH.values())} - set(calls))
    checks.note("each call that is named here is one", [f"{it} is none" for it in unknown])
    checks.note("each script names what it meets", script_faults(calls))
    checks.note("each call is made by the one through which it is met", through_faults(texts))
    counts = collections.Counter(row.endswith(f"| {NONE} |") for row in rows if row.startswith("| `"))
    print(f"{checks.path}: {counts[False]} answers are met, {counts[True]} by nothing")
    checks.finish()


main()
