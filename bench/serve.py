#!/usr/bin/env python3
"""Measures `serve`: python3 bench/serve.py PROGRAM [--quick | --hour].

Run it in the repository's top folder once the program is built (README.md). The journals lie in memory where there is /dev/shm, so that no disk is measured.

The first table has ticks beside three clients, each a process, who ask STATUS a thousand times a second, or as often as they are answered where that is less, and a fourth, who looks at
the ticks: how often they asked in all, the time from a question to its reply in microseconds (half, nine tenths, 99 and 99.9 hundredths of all are at most so long, and the longest), and the time of a tick
with them, beside that without. The rows: a room with two objects, where a tick is nearly nothing and is published as often as may be; 16 players in 100 rooms who use up their budget of
5,000,000 instructions in each tick, by one worker and by four, and 64 by one; the 16 once more, beside clients who ask without pause; and the same rooms without modules. The clients take processor
time themselves: on a machine with few processors the ticks are slower for that too, which `busy` shows: clients who wake as often and ask nobody.

The second table has what a summary costs a tick: the time of one in microseconds by `run`, which prints it, by `serve` with no link, which publishes it, and by `serve` beside three clients who read
summaries without pause, for whom the ticker waits where one of them copies the summary that is to be written over. A time is the difference of runs of several ticks and of one, and the best of some
rounds counts; beside clients it is as in the first table.

The third table has 64 uploads of 1 MiB that wait for one tick, which four clients send: the time until all are queued, the time of the tick that takes them, over that of one without any, and the
most memory that the server took. The modules: bytes that are none, one of a custom section that is passed over, and one that is code.

The last table has four strangers who hold the four sessions: after which time a fifth client is answered, what processor time the server takes until then, and the most memory. They say nothing; ask
and never read; send a mebibyte of an upload in bytes, one a second (with --hour alone, since they are let go after an hour); send bytes without a line feed; or ask as often as they are answered.

With --quick the players have a five hundredth of that budget, the code has 100 functions and not 10,000, each row is measured for a second, and of the strangers those who take a minute are left out,
which shows that it runs and little else. With --hour the strangers' table is all that is measured.
"""

import multiprocessing
import os
import socket
import subprocess
import sys
import tempfile
import threading
import time

# (the program that is measured is that of the words, also for what is shared with the checks)
if __name__ == "__main__" and len(sys.argv) > 1:
    os.environ["WORLD_SERVER"] = os.path.abspath(sys.argv[1])

TOP = os.path.dirname(os.path.dirname(os.path.abspath(__file__)))
sys.path[:0] = [os.path.join(TOP, it) for it in ("oracle", "checks/harness", "checks/inputs")]
from checked_program import PROGRAM  # noqa: E402
from module_bytes import module, player_module, section  # noqa: E402
from plain_worlds import of_rooms, road  # noqa: E402
from status_client import HOST, Client, Server, end_servers_when_ended  # noqa: E402
from worlds import MIB, bytes_of, room, thing, world  # noqa: E402

QUICK, HOUR = "--quick" in sys.argv, "--hour" in sys.argv
SECONDS, ROUNDS = (1, 1) if QUICK else (10, 3)
CLIENTS, EACH_SECOND = 4, 1_000
PLAYERS, MOST_PLAYERS, ROOMS, WAITING = 16, 64, 100, 64
# (a session has 65,536 replies)
MOST_ASKED = 65_000
UNITS = 1 if QUICK else 500
TOKEN = b"token"
# (loop (drop (i32.const 1)) (br 0))
WITHOUT_END = player_module(b"\x03\x40\x41\x01\x1a\x0c\0\x0b")
LOOP = player_module(b"")
PARTS = (0.5, 0.9, 0.99, 0.999, 1)


# ---- worlds


def players(count):
    return [{"player": number, "limit": UNITS, "token": TOKEN.decode()} for number in range(1, count + 1)]


def small():
    return bytes_of(world(room("E0S0", 3, thing("source", 1, 10, 10, timer=1), thing("pile", 2, 20, 20, energy=10**9)), players=players(1)))


def wide(count):
    """Rooms of 50 roads, and so many players."""
    return of_rooms([[road(index, serial) for serial in range(1, 51)] for index in range(ROOMS)], players(count))


def folder():
    """A folder for one world and its journal, in memory where that is possible."""
    return tempfile.TemporaryDirectory(dir="/dev/shm" if os.path.isdir("/dev/shm") else None)


def put(place, first):
    with open(os.path.join(place, "world.json"), "wb") as it:
        it.write(first)


# ---- questions beside ticks


def ask_often(port, until, each_second, answers, is_asking):
    """Asks so often each second until a moment, or without pause where that is 0, and gives the times of the replies."""
    times, following = [], time.perf_counter()
    client = Client(port, 120) if is_asking else None
    while (now := time.perf_counter()) < until:
        if now < following:
            time.sleep(following - now)
            continue
        following = max(following + 1 / each_second, now) if each_second else now
        if client:
            client.ask(b"STATUS")
        times.append(time.perf_counter() - now)
        if client and len(times) % MOST_ASKED == 0:
            client.quit()
            client = Client(port, 120)
    if client:
        client.quit()
    answers.put(times)


def tick_time(client, seconds):
    """The time of a tick over so many seconds, from when one is told first to when another is. Nothing is asked between."""

    def turn():
        before, end = client.status().tick, time.perf_counter() + 120
        while (it := client.status().tick) == before:
            if time.perf_counter() > end:
                sys.exit("no tick in two minutes")
            time.sleep(0.0002)
        return it, time.perf_counter()

    first, began = turn()
    time.sleep(seconds)
    last, ended = turn()
    return (ended - began) / (last - first)


def beside(server, seconds, each_second, is_asking=True, count=CLIENTS - 1):
    """Clients who ask, and where they put their times. (The fourth is the one who looks at the ticks.)"""
    answers, until = multiprocessing.Queue(), time.perf_counter() + seconds + 0.5
    askers = [multiprocessing.Process(target=ask_often, args=(server.port, until, each_second, answers, is_asking), daemon=True) for _ in range(count)]
    for one in askers:
        one.start()
    return askers, answers


def beside_clients(server, client, seconds, each_second, is_asking=True):
    """The time of a tick beside clients, and the times of all replies to them."""
    askers, answers = beside(server, seconds, each_second, is_asking)
    tick = tick_time(client, seconds)
    replies = [one for _ in askers for one in answers.get(timeout=120)]
    for one in askers:
        one.join(10)
    return tick, replies if is_asking else []


def measured_beside(first, modules_of, workers, seconds, each_second):
    """The times of a tick alone, beside clients who are busy and beside some who ask, the best of some rounds, and of all replies."""
    with folder() as place:
        put(place, first)
        with Server(place, 1_000_000, 1_000, workers=workers) as server, server.client(120) as client:
            for number, module in modules_of.items():
                if client.upload(number, TOKEN, module) != b"queued":
                    sys.exit("an upload is not queued")
            before = client.status().tick
            server.until(lambda: client.status().tick > before + 2, "no ticks", 120)
            alone, busy, asked, times = [], [], [], []
            for _ in range(ROUNDS):
                alone.append(tick_time(client, seconds))
                for found, is_asking in ((asked, True), (busy, False)):
                    tick, replies = beside_clients(server, client, seconds, each_second, is_asking)
                    found.append(tick)
                    times += replies
    return [min(one) for one in (alone, busy, asked)], sorted(times)


def row_beside(name, first, modules_of, workers, seconds=SECONDS, each_second=EACH_SECOND):
    ticks, times = measured_beside(first, modules_of, workers, seconds, each_second)
    parts = "".join(f"{1e6 * times[min(len(times) - 1, int(part * len(times)))]:10,.0f}" for part in PARTS)
    told = "".join(f"{1e3 * one:11.3f}" for one in ticks)
    print(f"{name:46}{len(times) / ROUNDS / (seconds + 0.5):8,.0f}{parts}{told}{ticks[2] / ticks[0]:8.2f}", flush=True)


def questions():
    head = f"{'asked':>8}" + "".join(f"{f'{100 * part:g}%':>10}" for part in PARTS) + f"{'tick alone':>11}{'busy':>11}{'asked':>11}{'ratio':>8}"
    print(f"{'STATUS, times in us, ticks in ms':46}{head}", flush=True)
    spending = dict.fromkeys(range(1, PLAYERS + 1), WITHOUT_END)
    # (its million ticks are over in some seconds)
    row_beside("a room with two objects", small(), {}, 1, seconds=0.1)
    row_beside("16 players who use their budget, 1 worker", wide(PLAYERS), spending, 1)
    row_beside("16 players who use their budget, 4 workers", wide(PLAYERS), spending, 4)
    row_beside("64 players who use their budget, 1 worker", wide(MOST_PLAYERS), dict.fromkeys(range(1, MOST_PLAYERS + 1), WITHOUT_END), 1, seconds=2 * SECONDS)
    row_beside("16 players, 1 worker, asked without pause", wide(PLAYERS), spending, 1, each_second=0)
    row_beside("the same rooms without modules", wide(PLAYERS), {}, 1)


# ---- summaries


def ticks_by(first, command, options, ticks):
    """How long the program takes with so many ticks of a world."""
    with folder() as place:
        put(place, first)
        open(os.path.join(place, "none.bin"), "wb").close()
        words = ["world.json", *(["none.bin"] if command == "run" else []), "journal.bin", "--ticks", str(ticks), *options]
        began = time.perf_counter()
        subprocess.run([PROGRAM, command, *words], cwd=place, stdout=subprocess.DEVNULL, stderr=subprocess.DEVNULL, check=True, timeout=300)
        return time.perf_counter() - began


def tick_by(first, command, options, ticks):
    return (min(ticks_by(first, command, options, ticks) for _ in range(ROUNDS)) - min(ticks_by(first, command, options, 1) for _ in range(ROUNDS))) / (ticks - 1)


def beside_readers(first, seconds):
    with folder() as place:
        put(place, first)
        with Server(place, 1_000_000, 1_000_000) as server, server.client(120) as client:
            return min(beside_clients(server, client, seconds, 0)[0] for _ in range(ROUNDS))


def summaries():
    print(f"\n{'a tick in us':46}{'run':>10}{'serve':>10}{'beside readers':>16}", flush=True)
    alone = ["--links", "0", "--port", "7777"]
    for name, first, ticks, seconds in (
        ("a room with two objects", small(), 200_000, 0.1),
        ("the same with 64 players", bytes_of(world(room("E0S0", 3, thing("pile", 1, 20, 20, energy=10**9)), players=players(MOST_PLAYERS))), 20_000, 1),
        ("100 rooms of 50 roads, 16 players", wide(PLAYERS), 500, SECONDS),
    ):
        ticks = max(2, ticks // 50) if QUICK else ticks
        times = (tick_by(first, "run", [], ticks), tick_by(first, "serve", alone, ticks), beside_readers(first, seconds))
        print(f"{name:46}{1e6 * times[0]:10,.1f}{1e6 * times[1]:10,.1f}{1e6 * times[2]:16,.1f}", flush=True)


# ---- uploads of a mebibyte


def padded(length):
    """The least player with a custom section, so many bytes long."""
    return LOOP + section(0, b"\1x" + bytes(length - len(LOOP) - 6))


def code():
    """A module of many functions, of somewhat less than a mebibyte."""
    return module([b"\x41\0\x1a" * 33] * (100 if QUICK else 10_000))


def send_all(port, count, content, answers):
    with Client(port, 120) as client:
        answers.put([client.upload(1, TOKEN, content) for _ in range(count)].count(b"queued"))
        client.quit()


def peak_of(server):
    """The most memory that a server took, in MiB."""
    with open(f"/proc/{server.run.pid}/status", encoding="ascii") as it:
        return next(int(line.split()[1]) for line in it if line.startswith("VmHWM")) / 1024


def one_tick(content, count, pace):
    """How long it takes to queue so many uploads, when their tick is told from the start on, and the most memory in MiB."""
    with folder() as place:
        put(place, small())
        start = time.perf_counter()
        with Server(place, 1, 100, pace=pace) as server:
            answers, began = multiprocessing.Queue(), time.perf_counter()
            senders = [multiprocessing.Process(target=send_all, args=(server.port, count // CLIENTS, content, answers), daemon=True) for _ in range(CLIENTS)]
            for one in senders:
                one.start()
            queued = sum(answers.get(timeout=120) for _ in senders)
            took = time.perf_counter() - began
            for one in senders:
                one.join(10)
            with server.client(120) as client:
                if queued != count or client.status().tick:
                    sys.exit(f"{queued} of {count} are queued before the tick: the pace of {pace} ms is too short")
                server.until(lambda: client.status().tick == 1, "no tick", 120)
                told = time.perf_counter() - start
                line = client.player(1)
            peak = peak_of(server)
    if count and line.uploads != count:
        sys.exit(f"{line.uploads} of {count} are decided")
    return took, told, peak, line.last


def uploads():
    print(f"\n{'64 uploads':46}{'result':>12}{'queued in s':>13}{'MiB a s':>10}{'tick in s':>11}{'memory MiB':>12}", flush=True)
    pace = 20_000 if QUICK else 3_000
    for name, content in (("of 1 MiB of zeros", bytes(MIB)), ("of 1 MiB with a custom section", padded(MIB)), (f"of {len(code()):,} bytes of code", code())):
        found = [one_tick(content, WAITING, pace) for _ in range(ROUNDS)]
        idle = min(one_tick(content, 0, pace)[1] for _ in range(ROUNDS))
        queued, told, peak = (min(one[place] for one in found) for place in range(3))
        print(f"{name:46}{found[0][3]:>12}{queued:13.3f}{len(content) * WAITING / MIB / queued:10,.0f}{told - idle:11.3f}{peak:12,.0f}", flush=True)


# ---- strangers


def send_until_refused(link, piece, pause):
    """Sends a piece again and again, with a pause behind each, until nobody takes it."""
    try:
        while True:
            link.sendall(piece)
            time.sleep(pause)
    except OSError:
        pass


def says_nothing(link):
    del link


def never_reads(link):
    # (the replies of a session are some 3 MB, which the buffers of the two sockets may take)
    send_until_refused(link, b"STATUS\n" * 1_000, 0)


def sends_slowly(link):
    link.sendall(b"UPLOAD 1 %s %d\n" % (TOKEN, MIB))
    send_until_refused(link, b"\0", 1)


def ends_no_line(link):
    send_until_refused(link, b"x" * 1_000, 0)


def asks_always(link):
    """Asks as often as it is answered."""
    try:
        link.sendall(b"STATUS\n")
        while link.recv(1 << 16):
            link.sendall(b"STATUS\n")
    except OSError:
        pass


def processor_time(server):
    """The processor time that a server took, in seconds."""
    with open(f"/proc/{server.run.pid}/stat", encoding="ascii") as it:
        fields = it.read().rpartition(")")[2].split()
    return (int(fields[11]) + int(fields[12])) / os.sysconf("SC_CLK_TCK")


def held_by(stranger):
    """Lets four strangers hold the sessions: after which time a fifth client is answered, what the server took until then, and the most memory."""
    with folder() as place:
        put(place, small())
        with Server(place, 1, 100) as server:
            with server.client(120) as client:
                server.until(lambda: client.status().tick == 1, "no tick", 120)
                client.quit()
            before, links = processor_time(server), []
            for _ in range(CLIENTS):
                links.append(socket.create_connection((HOST, server.port)))
            time.sleep(0.2)
            began = time.perf_counter()
            for link in links:
                threading.Thread(target=stranger, args=(link,), daemon=True).start()
            with server.client(2 * 3_600) as fifth:
                fifth.status()
                waited = time.perf_counter() - began
                taken = processor_time(server) - before
                fifth.quit()
            for link in links:
                link.close()
            return waited, taken, peak_of(server)


def strangers():
    print(f"\n{'four strangers who':46}{'a fifth after s':>16}{'processor s':>13}{'memory MiB':>12}", flush=True)
    rows = [("send bytes without a line feed", ends_no_line), ("ask as often as they are answered", asks_always)]
    if not QUICK:
        rows += [("say nothing", says_nothing), ("ask and never read", never_reads)]
    if HOUR:
        rows += [("send a byte a second of a mebibyte", sends_slowly)]
    for name, stranger in rows:
        waited, taken, peak = held_by(stranger)
        print(f"{name:46}{waited:16,.2f}{taken:13.2f}{peak:12,.0f}", flush=True)


def main():
    if len(sys.argv) < 2 or not os.path.isfile(sys.argv[1]):
        sys.exit("no program: python3 bench/serve.py PROGRAM [--quick | --hour]")
    end_servers_when_ended()
    if not HOUR:
        questions()
        summaries()
        uploads()
    strangers()


if __name__ == "__main__":
    main()
