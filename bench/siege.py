#!/usr/bin/env python3
"""Besieges the command `serve`: clients that behave badly, for some minutes, beside one that behaves.

    bench/siege.py [--seconds S] [--clients N] [--sessions S] [--seed S] [--program PATH]

The server is started on the loopback address with 500 events. Then N clients (16) do one after the other, at random:

- cut a request off in the middle, by an end or by a reset;
- send a request octet by octet, for up to ten seconds;
- ask for all data of the calendar again and again, and never read;
- ask for it, and read an octet now and then;
- send garbage, a head without end, a body that is not what was said, or 200 requests at once and go;
- connect and say nothing; or wait idle behind a reply;
- ask with a wrong password, as fast as they can;
- ask for what takes up to a second of a processor (the families of bench/worst.py, each in a calendar of its own), and
  wait for the answer or go at once.

Beside them a client that behaves asks, each time on a new connection, for an object, for a month, and for the members of
the calendar. What has to hold:

- each of its answers is the one that it had before the siege, but for the date;
- none takes longer than the times of a connection allow (docs/LIMITS.md);
- at the end the server has as many threads and open files as before, and its memory has not grown by more than a quarter:
  before is when a fifth of the time had been besieged already.

It prints how often each kind of client was there, how long the well-behaved one waited, and memory, threads and files
before and after. Its status is 0 where all of that holds. It needs Python 3 alone; build the program first by `rt run`
in crates/caldav_server.
"""
import argparse, base64, os, random, re, socket, struct, subprocess, sys, tempfile, threading, time

sys.path.insert(0, os.path.dirname(os.path.abspath(__file__)))
sys.dont_write_bytecode = True
from worst import alarms, busy, expanded_often, named_days, repeated_days, sparse_alarms, texts, zone_of_put, zone_of_query

TOP = os.path.dirname(os.path.dirname(os.path.abspath(__file__)))
HASH = "ba7816bf8f01cfea414140de5dae2223b00361a396177a9cb410ff61f20015ad"
CALENDAR = "/calendars/alice/calendar/"
KEY = base64.b64encode(b"alice:abc").decode()
WRONG_KEY = base64.b64encode(b"alice:abd").decode()
# a request may wait for every session to be let go by a reply that goes slowly: its longest time, one write, and one read;
# and then for one request of each of sixteen sessions that takes a second, or two on a slow machine
LONGEST_WAIT = 120 + 10 + 30 + 32

EVENT = (
    "BEGIN:VCALENDAR\r\nVERSION:2.0\r\nPRODID:-//siege//EN\r\nBEGIN:VEVENT\r\nUID:siege-{n}\r\n"
    "DTSTAMP:20250101T000000Z\r\nDTSTART:2025{month:02}{day:02}T090000Z\r\nDURATION:PT1H\r\n{rule}"
    "SUMMARY:Meeting {n}\r\nDESCRIPTION:{text}\r\nEND:VEVENT\r\nEND:VCALENDAR\r\n"
)
ALL_DATA = (
    '<C:calendar-query xmlns:D="DAV:" xmlns:C="urn:ietf:params:xml:ns:caldav"><D:prop><D:getetag/><C:calendar-data/></D:prop>'
    '<C:filter><C:comp-filter name="VCALENDAR"/></C:filter></C:calendar-query>'
)
MONTH = (
    '<C:calendar-query xmlns:D="DAV:" xmlns:C="urn:ietf:params:xml:ns:caldav"><D:prop><D:getetag/></D:prop><C:filter>'
    '<C:comp-filter name="VCALENDAR"><C:comp-filter name="VEVENT"><C:time-range start="20250601T000000Z" end="20250701T000000Z"/>'
    "</C:comp-filter></C:comp-filter></C:filter></C:calendar-query>"
)
MEMBERS = '<D:propfind xmlns:D="DAV:"><D:prop><D:getetag/></D:prop></D:propfind>'


def request(method, path, body="", fields=(), key=KEY):
    lines = [f"{method} {path} HTTP/1.1", "Host: siege", f"Authorization: Basic {key}", f"Content-Length: {len(body)}", *fields, "", ""]
    return "\r\n".join(lines).encode() + body.encode()


WHOLE = request("REPORT", CALENDAR, ALL_DATA, ["Content-Type: application/xml"])
ASKED = [
    request("GET", CALENDAR + "e7.ics"),
    request("REPORT", CALENDAR, MONTH, ["Content-Type: application/xml"]),
    request("PROPFIND", CALENDAR, MEMBERS, ["Content-Type: application/xml", "Depth: 1"]),
]


# What takes up to a second: the object that is stored before, how often, and the request.
DEAR = [alarms(3_000), sparse_alarms(40), zone_of_query(60), zone_of_put(60), repeated_days(40_000), named_days(50), texts(5_000), busy(8), expanded_often(1_500)]


def dear_requests():
    """The requests that make the calendars of the dear cases, and of each case the one that takes that long."""
    made, asked = [], []
    for number, case in enumerate(DEAR):
        path = f"/calendars/alice/dear{number}/"
        objects = [case.text.replace("UID:u", f"UID:u{copy}") for copy in range(case.copies)]
        puts = [request("PUT", f"{path}o{copy}.ics", text, ["Content-Type: text/calendar"]) for copy, text in enumerate(objects)]
        made += [request("MKCALENDAR", path), *puts]
        asked.append(request(case.method, path, case.body.replace(CALENDAR, path), ["Content-Type: application/xml"]) if case.body else puts[-1])
    return made, asked


DEAR_MADE, DEAR_ASKED = dear_requests()


def connect(port, seconds):
    link = socket.create_connection(("127.0.0.1", port), timeout=seconds)
    link.settimeout(seconds)
    return link


def read_reply(link):
    """The octets of one reply, or what came of it."""
    octets = b""
    while b"\r\n\r\n" not in octets:
        more = link.recv(65536)
        if not more:
            return octets
        octets += more
    head, _, _ = octets.partition(b"\r\n\r\n")
    length = re.search(rb"(?i)\r\nContent-Length: (\d+)", head)
    whole = len(head) + 4 + (int(length[1]) if length else 0)
    while len(octets) < whole:
        more = link.recv(65536)
        if not more:
            return octets
        octets += more
    return octets


def ask(port, octets, seconds=LONGEST_WAIT):
    with connect(port, seconds) as link:
        link.sendall(octets)
        return read_reply(link)


def without_date(reply):
    return re.sub(rb"\r\nDate: [^\r]*", b"", reply)


# What the clients do. Each is given a connection, a source of chance, and the moment at which the siege ends.


def cut(link, chance, end):
    octets = chance.choice([WHOLE, *ASKED])
    link.sendall(octets[: chance.randrange(1, len(octets))])
    if chance.random() < 0.5:
        link.setsockopt(socket.SOL_SOCKET, socket.SO_LINGER, struct.pack("ii", 1, 0))


def drip(link, chance, end):
    octets = chance.choice(ASKED)
    pause = chance.choice([0.001, 0.01, 0.1, 1.0])
    until = min(end, time.time() + 10)
    for octet in octets:
        if until < time.time():
            return
        link.sendall(bytes([octet]))
        time.sleep(pause)
    read_reply(link)


def deaf(link, chance, end):
    link.setsockopt(socket.SOL_SOCKET, socket.SO_RCVBUF, 4096)
    link.settimeout(20)
    while time.time() < end:
        link.sendall(WHOLE)


def sip(link, chance, end):
    link.setsockopt(socket.SOL_SOCKET, socket.SO_RCVBUF, 4096)
    link.sendall(WHOLE)
    until = min(end, time.time() + chance.choice([2, 10, 30]))
    while time.time() < until and link.recv(chance.choice([1, 100])):
        time.sleep(chance.choice([0.01, 0.5]))


def garbage(link, chance, end):
    kind = chance.randrange(4)
    if kind == 0:
        link.sendall(chance.randbytes(chance.randrange(1, 5000)))
    elif kind == 1:
        link.sendall(b"GET / HTTP/1.1\r\nHost: h\r\n")
        for number in range(200):
            link.sendall(b"X-Field-%d: " % number + b"x" * 200 + b"\r\n")
    elif kind == 2:
        link.sendall(request("PUT", CALENDAR + "never.ics", "x" * 100, ["Content-Type: text/calendar"], WRONG_KEY))
        link.sendall(b"5\r\nabc\r\n" * 10)
    else:
        link.sendall(b"".join(chance.choice(ASKED) for _ in range(200)))
        return
    read_reply(link)


def silent(link, chance, end):
    if chance.random() < 0.5:
        link.sendall(ASKED[0])
        read_reply(link)
    time.sleep(max(0, min(chance.choice([1, 5, 12]), end - time.time())))


def guess(link, chance, end):
    octets = request("GET", CALENDAR + "e7.ics", key=WRONG_KEY)
    for _ in range(100):
        link.sendall(octets)
        if not read_reply(link):
            return


def dear(link, chance, end):
    link.settimeout(LONGEST_WAIT)
    link.sendall(chance.choice(DEAR_ASKED))
    if chance.random() < 0.5:
        read_reply(link)


KINDS = [cut, drip, deaf, sip, garbage, silent, guess, dear]


def besiege(port, number, seed, end, counts, strange):
    chance = random.Random(f"{seed} {number}")
    while time.time() < end:
        kind = chance.choice(KINDS)
        try:
            with connect(port, 30) as link:
                kind(link, chance, end)
        except (TimeoutError, ConnectionError, BrokenPipeError):
            pass  # the server may cut such a client off, or have no session for it yet
        except OSError as error:
            strange.append(f"{kind.__name__}: {error}")
            time.sleep(0.1)
        counts[kind.__name__] = counts.get(kind.__name__, 0) + 1


def state_of(process):
    """Memory in kB, threads and open files of the server."""
    status = open(f"/proc/{process.pid}/status").read()
    memory = int(re.search(r"VmRSS:\s+(\d+)", status)[1])
    threads = int(re.search(r"Threads:\s+(\d+)", status)[1])
    return memory, threads, len(os.listdir(f"/proc/{process.pid}/fd"))


def settled(process):
    """The state once the server has seen that all clients are gone."""
    time.sleep(15)
    return state_of(process)


def fill(port):
    with connect(port, LONGEST_WAIT) as link:
        for n in range(500):
            rule = "RRULE:FREQ=WEEKLY;COUNT=50\r\n" if n % 3 == 0 else ""
            body = EVENT.format(n=n, month=n % 12 + 1, day=n % 28 + 1, rule=rule, text=("word " * 12).strip())
            link.sendall(request("PUT", f"{CALENDAR}e{n}.ics", body, ["Content-Type: text/calendar"]))
            stored(link)
        for octets in DEAR_MADE:
            link.sendall(octets)
            stored(link)


def stored(link):
    reply = read_reply(link)
    if not reply.startswith(b"HTTP/1.1 201"):
        sys.exit(f"a PUT was answered {reply[:60]!r}")


def started(options, users):
    listener = socket.socket()
    listener.bind(("127.0.0.1", 0))
    port = listener.getsockname()[1]
    listener.close()
    words = [options.program, "serve", "--users", users, "--listen", f"127.0.0.1:{port}", "--sessions", str(options.sessions)]
    # as docs/RUNNING.md starts it: the C library otherwise keeps for each thread what answers side by side had at once
    settings = {**os.environ, "MALLOC_ARENA_MAX": "1"}
    process = subprocess.Popen(words, stdin=subprocess.DEVNULL, stderr=subprocess.PIPE, env=settings)
    line = process.stderr.readline()
    if not line.startswith(b"listening"):
        sys.exit(f"the server said {line!r}")
    return process, port


def main():
    parser = argparse.ArgumentParser(description=__doc__.splitlines()[0])
    parser.add_argument("--seconds", type=int, default=600)
    parser.add_argument("--clients", type=int, default=16)
    parser.add_argument("--sessions", type=int, default=16)
    parser.add_argument("--seed", type=int, default=None)
    parser.add_argument("--program", default=f"{TOP}/crates/caldav_server/out/caldav_server")
    options = parser.parse_args()
    seed = options.seed if options.seed is not None else random.randrange(1 << 30)
    with tempfile.NamedTemporaryFile("w", suffix=".users") as users:
        users.write(f"user alice {HASH}\n")
        users.flush()
        process, port = started(options, users.name)
        try:
            status = run(options, seed, process, port)
        finally:
            process.kill()
            process.wait()
    sys.exit(status)


def warmed(port, sessions):
    """All sessions have served the largest answer a few times over, and what is dear side by side, as reports are answered."""
    for octets in DEAR_ASKED:
        ask(port, octets)
    for _ in range(3):
        asked = [WHOLE] * (sessions - len(DEAR_ASKED)) + DEAR_ASKED
        for some in (asked, [WHOLE] * sessions):
            crowd = [threading.Thread(target=ask, args=(port, octets)) for octets in some]
            for one in crowd:
                one.start()
            for one in crowd:
                one.join()


def begun(options, seed, port, end, counts, strange):
    """The bad clients, each in a thread, which end at a time."""
    crowd = [threading.Thread(target=besiege, args=(port, number, seed, end, counts, strange)) for number in range(options.clients)]
    for one in crowd:
        one.start()
    return crowd


def run(options, seed, process, port):
    fill(port)
    warmed(port, options.sessions)
    right = [without_date(ask(port, octets)) for octets in ASKED]
    counts, strange, waits, wrong = {}, [], [], []
    # a siege before the siege: what the server takes at most hangs on which requests meet, and is not all found at once
    for one in begun(options, seed + 1, port, time.time() + options.seconds / 5, counts, strange):
        one.join()
    before = settled(process)
    end = time.time() + options.seconds
    crowd = begun(options, seed, port, end, counts, strange)
    while time.time() < end:
        for number, octets in enumerate(ASKED):
            began = time.time()
            try:
                reply = ask(port, octets)
                if without_date(reply) != right[number]:
                    wrong.append(f"request {number}: {reply[:80]!r}")
            except OSError as error:
                wrong.append(f"request {number}: {error}")
            waits.append(time.time() - began)
        time.sleep(0.05)
    for one in crowd:
        one.join()
    after = settled(process)
    waits.sort()
    print(f"seed {seed}, {options.clients} clients and {options.sessions} sessions, {options.seconds} s")
    print("clients:", ", ".join(f"{name} {counts[name]}" for name in sorted(counts)))
    print(f"the well-behaved one: {len(waits)} answers, {len(wrong)} wrong or none; "
          f"median {waits[len(waits) // 2]:.3f} s, 99 of 100 within {waits[len(waits) * 99 // 100]:.3f} s, longest {waits[-1]:.3f} s")
    print(f"before: {before[0]} kB, {before[1]} threads, {before[2]} files")
    print(f"after:  {after[0]} kB, {after[1]} threads, {after[2]} files")
    for line in wrong[:10] + sorted(set(strange))[:10]:
        print(line)
    holds = not wrong and process.poll() is None and before[1:] == after[1:] and after[0] <= before[0] * 5 // 4
    print("all holds" if holds and waits[-1] <= LONGEST_WAIT else "it does not hold")
    return 0 if holds and waits[-1] <= LONGEST_WAIT else 1


main()
