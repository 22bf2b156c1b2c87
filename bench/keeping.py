#!/usr/bin/env python3
"""Times a server that keeps a journal: what a change costs, what readers wait, how long a start takes, and which calls of the system it makes.

    bench/keeping.py [PART..] [--number N] [--folder FOLDER] [--program PATH] [--server URL --user NAME:PASSWORD]

The parts, all where none is named:

    disk      what a sync takes in FOLDER: of a piece behind the end of a file, and of one octet within it
    puts      N PUTs of new events of some 700 octets on 1, 4 and 16 connections, with a journal in FOLDER and without one
    reads     GETs on twelve connections, alone, and beside one and four that PUT: the median and the longest waits
    start     the start over a journal of 100,000 PUTs of three users, read from the disk, and over one of 10,000
    memory    the most memory of a server after 10,000 PUTs, with a journal, without one, and started over that journal
    calls     which calls of the system a PUT and a GET make, as `strace` counts them

FOLDER has to lie on the disk that is meant (default: the system's folder for what is temporary; /dev/shm takes the disk out).
With --server the part `puts` is done at another server that runs already: URL is a calendar of NAME, which is empty.

Each connection is a process of its own, which asks one request after the other; its own time, some 0.1 ms a request, is in
the figures. Waits are from sending a request to having its reply. It needs Linux and Python 3, for `calls` also `strace`;
build the program first by `rt run` in crates/caldav_server.
"""
import argparse, multiprocessing, os, re, shutil, signal, subprocess, sys, tempfile, time
import base64, urllib.parse

sys.dont_write_bytecode = True
import journals
from power import HASH, TOP, Link, Server

USERS = "".join(f"user {name} {HASH}\n" for name in ("alice", "bob", "carol"))
CALENDAR = "/calendars/alice/calendar/"
KEY = "alice:abc"
PROCESSES = multiprocessing.get_context("fork")


def request(method, path, key, body=b""):
    lines = [f"{method} {path} HTTP/1.1", "Host: 127.0.0.1", f"Authorization: Basic {base64.b64encode(key.encode()).decode()}"]
    lines += ["Content-Type: text/calendar", f"Content-Length: {len(body)}"] if body else []
    return "\r\n".join([*lines, "", ""]).encode() + body


def puts_of(calendar, key, first, count):
    return [request("PUT", f"{calendar}o{number}.ics", key, journals.made_object(number, 700)) for number in range(first, first + count)]


# Clients


def ask_all(port, requests, good, begin, last, told):
    """Asks one request after the other, again and again until `last` is set where it is given. Tells the waits in ms, and when it began and ended."""
    link, waits, at = Link(port), [], 0
    begin.wait()
    begun = time.monotonic()
    while not last.is_set() if last else at < len(requests):
        before = time.monotonic()
        status, _ = link.ask(requests[at % len(requests)])
        waits.append((time.monotonic() - before) * 1000)
        if status != good:
            told.put(f"a request was answered {status} and not {good}")
            return
        at += 1
    told.put((good, waits, begun, time.monotonic()))


def asked(port, writers, readers=()):
    """What processes tell: each writer sends its requests once, each reader its own as long as there are writers (3 s without one)."""
    begin, last, told = PROCESSES.Barrier(len(writers) + len(readers) + 1), PROCESSES.Event(), PROCESSES.Queue()
    crowd = [PROCESSES.Process(target=ask_all, args=(port, requests, 201, begin, None, told)) for requests in writers]
    crowd += [PROCESSES.Process(target=ask_all, args=(port, requests, 200, begin, last, told)) for requests in readers]
    for one in crowd:
        one.start()
    begin.wait()
    ends = [told.get() for _ in writers]
    if not writers:
        time.sleep(3)
    last.set()
    ends += [told.get() for _ in readers]
    for one in crowd:
        one.join()
    for end in ends:
        if isinstance(end, str):
            sys.exit(end)
    return ends


def figures(ends, good):
    """Requests a second, and the waits in order, of those with this status."""
    chosen = [end for end in ends if end[0] == good]
    waits = sorted(wait for end in chosen for wait in end[1])
    return len(waits) / (max(end[3] for end in chosen) - min(end[2] for end in chosen)), waits


def shown(label, rate, waits, more=""):
    print(f"{label:52} {rate:9.0f} {waits[len(waits) // 2]:9.2f} {waits[len(waits) * 99 // 100]:9.2f} {waits[-1]:9.2f}{more}", flush=True)


def head_of(title):
    print(f"{title:52} {'a second':>9} {'median ms':>9} {'99 % ms':>9} {'longest':>9}")


# The server's state


def processor_ms(pid):
    with open(f"/proc/{pid}/stat") as file:
        fields = file.read().rpartition(")")[2].split()
    return (int(fields[11]) + int(fields[12])) * 1000 / os.sysconf("SC_CLK_TCK")


def memory_mib(pid, which="VmHWM"):
    with open(f"/proc/{pid}/status") as file:
        return int(re.search(rf"{which}:\s+(\d+)", file.read())[1]) / 1024


class Place:
    """A folder with a users file, and a journal file if one is to be kept."""

    def __init__(self, options):
        self.options = options

    def __enter__(self):
        self.folder = os.path.realpath(tempfile.mkdtemp(prefix="keeping-", dir=self.options.folder))
        self.users, self.journal = os.path.join(self.folder, "users"), os.path.join(self.folder, "journal")
        with open(self.users, "w") as file:
            file.write(USERS)
        return self

    def __exit__(self, *_):
        shutil.rmtree(self.folder)

    def server(self, keeps=True, sessions=16, front=()):
        return Server(self.options.program, self.users, self.journal if keeps else None, sessions, 2, front=front)


# The parts


def disk(options):
    head_of("one sync of the disk")
    with Place(options) as place:
        file = os.open(place.journal, os.O_RDWR | os.O_CREAT)
        for label, octets in (("of a piece of 750 octets behind the end", b"x" * 750), ("of one octet within the file", b"y")):
            waits = []
            for number in range(300):
                os.pwrite(file, octets, number * 750)
                before = time.monotonic()
                os.fsync(file)
                waits.append((time.monotonic() - before) * 1000)
            shown(label, 1000 * len(waits) / sum(waits), sorted(waits))
        os.close(file)


def puts(options):
    head_of(f"PUTs, {options.number} in all")
    if options.server:
        url = urllib.parse.urlparse(options.server)
        for many in (1, 4, 16):
            each = options.number // many
            ends = asked(url.port, [puts_of(url.path, options.user, (many * 100 + one) * 100_000, each) for one in range(many)])
            shown(f"{options.server[:36]}, {many} connections", *figures(ends, 201))
        return
    for keeps in (True, False):
        for many in (1, 4, 16):
            each = options.number // many
            with Place(options) as place, place.server(keeps) as server:
                before = processor_ms(server.process.pid)
                ends = asked(server.port, [puts_of(CALENDAR, KEY, one * each, each) for one in range(many)])
                took = (processor_ms(server.process.pid) - before) / (each * many)
                shown(f"{'with a journal' if keeps else 'without'}, {many} connections", *figures(ends, 201), f"  {took:.3f} ms of the processor each")


def reads(options):
    head_of("GETs on twelve connections, and PUTs beside them")
    for writers in (0, 1, 4):
        with Place(options) as place, place.server() as server:
            asked(server.port, [puts_of(CALENDAR, KEY, 0, 500)])
            readers = [[request("GET", f"{CALENDAR}o{(number * 7 + one) % 500}.ics", KEY) for number in range(500)] for one in range(12)]
            each = options.number // max(1, writers)
            ends = asked(server.port, [puts_of(CALENDAR, KEY, (one + 1) * 100_000, each) for one in range(writers)], readers)
            shown(f"GETs beside {writers} that PUT", *figures(ends, 200))
            if writers:
                shown(f"the PUTs of these {writers}", *figures(ends, 201))


def let_go(path):
    """Brings a file to the disk, and has the system drop its copy."""
    file = os.open(path, os.O_RDONLY)
    os.fsync(file)
    os.posix_fadvise(file, 0, 0, os.POSIX_FADV_DONTNEED)
    os.close(file)


def start(options):
    print(f"{'start over a journal of so many PUTs':52} {'MB':>9} {'seconds':>9} {'processor':>9} {'MiB':>9}")
    for count in (10_000, 100_000):
        with Place(options) as place:
            journals.make(count, place.users, place.journal)
            for cold in (True, False):
                if cold:
                    let_go(place.journal)
                before = time.monotonic()
                with place.server(sessions=4) as server:
                    took = time.monotonic() - before
                    pid = server.process.pid
                    label = f"{count}, {'read from the disk' if cold else 'a second time'}"
                    print(f"{label:52} {os.path.getsize(place.journal) / 1e6:9.1f} {took:9.2f} {processor_ms(pid) / 1000:9.2f} {memory_mib(pid):9.1f}", flush=True)


def memory(options):
    print(f"{'10,000 PUTs on four connections':52} {'MiB at most':>12} {'MiB now':>9}")
    for keeps in (True, False):
        with Place(options) as place:
            with place.server(keeps) as server:
                asked(server.port, [puts_of(CALENDAR, KEY, one * 2500, 2500) for one in range(4)])
                label = "with a journal" if keeps else "without"
                print(f"{label:52} {memory_mib(server.process.pid):12.1f} {memory_mib(server.process.pid, 'VmRSS'):9.1f}", flush=True)
            if keeps:
                with place.server() as server:
                    print(f"{'started over that journal':52} {memory_mib(server.process.pid):12.1f} {memory_mib(server.process.pid, 'VmRSS'):9.1f}", flush=True)


def counted(options, requests, good):
    """How often each call of the system is made in a run of so many requests on one connection."""
    with Place(options) as place:
        table = os.path.join(place.folder, "calls")
        with place.server(sessions=1, front=["strace", "-f", "-c", "-o", table]) as server:
            with open(f"/proc/{server.process.pid}/task/{server.process.pid}/children") as file:
                traced = int(file.read().split()[0])
            try:
                link = Link(server.port)
                for one in puts_of(CALENDAR, KEY, 0, 1) + requests:
                    status, _ = link.ask(one)
                    if status not in (201, good):
                        sys.exit(f"a request was answered {status}")
            finally:
                os.kill(traced, signal.SIGTERM)
                server.process.wait()
        with open(table) as file:
            rows = [line.split() for line in file if re.match(r"\s*\d", line)]
    return {row[-1]: int(row[3]) for row in rows if row[-1] != "total"}


def calls(options):
    print("calls of the system for each request on one connection, without those of a start")
    asked_for = [("PUT", lambda count: puts_of(CALENDAR, KEY, 1, count), 201), ("GET", lambda count: [request("GET", CALENDAR + "o0.ics", KEY)] * count, 200)]
    for label, requests, good in asked_for:
        few, many = counted(options, requests(100), good), counted(options, requests(500), good)
        each = {name: (many[name] - few.get(name, 0)) / 400 for name in many}
        print(f"{label:30} " + ", ".join(f"{name} {count:.2f}" for name, count in sorted(each.items(), key=lambda one: -one[1]) if 0.01 <= count), flush=True)


PARTS = {"disk": disk, "puts": puts, "reads": reads, "start": start, "memory": memory, "calls": calls}


def main():
    parser = argparse.ArgumentParser(description=__doc__.splitlines()[0])
    parser.add_argument("parts", nargs="*", metavar="PART")
    parser.add_argument("--number", type=int, default=800)
    parser.add_argument("--folder", default=tempfile.gettempdir())
    parser.add_argument("--program", default=f"{TOP}/crates/caldav_server/out/caldav_server")
    parser.add_argument("--server")
    parser.add_argument("--user", default=KEY)
    options = parser.parse_args()
    options.program = os.path.abspath(options.program)
    for name in options.parts:
        if name not in PARTS:
            sys.exit(f"no part {name}: there are {', '.join(PARTS)}")
    if not options.server and not os.path.exists(options.program):
        sys.exit(f"{options.program} is not built: run `rt run` in crates/caldav_server first")
    for name in options.parts or (["puts"] if options.server else PARTS):
        PARTS[name](options)


if __name__ == "__main__":
    main()
