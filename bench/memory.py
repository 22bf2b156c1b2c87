#!/usr/bin/env python3
"""Shows that a server which the system gives no more memory answers 503 and goes on.

    bench/memory.py [--data OCTETS] [--arenas N] [--only WORD] [--within FOLDER] [--program PATH]

The server is started as in docs/RUNNING.md, with sixteen sessions, two workers and a journal, and may have so many octets of
data (LimitDATA= of a unit; 469,762,048 where the word is not given), in which its stacks count, 8 MB for each thread. Then
one account asks for more than that, each time of another server:

- `rows`: a free-busy-query of five centuries over as many hourly events as it takes, no two of whose instances meet;
- `replies`: one object of 262,144 octets, named 255 times, by sixteen connections that do not read;
- `zones`: events each in a zone of its own with 50,000 onsets, until one is refused;
- `lines`: events of lines as small as can be, until one is refused;
- `bodies`: sixteen bodies at once, whose elements have a long namespace.

What has to hold: some request is answered 503, none is left without an answer, the server is there at the end, and then it
answers an ordinary request as before; `zones` and `lines` also after a DELETE of one object. Of `replies` a connection may
be closed in place of 503: that is so where a reply was made and there is no room to write it, for which it is copied once. FOLDER is a memory group of the
system (cgroup) that the server is put into; with `--data 0` there is no limit but its own, and what becomes of the server
is told. It needs Linux and Python 3 alone; build the program first by `rt run` in crates/caldav_server.
"""
import argparse, concurrent.futures, os, resource, socket, subprocess, sys, tempfile, time

sys.path.insert(0, os.path.dirname(os.path.abspath(__file__)))
sys.dont_write_bytecode = True
from worst import CALENDAR, HOURLY, SPACES, TOP, USERS, event, multiget, put, query, request, span, zone

ORDINARY = event("DTSTART:20250310T090000Z", "DURATION:PT1H")
MONTH = request("REPORT", CALENDAR, query(span("20250301T000000Z", "20250401T000000Z")).encode())


class Server:
    def __init__(self, options, folder):
        with socket.socket() as link:
            link.bind(("127.0.0.1", 0))
            self.address = link.getsockname()
        with open(os.path.join(folder, "users"), "wb") as file:
            file.write(USERS)
        words = [options.program, "serve", "--users", f"{folder}/users", "--journal", f"{folder}/journal", "--listen", f"127.0.0.1:{self.address[1]}"]
        how = {"stdin": subprocess.DEVNULL, "stderr": subprocess.PIPE, "env": {**os.environ, "MALLOC_ARENA_MAX": options.arenas}}
        self.process = subprocess.Popen([*words, "--sessions", "16", "--workers", "2"], preexec_fn=lambda: limited(options), **how)
        if not self.process.stderr.readline().startswith(b"listening"):
            raise OSError("the server does not listen")
        self.told = {}

    def send(self, octets):
        """A connection on which this was sent, which has not read."""
        link = socket.create_connection(self.address, timeout=300)
        link.sendall(octets)
        return link

    def read(self, link):
        """The status of the reply on a connection, read to its end; `cut` where it does not come whole, `none` where nothing comes."""
        with link:
            front, count = b"", 0
            try:
                while piece := link.recv(1 << 20):
                    front, count = (front + piece)[:16384], count + len(piece)
            except OSError:
                pass
        head, _, _ = front.partition(b"\r\n\r\n")
        length = next((int(line[16:]) for line in head.split(b"\r\n") if line.startswith(b"Content-Length: ")), 0)
        status = "none" if not head else head[9:12].decode() if count == len(head) + 4 + length else "cut"
        self.told[status] = self.told.get(status, 0) + 1
        return status

    def ask(self, octets):
        try:
            return self.read(self.send(octets))
        except OSError:
            self.told["none"] = self.told.get("none", 0) + 1
            return "none"

    def ask_all(self, requests):
        """All at once, none of which reads before all were sent."""
        links = []
        for octets in requests:
            try:
                links.append(self.send(octets))
            except OSError:
                self.told["none"] = self.told.get("none", 0) + 1
        time.sleep(2)
        with concurrent.futures.ThreadPoolExecutor(16) as crowd:
            return list(crowd.map(self.read, links))


def limited(options):
    """Puts this process under the limits, before it becomes the server."""
    if options.within:
        with open(os.path.join(options.within, "cgroup.procs"), "w") as file:
            file.write(f"{os.getpid()}")
    if options.data:
        resource.setrlimit(resource.RLIMIT_DATA, (options.data, options.data))


def until_refused(server, text, most):
    """Puts an object under other names until it is not stored; the number stands in its UID, and as a time where the text has {n}."""
    for number in range(1, most):
        if server.ask(put(text.replace("{n}", f"{number // 3600:02}{number // 60 % 60:02}{number % 60:02}"), number)) != "201":
            return server.ask(request("DELETE", f"{CALENDAR}o1.ics", b""))
    return "all were stored"


def rows(server, options):
    for number in range(1, options.data // 10_000_000 if options.data else 60):
        start = f"DTSTART:16000101T00{number // 30 % 60:02}{number * 2 % 60:02}Z"
        server.ask(put(event(start, "DURATION:PT1S", HOURLY[1]), number))
    return server.ask(request("REPORT", CALENDAR, f"<free-busy-query {SPACES}>{span()}</free-busy-query>".encode()))


def replies(server, options):
    server.ask(put(event("DTSTART:20250101T000000Z", "X:" + "y" * 261_900), 1))
    return server.ask_all([request("REPORT", CALENDAR, multiget(255, "<calendar-data/>").replace("o0", "o1").encode())] * 16)


def zones(server, options):
    lines = zone("DTSTART:19700101T{n}", "RRULE:FREQ=HOURLY;COUNT=49990")
    return until_refused(server, event("DTSTART;TZID=Z:20250101T000000").replace("BEGIN:VEVENT", "\r\n".join([*lines, "BEGIN:VEVENT"])), 5000)


def lines(server, options):
    return until_refused(server, event("DTSTART:20250101T000000Z", *["X:"] * 65_000), 127)


def bodies(server, options):
    body = f'<D:propertyupdate {SPACES}><D:set><D:prop xmlns="{"n" * 1_048_000}">{"<a/>" * 60}</D:prop></D:set></D:propertyupdate>'
    return server.ask_all([request("PROPPATCH", CALENDAR, body.encode())] * 16)


def main():
    parser = argparse.ArgumentParser(description=__doc__.splitlines()[0])
    parser.add_argument("--data", type=int, default=448 << 20)
    parser.add_argument("--arenas", default="1", help="of the C library's allocator")
    parser.add_argument("--only", default="")
    parser.add_argument("--within", default="")
    parser.add_argument("--program", default=f"{TOP}/crates/caldav_server/out/caldav_server")
    options = parser.parse_args()
    wrong = False
    for case in (rows, replies, zones, lines, bodies):
        if options.only in case.__name__:
            with tempfile.TemporaryDirectory() as folder:
                wrong = not holds(options, folder, case) or wrong
    sys.exit(1 if wrong else 0)


def holds(options, folder, case):
    """Runs a case and says what came of it."""
    server = Server(options, folder)
    try:
        server.ask(put(ORDINARY, 0))
        before = server.ask(MONTH)
        server.told.clear()
        came = case(server, options)
        told = ", ".join(f"{count} of {status}" for status, count in sorted(server.told.items()))
        closed = {"none"} if case is replies else set()
        fine = bool(server.told.keys() & {"503", *closed}) and not server.told.keys() & ({"none", "cut"} - closed)
        after = server.ask(MONTH)
        with open(f"/proc/{server.process.pid}/status") as file:
            memory = [int(line.split()[1]) // 1024 for line in file if line.startswith(("VmHWM", "VmData"))]
        ended = server.process.poll()
        print(f"{case.__name__}: {told} (the last: {came}); then {after}; {memory} MB at most and of data; {'goes on' if ended is None else f'ended with {ended}'}", flush=True)
        return fine and ended is None and (before, after) == ("207", "207")
    finally:
        server.process.kill()
        server.process.communicate()


if __name__ == "__main__":
    main()
