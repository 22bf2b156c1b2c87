#!/usr/bin/env python3
"""Shows that reports which are worked out beside changes lie on one history, each at one place of it.

    bench/looks.py [--seconds S] [--reporters N] [--writers N] [--objects N] [--program PATH]

A report is answered from a look once its turn was given back, while others put objects. Each of the writers (4) puts an
object of its own again and again, with a number that rises by one; each of the reporters (12) asks for all data of the
calendar, in which other objects (500) lie, and reads in the answer which number each writer's object has. What has to hold:

- of any two answers, of the same reporter or of two, one has no number below the other's: both lie on one history;
- the numbers that one reporter sees never fall;
- an answer has each number that was answered 201 or 204 before it was asked for, and none that was sent behind its end;
- each answer is whole: it has all objects, each once.

It prints how many answers and changes there were, how often an answer was asked for while changes came, and how long
both took. Its status is 0 where all of that holds and at least a tenth of the answers met a change. It needs Python 3
alone; build the program first by `rt run` in crates/caldav_server.
"""
import argparse, base64, os, re, socket, subprocess, sys, tempfile, threading, time

TOP = os.path.dirname(os.path.dirname(os.path.abspath(__file__)))
HASH = "ba7816bf8f01cfea414140de5dae2223b00361a396177a9cb410ff61f20015ad"
CALENDAR = "/calendars/alice/calendar/"
KEY = base64.b64encode(b"alice:abc").decode()
ALL_DATA = (
    '<C:calendar-query xmlns:D="DAV:" xmlns:C="urn:ietf:params:xml:ns:caldav"><D:prop><C:calendar-data/></D:prop>'
    '<C:filter><C:comp-filter name="VCALENDAR"/></C:filter></C:calendar-query>'
)


def event(uid, text):
    return (
        f"BEGIN:VCALENDAR\r\nVERSION:2.0\r\nPRODID:-//looks//EN\r\nBEGIN:VEVENT\r\nUID:{uid}\r\nDTSTAMP:20250101T000000Z\r\n"
        f"DTSTART:20250602T090000Z\r\nDURATION:PT1H\r\nSUMMARY:{text}\r\nEND:VEVENT\r\nEND:VCALENDAR\r\n"
    )


def request(method, path, media, body):
    lines = [f"{method} {path} HTTP/1.1", "Host: looks", f"Authorization: Basic {KEY}", f"Content-Type: {media}", f"Content-Length: {len(body)}", "", ""]
    return "\r\n".join(lines).encode() + body.encode()


def put(name, text):
    return request("PUT", f"{CALENDAR}{name}.ics", "text/calendar", event(name, text))


REPORT = request("REPORT", CALENDAR, "application/xml", ALL_DATA)


class Link:
    """A connection that is opened anew where the server closes it, as it does behind the last request that it serves there."""

    def __init__(self, port):
        self.port, self.link = port, None

    def ask(self, octets):
        """The status of the reply and its body."""
        if self.link is None:
            self.link = socket.create_connection(("127.0.0.1", self.port), timeout=120)
        self.link.sendall(octets)
        got = bytearray()
        while (at := got.find(b"\r\n\r\n")) < 0:
            got += self.more()
        head = bytes(got[:at])
        told = re.search(rb"(?i)\r\nContent-Length: (\d+)", head)
        length = int(told[1]) if told else 0
        while len(got) < at + 4 + length:
            got += self.more()
        if re.search(rb"(?i)\r\nConnection: close", head):
            self.link.close()
            self.link = None
        return int(head.split(b" ")[1]), bytes(got[at + 4 :])

    def more(self):
        octets = self.link.recv(1 << 18)
        if not octets:
            raise OSError("the server closed the connection within a reply")
        return octets


class Run:
    def __init__(self, port, options):
        self.port, self.options, self.end = port, options, time.monotonic() + options.seconds
        # of each writer: the number that was sent last, and the one that was answered last
        self.sent, self.answered = [0] * options.writers, [0] * options.writers
        self.seen, self.faults, self.met, self.times = [], [], 0, {"report": [], "change": []}

    def write(self, number):
        try:
            link = Link(self.port)
            while time.monotonic() < self.end:
                self.sent[number] += 1
                began = time.monotonic()
                status, _ = link.ask(put(f"w{number}", f"round-{self.sent[number]}"))
                self.times["change"].append(time.monotonic() - began)
                if status not in (201, 204):
                    self.faults.append(f"a PUT was answered {status}")
                self.answered[number] = self.sent[number]
        except OSError as error:
            self.faults.append(f"a writer: {error}")

    def report(self):
        try:
            link, last = Link(self.port), [0] * self.options.writers
            while time.monotonic() < self.end:
                least, began = list(self.answered), time.monotonic()
                status, body = link.ask(REPORT)
                self.times["report"].append(time.monotonic() - began)
                most = list(self.sent)
                self.met += least != list(self.answered)
                if status != 207:
                    self.faults.append(f"a report was answered {status}")
                    continue
                told = dict(re.findall(rb"UID:w(\d+)\r?\n.*?SUMMARY:round-(\d+)", body.replace(b"&#13;", b"\r"), re.S))
                found = [int(told.get(b"%d" % n, b"0")) for n in range(self.options.writers)]
                names = re.findall(rb"<(?:\w+:)?href>([^<]*\.ics)</", body)
                if len(names) != len(set(names)) or len(names) != self.options.objects + sum(map(bool, found)):
                    self.faults.append(f"an answer has {len(names)} objects, {len(set(names))} names")
                if any(there < least for there, least in zip(found, least)) or any(there > most for there, most in zip(found, most)):
                    self.faults.append(f"an answer has {found}: at least {least} was answered before, at most {most} was sent")
                if any(there < before for there, before in zip(found, last)):
                    self.faults.append(f"a reporter saw {found} behind {last}")
                last = found
                self.seen.append(tuple(found))
        except OSError as error:
            self.faults.append(f"a reporter: {error}")

    def whole(self):
        crowd = [threading.Thread(target=self.write, args=(n,)) for n in range(self.options.writers)]
        crowd += [threading.Thread(target=self.report) for _ in range(self.options.reporters)]
        for one in crowd:
            one.start()
        for one in crowd:
            one.join()
        # in the order of their sums, each has to be at least the one before it in every number: then all lie on one history
        in_order = sorted(set(self.seen), key=sum)
        for before, behind in zip(in_order, in_order[1:]):
            if any(there < earlier for there, earlier in zip(behind, before)):
                self.faults.append(f"two answers lie on no one history: {before} and {behind}")


def told(name, times):
    times = sorted(times) or [0.0]
    return f"{name}: {len(times)}, median {times[len(times) // 2] * 1000:.1f} ms, 99 of 100 within {times[len(times) * 99 // 100] * 1000:.1f} ms"


def started(program, users):
    listener = socket.socket()
    listener.bind(("127.0.0.1", 0))
    port = listener.getsockname()[1]
    listener.close()
    process = subprocess.Popen([program, "serve", "--users", users, "--listen", f"127.0.0.1:{port}", "--sessions", "16"], stdin=subprocess.DEVNULL, stderr=subprocess.PIPE)
    line = process.stderr.readline()
    if not line.startswith(b"listening"):
        sys.exit(f"the server said {line!r}")
    return process, port


def main():
    parser = argparse.ArgumentParser(description=__doc__.splitlines()[0])
    parser.add_argument("--seconds", type=int, default=20)
    parser.add_argument("--reporters", type=int, default=12)
    parser.add_argument("--writers", type=int, default=4)
    parser.add_argument("--objects", type=int, default=500)
    parser.add_argument("--program", default=f"{TOP}/crates/caldav_server/out/caldav_server")
    options = parser.parse_args()
    with tempfile.NamedTemporaryFile("w", suffix=".users") as users:
        users.write(f"user alice {HASH}\n")
        users.flush()
        process, port = started(options.program, users.name)
        try:
            link = Link(port)
            for n in range(options.objects):
                if link.ask(put(f"e{n}", f"Meeting {n}"))[0] != 201:
                    sys.exit("the calendar could not be filled")
            run = Run(port, options)
            run.whole()
        finally:
            process.kill()
            process.wait()
    print(told("reports", run.times["report"]) + f"; {run.met} met a change")
    print(told("changes", run.times["change"]))
    for fault in run.faults[:10]:
        print(fault)
    few = run.met * 10 < len(run.seen)
    if few:
        print("fewer than a tenth of the reports met a change: nothing was shown")
    sys.exit(1 if run.faults or few or not run.seen else 0)


if __name__ == "__main__":
    main()
