#!/usr/bin/env python3
"""Shows that nobody waits for what a PUT brings to be read.

    bench/beside.py [--overrides N] [--instances N] [--program PATH]

Starts `serve` at a free port. One connection PUTs an hourly event with overrides that each move all later instances from
a day on, which takes a second or more to read; another asks for a small object all the while. Prints how long the PUT took
and how long the longest GET did, and ends with status 1 where that is a tenth of it or more, or where the PUT was not
accepted. Build the program first by `rt run` in crates/caldav_server; it needs Python 3 alone.
"""
import argparse, base64, http.client, os, socket, subprocess, sys, tempfile, threading, time

TOP = os.path.dirname(os.path.dirname(os.path.abspath(__file__)))
USERS = "user alice ba7816bf8f01cfea414140de5dae2223b00361a396177a9cb410ff61f20015ad\n"
HEADERS = {"Authorization": "Basic " + base64.b64encode(b"alice:abc").decode(), "Content-Type": "text/calendar"}
CALENDAR = "/calendars/alice/calendar/"
PLAIN = ["BEGIN:VEVENT", "UID:plain", "DTSTAMP:20250101T000000Z", "DTSTART:20250310T090000Z", "END:VEVENT"]
HOURS_A_YEAR = 8_766


def calendar(lines):
    return "".join(line + "\r\n" for line in ["BEGIN:VCALENDAR", "VERSION:2.0", "PRODID:-//bench//EN", *lines, "END:VCALENDAR"])


def dear(overrides, instances):
    """An event whose overrides each name the first of a month in the last year of its rule."""
    stamp = ["BEGIN:VEVENT", "UID:dear", "DTSTAMP:20250101T000000Z"]
    lines = [*stamp, "DTSTART:19800101T000000Z", f"RRULE:FREQ=HOURLY;COUNT={instances}", "END:VEVENT"]
    year = 1980 + instances // HOURS_A_YEAR - 1
    for number in range(overrides):
        day = f"{year}{1 + number % 12:02}{1 + number // 12:02}"
        lines += [*stamp, f"RECURRENCE-ID;RANGE=THISANDFUTURE;VALUE=DATE:{day}", f"DTSTART:{day}T0000{number % 60:02}Z", "END:VEVENT"]
    return calendar(lines)


def asked(link, method, name, body=None):
    """The status of a request, and how many seconds it took."""
    began = time.monotonic()
    link.request(method, CALENDAR + name, body, HEADERS)
    reply = link.getresponse()
    reply.read()
    return reply.status, time.monotonic() - began


def measure(port, text):
    writer, reader = (http.client.HTTPConnection("127.0.0.1", port) for _ in range(2))
    put = []
    if asked(writer, "PUT", "plain.ics", calendar(PLAIN))[0] != 201:
        sys.exit("the small object was not accepted")
    thread = threading.Thread(target=lambda: put.append(asked(writer, "PUT", "dear.ics", text)))
    thread.start()
    waits = []
    while thread.is_alive():
        if len(waits) % 900 == 899:  # a connection has its last request
            reader = http.client.HTTPConnection("127.0.0.1", port)
        waits.append(asked(reader, "GET", "plain.ics")[1])
        time.sleep(0.001)
    return *put[0], max(waits), len(waits)


def main():
    parser = argparse.ArgumentParser(allow_abbrev=False)
    parser.add_argument("--overrides", type=int, default=60)
    parser.add_argument("--instances", type=int, default=220_000)
    parser.add_argument("--program", default=f"{TOP}/crates/caldav_server/out/caldav_server")
    given = parser.parse_args()
    with socket.socket() as link:
        link.bind(("127.0.0.1", 0))
        port = link.getsockname()[1]
    with tempfile.NamedTemporaryFile("w") as users:
        users.write(USERS)
        users.flush()
        words = [given.program, "serve", "--users", users.name, "--listen", f"127.0.0.1:{port}", "--sessions", "4", "--workers", "0"]
        with subprocess.Popen(words, stderr=subprocess.PIPE) as server:
            server.stderr.readline()  # it listens
            try:
                status, took, longest, count = measure(port, dear(given.overrides, given.instances))
            finally:
                server.kill()
    print(f"PUT: {status}, {took:.2f} s; {count} GETs beside it, the longest {longest * 1000:.1f} ms")
    sys.exit(status != 201 or longest * 10 >= took)


if __name__ == "__main__":
    main()
