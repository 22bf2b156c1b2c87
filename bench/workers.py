#!/usr/bin/env python3
"""Shows that the workers of the command `serve` make pieces: queries take less of the processor behind them.

    bench/workers.py [PROGRAM]

What workers do changes no reply, so no comparison of outputs tells whether they do anything. An event is put that recurs
twice an hour, 150,000 times, since seven years ago; each query of this month that finds no pieces counts its instances
from the start. The server runs once with no worker and once with two, and is asked a hundred times. Within half a minute
the queries have to take less than a quarter of the processor's time where there are workers, and the replies are the same.

It needs Linux and Python 3; build the program first by `rt run` in crates/caldav_server.
"""
import base64, datetime, os, re, socket, subprocess, sys, tempfile, time

TOP = os.path.dirname(os.path.dirname(os.path.abspath(__file__)))
CALENDAR = "/calendars/alice/calendar/"
KEY = base64.b64encode(b"alice:abc").decode()
USERS = b"user alice ba7816bf8f01cfea414140de5dae2223b00361a396177a9cb410ff61f20015ad\n"
ASKED = 100  # times


def request(method, path, media, body):
    lines = [f"{method} {path} HTTP/1.1", "Host: h", f"Authorization: Basic {KEY}", f"Content-Type: {media}", f"Content-Length: {len(body)}", "", ""]
    return "\r\n".join(lines).encode() + body.encode()


def requests():
    """The PUT of the event, and a query of the four weeks from today on."""
    today = datetime.datetime.now(datetime.timezone.utc).replace(hour=0, minute=0, second=0)
    begin, end, start = (f"{today + datetime.timedelta(days=days):%Y%m%dT%H%M%SZ}" for days in (0, 28, -7 * 365))
    event = (
        "BEGIN:VCALENDAR\r\nVERSION:2.0\r\nPRODID:-//workers//EN\r\nBEGIN:VEVENT\r\nUID:often\r\nDTSTAMP:20250101T000000Z\r\n"
        f"DTSTART:{start}\r\nDURATION:PT1M\r\nRRULE:FREQ=HOURLY;BYMINUTE=0,7;COUNT=150000\r\nEND:VEVENT\r\nEND:VCALENDAR\r\n"
    )
    query = (
        '<C:calendar-query xmlns:D="DAV:" xmlns:C="urn:ietf:params:xml:ns:caldav"><D:prop><D:getetag/></D:prop><C:filter><C:comp-filter name="VCALENDAR">'
        f'<C:comp-filter name="VEVENT"><C:time-range start="{begin}" end="{end}"/></C:comp-filter></C:comp-filter></C:filter></C:calendar-query>'
    )
    return request("PUT", CALENDAR + "often.ics", "text/calendar", event), request("REPORT", CALENDAR, "application/xml", query)


def processor_seconds(process):
    with open(f"/proc/{process.pid}/stat") as file:
        fields = file.read().rpartition(")")[2].split()
    return (int(fields[11]) + int(fields[12])) / os.sysconf("SC_CLK_TCK")


def ask(link, octets):
    """The status of a reply and its body."""
    link.sendall(octets)
    got = b""
    while True:
        head, there, body = got.partition(b"\r\n\r\n")
        if there and len(body) >= int(re.search(rb"\r\nContent-Length: (\d+)", head)[1]):
            return head.split(b" ")[1], body
        more = link.recv(65536)
        if not more:
            return b"none", got
        got += more


class NoServer(OSError):
    """Nobody listens."""


def free_port():
    with socket.socket() as link:
        link.bind(("127.0.0.1", 0))
        return link.getsockname()[1]


def connected(port):
    for _ in range(300):
        try:
            return socket.create_connection(("127.0.0.1", port), timeout=30)
        except ConnectionRefusedError:
            time.sleep(0.02)
    raise NoServer


def measured(program, workers, times, enough, more):
    """The least that the queries of a server with so many workers take of the processor, in seconds, and what was replied.

    They are asked again as long as they take more than what is enough, for half a minute.
    """
    put, query = requests()
    port = free_port()
    with tempfile.NamedTemporaryFile() as users:
        users.write(USERS)
        users.flush()
        words = ["serve", "--users", users.name, "--listen", f"127.0.0.1:{port}", "--sessions", "1", "--workers", f"{workers}"]
        process = subprocess.Popen([program, *words], stdout=subprocess.DEVNULL, stderr=subprocess.DEVNULL, env={**os.environ, **more})
        try:
            with connected(port) as link:
                status, _ = ask(link, put)
            least, begun = float("inf"), time.monotonic()
            while least > enough and time.monotonic() - begun < 30:
                before = processor_seconds(process)
                with connected(port) as link:
                    replies = [ask(link, query) for _ in range(times)]
                least = min(least, processor_seconds(process) - before)
                time.sleep(0.5)
            return least, [status, *replies]
        finally:
            process.kill()
            process.wait()


def fault(program, times=ASKED, more=None):
    """What is wrong, if anything is, and what was measured."""
    try:
        alone, replies = measured(program, 0, times, 1000.0, more or {})
        beside, others = measured(program, 2, times, alone / 4, more or {})
    except NoServer:
        return "the server does not listen", ""
    except OSError as end:
        return f"a connection is not served: {end}", ""
    told = f"{times} queries take {alone:.2f} s of the processor with no worker, {beside:.2f} s with two"
    if replies != others or replies[0] != b"201" or any(one[0] != b"207" or b"often.ics" not in one[1] for one in replies[1:]):
        return "the replies differ", told
    return ("the workers make no pieces" if beside > alone / 4 else None), told


def main():
    program = os.path.abspath(sys.argv[1] if len(sys.argv) > 1 else os.path.join(TOP, "crates/caldav_server/out/caldav_server"))
    why, told = fault(program)
    print(": ".join(filter(None, (told, why))))
    sys.exit(1 if why else 0)


if __name__ == "__main__":
    main()
