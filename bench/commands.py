#!/usr/bin/env python3
"""Shows that the commands do what they should: the built program, its words, files, sockets and statuses.

    bench/commands.py [PROGRAM..]

`.ci/run` runs it behind `rt ci`, over the program as both compilers built it. It takes a few seconds, listens at free
ports of 127.0.0.1, and ends what it started. The status is 0 where all is as it should be.

What is shown here no contract says: that there is memory and a network, that a connection which comes is answered, that
the program ends once its connections were served; and, with `--journal`, that the file of the system keeps what a server
acknowledged over its end, and when it is killed. What is wanted comes from docs/: COMMANDS.md (words, statuses, lines on
standard error), REPLIES.md (replies, entity tags), XML.md (the body of a report) and JOURNAL.md (the file). The digests of
`load` were worked out by a second program, from LOAD.md alone."""
import contextlib, copy, email.utils, hashlib, os, re, socket, subprocess, sys, tempfile, threading, time

sys.dont_write_bytecode = True
import journals
from workers import KEY, USERS, free_port

TOP = os.path.dirname(os.path.dirname(os.path.abspath(__file__)))
WAIT = 120  # seconds for what takes a moment on a quiet machine

# One event for each of four sessions; ten for each of three, and the queries behind them.
ONE_EACH = "sessions 4\nrequests 4\naccepted 4\noctets 616\nsha256 b893486846227676cde4933e4594d6e4c7b4048c40a5bffafe6cc26d9f740cb7\n"
TEN_EACH = "sessions 3\nrequests 36\naccepted 36\noctets 22483\nsha256 7d0ed65fc6f23fbb5e572165155820aa4017f813b900c1383a1a36af986a11a9\n"

USAGE_OF_SERVE, USAGE_OF_LOAD = "usage: caldav_server serve\n", "usage: caldav_server load\n"
USAGE_OF_EXPAND, USAGE_OF_CHECK = "usage: caldav_server expand\n", "usage: caldav_server check\n"
USAGE_OF_SLOT, USAGE_OF_SCRIPT = "usage: caldav_server slot\n", "usage: caldav_server script --users FILE\n"
# What is told of a bad line behind the good one; and what a server says besides of that, and of a file that is not there.
BAD_LINE = f"users file: bad line at octet {len(USERS)}\n"
SECOND_LINE = "bad: line 2\n"
NO_FILE = "none: No such file or directory (os error 2)\n"
AT = "--users users --listen 127.0.0.1:1 --connections 1"
HEADER = journals.header(["alice"], [])
# Journal files that are refused, each with the place and the cause that is told: no journal; of other users; one that ends in a gate's place; one with
# a record of no octets; one with a change that is not accepted (a deletion of what is not there).
DAMAGED = "damaged or cut at a record, or of another program"
GONE = journals.Record(journals.DELETE, 0, 1741600000, 204, 0, "calendar", "gone.ics")
REFUSED = {
    "no-journal": (b"caldavjournal 2\n" + HEADER[16:], 0, "no journal"),
    "of-others": (journals.header(["alice", "bob"], []) + b"\0", 11, "its users and groups are not those of users"),
    "cut": (HEADER, len(HEADER), DAMAGED),
    "empty-record": (HEADER + b"\1\0\0\0\0\0", len(HEADER), DAMAGED),
    "other-status": (journals.journal(["alice"], [], [journals.payload(GONE)]), len(HEADER), DAMAGED),
}

# What `slot` is asked, and where alice is busy from 9 to 10.
MORNING = "--from 20250310T080000Z --to 20250310T130000Z"
OWN = "/calendars/alice/calendar/"
LOOKS = f"--users users --journal busy --as alice {MORNING} --minutes 60 --most 5"
BEHIND = "free 20250310T100000Z 20250310T130000Z\n"

MARCH, NINE = "--from 20250301T000000Z --to 20250329T000000Z", "--from 20250310T130000Z --to 20250310T140000Z"


def calendar(*lines):
    """The octets of a calendar file with these lines in it."""
    whole = ["BEGIN:VCALENDAR", "VERSION:2.0", "PRODID:-//a//EN", *lines, "END:VCALENDAR"]
    return "".join(line + "\r\n" for line in whole).encode()


def event(*lines):
    return ["BEGIN:VEVENT", *lines, "END:VEVENT"]


# A meeting in New York, of which one instance is taken out and one is moved, and what is listed of it in March 2025.
NEW_YORK = [
    *("BEGIN:VTIMEZONE", "TZID:NY", "BEGIN:DAYLIGHT", "DTSTART:16010101T020000", "RRULE:FREQ=YEARLY;BYDAY=2SU;BYMONTH=3"),
    *("TZOFFSETFROM:-0500", "TZOFFSETTO:-0400", "END:DAYLIGHT", "BEGIN:STANDARD", "DTSTART:16010101T020000"),
    *("RRULE:FREQ=YEARLY;BYDAY=1SU;BYMONTH=11", "TZOFFSETFROM:-0400", "TZOFFSETTO:-0500", "END:STANDARD", "END:VTIMEZONE"),
]
MEETING = event("UID:meet", "DTSTART;TZID=NY:20250304T100000", "DTEND;TZID=NY:20250304T110000", "RRULE:FREQ=WEEKLY;COUNT=5", "EXDATE;TZID=NY:20250318T100000", "SUMMARY:Plan")
MOVED = event("UID:meet", "RECURRENCE-ID;TZID=NY:20250325T100000", "DTSTART;TZID=NY:20250326T140000", "DTEND;TZID=NY:20250326T150000", "SUMMARY:Plan moved")
MEETINGS = "20250304T150000Z 20250304T150000Z 20250304T160000Z 0\n20250311T140000Z 20250311T140000Z 20250311T150000Z 0\n20250325T140000Z 20250326T180000Z 20250326T190000Z 1\n"

STAND_UP = ["UID:one", "DTSTAMP:20250101T000000Z", "DTSTART:20250310T090000Z", "DTEND:20250310T100000Z"]
ONE = calendar(*event(*STAND_UP, "SUMMARY:Stand-up"))


def padded(size):
    """The same event in so many octets, with a line that no reader looks at."""
    return ONE.replace(b"SUMMARY:", b"X-PAD:" + b"a" * (size - len(ONE) - 8) + b"\r\nSUMMARY:")


# A journal file of alice's calendar with this event.
BUSY = journals.journal(["alice"], [], [journals.payload(journals.Record(journals.PUT, 0, 1741600000, 201, 0, "calendar", "one.ics", ONE))])

CALENDARS = {
    "one.ics": ONE,
    "meet.ics": calendar(*NEW_YORK, *MEETING, *MOVED),
    "floating.ics": calendar(*event("UID:floating", "DTSTART:20250310T090000", "DURATION:PT1H")),
    "two.ics": calendar(*event(*STAND_UP), *event(*STAND_UP)),
    "early.ics": calendar(*event("UID:early", "DTSTART:15991231T235959Z")),
    "minutes.ics": calendar(*event(*STAND_UP, "RRULE:FREQ=MINUTELY", "SUMMARY:Stand-up")),
    "full.ics": padded(262_144),
    "long.ics": padded(262_145),
    "x.ics": b"x",
    "y.ics": b"y",
}

# Words, and the status, standard output and standard error that they have to end with.
ENDS = [
    ("serve --users users", 2, "", USAGE_OF_SERVE),
    ("serve --listen 127.0.0.1:1 --connections 1", 2, "", USAGE_OF_SERVE),
    (f"serve {AT} --sessions 0", 2, "", USAGE_OF_SERVE),
    (f"serve {AT} --sessions=17", 2, "", USAGE_OF_SERVE),
    (f"serve {AT} --workers 5", 2, "", USAGE_OF_SERVE),
    (f"serve {AT} --workers +1", 2, "", USAGE_OF_SERVE),
    (f"serve {AT} more", 2, "", USAGE_OF_SERVE),
    ("serve --users users --listen 127.0.0.1:1 --connections=+1", 2, "", USAGE_OF_SERVE),
    ("serve --users users --listen 127.0.0.1:1 --connections=01", 2, "", USAGE_OF_SERVE),
    ("serve --users none --listen 127.0.0.1:1 --connections 1", 4, "", f"input fault\n{NO_FILE}"),
    ("serve --users bad --listen 127.0.0.1:1 --connections 1", 3, "", BAD_LINE + SECOND_LINE),
    ("serve --users users --listen nowhere --connections 1", 4, "", "input fault\nnowhere: invalid socket address\n"),
    (f"serve {AT} --journal", 2, "", USAGE_OF_SERVE),
    (f"serve {AT} --journal never --journal=never", 2, "", USAGE_OF_SERVE),
    (f"serve {AT} --journal never --sessions 0", 2, "", USAGE_OF_SERVE),
    ("serve --users none --journal never --listen 127.0.0.1:1 --connections 1", 4, "", f"input fault\n{NO_FILE}"),
    ("serve --users bad --journal=never --listen 127.0.0.1:1 --connections 1", 3, "", BAD_LINE + SECOND_LINE),
    (f"serve {AT} --journal none/journal", 8, "", f"journal fault\n{NO_FILE}"),
    (f"serve {AT} --journal .", 8, "", "journal fault\n.: is a directory\n"),
    *[(f"serve {AT} --journal={name}", 9, "", f"journal: refused at octet {place}\n{name}: {cause}\n") for name, (_, place, cause) in REFUSED.items()],
    *[(f"script --users users --journal {name}", 9, "", f"journal: refused at octet {place}\n") for name, (_, place, _) in REFUSED.items()],
    ("script --users users --journal none/journal", 8, "", "journal fault\n"),
    ("script --users none --journal never", 4, "", "input fault\n"),
    ("script --users users --journal", 2, "", USAGE_OF_SCRIPT),
    ("script --users users --journal=never", 2, "", USAGE_OF_SCRIPT),
    ("load --number 1", 0, ONE_EACH, ""),
    ("load --number=10 --sessions=3 --workers=0", 0, TEN_EACH, ""),
    ("load --sessions 3 --workers 4 --number 10", 0, TEN_EACH, ""),
    ("load --sessions 1", 2, "", USAGE_OF_LOAD),
    ("load --number 0", 2, "", USAGE_OF_LOAD),
    ("load --number 801", 2, "", USAGE_OF_LOAD),
    ("load --number 01", 2, "", USAGE_OF_LOAD),
    ("load --number 1 --sessions 17", 2, "", USAGE_OF_LOAD),
    ("load --number 1 --workers 5", 2, "", USAGE_OF_LOAD),
    (f"expand --file meet.ics {MARCH}", 0, MEETINGS, ""),
    ("expand --file=meet.ics --to=20250304T150000Z --from=20250301T000000Z", 0, "", ""),
    (f"expand --file floating.ics {NINE}", 0, "", ""),
    (f"expand --file floating.ics --zone meet.ics {NINE}", 0, "20250310T090000 20250310T090000 20250310T100000 0\n", ""),
    (f"expand --file one.ics --zone one.ics {MARCH}", 12, "", "one.ics: not one resource: 7\n"),
    (f"expand --file x.ics --zone y.ics {MARCH}", 12, "", "x.ics: not a calendar at octet 0\n"),
    (f"expand --file one.ics --zone y.ics {MARCH}", 12, "", "y.ics: not a calendar at octet 0\n"),
    (f"expand --file x.ics --zone long.ics {MARCH}", 12, "", "long.ics: too long\n"),
    (f"expand --file none --zone long.ics {MARCH}", 4, "", "input fault\n"),
    (f"expand --file one.ics --zone none {MARCH}", 4, "", "input fault\n"),
    ("expand --file one.ics --from 20250301T000000Z", 2, "", USAGE_OF_EXPAND),
    ("expand --file one.ics --from 20250301T000000Z --to 20250301T000000Z", 2, "", USAGE_OF_EXPAND),
    ("expand --file one.ics --from 20250301T000000 --to 20250401T000000Z", 2, "", USAGE_OF_EXPAND),
    ("expand --file one.ics --from 20250301T000000Z --to 21010101T000000Z", 2, "", USAGE_OF_EXPAND),
    ("expand --file one.ics --from 15991231T235959Z --to 20250401T000000Z", 2, "", USAGE_OF_EXPAND),
    ("check --file meet.ics", 0, "event meet 4\n", ""),
    ("check --file one.ics", 0, "event one 1\n", ""),
    ("check --file full.ics", 0, "event one 1\n", ""),
    ("check --file long.ics", 12, "", "long.ics: too long\n"),
    ("check --file x.ics", 12, "", "x.ics: not a calendar at octet 0\n"),
    ("check --file two.ics", 12, "", "two.ics: not one resource: 5\n"),
    ("check --file early.ics", 12, "", "early.ics: date outside\n"),
    ("check --file minutes.ics", 12, "", "minutes.ics: too many instances\n"),
    ("check --file none", 4, "", "input fault\n"),
    ("check", 2, "", USAGE_OF_CHECK),
    ("check --file one.ics --zone meet.ics", 2, "", USAGE_OF_CHECK),
    (f"slot {LOOKS} {OWN}", 0, "free 20250310T080000Z 20250310T090000Z\n" + BEHIND, ""),
    (f"slot {LOOKS.replace('60', '61')} {OWN}", 0, BEHIND, ""),
    (f"slot {LOOKS.replace('60', '181')} {OWN}", 0, "none\n", ""),
    (f"slot {LOOKS.replace('--most 5', '--most 1')} {OWN} {OWN[:-1]}", 0, "free 20250310T080000Z 20250310T090000Z\n", ""),
    (f"slot {LOOKS} {OWN} /calendars/alice/none/", 10, "", "slot: refused word 2\n"),
    (f"slot {LOOKS} / {OWN}", 10, "", "slot: refused word 1\n"),
    (f"slot {LOOKS.replace('as alice', 'as nobody')} {OWN}", 10, "", "slot: refused word 0\n"),
    (f"slot {LOOKS.replace('users users', 'users none')} {OWN}", 4, "", "input fault\n"),
    (f"slot {LOOKS.replace('users users', 'users bad')} {OWN}", 3, "", BAD_LINE),
    (f"slot {LOOKS.replace('busy', 'none/journal')} {OWN}", 9, "", "journal: refused at octet 0\n"),
    (f"slot {LOOKS.replace('busy', 'never')} {OWN}", 9, "", "journal: refused at octet 0\n"),
    *[(f"slot {LOOKS.replace('busy', name)} {OWN}", 9, "", f"journal: refused at octet {place}\n") for name, (_, place, _) in REFUSED.items()],
    (f"slot {LOOKS}", 2, "", USAGE_OF_SLOT),
    (f"slot {LOOKS.replace('60', '0')} {OWN}", 2, "", USAGE_OF_SLOT),
    (f"slot {LOOKS.replace('60', '100001')} {OWN}", 2, "", USAGE_OF_SLOT),
    (f"slot {LOOKS.replace('--most 5', '--most 101')} {OWN}", 2, "", USAGE_OF_SLOT),
    (f"slot {LOOKS.replace('130000', '080000')} {OWN}", 2, "", USAGE_OF_SLOT),
    (f"slot {LOOKS}{33 * (' ' + OWN)}", 2, "", USAGE_OF_SLOT),
    ("script --users none", 4, "", "input fault\n"),
    ("script --users bad", 3, "", BAD_LINE),
    ("script", 2, "", USAGE_OF_SCRIPT),
    ("", 2, "", USAGE_OF_SCRIPT),
    ("other", 2, "", USAGE_OF_SCRIPT),
]
# Words that ask for help or the version, and words that have to stand in what is printed.
ASKS = [
    ("--help", ["serve", "load", "script", "expand", "check", "slot"]),
    ("-h", ["serve", "load", "script"]),
    ("--version", ["caldav_server 0.1.0"]),
    ("-V", ["caldav_server 0.1.0"]),
    ("serve --help", ["--users", "--journal", "--listen", "--sessions", "--workers", "--connections"]),
    ("serve --version", ["caldav_server 0.1.0"]),
    ("load -h", ["--number", "--sessions", "--workers"]),
    ("load -V", ["caldav_server 0.1.0"]),
    ("expand --help", ["--file", "--from", "--to", "--zone", "tail -c"]),
    ("check -h", ["--file", "tail -c", "not one resource", "METHOD"]),
    ("check --version", ["caldav_server 0.1.0"]),
    ("slot --help", ["--users", "--journal", "--as", "--from", "--to", "--minutes", "--most", "PATH"]),
    ("slot -V", ["caldav_server 0.1.0"]),
    ("script --help", ["--users", "--journal"]),
    ("script --version", ["caldav_server 0.1.0"]),
]


class Wrong(Exception):
    """What is not as it should be."""


class Program:
    """A built program, which runs where the users files lie."""

    def __init__(self, path, folder, more):
        self.begin, self.folder, self.environment = [path], folder, {**os.environ, **more}

    def with_files(self, many):
        """The same with so many open files at most, of which three are standard ones."""
        other = copy.copy(self)
        other.begin = ["sh", "-c", f'ulimit -n {many} && exec "$0" "$@"', *self.begin]
        return other

    def with_room(self, blocks):
        """The same on a disk that is full: no file gets longer than so many blocks of 512 octets."""
        other = copy.copy(self)
        other.begin = ["sh", "-c", f'trap "" XFSZ && ulimit -f {blocks} && exec "$0" "$@"', *self.begin]
        return other

    def start(self, words, output=subprocess.PIPE, given=subprocess.DEVNULL):
        how = {"bufsize": 0, "stdin": given, "stdout": output, "stderr": subprocess.PIPE, "cwd": self.folder, "env": self.environment}
        return subprocess.Popen([*self.begin, *words], **how)

    def ended(self, words, output=subprocess.PIPE, given=None):
        """The status, and what was written on standard output and standard error."""
        process = self.start(words, output, subprocess.DEVNULL if given is None else subprocess.PIPE)
        try:
            wrote, told = process.communicate(given, timeout=WAIT)
        except subprocess.TimeoutExpired:
            raise Wrong(f"{' '.join(words)}: does not end")
        finally:
            process.kill()
            process.wait()
        return process.returncode, (wrote or b"").decode(), told.decode()

    def has_to_end(self, words, status, wrote, told, output=subprocess.PIPE):
        found = self.ended(words, output)
        if found != (status, wrote, told):
            raise Wrong(f"{' '.join(words) or '(no words)'}: ended with {found} and not {(status, wrote, told)}")


class Server:
    """A server that listens, and that ends by itself with status 0 once so many connections were served."""

    def __init__(self, program, connections, *words):
        for _ in range(5):
            self.address = ("127.0.0.1", free_port())
            self.words = ["serve", "--users", "users", "--listen", f"127.0.0.1:{self.address[1]}", "--connections", f"{connections}", *words]
            self.process = program.start(self.words)
            self.limit = threading.Timer(WAIT, self.process.kill)
            self.limit.start()
            told = self.process.stderr.readline()
            if told == f"listening on 127.0.0.1:{self.address[1]}\n".encode():
                return
            self.stop()
            if told != b"input fault\n":  # another program may have taken the port
                break
        raise Wrong(f"{' '.join(self.words)}: says {told} and not that it listens")

    def connect(self):
        return socket.create_connection(self.address, timeout=WAIT)

    def stop(self):
        self.limit.cancel()
        self.process.kill()
        self.process.communicate()

    def __enter__(self):
        return self

    def __exit__(self, fault, *_):
        try:
            if fault is None:
                wrote, told = self.process.communicate()
                if (self.process.returncode, wrote, told) != (0, b"", b""):
                    raise Wrong(f"{' '.join(self.words)}: ended with {self.process.returncode}, {wrote}, {told}")
        finally:
            self.stop()


def request(method, path, media, body, more=""):
    head = f"{method} {path} HTTP/1.1\r\nHost: h\r\nAuthorization: Basic {KEY}\r\nContent-Type: {media}\r\n{more}Content-Length: {len(body)}\r\n\r\n"
    return (head + body).encode()


class Talk:
    """A PUT of an event on a day of March 2025, a query for what is on that day, and the replies that are due."""

    def __init__(self, day):
        name = f"e{day}"
        lines = ["BEGIN:VCALENDAR", "VERSION:2.0", "PRODID:-//a//EN", "BEGIN:VEVENT", f"UID:{name}", "DTSTAMP:20250101T000000Z"]
        lines += [f"DTSTART:202503{day}T090000Z", f"DTEND:202503{day}T100000Z", "SUMMARY:Stand-up", "END:VEVENT", "END:VCALENDAR"]
        self.name = f"{name}.ics"
        event, shown = ("".join(line + end for line in lines) for end in ("\r\n", "&#13;\n"))
        self.event = event.encode()
        query = (
            '<C:calendar-query xmlns:D="DAV:" xmlns:C="urn:ietf:params:xml:ns:caldav"><D:prop><D:getetag/><C:calendar-data/></D:prop><C:filter><C:comp-filter name="VCALENDAR">'
            f'<C:comp-filter name="VEVENT"><C:time-range start="202503{day}T000000Z" end="202503{day + 1}T000000Z"/></C:comp-filter></C:comp-filter></C:filter></C:calendar-query>'
        )
        calendar = "/calendars/alice/calendar/"
        self.put = request("PUT", f"{calendar}{name}.ics", "text/calendar", event)
        self.query = request("REPORT", calendar, "application/xml", query, "Connection: close\r\n")
        self.asked = self.put + self.query
        tag = f'"{hashlib.sha256(event.encode()).hexdigest()}"'
        body = (
            '<?xml version="1.0" encoding="utf-8"?>\n<D:multistatus xmlns:D="DAV:" xmlns:C="urn:ietf:params:xml:ns:caldav"><D:response>'
            f"<D:href>{calendar}{name}.ics</D:href><D:propstat><D:prop><D:getetag>{tag}</D:getetag><C:calendar-data>{shown}</C:calendar-data></D:prop>"
            "<D:status>HTTP/1.1 200 OK</D:status></D:propstat></D:response></D:multistatus>"
        )
        self.created = f"HTTP/1.1 201 Created\r\nDate: *\r\nETag: {tag}\r\nContent-Length: 0\r\n\r\n"
        found = f"HTTP/1.1 207 Multi-Status\r\nDate: *\r\nContent-Type: application/xml; charset=utf-8\r\nConnection: close\r\nContent-Length: {len(body)}\r\n\r\n"
        self.found = found + body

    def look(self, got, begun, due=None):
        """Looks whether these replies are due, and each of their dates between the beginning and now."""
        due = self.created + self.found if due is None else due
        dates = re.findall(r"\r\nDate: ([^\r]*)\r\n", got)
        if re.sub(r"\r\nDate: [^\r]*\r\n", "\r\nDate: *\r\n", got) != due:
            raise Wrong(f"a connection was answered {got!r} and not {due!r}")
        for date in dates:
            moment = email.utils.parsedate_to_datetime(date)
            if email.utils.format_datetime(moment, usegmt=True) != date or not int(begun) <= moment.timestamp() <= time.time():
                raise Wrong(f"a reply has the date {date}")


def all_octets(link):
    got = b""
    while piece := link.recv(65536):
        got += piece
    return got.decode()


def answers(program, connections, *words):
    """Connections that are open at once: all are asked before the first of them is listened to."""
    begun = time.time()
    with Server(program, connections, *words) as server, contextlib.ExitStack() as links:
        open_ones = [(links.enter_context(server.connect()), Talk(10 + number)) for number in range(connections)]
        for link, talk in open_ones:
            link.sendall(talk.asked)
        for link, talk in open_ones:
            talk.look(all_octets(link), begun)


def silent_connections(program):
    """Connections that say nothing count, for three sessions beside two workers."""
    with Server(program, 7, "--sessions", "3", "--workers", "2") as server:
        for _ in range(7):
            server.connect().close()


def no_descriptor(program):
    """A connection that cannot be taken counts: with its address, at which two doors stand, the server has as many open files as it may."""
    with Server(program.with_files(5), 1, "--sessions", "1", "--workers", "0") as server, contextlib.suppress(OSError):
        server.connect().close()


def taken_port(program):
    with socket.socket() as other:
        other.bind(("127.0.0.1", 0))
        other.listen()
        words = f"serve --users users --listen 127.0.0.1:{other.getsockname()[1]} --sessions 1 --connections 1".split()
        program.has_to_end(words, 4, "", f"input fault\n127.0.0.1:{other.getsockname()[1]}: Address already in use (os error 98)\n")


KEPT = ["--sessions", "2", "--workers", "1", "--journal"]
FIRST, SECOND, THIRD = Talk(10), Talk(11), Talk(12)  # a journal with the first two has 504 octets


def asked(server, octets):
    """All that comes on a connection on which this was asked."""
    with server.connect() as link:
        link.sendall(octets)
        return all_octets(link)


def shown_again(program, file, *talks):
    """A server over a journal shows what was put before it was started."""
    begun = time.time()
    with Server(program, 2, *KEPT, file) as server:
        for talk in (talks * 2)[:2]:
            talk.look(asked(server, talk.query), begun, talk.found)


def keeps(program):
    """What was acknowledged is there after a server has ended, and after one was killed; nobody else takes its file meanwhile."""
    begun = time.time()
    with Server(program, 2, *KEPT, "kept") as server:
        FIRST.look(asked(server, FIRST.asked), begun)
        locked = "journal fault\nkept: another program has locked it\n"
        program.has_to_end(f"serve {AT} --journal kept".split(), 8, "", locked)
        program.has_to_end("script --users users --journal kept".split(), 8, "", "journal fault\n")
        FIRST.look(asked(server, FIRST.query), begun, FIRST.found)
    shown_again(program, "kept", FIRST)
    killed = Server(program, 9, *KEPT, "kept")
    try:
        SECOND.look(asked(killed, SECOND.asked), begun)
    finally:
        killed.stop()
    shown_again(program, "kept", FIRST, SECOND)
    if os.stat(os.path.join(program.folder, "kept")).st_mode & 0o777 != 0o600:
        raise Wrong("a journal is not for its owner alone")


def full_disk(program):
    """A change for which the disk has no room is not answered, and not kept; the server ends with the connection behind it."""
    begun = time.time()
    server = Server(program.with_room(1), 9, *KEPT, "full")
    try:
        FIRST.look(asked(server, FIRST.put + SECOND.put + THIRD.put), begun, FIRST.created + SECOND.created)
        with contextlib.suppress(OSError):
            FIRST.look(asked(server, FIRST.query), begun, "")
        wrote, told = server.process.communicate()
        if (server.process.returncode, wrote, told) != (8, b"", b"journal fault\n"):
            raise Wrong(f"a server on a full disk ended with {server.process.returncode}, {wrote}, {told}")
    finally:
        server.stop()
    shown_again(program, "full", FIRST, SECOND)
    octets = journals.contents(os.path.join(program.folder, "full"))
    if [record.name for _, record in journals.Journal(octets).records()] != [FIRST.name, SECOND.name]:
        raise Wrong(f"a server on a full disk left {octets!r}")


def frame(octets):
    return b"bytes 0 1741600000 %d\n%s\n" % (len(octets), octets)


def framed(reply):
    reply = reply.replace("Date: *", "Date: Mon, 10 Mar 2025 09:46:40 GMT")
    return f"reply 0 {len(reply)}\n{reply}\n"


def kept_script(program):
    """A script writes the journal that its page describes, and the next one goes on from it; one on a full disk ends at the change."""
    words = "script --users users --journal played".split()
    path = os.path.join(program.folder, "played")
    new = HEADER + b"\0"
    record = journals.Record(journals.PUT, 0, 1741600000, 201, 0, "calendar", FIRST.name, FIRST.event)
    for given, wanted, left in ((b"", "", new), (frame(FIRST.put), framed(FIRST.created), journals.journal(["alice"], [], [journals.payload(record)]))):
        found = program.ended(words, given=given)
        if found != (0, wanted, ""):
            raise Wrong(f"{' '.join(words)}: ended with {found} and not with {wanted!r}")
        if journals.contents(path) != left:
            raise Wrong(f"{' '.join(words)}: left {journals.contents(path)!r} and not {left!r}")
    full = program.with_room(1)
    found, wanted = full.ended(words, given=frame(SECOND.put) + frame(THIRD.put) + frame(FIRST.query)), framed(SECOND.created)
    if found != (8, wanted, "journal fault\n"):
        raise Wrong(f"{' '.join(words)}: on a full disk ended with {found} and not with {wanted!r}")
    found, wanted = full.ended(words, given=frame(FIRST.query)), framed(FIRST.found)
    if found != (0, wanted, ""):
        raise Wrong(f"{' '.join(words)}: behind a full disk ended with {found} and not with {wanted!r}")


def full_output(program):
    output = os.open("/dev/full", os.O_WRONLY)  # not made where there is none
    try:
        program.has_to_end("load --number 1 --sessions 1".split(), 5, "", "output fault\n", output=output)
    finally:
        os.close(output)


def look(program):
    """Looks at all that a program should do, and raises what is wrong."""
    for words, status, wrote, told in ENDS:
        program.has_to_end(words.split(), status, wrote, told)
    for words, wanted in ASKS:
        status, wrote, told = program.ended(words.split())
        if status != 0 or told or not all(it in wrote for it in wanted):
            raise Wrong(f"{words}: ended with {(status, wrote, told)}")
    for name, (octets, _, _) in REFUSED.items():
        if journals.contents(os.path.join(program.folder, name)) != octets:
            raise Wrong(f"the file {name} was refused, and written to")
    if journals.contents(os.path.join(program.folder, "busy")) != BUSY:
        raise Wrong("a journal that is only looked at was written to")
    if os.path.exists(os.path.join(program.folder, "never")):
        raise Wrong("a journal was made for words or users that are refused")
    keeps(program)
    full_disk(program)
    kept_script(program)
    full_output(program)
    taken_port(program)
    no_descriptor(program)
    silent_connections(program)
    answers(program, 1)
    answers(program, 16, "--sessions", "16")


def fault(path, more=None):
    """What is wrong with a built program, if anything is; it runs with this more in its environment."""
    with tempfile.TemporaryDirectory() as folder:
        files = {"users": USERS, "bad": USERS + b"user bob abc\n", **{name: octets for name, (octets, _, _) in REFUSED.items()}, "busy": BUSY, **CALENDARS}
        for name, octets in files.items():
            with open(os.path.join(folder, name), "wb") as file:
                file.write(octets)
        try:
            look(Program(os.path.abspath(path), folder, more or {}))
        except Wrong as wrong:
            return str(wrong)
        except OSError as end:
            return f"a connection is not served, or the program does not start: {end}"
        except (ValueError, TypeError) as end:
            return f"a reply cannot be read: {end}"
    return None


def main():
    built = os.path.join(TOP, "crates/caldav_server/out/caldav_server")
    failed = False
    for path in sys.argv[1:] or [it for it in (built, built + ".by-rattle") if it == built or os.path.exists(it)]:
        begun = time.monotonic()
        why = fault(path)
        failed = failed or why is not None
        print(f"{os.path.basename(path)}: {why or 'the commands do what they should'} ({time.monotonic() - begun:.1f} s)")
    sys.exit(1 if failed else 0)


if __name__ == "__main__":
    main()
