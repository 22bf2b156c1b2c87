#!/usr/bin/env python3
"""Refuses each allocation of the worked examples in turn, and looks at what comes of it.

    bench/refused.py [--builds FOLDER] [--only WORD]

A library put in front of the C library's makes the Nth call of malloc, calloc or realloc fail, for each N there is; and
then, in a second run, that call and all behind it. The examples are a meeting that is put and asked for, an object that
is replaced while a worker expands it, a plan of a zone with an override that is asked for expanded, a calendar from its
making to its end, and sessions and workers in threads (`load`). They run

- as scripts, through the program: standard input and output;
- as scripts over memory, through cases_server: the input and the output are lists, whose growth is refused like any other;
- as sessions over links in memory, through cases_server;
- as walks through a book, through cases_server: which piece is claimed, what becomes of it, and how many entries there are;
- the first also as two connections of a server, one after the other, over the loopback address.

Where nothing is refused the replies are those that the rules of docs/ give (`cases.py` writes them). Else:

- the program ends with its own status, and never of a signal;
- a reply is the example's, or 503 without a body. Those behind a 503 are what the example gives without that request:
  nothing was changed by it. What is refused to a worker is not seen;
- at status 7, of want of memory, and at status 5, of an output in memory that could not grow, what was written is a front
  of that; a session ends without memory, or at a write that failed, behind such a front;
- a deletion for which room was made is answered as ever, whatever is refused behind that;
- `load` prints its five lines, or ends with status 7 and prints nothing;
- a server answers 503 or lets the connection go, and answers the next one in the state that was reached; or it does not
  start, with status 7.

FOLDER has the built programs as NAME, or as NAME/out/NAME (default: crates; build them by `rt run` in their folders).
What is not there is left out, and said. It needs Python 3 and a C compiler.
"""
import argparse, datetime, hashlib, os, re, socket, subprocess, sys, tempfile, time

sys.path.insert(0, os.path.dirname(os.path.abspath(__file__)))
sys.dont_write_bytecode = True
from cases import (
    BOB, CALENDAR, DATE, E1, HOME, NAMES, PASSWORDS, PLAN, PLANNED, TEXT, TOP, ace, answer, calendar, data, etag, event, expanded, found,
    frame, grants, lines, needs, propfind, put, query, refused, reply, reply_body, report, request, stored, update,
)

SHIM = r"""
#define _GNU_SOURCE
#include <errno.h>
#include <stdatomic.h>
#include <stdio.h>
#include <stdlib.h>
#include <string.h>
#include <sys/syscall.h>
#include <unistd.h>
static atomic_long seen;
static long first, last;
static int is_refused(void) {
    long now = atomic_fetch_add(&seen, 1) + 1;
    if (now < first || last < now) return 0;
    errno = ENOMEM;
    return 1;
}
extern void *__libc_malloc(size_t), *__libc_calloc(size_t, size_t), *__libc_realloc(void *, size_t);
void *malloc(size_t size) { return is_refused() ? 0 : __libc_malloc(size); }
void *calloc(size_t count, size_t size) { return is_refused() ? 0 : __libc_calloc(count, size); }
void *realloc(void *old, size_t size) { return is_refused() ? 0 : __libc_realloc(old, size); }
__attribute__((constructor)) static void begin(void) {
    const char *text = getenv("REFUSED");
    atomic_store(&seen, 0);
    first = text ? atol(text) : 0;
    last = !first ? -1 : strchr(text, '+') ? 0x7fffffffffffffff : first;
}
__attribute__((destructor)) static void told(void) {
    const char *path = getenv("TOLD");
    long many = atomic_load(&seen);
    last = -1;
    if (path) { FILE *file = fopen(path, "w"); if (file) { fprintf(file, "%ld", many); fclose(file); } }
}
void _exit(int status) { told(); syscall(SYS_exit_group, status); __builtin_unreachable(); }
"""
WORK = b"claim 0\nexpand 0\npublish 0\n"
HASH = b"ba7816bf8f01cfea414140de5dae2223b00361a396177a9cb410ff61f20015ad"
BUSY = reply(200).replace(b"200 OK", b"503 Service Unavailable")
USERS = b"".join(b"user %s %s\n" % (name.encode(), HASH) for name in PASSWORDS)

# The examples: requests with their replies, and frames of workers between them

DAY = ("20250310T090000Z", "20250310T100000Z")
MONTH = ("20250301T000000Z", "20250329T000000Z")


def shown(name, octets, more=""):
    return (CALENDAR + name, [(200, (f'<D:getetag>"{etag(octets)}"</D:getetag>' if more == "" else more) + data(octets))])


def examples():
    meeting, asked = (put("one.ics", E1), stored(E1)), (report(query(*DAY)), found(shown("one.ics", E1)))
    planned = (CALENDAR + "meet.ics", [(200, data(PLANNED))])
    standing = event("one", "DTSTART:20250310T090000Z", "DTEND:20250310T100000Z", "SUMMARY:Stand-up")
    plan, instances = (put("meet.ics", PLAN), stored(PLAN)), (report(expanded(*MONTH)), found(planned))
    later = E1.replace(b"Stand-up", b"Later")
    work = HOME + "work/"
    null = refused("<D:resource-must-be-null/>")

    def props(*statuses):
        return found((work, statuses))

    named = (request("PROPFIND", work, propfind("<D:displayname/>"), depth="0"), props((200, "<D:displayname>Work</D:displayname>")))
    busy = calendar(
        "BEGIN:VFREEBUSY", "UID:free-busy", "DTSTAMP:20250310T094640Z", "DTSTART:20250301T000000Z", "DTEND:20250401T000000Z",
        *[f"FREEBUSY;FBTYPE=BUSY:{one}" for one in ("20250304T150000Z/20250304T160000Z", "20250310T090000Z/20250310T100000Z",
          "20250311T140000Z/20250311T150000Z", "20250326T180000Z/20250326T190000Z")],
        "END:VFREEBUSY",
    ).replace(b"-//a//EN", b"-//caldav_server//EN")
    frees = (report(f'<C:free-busy-query {NAMES}><C:time-range start="20250301T000000Z" end="20250401T000000Z"/></C:free-busy-query>'.encode()), reply(200, busy, TEXT))
    there, gone = (request("GET", CALENDAR + "one.ics", who="bob"), reply(404)), (request("GET", CALENDAR + "one.ics"), reply(200, E1, TEXT, etag=etag(E1)))
    return {
        "a meeting is put and asked for": [meeting, asked],
        "an object is replaced while it is expanded": [meeting, b"claim 0\n", (put("one.ics", later), stored(later, 204)), b"expand 0\npublish 0\n", (asked[0], found(shown("one.ics", later)))],
        "a plan is asked for expanded": [plan, instances],
        "a plan of which all pieces were made": [plan, WORK * 13, instances],
        "a calendar from its making to its end": [
            (request("MKCALENDAR", work), reply(201)), (request("MKCALENDAR", work), null),
            (request("PROPPATCH", work, update("<D:displayname>Work</D:displayname>")), props((200, "<D:displayname/>"))),
            (request("PROPPATCH", work, update("<D:displayname>x</D:displayname>", "<D:getetag/>")), props((403, "<D:getetag/>"), (424, "<D:displayname/>"))),
            named, (request("DELETE", work), reply(204)), (request("DELETE", work), reply(404)),
        ],
        "a meeting and a plan, with all pieces": [
            meeting, asked, plan, WORK * 26, (report(expanded(*MONTH)), found(planned, (CALENDAR + "one.ics", [(200, data(standing))]))), frees, asked,
        ],
        "grants, what they open, and deletions": [
            meeting, there, (request("ACL", CALENDAR, grants(ace(BOB, "<D:read/>"))), reply(200)), (there[0], gone[1]),
            (request("DELETE", CALENDAR + "one.ics", who="bob"), needs(CALENDAR + "one.ics", "D:unbind")), gone, (request("DELETE", CALENDAR + "one.ics"), reply(204)), (gone[0], reply(404)),
        ],
    }


# Running

class Refuser:
    def __init__(self, folder, builds):
        self.folder, self.builds, self.wrong = folder, builds, 0
        source, self.library = os.path.join(folder, "shim.c"), os.path.join(folder, "shim.so")
        with open(source, "w") as file:
            file.write(SHIM)
        subprocess.run([os.environ.get("CC", "cc"), "-O2", "-shared", "-fPIC", source, "-o", self.library], check=True)
        self.users = os.path.join(folder, "users")
        with open(self.users, "wb") as file:
            file.write(USERS)

    def built(self, name):
        """The built program of that name, if it is there."""
        for path in (os.path.join(self.builds, name, "out", name), os.path.join(self.builds, name)):
            if os.path.isfile(path):
                return path
        print(f"{name} is not built in {self.builds}")
        return None

    def run(self, program, words, text, refused="0"):
        """Status, output, and how many allocations there were."""
        told = os.path.join(self.folder, "told")
        with open(told, "w"):
            pass
        how = {"LD_PRELOAD": self.library, "REFUSED": refused, "TOLD": told}
        try:
            ended = subprocess.run([program, *words], input=text, capture_output=True, env=how, timeout=60)
        except subprocess.TimeoutExpired:
            return "no end", b"", 0
        with open(told) as file:
            return ended.returncode, ended.stdout, int(file.read() or 0)

    def all(self, name, program, words, text, what_of, most=None):
        """Refuses each allocation, alone and with all behind it; `what_of` says what came of it, and nothing where that is wrong."""
        status, output, count = self.run(program, words, text)
        if not count or what_of(status, output) != "the same":
            self.wrong += 1
            print(f"{name}: WRONG where nothing is refused: status {status}, {count} allocations, {output[:1000]!r}")
            return
        counts = {}
        for one in range(1, (most or count) + 1):
            for refused in (f"{one}", f"{one}+"):
                status, output, _ = self.run(program, words, text, refused)
                what = what_of(status, output)
                if what is None:
                    what, self.wrong = "WRONG", self.wrong + 1
                    if counts.get(what, 0) < 5:
                        print(f"{name}: allocation {refused}: status {status}, {output[:1000]!r}")
                counts[what] = counts.get(what, 0) + 1
        print(f"{name}: {most or count} allocations: " + ", ".join(f"{what} {many}" for what, many in sorted(counts.items())), flush=True)


def frames_of(example):
    return b"".join(one if isinstance(one, bytes) else frame(one[0]) for one in example)


def replies(output):
    """The replies in the frames of an output."""
    told, at = [], 0
    while at < len(output):
        end = output.index(b"\n", at)
        length = int(output[at:end].split(b" ")[2])
        told.append(output[end + 1:end + 1 + length])
        at = end + 2 + length
    return told


class Expected:
    """What an example gives without some of its requests, by the program itself where nothing is refused."""

    def __init__(self, refuser, program, example):
        self.refuser, self.program, self.example, self.known = refuser, program, example, {}
        self.right = [one[1] for one in example if not isinstance(one, bytes)]
        self.known[frozenset()] = self.right

    def without(self, left_out):
        """The replies of all requests, with that of each which is left out as 503."""
        if left_out not in self.known:
            asked, number = [], 0
            for one in self.example:
                if isinstance(one, bytes):
                    asked.append(one)
                else:
                    if number not in left_out:
                        asked.append(one)
                    number += 1
            status, output, _ = self.refuser.run(self.program, ["script", "--users", self.refuser.users], frames_of(asked))
            rest = replies(output)
            assert status == 0 and len(rest) == number - len(left_out)
            self.known[left_out] = [BUSY if place in left_out else rest.pop(0) for place in range(number)]
        return self.known[left_out]

    def is_front(self, output, is_whole):
        """Whether an output is that of some replies of the example, of which some may be 503."""
        try:
            told = replies(output)
        except (ValueError, IndexError):
            return False
        wanted = self.without(frozenset(place for place, one in enumerate(told) if one == BUSY))
        text = b"".join(answer(one) for one in wanted)
        return output == text if is_whole else text.startswith(output)

    def what_of(self, status, output):
        if status == 0 and self.is_front(output, True):
            return "the same" if output == b"".join(map(answer, self.right)) else "503"
        return f"status {status}" if status in (5, 7) and self.is_front(output, False) else None


def scripts(refuser, only):
    program, cases = refuser.built("caldav_server"), refuser.built("cases_server")
    for name, example in examples().items():
        if only not in name or not program:
            continue
        expected = Expected(refuser, program, example)

        def of_program(status, output):
            return None if status == 5 else expected.what_of(status, output)

        def of_cases(status, output):
            if status == 0 and output in (b"the input was not read\n", b"@scripts\n# t\nout of memory\n", b""):
                return "not begun"
            told = re.match(rb"@scripts\n# t\nstatus (\d) place \d+\n", output)
            return expected.what_of(int(told[1]), output[told.end():]) if status == 0 and told else None

        refuser.all(f"{name}, as a script", program, ["script", "--users", refuser.users], frames_of(example), of_program)
        if cases:
            refuser.all(f"{name}, as a script over memory", cases, [], b"@scripts\n#t\nframes - - script --users users\n" + frames_of(example), of_cases)


def sessions(refuser, only):
    """Sessions over links in memory, of which the ends, the entries and the statuses are told."""
    program, scripts_program = refuser.built("cases_server"), refuser.built("caldav_server")
    for name, example in examples().items():
        octets = b"".join(one[0] for one in example if not isinstance(one, bytes))
        if only not in name or not program or not scripts_program or PASSWORDS["bob"].encode() in octets:
            continue  # the sessions of cases_server know alice alone
        rest = refuser.run(program, [], b"@sessions\n")  # what is done behind the cases of sessions
        expected = Expected(refuser, scripts_program, example)

        def what_of(status, output):
            """Each status is the example's, that of the example without what was answered 503, or 503."""
            line = output.removeprefix(b"@sessions\n").split(b"\n")[0].decode()
            if status == 0 and line in ("the input was not read", "out of memory", ""):
                return "not begun"
            if status != 0 or not line:
                return None
            end, entries, written, answered = re.fullmatch(r"([a-z ]+); (\d+) entries; (\d+) replies, \d+ close; (\d+) answered(?:, .*)?", line).groups()
            turns = [(int(one), int(at)) for one, at in re.findall(r", (\d+) at (\d+)", line.split(" answered")[1])]
            made = 0
            for place, (one, at) in enumerate(turns):
                busy = frozenset(number for number, (other, _) in enumerate(turns[:place]) if other == 503)
                right = int(expected.without(busy)[place].split(b" ")[1])
                if one not in (right, 503) or at != made:
                    return None
                made += one in (201, 204) or one == 207 and is_patch(example, place)
            if int(entries) != made or int(answered) != len(turns) or int(written) > len(turns):
                return None
            if end == "closed" and len(turns) == len(expected.right) and int(written) == len(turns):
                return "503" if 503 in [one for one, _ in turns] else "the same"
            return end if end in ("out of memory", "write fault") and int(written) >= len(turns) - 1 else None

        most = refuser.run(program, [], b"@sessions\n# repeat 1\n" + octets)[2] - rest[2]
        refuser.all(f"{name}, as a session over memory", program, [], b"@sessions\n# repeat 1\n" + octets, what_of, most)


def is_patch(example, place):
    """Whether a request is a PROPPATCH of which no property is refused, which makes an entry."""
    asked, told = [one for one in example if not isinstance(one, bytes)][place]
    return asked.startswith(b"PROPPATCH") and b"403 Forbidden" not in told


# Walks through a book

def walks():
    """Letters, and for each that asks its request, and what is told: see the walks of cases_server."""
    later = E1.replace(b"Stand-up", b"Later")
    daily, other = (event("one", "DTSTART:20240501T090000Z", f"RRULE:FREQ=DAILY;COUNT={count}") for count in (3, 2))

    def put_of(octets, status=201):
        return ("a", put("one.ics", octets), b"answered %d" % status)

    def asks(*objects):
        return ("a", report(query("20240427T000000Z", "20240630T000000Z")), b"answered 207\n" + reply_body(found(*[shown("one.ics", octets) for octets in objects])))

    def does(letter, text):
        return (letter, b"", text)

    def deletes(path, status):
        return ("a", request("DELETE", path), b"answered %d" % status)

    room = does("r", b"room")
    return {
        "an object is replaced while it is expanded": [
            put_of(daily), does("c", b"claimed 0 in window 310"), put_of(other, 204), does("e", b"3 rows"), does("p", b"stale, now 1"), asks(other), does("n", b"2 entries"),
        ],
        "deletions with room": [
            put_of(daily), room, deletes(CALENDAR + "one.ics", 204), room, deletes(CALENDAR + "one.ics", 404), room, deletes(CALENDAR, 204), does("n", b"3 entries"),
        ],
    }


def of_walk(walk):
    """What came of a walk: nothing is refused but what says so, and what says so changed nothing."""
    whole = [told for _, _, told in walk]

    def what_of(status, output):
        if status != 0:
            return None
        if output in (b"the input was not read\n", b"@books\n# w\nout of memory\n", b""):
            return "not begun"
        text = b"\n" + output.partition(b"\n# w\n")[2]
        steps = re.split(rb"\n(?=answered |claimed |\d+ rows|stale|published|room|no room|out of memory|no request|no claim|no rows|nothing is open|\d+ entries)", text)[1:]
        steps = [one.rstrip(b"\n") for one in steps]
        if len(steps) != len(walk) or not output.startswith(b"@books\n# w\n"):
            return None
        return "the same" if steps == whole else steps_hold(walk, steps)

    return what_of


def steps_hold(walk, steps):
    """Whether steps of which some were refused are those of the states that were reached."""
    entries, there, has_calendar, claim, room, refused_one = 0, None, True, None, False, ""
    waiting = [asked for letter, asked, _ in walk if letter == "a"]
    for (letter, _, _), told in zip(walk, steps):
        had_room, room = room, told == b"room"
        # what could not be read as a request comes again at the next look
        asked = waiting.pop(0) if letter == "a" and told != b"no request" else b""
        if told in (b"out of memory", b"no room", b"no request", b"answered 503"):
            if told == b"answered 503" and had_room and asked.startswith(b"DELETE ") or letter == "n":
                return None
            claim = None if letter in "cep" else claim
            refused_one = refused_one or told.decode()
            continue
        method = asked.split(b" ")[0]
        if letter == "a" and method == b"PUT":
            body = asked.partition(b"\r\n\r\n")[2]
            if told != b"answered %d" % (204 if there else 201):
                return None
            there, entries = (body, entries), entries + 1
        elif letter == "a" and method == b"DELETE":
            is_there = there is not None if b".ics" in asked.split(b" ")[1] else has_calendar
            if told != b"answered %d" % (204 if is_there else 404):
                return None
            has_calendar = has_calendar and b".ics" in asked.split(b" ")[1]
            there, entries = None, entries + is_there
        elif letter == "a":
            if told != b"answered 207\n" + reply_body(found(*[shown("one.ics", there[0])] if there else [])):
                return None
        elif letter == "c":
            if told != (b"claimed %d in window 310" % there[1] if there else b"nothing is open"):
                return None
            claim = (there, None) if there else None
        elif letter == "e":
            rows = claim and (3 if b"COUNT=3" in claim[0][0] else 2)
            if told != (b"%d rows" % rows if claim else b"no claim"):
                return None
            claim = claim and (claim[0], rows)
        elif letter == "p":
            is_stale = claim and claim[0] != there
            if told != (b"no rows" if not claim or claim[1] is None else b"stale, now %d" % there[1] if is_stale else b"published"):
                return None
            claim = None
        elif told != (b"%d entries" % entries if letter == "n" else b"room"):
            return None
    return refused_one or None


def books(refuser, only):
    program = refuser.built("cases_server")
    for name, walk in walks().items():
        if program and only in name:
            text = b"@books\n#w\n" + "".join(one[0] for one in walk).encode() + b"\n" + b"".join(one[1] for one in walk)
            refuser.all(f"{name}, as a walk through a book", program, [], text, of_walk(walk))


# Sessions and workers in threads

def load_lines(number, sessions):
    """What `load` prints, by docs/LOAD.md, for fewer than ten puts."""
    octets = b""
    for session in range(sessions):
        drawn = 64 * number + session
        for put_number in range(number):
            draws = []
            for most in (365, 24, 4, 180):
                drawn = (drawn * 6364136223846793005 + 1442695040888963407) % 2**64
                draws.append((drawn >> 33) % most)
            day, hour, form, minutes = draws
            date = (datetime.date(2025, 1, 1) + datetime.timedelta(days=day)).strftime("%Y%m%d")
            rule = [[], ["RRULE:FREQ=DAILY;COUNT=30"], ["RRULE:FREQ=WEEKLY;COUNT=52"], ["RRULE:FREQ=MONTHLY;COUNT=24"]][form]
            body = lines(
                "BEGIN:VCALENDAR", "VERSION:2.0", "PRODID:-//caldav_server//EN", "BEGIN:VEVENT", f"UID:{put_number}", "DTSTAMP:20250101T000000Z",
                f"DTSTART:{date}T{hour:02}0000Z", f"DURATION:PT{minutes + 1}M", *rule, "END:VEVENT", "END:VCALENDAR",
            )
            octets += stored(body).replace(b"Mon, 10 Mar 2025 09:46:40 GMT", b"Wed, 01 Jan 2025 00:00:00 GMT")
    many = number * sessions
    return b"sessions %d\nrequests %d\naccepted %d\noctets %d\nsha256 %s\n" % (sessions, many, many, len(octets), hashlib.sha256(octets).hexdigest().encode())


def loads(refuser, only):
    program = refuser.built("caldav_server")
    for name, number, sessions, words in (
        ("sessions and workers in threads", 1, 4, []),
        ("eight sessions and four workers in threads", 2, 8, ["--sessions", "8", "--workers", "4"]),
    ):
        if not program or only not in name:
            continue
        right = load_lines(number, sessions)

        def what_of(status, output):
            if status == 0 and output == right:
                return "the same"
            return "status 7" if status == 7 and output == b"" else None

        refuser.all(f"{name}, load --number {number}", program, ["load", "--number", f"{number}", *words], b"", what_of)


# The server

def of_connection(octets):
    """The replies that came on a connection, with the date of the examples, and whether one was cut."""
    told = []
    while octets:
        head, there, rest = octets.partition(b"\r\n\r\n")
        length = re.search(rb"\r\nContent-Length: (\d+)", head)
        size = len(head) + 4 + int(length[1]) if there and length else len(octets) + 1
        if size > len(octets):
            return told, b"cut"
        told.append(re.sub(rb"Date: [^\r]*", b"Date: " + DATE.encode(), octets[:size]))
        octets = octets[size:]
    return told, b""


def ask(port, octets):
    """What a connection gives until it is closed; nothing where no server is there."""
    with socket.socket() as link:
        link.settimeout(30)
        if link.connect_ex(("127.0.0.1", port)):
            return None
        got = b""
        try:
            link.sendall(octets)
            while piece := link.recv(65536):
                got += piece
        except ConnectionError:
            pass
        return got


def serve_twice(refuser, program, port, octets, refused):
    """A server of two connections, one after the other; its status, what each gave, and how many allocations there were."""
    told = os.path.join(refuser.folder, "told")
    with open(told, "w"):
        pass
    how = {"LD_PRELOAD": refuser.library, "REFUSED": refused, "TOLD": told}
    words = ["serve", "--users", refuser.users, "--listen", f"127.0.0.1:{port}", "--sessions", "1", "--workers", "0", "--connections", "2"]
    server = subprocess.Popen([program, *words], stdout=subprocess.DEVNULL, stderr=subprocess.DEVNULL, env=how)
    got, begun = [], time.monotonic()
    while len(got) < 2 and server.poll() is None and time.monotonic() - begun < 30:
        one = ask(port, octets[len(got)])
        got += [] if one is None else [one]
        time.sleep(0.002 if one is None else 0)
    try:
        status = server.wait(30)
    except subprocess.TimeoutExpired:
        server.kill()
        status = "no end"
    with open(told) as file:
        return status, got, int(file.read() or 0)


def servers(refuser, only):
    """A connection that finds no memory is answered 503 or let go, and the next one is served in the state that was reached."""
    program = refuser.built("caldav_server")
    name = "a server of two connections"
    if not program or only not in name:
        return
    with socket.socket() as link:
        link.bind(("127.0.0.1", 0))
        port = link.getsockname()[1]
    (meeting, made), (asked, shown) = examples()["a meeting is put and asked for"]
    last = asked.replace(b"\r\n", b"\r\nConnection: close\r\n", 1)
    shown, nothing, busy = (one.replace(b"\r\nContent-Length", b"\r\nConnection: close\r\nContent-Length") for one in (shown, found(), BUSY))

    def what_of(status, got):
        if status != 0 or len(got) != 2:
            return "status 7" if status == 7 and not got else None
        (first, cut), (second, other_cut) = (of_connection(octets) for octets in got)
        # where the first connection was let go before its first reply, the meeting may have been put
        states = [shown] if first[:1] == [made] else [nothing] if first else [shown, nothing]
        of_first = first in ([made, shown], [made, busy], [made], [BUSY, nothing], [BUSY, busy], [BUSY], [])
        if cut or other_cut or not of_first or second not in [[one] for one in states] + [[busy], []]:
            return None
        if BUSY in first or busy in first + second:
            return "503"
        return "the same" if len(first + second) == 3 else "let go"

    status, got, count = serve_twice(refuser, program, port, [meeting + last, last], "0")
    if what_of(status, got) != "the same":
        refuser.wrong += 1
        print(f"{name}: WRONG where nothing is refused: status {status}, {got!r}"[:1200])
        return
    counts = {}
    for one in range(1, count + 1):
        status, got, _ = serve_twice(refuser, program, port, [meeting + last, last], f"{one}")
        what = what_of(status, got)
        if what is None:
            what, refuser.wrong = "WRONG", refuser.wrong + 1
            print(f"{name}: allocation {one}: status {status}, {got!r}"[:1200])
        counts[what] = counts.get(what, 0) + 1
    print(f"{name}: {count} allocations: " + ", ".join(f"{what} {many}" for what, many in sorted(counts.items())), flush=True)


def main():
    words = argparse.ArgumentParser(description=__doc__, formatter_class=argparse.RawDescriptionHelpFormatter)
    words.add_argument("--builds", default=os.path.join(TOP, "crates"))
    words.add_argument("--only", default="")
    asked = words.parse_args()
    with tempfile.TemporaryDirectory() as folder:
        refuser = Refuser(folder, os.path.abspath(asked.builds))
        for part in (scripts, sessions, books, loads, servers):
            part(refuser, asked.only)
    print(f"{refuser.wrong} wrong")
    sys.exit(1 if refuser.wrong else 0)


if __name__ == "__main__":
    main()
