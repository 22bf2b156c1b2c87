#!/usr/bin/env python3
"""Writes the cases of scripts, of walks through books, of books that are kept and of journal files of the program cases_server, and what each of them has to give, from the rules of docs/.

    bench/cases.py            writes them into stdin and stdout of its crate, where all other parts stay
    bench/cases.py --check    says whether they are what it would write

What is to come is made here from the rules: the octets of each reply by docs/REPLIES.md, the order of refusals by
docs/STATE_AND_LIMITS.md and docs/REQUESTS.md, the octets of a journal file by docs/JOURNAL.md. Nothing is taken from the program. It needs Python 3 alone.
"""
import base64, hashlib, os, re, struct, sys
from email.utils import formatdate

TOP = os.path.dirname(os.path.dirname(os.path.abspath(__file__)))
MOMENT = 1741600000
DATE = "Mon, 10 Mar 2025 09:46:40 GMT"
HOME = "/calendars/alice/"
CALENDAR = HOME + "calendar/"
SPACES = re.compile(rb"~(\d+)~")


def whole(text):
    """A text with the spaces that a number between two tildes stands for."""
    return SPACES.sub(lambda found: b" " * int(found[1]), text)


# Replies

REASONS = {
    200: "OK", 201: "Created", 204: "No Content", 207: "Multi-Status", 304: "Not Modified", 400: "Bad Request", 401: "Unauthorized",
    403: "Forbidden", 404: "Not Found", 405: "Method Not Allowed", 412: "Precondition Failed", 413: "Content Too Large",
    415: "Unsupported Media Type", 424: "Failed Dependency", 431: "Request Header Fields Too Large", 501: "Not Implemented",
    505: "HTTP Version Not Supported", 507: "Insufficient Storage",
}
OF_HOME, OF_CALENDAR = "OPTIONS, PROPFIND", "OPTIONS, PROPFIND, PROPPATCH, REPORT, MKCALENDAR, ACL, DELETE"
OF_OBJECT = "OPTIONS, GET, HEAD, PUT, DELETE, PROPFIND"
XML, TEXT = "application/xml; charset=utf-8", "text/calendar; charset=utf-8"
OPENED = '<?xml version="1.0" encoding="utf-8"?>\n<D:%s xmlns:D="DAV:" xmlns:C="urn:ietf:params:xml:ns:caldav">'


def reply(status, body=b"", media=None, etag=None, allow=None, close=False, head=False):
    fields = ["Date: " + DATE]
    fields += ["Allow: " + allow] if allow else []
    fields += ["DAV: 1, access-control, calendar-access"] if allow and status == 200 else []
    fields += ['WWW-Authenticate: Basic realm="caldav"'] if status == 401 else []
    fields += [f'ETag: "{etag}"'] if etag else []
    fields += ["Content-Type: " + media] if media else []
    fields += ["Connection: close"] if close else []
    fields += [f"Content-Length: {len(body)}"] if status not in (204, 304) else []
    lines = [f"HTTP/1.1 {status} {REASONS[status]}"] + fields + ["", ""]
    return "\r\n".join(lines).encode() + (b"" if head else body)


def refused(condition, **how):
    """403 with a condition."""
    return reply(403, (OPENED % "error" + condition + "</D:error>").encode(), XML, **how)


def reply_body(octets):
    return octets.split(b"\r\n\r\n", 1)[1]


def needs(path, privilege, **how):
    return refused(
        f"<D:need-privileges><D:resource><D:href>{path}</D:href><D:privilege><{privilege}/></D:privilege></D:resource></D:need-privileges>", **how
    )


def found(*responses):
    """207 with responses: an href, and for each status the elements of its properties; or one status alone."""
    text = OPENED % "multistatus"
    if not responses:
        return reply(207, (text[:-1] + "/>").encode(), XML)
    for href, of_status in responses:
        text += f"<D:response><D:href>{href}</D:href>"
        if isinstance(of_status, int):
            text += f"<D:status>HTTP/1.1 {of_status} {REASONS[of_status]}</D:status></D:response>"
            continue
        for status, props in of_status:
            text += f"<D:propstat><D:prop>{props}</D:prop><D:status>HTTP/1.1 {status} {REASONS[status]}</D:status></D:propstat>"
        text += "</D:response>"
    return reply(207, (text + "</D:multistatus>").encode(), XML)


def etag(octets):
    return hashlib.sha256(whole(octets)).hexdigest()


def data(octets):
    """Calendar data in a reply."""
    text = octets.decode().replace("&", "&amp;").replace("<", "&lt;").replace(">", "&gt;").replace("\r", "&#13;")
    return f"<C:calendar-data>{text}</C:calendar-data>"


# Requests

PASSWORDS = {name: base64.b64encode(f"{name}:abc".encode()).decode() for name in ("alice", "bob", "carol")}


def request(method, path, body=None, who="alice", media=None, coding=None, depth=None, if_match=None, if_none=None, more=(), version="1.1"):
    fields = ["Host: h"]
    fields += ["Authorization: Basic " + PASSWORDS[who]] if who else []
    fields += ["Content-Type: " + media] if media else []
    fields += ["Content-Encoding: " + coding] if coding else []
    fields += ["Depth: " + depth] if depth else []
    fields += ["If-Match: " + if_match] if if_match else []
    fields += ["If-None-Match: " + if_none] if if_none else []
    fields += more
    fields += [f"Content-Length: {len(whole(body))}"] if body is not None else []
    return "\r\n".join([f"{method} {path} HTTP/{version}"] + fields + ["", ""]).encode() + (body or b"")


def put(name, body, path=CALENDAR, **how):
    return request("PUT", path + name, body, media="text/calendar", **how)


def stored(octets, status=201):
    return reply(status, etag=etag(octets))


def frame(octets, connection=0, moment=MOMENT):
    return b"bytes %d %d %d\n%s\n" % (connection, moment, len(whole(octets)), octets)


def answer(octets, connection=0):
    return b"reply %d %d\n%s\n" % (connection, len(octets), octets)


def dated(told, moment):
    """A reply as it is at another moment."""
    return told.replace(DATE.encode(), formatdate(moment, usegmt=True).encode())


def exchange(steps, connection=0):
    """The frames of requests, and those of their replies."""
    return b"".join(frame(asked, connection) for asked, _ in steps), b"".join(answer(told, connection) for _, told in steps)


# Calendar objects

def lines(*texts):
    return b"".join(text.encode() + b"\r\n" for text in texts)


def calendar(*inner):
    return lines("BEGIN:VCALENDAR", "VERSION:2.0", "PRODID:-//a//EN", *inner, "END:VCALENDAR")


def event(uid, *inner):
    return calendar("BEGIN:VEVENT", "UID:" + uid, "DTSTAMP:20250101T000000Z", *inner, "END:VEVENT")


def todo(uid, *inner):
    return calendar("BEGIN:VTODO", "UID:" + uid, "DTSTAMP:20250101T000000Z", *inner, "END:VTODO")


E1 = event("one", "DTSTART:20250310T090000Z", "DTEND:20250310T100000Z", "SUMMARY:Stand-up")
assert len(E1) == 191
E2 = event("two", "DTSTART:20250311T090000Z", "DTEND:20250311T100000Z")
NY = (
    "BEGIN:VTIMEZONE", "TZID:NY",
    "BEGIN:DAYLIGHT", "DTSTART:16010101T020000", "RRULE:FREQ=YEARLY;BYDAY=2SU;BYMONTH=3", "TZOFFSETFROM:-0500", "TZOFFSETTO:-0400", "END:DAYLIGHT",
    "BEGIN:STANDARD", "DTSTART:16010101T020000", "RRULE:FREQ=YEARLY;BYDAY=1SU;BYMONTH=11", "TZOFFSETFROM:-0400", "TZOFFSETTO:-0500", "END:STANDARD",
    "END:VTIMEZONE",
)
PLAN = calendar(
    *NY, "BEGIN:VEVENT", "UID:meet", "DTSTART;TZID=NY:20250304T100000", "DTEND;TZID=NY:20250304T110000", "RRULE:FREQ=WEEKLY;COUNT=5",
    "EXDATE;TZID=NY:20250318T100000", "SUMMARY:Plan", "END:VEVENT", "BEGIN:VEVENT", "UID:meet", "RECURRENCE-ID;TZID=NY:20250325T100000",
    "DTSTART;TZID=NY:20250326T140000", "DTEND;TZID=NY:20250326T150000", "SUMMARY:Plan moved", "END:VEVENT",
)
PLANNED = calendar(
    "BEGIN:VEVENT", "UID:meet", "DTSTART:20250304T150000Z", "RECURRENCE-ID:20250304T150000Z", "DTEND:20250304T160000Z", "SUMMARY:Plan", "END:VEVENT",
    "BEGIN:VEVENT", "UID:meet", "DTSTART:20250311T140000Z", "RECURRENCE-ID:20250311T140000Z", "DTEND:20250311T150000Z", "SUMMARY:Plan", "END:VEVENT",
    "BEGIN:VEVENT", "UID:meet", "RECURRENCE-ID:20250325T140000Z", "DTSTART:20250326T180000Z", "DTEND:20250326T190000Z", "SUMMARY:Plan moved", "END:VEVENT",
)

# Bodies

NAMES = 'xmlns:D="DAV:" xmlns:C="urn:ietf:params:xml:ns:caldav"'
ALL = ("16000101T000000Z", "21001231T235959Z")


def attributes(start, end):
    return (f' start="{start}"' if start else "") + (f' end="{end}"' if end else "")


def query(start, end, asked="<D:getetag/><C:calendar-data/>", inner="", zone="", name=' name="VEVENT"'):
    return (
        f"<C:calendar-query {NAMES}><D:prop>{asked}</D:prop>{zone}<C:filter><C:comp-filter name=\"VCALENDAR\"><C:comp-filter{name}>"
        f"<C:time-range{attributes(start, end)}/>{inner}</C:comp-filter></C:comp-filter></C:filter></C:calendar-query>"
    ).encode()


def expanded(start, end):
    return query(start, end, f'<C:calendar-data><C:expand start="{start}" end="{end}"/></C:calendar-data>')


def busy(start, end):
    return f"<C:free-busy-query {NAMES}><C:time-range{attributes(start, end)}/></C:free-busy-query>".encode()


def busy_times(start, end, *times, now="20250310T094640Z"):
    """The reply to a free-busy-query at a moment: each time with its class."""
    return reply(200, lines("BEGIN:VCALENDAR", "VERSION:2.0", "PRODID:-//caldav_server//EN", "BEGIN:VFREEBUSY", "UID:free-busy", "DTSTAMP:" + now, "DTSTART:" + start, "DTEND:" + end,
                            *[f"FREEBUSY;FBTYPE={kind}:{time}" for kind, time in times], "END:VFREEBUSY", "END:VCALENDAR"), TEXT)


def report(body, path=CALENDAR, **how):
    return request("REPORT", path, body, media="application/xml", **how)


def propfind(asked):
    return f"<D:propfind {NAMES}><D:prop>{asked}</D:prop></D:propfind>".encode()


def update(*names):
    return f"<D:propertyupdate {NAMES}><D:set><D:prop>{''.join(names)}</D:prop></D:set></D:propertyupdate>".encode()


def make(*names):
    return f"<C:mkcalendar {NAMES}><D:set><D:prop>{''.join(names)}</D:prop></D:set></C:mkcalendar>".encode()


def ace(principal, privilege="<C:read-free-busy/>", inner=""):
    return f"<D:ace>{principal}{inner}<D:grant><D:privilege>{privilege}</D:privilege></D:grant></D:ace>"


def grants(*aces):
    return f"<D:acl {NAMES}>{''.join(aces)}</D:acl>".encode()


BOB = "<D:principal><D:href>/principals/bob/</D:href></D:principal>"
NOBODY = "<D:principal><D:href>/principals/nobody/</D:href></D:principal>"

# Cases

CASES, ANSWERS = [], []  # of scripts
WALKS, TOLD = [], []
KEPT, LOADED = [], []  # of books that are kept
RUNS, LEFT = [], []  # of journal files


def case(title, text, status, place, output, form="frames", read="-", write="-", words="script --users users"):
    assert b"#" not in text and "#" not in title
    CASES.append(f"#{title}\n{form} {read} {write} {words}\n".encode() + text)
    ANSWERS.append(f"# {title}\nstatus {status} place {place}\n".encode() + output)


def runs(title, steps, connection=0, **how):
    """A script that is read to its end."""
    text, output = exchange(steps, connection)
    case(title, text, 0, len(whole(text)), output, **how)


def ends():
    """How scripts end."""
    stranger = frame(b"OPTIONS / HTTP/1.1\r\nHost: h\r\n\r\n")
    away = answer(reply(401))
    assert len(stranger) == 54 and len(reply(401)) == 125
    case("an empty script", b"", 0, 0, b"")
    case("a request without credentials", stranger, 0, 54, away)
    for words in ("", "script", "script --users", "script --user users", "script --users users users", "Script --users users", "--users users script"):
        case(f"other words: {words or 'none'}", stranger, 2, 0, b"", words=words)
    case("a users file with a bad second line", stranger, 3, 76, b"", words="script --users bad")
    case("a users file of one octet too many", stranger, 3, 65536, b"", words="script --users long")
    case("a users file of as many octets as one may have", stranger, 0, 54, away, words="script --users limit")
    case("a users file that is not there", stranger, 4, 0, b"", words="script --users absent")
    case("the first read fails", stranger, 4, 0, b"", read=0)
    case("the second read fails", stranger, 4, 0, away, read=1)
    case("the first write fails", stranger, 5, 0, b"", write=0)
    for line in (b"bytes 16 0 0\n\n", b"bytes 0 01 0\n\n", b"bytes 0 253402300800 0\n\n", b"bytes 0 0 1048577\n", b"bytes 0 0\n\n", b"bytes  0 0 0\n\n",
                 b"bytes 0 0 0 \n\n", b"bytes 00 0 0\n\n", b"bytes -1 0 0\n\n", b"claim 64\n", b"claim 00\n", b"claim\n", b"claims 0\n", b"Claim 0\n", b"\n", b"reply 0 0\n\n"):
        case(f"a bad frame: {line.split(bytes([10]))[0].decode()}", line, 6, 0, b"")
    for text in (b"b", b"bytes 0 0 0", b"bytes 0 0 0\n", b"bytes 0 0 1\nx", b"claim 0"):
        case(f"an input that ends within a frame, at {len(text)}", text, 6, 0, b"")
    case("a payload without its line feed", b"bytes 0 0 0\n\nbytes 0 0 1\nxy", 6, 13, b"")
    case("a bad frame behind an answered one", stranger + b"bytes 16 0 0\n", 6, 54, away)
    case("a bad frame behind workers' ones", b"claim 63\nexpand 63\npublish 63\nabandon 63\nclaim 07\n", 6, 41, b"")
    case("the greatest numbers that a frame may have", b"bytes 15 253402300799 0\n\nabandon 63\n", 0, 36, b"")


def cuttings():
    """Octets in any cutting, with frames of workers between."""
    steps = [
        (put("one.ics", E1), stored(E1)),
        (report(query("20250310T090000Z", "20250310T100000Z")), found((CALENDAR + "one.ics", [(200, f'<D:getetag>"{etag(E1)}"</D:getetag>' + data(E1))]))),
        (put("meet.ics", PLAN), stored(PLAN)),
        (report(expanded("20250301T000000Z", "20250329T000000Z")), None),
    ]
    assert len(steps[0][0]) == 335 and len(steps[0][1]) == 154 and len(steps[1][0]) == 458 and len(steps[1][1]) == 770
    standing = event("one", "DTSTART:20250310T090000Z", "DTEND:20250310T100000Z", "SUMMARY:Stand-up")
    steps[3] = (steps[3][0], found((CALENDAR + "meet.ics", [(200, data(PLANNED))]), (CALENDAR + "one.ics", [(200, data(standing))])))
    octets = b"".join(asked for asked, _ in steps)
    text, output = exchange(steps)
    replies = [answer(told) for _, told in steps]
    case("a meeting and a plan, a frame each", text, 0, len(text), output)
    case("the same in one frame", frame(octets), 0, len(frame(octets)), output)
    each = len(b"bytes 0 1741600000 1\nx\nclaim 0\nexpand 0\npublish 0\n")
    case("the same octet by octet, with workers between", octets, 0, each * len(octets), output, form="octets")
    ends_of = [each * sum(len(asked) for asked, _ in steps[:n + 1]) for n in range(4)]
    for read in range((each * len(octets) + 65535) // 65536 + 1):
        taken = sum(end <= min(65536 * read, each * len(octets)) for end in [end - each + 23 for end in ends_of])
        case(f"and its read {read} fails", octets, 4, 0, b"".join(replies[:taken]), form="octets", read=read)
    for write in range(4):
        case(f"and its write {write} fails", octets, 5, 0, b"".join(replies[:write]), form="octets", write=write)
    body = steps[0][0][-len(E1):]
    head = steps[0][0][:-len(E1)].replace(b"Content-Length: 191", b"Transfer-Encoding: chunked")
    chunked = head + b"64\r\n" + body[:100] + b"\r\n5b\r\n" + body[100:] + b"\r\n0\r\n\r\n"
    runs("the meeting in chunks of 100 and of 91 octets", [(chunked, steps[0][1]), steps[1]])
    case("a stream that is cut within a body", frame(steps[0][0][:300]), 0, len(frame(steps[0][0][:300])), b"")
    case("a stream of one octet", frame(b"x"), 0, len(frame(b"x")), b"")
    for cut in range(0, len(chunked), 37):
        text = frame(chunked[:cut], 3) + frame(request("GET", CALENDAR + "one.ics"))
        case(f"a request that is cut at {cut} changes nothing", text, 0, len(text), answer(reply(404)))
    options = request("OPTIONS", "/")
    allowed = reply(200, allow=OF_HOME)
    two = frame(options + request("OPTIONS", CALENDAR), 9)
    case("two whole requests in one frame", two, 0, len(two), answer(allowed, 9) + answer(reply(200, allow=OF_CALENDAR), 9))
    closing = request("OPTIONS", "/", more=["Connection: close"])
    text = frame(closing) + frame(options) + frame(options, 1) + frame(closing + options, 2)
    closed = reply(200, allow=OF_HOME, close=True)
    case("a connection that was closed drops later octets", text, 0, len(text), answer(closed) + answer(allowed, 1) + answer(closed, 2))
    old = request("OPTIONS", "/", version="1.0")
    text = frame(old + options)
    case("version 1.0 closes", text, 0, len(text), answer(closed))


def moments():
    """A reply has the date of the frame that brought the last octet of its request, whatever frames come before and behind it."""
    options, allowed = request("OPTIONS", "/"), reply(200, allow=OF_HOME)
    meeting, kept = put("one.ics", E1), stored(E1)
    day = ("20250310T000000Z", "20250311T000000Z")
    times = busy_times(*day, ("BUSY", "20250310T090000Z/20250310T100000Z"), now="20010909T014640Z")
    fault = b"GET / HTTP/2.0\r\n\r\n"
    steps = [  # connection, moment, octets, and the reply that they complete
        (0, MOMENT, options, allowed), (0, MOMENT + 60, options, allowed), (1, 0, meeting[:100], b""), (2, 86_399, options, allowed), (1, 1, meeting[100:-1], b""),
        (1, 951_782_400, meeting[-1:], kept), (0, 253_402_300_799, options, allowed), (0, 5, options + options[:9], allowed), (3, 1_000_000_000, report(busy(*day)), times),
        (0, 86_400, options[9:], allowed), (4, 1_200_000_000, fault, reply(505, close=True)), (4, 7, options, b""), (5, 1_300_000_000, request("GET", "/", who=None), reply(401)),
        (6, 1_400_000_000, put("one.ics", E1, if_match='"0"'), reply(412)), (7, 1_500_000_000, b"\r\n", b""), (7, 1_600_000_000, request("GET", CALENDAR + "one.ics"), reply(200, E1, TEXT, etag(E1))),
    ]
    assert formatdate(951_782_400, usegmt=True) == "Tue, 29 Feb 2000 00:00:00 GMT" and formatdate(1_000_000_000, usegmt=True) == "Sun, 09 Sep 2001 01:46:40 GMT"
    text = b"".join(frame(octets, connection, moment) + b"claim 0\n" for connection, moment, octets, _ in steps)
    output = b"".join(answer(dated(told, moment), connection) for connection, moment, _, told in steps if told)
    case("frames of other moments: a reply has that of its request's last octet", text, 0, len(text), output)


def streams():
    """Faults of streams, each of which closes its connection."""
    head = "PUT /calendars/alice/calendar/one.ics HTTP/1.1\r\n"
    chunked = (head + "Authorization: Basic " + PASSWORDS["alice"] + "\r\nTransfer-Encoding: chunked\r\n\r\n").encode()
    many = b"GET / HTTP/1.1\r\n" + b"a: b\r\n" * 101 + b"\r\n"
    faults = [
        ("a field twice", (head + "Depth: 0\r\nDepth: 0\r\n\r\n").encode(), 400),
        ("a body's length of one too many", (head + "Content-Length: 1048577\r\n\r\n").encode(), 413),
        ("101 fields", many, 431),
        ("a head of 16,384 octets without an end", b"GET / HTTP/1.1\r\nX: ~16365~", 431),
        ("version 2.0", b"GET / HTTP/2.0\r\n\r\n", 505),
        ("a chunk line of nine digits", chunked + b"100000001\r\n", 400),
        ("a chunk line of nine digits with a zero in front", chunked + b"000000001\r\n", 400),
        ("a chunk of one octet too many", chunked + b"100001\r\n", 413),
        ("no chunk line", chunked + b"5 \r\n", 400),
        ("a chunk line of 257 octets", chunked + b"5;~253~", 400),
        ("a chunk without its end", chunked + b"1\r\nxy", 400),
    ]
    text = b"".join(frame(octets, n) + frame(request("OPTIONS", "/"), n) for n, (_, octets, _) in enumerate(faults))
    output = b"".join(answer(reply(status, close=True), n) for n, (_, _, status) in enumerate(faults))
    case("faults of streams: " + ", ".join(name for name, _, _ in faults), text, 0, len(whole(text)), output)
    fits = [b"GET / HTTP/1.1\r\n" + b"a: b\r\n" * 100 + b"\r\n", b"OPTIONS / HTTP/1.1\r\nX:~16358~\r\n\r\n"]
    assert len(whole(fits[1])) == 16384
    runs("a head of 100 fields, and one of 16,384 octets", [(octets, reply(401)) for octets in fits])


def objects():
    """Objects at their limits, and such as are seldom."""
    span = ("20250101T000000Z", "20250101T010000Z")

    def rule(text, uid, start="20250101T000000Z"):
        return event(uid, "DTSTART:" + start, "RRULE:" + text)

    def once(uid, text, start="20250101T000000Z"):
        shown = event(uid, "DTSTART:" + start, "RECURRENCE-ID:" + start)
        return report(expanded(*ALL)), [(put(uid + ".ics", rule(text, uid, start)), stored(rule(text, uid, start)))], (CALENDAR + uid + ".ics", [(200, data(shown))])

    def zoned(uid, inner, start="DTSTART;TZID=Z:20250310T090000"):
        return calendar("BEGIN:VTIMEZONE", "TZID:Z", "BEGIN:STANDARD", *inner, "END:STANDARD", "END:VTIMEZONE",
                        "BEGIN:VEVENT", "UID:" + uid, "DTSTAMP:20250101T000000Z", start, "END:VEVENT")

    bad = refused("<C:valid-calendar-data/>")
    deep = event("d4", "DTSTART:20250101T000000Z", "BEGIN:VALARM", "BEGIN:X-A", "END:X-A", "END:VALARM")
    deeper = event("d5", "DTSTART:20250101T000000Z", "BEGIN:VALARM", "BEGIN:X-A", "BEGIN:X-B", "END:X-B", "END:X-A", "END:VALARM")
    eight = event("r8", "DTSTART:20250101T000000Z", *["RRULE:FREQ=DAILY;COUNT=2"] * 8)
    nine = event("r9", "DTSTART:20250101T000000Z", *["RRULE:FREQ=DAILY;COUNT=2"] * 9)
    wide = zoned("far", ["DTSTART:19700101T000000", "TZOFFSETFROM:+235959", "TZOFFSETTO:-235959"])
    hourly = zoned("zh", ["DTSTART:16010101T000000", "RRULE:FREQ=HOURLY", "TZOFFSETFROM:+0000", "TZOFFSETTO:+0100"])
    minutely = zoned("zm", ["DTSTART:16010101T000000", "RRULE:FREQ=MINUTELY;COUNT=2", "TZOFFSETFROM:+0000", "TZOFFSETTO:+0100"])
    most = event("l0", "DTSTART:20250101T000000Z", "DURATION:P200000D")
    more = event("l1", "DTSTART:20250101T000000Z", "DURATION:P200001D")
    hours = "BYHOUR=" + ",".join(map(str, range(24)))
    picks = event("p24", "DTSTART:20250101T000000Z", f"RRULE:FREQ=DAILY;COUNT=2;BYSETPOS=1;BYMINUTE=0;{hours}")
    over = event("p48", "DTSTART:20250101T000000Z", f"RRULE:FREQ=DAILY;COUNT=2;BYSETPOS=1;BYMINUTE=0,30;{hours}")
    runs("objects at their limits", [
        (put("d4.ics", deep), stored(deep)), (put("d5.ics", deeper), bad),
        (put("r8.ics", eight), stored(eight)), (put("r9.ics", nine), bad),
        (put("far.ics", wide), stored(wide)),
        (put("zh.ics", hourly), bad), (put("zm.ics", minutely), bad),
        (put("l0.ics", most), stored(most)), (put("l1.ics", more), bad),
        (put("p24.ics", picks), stored(picks)), (put("p48.ics", over), bad),
        (report(query("20250311T085959Z", "20250311T090000Z", "<D:getetag/>")), found(
            *[(CALENDAR + name, [(200, f'<D:getetag>"{etag(octets)}"</D:getetag>')]) for name, octets in (("far.ics", wide), ("l0.ics", most))])),
        (report(query("20250311T085800Z", "20250311T085959Z", "<D:getetag/>")), found((CALENDAR + "l0.ics", [(200, f'<D:getetag>"{etag(most)}"</D:getetag>')]))),
    ])
    alone = calendar("BEGIN:VEVENT", "UID:alone", "RECURRENCE-ID:20250310T090000Z", "DTSTART:20250312T140000Z", "DTEND:20250312T150000Z", "END:VEVENT")
    undated = event("undated", "SUMMARY:Some day")
    runs("an override without a master, and an event without a start", [
        (put("alone.ics", alone), stored(alone)), (put("undated.ics", undated), stored(undated)),
        (report(expanded(*ALL)), found((CALENDAR + "alone.ics", [(200, data(alone))]))),
        (report(query("20250312T140000Z", "20250312T140001Z", "<D:getetag/>")), found((CALENDAR + "alone.ics", [(200, f'<D:getetag>"{etag(alone)}"</D:getetag>')]))),
        (report(query("20250310T000000Z", "20250312T140000Z", "<D:getetag/>")), found()),
        (request("GET", CALENDAR + "undated.ics"), reply(200, undated, TEXT, etag(undated))),
    ])
    singles = [
        once("february", "FREQ=YEARLY;BYMONTH=2;BYMONTHDAY=30"),
        once("interval", "FREQ=YEARLY;INTERVAL=999999999"),
        once("last", "FREQ=DAILY;COUNT=999999999", "21001231T000000Z"),
    ]
    runs("rules that give their start alone", [step for _, puts, _ in singles for step in puts] + [(singles[0][0], found(*[shown for _, _, shown in singles]))])
    size = 262_144 - len(event("large", "DTSTART:20250101T000000Z", "X-NOTE:"))
    large = event("large", "DTSTART:20250101T000000Z", f"X-NOTE:~{size}~")
    larger = event("large", "DTSTART:20250101T000000Z", f"X-NOTE:~{size + 1}~")
    assert len(whole(large)) == 262_144
    runs("an object of as many octets as one may have, and of one more", [
        (put("large.ics", larger), refused("<C:max-resource-size/>")), (put("large.ics", large), stored(large)),
    ])

    def nest(depth):
        return "<a>" * (depth - 3) + "<a/>" + "</a>" * (depth - 3)

    shown = found(("/", [(404, "<a/>")]))
    runs("a body 32 deep, and 33 deep", [
        (request("PROPFIND", "/", propfind(nest(32)), depth="0"), shown), (request("PROPFIND", "/", propfind(nest(33)), depth="0"), reply(400)),
    ])


# The order of refusals

SETTING = [
    (request("ACL", CALENDAR, grants(ace(BOB))), reply(200)),
    (put("one.ics", E1), stored(E1)),
    (put("two.ics", E2), stored(E2)),
    (request("MKCALENDAR", HOME + "todos/", make('<C:supported-calendar-component-set><C:comp name="VTODO"/></C:supported-calendar-component-set>')), reply(201)),
    (request("MKCALENDAR", HOME + "part/"), reply(201)),
    (request("ACL", HOME + "part/", grants(ace(BOB, "<D:bind/>"))), reply(200)),
    (put("there.ics", E1, HOME + "part/"), stored(E1)),
]


class Order:
    """A method's refusals in their order: each alone, and each with the next one, of which the first is told."""

    def __init__(self, method, path, done, **base):
        self.base = dict(method=method, path=path, **base)
        self.done, self.stages, self.steps = done, [], []

    def add(self, name, told, **changes):
        """A refusal, with what it changes in the request, and its reply, or what gives it for a path."""
        self.stages.append((name, told, changes))

    def asked(self, changes, told):
        how = {**self.base, **changes}
        for key in [key for key in how if how[key] is None and key != "who"]:
            del how[key]
        return request(**how), told(how["path"]) if callable(told) else told

    def run(self, *both, never=()):
        """`both` has the changes of pairs that touch the same part of a request; `never` the pairs that no request has.

        A pair of `both` may have others between its two, which no request has with the first.
        """
        given = dict((pair, changes) for pair, changes in both)
        for name, told, changes in self.stages:
            self.steps.append(self.asked(changes, told))
        for (first, told, changes), (second, _, others) in zip(self.stages, self.stages[1:]):
            if (first, second) in never:
                continue
            if (first, second) in given:
                merged = given.pop((first, second))
            else:
                assert not set(changes) & set(others), (self.base["method"], first, second)
                merged = {**others, **changes}
            self.steps.append(self.asked(merged, told))
        place = {name: number for number, (name, _, _) in enumerate(self.stages)}
        for (first, second), merged in given.items():
            assert place[first] + 1 < place[second] and (first, self.stages[place[first] + 1][0]) in never, (first, second)
            self.steps.append(self.asked(merged, self.stages[place[first]][1]))
        self.steps.append(self.asked({}, self.done))
        names = ", ".join(name for name, _, _ in self.stages)
        return runs(f"{self.base['method']} {self.base['path']}: {names}", SETTING + self.steps)


def starts(order, shape=True, hidden=True):
    order.add("stranger", reply(401), who=None)
    if shape:
        order.add("path without the method", reply(405, allow=OF_HOME), path=HOME)
    if hidden:
        order.add("hidden", reply(404), who="carol")


def fields(order, media=True):
    order.add("coding", reply(415), coding="gzip")
    if media:
        order.add("type", reply(415), media="text/plain")


OF_OBJECTS, OF_CALENDARS = OF_OBJECT.split(", "), OF_CALENDAR.split(", ")
METHODS = OF_OBJECTS + [method for method in OF_CALENDARS if method not in OF_OBJECTS]


def of(method, path, **how):
    """A request of a method, right in itself."""
    base = {
        "PUT": dict(body=E1, media="text/calendar"), "PROPFIND": dict(body=propfind("<D:resourcetype/>"), depth="0"), "PROPPATCH": dict(body=update("<D:displayname>x</D:displayname>")),
        "REPORT": dict(body=query(*ALL, "<D:getetag/>")), "ACL": dict(body=grants(ace(BOB))),
    }
    return request(method, path, **{**base.get(method, {}), **how})


def each(path, object_path, told, others={}, **how):
    """A request of each method on the path of a calendar and of an object, and its reply: one for all, but for `others`."""
    return [(of(method, at, **how), others.get((method, at), told)) for at, those in ((path, OF_CALENDARS), (object_path, OF_OBJECTS)) for method in those]


def shapes():
    """What each method is answered at a stream's fault, at no path, and at what is not there or is hidden."""
    faulty = [(n, request(method, "/", who=None, depth="0", more=["Depth: 0"])) for n, method in enumerate(METHODS)]
    text = b"".join(frame(octets + request("OPTIONS", "/"), n) for n, octets in faulty)
    case("each method on a stream with a fault, without credentials", text, 0, len(text), b"".join(answer(reply(400, close=True), n) for n, _ in faulty))
    runs("each method on no path, with credentials and without", [
        step for method in METHODS for step in ((of(method, "/calendars/alice/calendar/one.ics/more"), reply(404)), (of(method, "/nowhere", who=None), reply(401)))])
    runs("each method on each path that does not have it", [
        (of(method, path), reply(405, allow=allow, head=method == "HEAD")) for path, allow in (
            ("/", OF_HOME), ("/principals/alice/", OF_HOME), ("/principals/nobody/", OF_HOME), (HOME, OF_HOME), (CALENDAR, OF_CALENDAR), (CALENDAR + "one.ics", OF_OBJECT))
        for method in METHODS if method not in allow.split(", ")])
    runs("each method on what an unknown user would have", each("/calendars/nobody/calendar/", "/calendars/nobody/calendar/one.ics", reply(404)) + [
        (of(method, path), reply(404)) for method in ("OPTIONS", "PROPFIND") for path in ("/principals/nobody/", "/calendars/nobody/")])
    runs("each method in a home that is hidden", SETTING + each(CALENDAR, CALENDAR + "one.ics", reply(404), who="carol") + [
        (of(method, HOME, who="carol"), reply(404)) for method in ("OPTIONS", "PROPFIND")])
    steps = []
    for name in ("todos", "none"):
        path, object_path = f"{HOME}{name}/", f"{HOME}{name}/one.ics"
        steps += each(path, object_path, reply(404), {
            ("OPTIONS", path): reply(200, allow=OF_CALENDAR), ("OPTIONS", object_path): reply(200, allow=OF_OBJECT), ("MKCALENDAR", path): needs(path, "D:bind"),
        }, who="bob")
    runs("each method in a hidden calendar of a home that is seen, and in one that is not there", SETTING + steps)
    path, object_path = HOME + "none/", HOME + "none/one.ics"
    runs("each method in a calendar that is not there", [step for step in each(path, object_path, reply(404), {
        ("OPTIONS", path): reply(200, allow=OF_CALENDAR), ("OPTIONS", object_path): reply(200, allow=OF_OBJECT), ("MKCALENDAR", path): reply(201),
    }) if step[1] != reply(201)] + [(of("MKCALENDAR", path), reply(201))])


def conditions():
    """Conditional fields of each method: malformed ones, those that count nothing, and weak tags."""
    steps, fresh = [], HOME + "fresh/"
    for field in (dict(if_match="x"), dict(if_none='"a",'), dict(if_match='*, "0"'), dict(if_match="W/x"), dict(if_none='w/"0"')):
        steps += each(CALENDAR, CALENDAR + "one.ics", reply(400), **field)
        steps += [(of(method, fresh, **field), reply(400 if method in ("OPTIONS", "MKCALENDAR") else 404)) for method in OF_CALENDARS]
        steps += [(of(method, HOME, **field), reply(400)) for method in ("OPTIONS", "PROPFIND")]
    runs("each method with a malformed If-Match and with a malformed If-None-Match", SETTING + steps)
    shown, named = found((CALENDAR, [(200, "<D:resourcetype><D:collection/><C:calendar/></D:resourcetype>")])), found((CALENDAR, [(200, "<D:displayname/>")]))
    reported = found(*[(CALENDAR + name, [(200, f'<D:getetag>"{etag(octets)}"</D:getetag>')]) for name, octets in (("one.ics", E1), ("two.ics", E2))])
    steps = []
    for field in (dict(if_match='"0"'), dict(if_none="*"), dict(if_match='"0"', if_none="*")):
        steps += [
            (of("OPTIONS", CALENDAR, **field), reply(200, allow=OF_CALENDAR)), (of("OPTIONS", CALENDAR + "one.ics", **field), reply(200, allow=OF_OBJECT)),
            (of("PROPFIND", CALENDAR, **field), shown), (of("PROPPATCH", CALENDAR, **field), named), (of("REPORT", CALENDAR, **field), reported), (of("ACL", CALENDAR, **field), reply(200)),
            (of("MKCALENDAR", fresh, **field), reply(201)), (of("DELETE", fresh, **field), reply(204)),
        ]
    runs("conditions count on objects alone, and not of OPTIONS", SETTING + steps)
    one = CALENDAR + "one.ics"
    runs("Depth counts of PROPFIND alone", SETTING + [step for depth in ("2", "infinity", "x") for step in (
        (of("OPTIONS", CALENDAR, depth=depth), reply(200, allow=OF_CALENDAR)), (of("GET", one, depth=depth), reply(200, E1, TEXT, etag(E1))), (of("PUT", one, depth=depth), stored(E1, 204)),
        (of("PROPPATCH", CALENDAR, depth=depth), named), (of("REPORT", CALENDAR, depth=depth), reported), (of("ACL", CALENDAR, depth=depth), reply(200)),
        (of("MKCALENDAR", fresh, depth=depth), reply(201)), (of("DELETE", fresh, depth=depth), reply(204)),
        (of("PROPFIND", CALENDAR, depth=depth), refused("<D:propfind-finite-depth/>") if depth == "infinity" else reply(400)),
    )])
    own, weak = f'"{etag(E1)}"', f'W/"{etag(E1)}"'
    runs("If-Match is compared strongly, If-None-Match weakly", SETTING + [
        *[(of(method, one, if_match=weak), reply(412, head=method == "HEAD")) for method in ("GET", "HEAD", "PUT", "DELETE", "PROPFIND")],
        *[(of(method, one, if_none=tags), reply(304, etag=etag(E1))) for method in ("GET", "HEAD") for tags in (own, weak, f'"0", {weak}', "*")],
        *[(of(method, one, if_none=tags), reply(412)) for method in ("PUT", "DELETE", "PROPFIND") for tags in (own, weak, f'"0", {weak}', "*")],
        *[(of(method, one, if_match='"0"', if_none=own), reply(412)) for method in ("GET", "HEAD", "PUT", "DELETE", "PROPFIND")],
        *[(of(method, CALENDAR + "none.ics", if_match="*"), reply(404)) for method in ("GET", "HEAD", "DELETE", "PROPFIND")],
        (put("new.ics", NEW, if_match="*"), reply(412)), (put("new.ics", NEW, if_match=own), reply(412)),
        (put("new.ics", NEW, if_none=own), stored(NEW)), (put("one.ics", E1, if_match="*"), stored(E1, 204)), (put("one.ics", E1, if_match=own, if_none='"0"'), stored(E1, 204)),
        (request("GET", one, if_match=own), reply(200, E1, TEXT, etag(E1))), (request("DELETE", one, if_match=f'{weak}, {own}'), reply(204)), (request("GET", one), reply(404)),
    ])


def bodies():
    """Bodies that are no XML, and roots of other methods."""
    faults = [
        ("another encoding", b"<?xml version='1.0' encoding='latin1'?><a/>"), ("a document type", b"<!DOCTYPE a><a/>"), ("an entity", b"<a>&x;</a>"), ("a prefix that nothing declares", b"<x:a/>"),
        ("33 levels", b"<a>" * 33 + b"</a>" * 33), ("a body that ends inside", b"<a>"), ("two roots", b"<a/><a/>"),
    ]
    at = {"PROPFIND": CALENDAR, "PROPPATCH": CALENDAR, "REPORT": CALENDAR, "MKCALENDAR": HOME + "fresh/", "ACL": CALENDAR}
    runs("bodies of each method that are no XML: " + ", ".join(name for name, _ in faults), [
        (of(method, path, body=octets), reply(400)) for method, path in at.items() for _, octets in faults])
    name = "<D:displayname>x</D:displayname>"
    roots = {"PROPFIND": propfind("<D:getetag/>"), "PROPPATCH": update(name), "REPORT": query(*ALL), "MKCALENDAR": make(name), "ACL": grants()}
    runs("bodies of each method with the root of another", [
        (of(method, path, body=body), refused("<D:supported-report/>") if method == "REPORT" else reply(400)) for method, path in at.items() for other, body in roots.items() if other != method])


def methods():
    unknown = [
        ("an unknown method", request("POST", CALENDAR), reply(501)),
        ("an unknown method on no path", request("MOVE", "/nowhere"), reply(501)),
        ("an unknown method of a stranger", request("LOCK", CALENDAR, who=None), reply(401)),
        ("a method in small letters", request("get", CALENDAR + "one.ics"), reply(501)),
        ("no path", request("GET", "/nowhere"), reply(404)),
        ("no path, with a body that is none", request("PROPFIND", "/nowhere", b"x"), reply(404)),
        ("an unknown user", request("PROPFIND", "/principals/nobody/", depth="0"), reply(404)),
        ("a path without the method, of an unknown user", request("GET", "/calendars/nobody/"), reply(405, allow=OF_HOME)),
        ("an object's path without the method", request("REPORT", CALENDAR + "one.ics"), reply(405, allow=OF_OBJECT)),
        ("a calendar's path without the method", request("PUT", CALENDAR, b"x"), reply(405, allow=OF_CALENDAR)),
    ]
    runs("all methods: " + ", ".join(name for name, _, _ in unknown), [(asked, told) for _, asked, told in unknown])


def reading():
    for method in ("GET", "HEAD"):
        head = method == "HEAD"
        order = Order(method, CALENDAR + "one.ics", reply(200, E1, TEXT, etag(E1), head=head))
        order.add("stranger", reply(401, head=head), who=None)
        order.add("path without the method", reply(405, allow=OF_HOME, head=head), path=HOME)
        order.add("hidden", reply(404, head=head), who="carol")
        order.add("privilege", lambda path: needs(path, "D:read", head=head), who="bob")
        order.add("absent", reply(404, head=head), path=CALENDAR + "none.ics")
        order.add("coding", reply(415, head=head), coding="gzip")
        order.add("malformed", reply(400, head=head), if_none="x")
        order.add("If-Match", reply(412, head=head), if_match='"0"')
        order.add("If-None-Match", reply(304, etag=etag(E1), head=head), if_none="*")
        order.run((("hidden", "privilege"), dict(who="carol")))
    order = Order("OPTIONS", CALENDAR + "one.ics", reply(200, allow=OF_OBJECT), if_match='"0"')
    starts(order, shape=False)
    order.add("coding", reply(415), coding="gzip")
    order.add("malformed", reply(400), if_none="x")
    order.run((("stranger", "hidden"), dict(who=None, path="/calendars/nobody/calendar/one.ics")))
    runs("OPTIONS: what is hidden in a home that is seen, and in one that is not", SETTING + [
        (request("OPTIONS", HOME + "todos/", who="bob"), reply(200, allow=OF_CALENDAR)),
        (request("OPTIONS", HOME + "none/", who="bob"), reply(200, allow=OF_CALENDAR)),
        (request("OPTIONS", HOME, who="carol"), reply(404)),
        (request("OPTIONS", "/calendars/carol/none/", who="carol"), reply(200, allow=OF_CALENDAR)),
    ])
    order = Order("PROPFIND", CALENDAR + "one.ics", found((CALENDAR + "one.ics", [(200, f'<D:getetag>"{etag(E1)}"</D:getetag>')])),
                  body=propfind("<D:getetag/>"), media="text/xml", depth="0")
    starts(order, shape=False)
    order.add("privilege", lambda path: needs(path, "D:read"), who="bob")
    order.add("absent", reply(404), path=CALENDAR + "none.ics")
    fields(order)
    order.add("body", reply(400), body=b"<D:propfind xmlns:D='DAV:'/>")
    order.add("malformed", reply(400), if_none="x")
    order.add("no Depth", refused("<D:propfind-finite-depth/>"), depth=None)
    order.add("another Depth", reply(400), depth="2")
    order.add("If-Match", reply(412), if_match='"0"')
    order.add("If-None-Match", reply(412), if_none="*")
    order.run(
        (("stranger", "hidden"), dict(who=None, path="/calendars/nobody/calendar/one.ics")), (("hidden", "privilege"), dict(who="carol")),
        (("no Depth", "If-Match"), dict(depth=None, if_match='"0"')), never=[("no Depth", "another Depth")],
    )
    order = Order("PROPFIND", CALENDAR, found((CALENDAR, [(200, "<D:displayname>calendar</D:displayname>")])), body=propfind("<D:displayname/>"), media="text/xml", depth="0", if_match='"0"')
    starts(order, shape=False)
    fields(order)
    order.add("body", reply(400), body=b"<D:propfind xmlns:D='DAV:'/>")
    order.add("malformed", reply(400), if_none="x")
    order.add("no Depth", refused("<D:propfind-finite-depth/>"), depth="infinity")
    order.add("another Depth", reply(400), depth="2")
    order.run((("stranger", "hidden"), dict(who=None, path="/calendars/nobody/calendar/")), never=[("no Depth", "another Depth")])


def deleting():
    order = Order("DELETE", CALENDAR + "one.ics", reply(204))
    starts(order)
    order.add("privilege", lambda path: needs(path, "D:unbind"), who="bob")
    order.add("absent", reply(404), path=CALENDAR + "none.ics")
    order.add("coding", reply(415), coding="gzip")
    order.add("malformed", reply(400), if_none="x")
    order.add("If-Match", reply(412), if_match='"0"')
    order.add("If-None-Match", reply(412), if_none="*")
    order.run((("hidden", "privilege"), dict(who="carol")))
    order = Order("DELETE", CALENDAR, reply(204), if_match='"0"')
    starts(order)
    order.add("privilege", lambda path: needs(path, "D:unbind"), who="bob")
    order.add("coding", reply(415), coding="gzip")
    order.add("malformed", reply(400), if_none="x")
    order.run((("hidden", "privilege"), dict(who="carol")))


NEW = event("new", "DTSTART:20250312T090000Z", "DTEND:20250312T100000Z")


def putting():
    def refuses(name):
        return refused(f"<C:{name}/>")

    def conflict(name):
        return refused(f"<C:no-uid-conflict><D:href>{CALENDAR}{name}</D:href></C:no-uid-conflict>")

    def starting(moment, uid="new", *more):
        return event(uid, "DTSTART:" + moment, *more)

    order = Order("PUT", CALENDAR + "new.ics", stored(NEW), body=NEW, media="text/calendar")
    starts(order)
    order.add("privilege", lambda path: needs(path, "D:bind"), who="bob")
    order.add("coding", reply(415), coding="gzip")
    order.add("malformed", reply(400), if_none="x")
    order.add("If-Match", reply(412), if_match='"0"')
    order.add("If-None-Match", reply(412), if_none="*", path=CALENDAR + "one.ics")
    order.add("supported-calendar-data", refuses("supported-calendar-data"), media="text/plain")
    order.add("max-resource-size", refuses("max-resource-size"), body=event("new", "DTSTART:20250312T090000Z", "X-NOTE:~262144~"))
    order.add("valid-calendar-data", refuses("valid-calendar-data"), body=b"x")
    order.add("valid-calendar-object-resource", refuses("valid-calendar-object-resource"), body=calendar("METHOD:REQUEST", "BEGIN:VEVENT", "UID:new", "END:VEVENT"))
    order.add("supported-calendar-component", refuses("supported-calendar-component"), path=HOME + "todos/new.ics")
    order.add("min-date-time", refuses("min-date-time"), body=starting("15991231T235959Z"))
    order.add("max-date-time", refuses("max-date-time"), body=starting("21010101T000000Z"))
    order.add("max-instances", refuses("max-instances"), body=starting("20250101T000000Z", "new", "RRULE:FREQ=HOURLY"))
    order.add("no-uid-conflict", conflict("two.ics"), body=starting("20250101T000000Z", "two"))
    order.run(
        (("hidden", "privilege"), dict(who="carol")),
        (("max-resource-size", "valid-calendar-data"), dict(body=b"~262145~")),
        (("valid-calendar-data", "valid-calendar-object-resource"), dict(body=calendar("METHOD:REQUEST", "DTSTART:x", "BEGIN:VEVENT", "UID:new", "END:VEVENT"))),
        (("min-date-time", "max-date-time"), dict(body=starting("15991231T235959Z", "new", "RDATE:21010101T000000Z"))),
        (("max-date-time", "max-instances"), dict(body=starting("20250101T000000Z", "new", "RRULE:FREQ=HOURLY", "RDATE:21010101T000000Z"))),
        (("max-instances", "no-uid-conflict"), dict(body=starting("20250101T000000Z", "two", "RRULE:FREQ=MINUTELY;COUNT=2"))),
    )
    runs("PUT: other privileges, conditions and conflicts", SETTING + [
        (put("there.ics", E1, HOME + "part/", who="bob"), needs(HOME + "part/there.ics", "D:write-content")),
        (put("none.ics", E1, CALENDAR, who="bob"), needs(CALENDAR + "none.ics", "D:bind")),
        (put("one.ics", E1, CALENDAR, who="bob"), needs(CALENDAR + "one.ics", "D:bind")),
        (request("ACL", HOME + "todos/", grants(ace(BOB, "<D:write-content/>"))), reply(200)),
        (put("none.ics", todo("none"), HOME + "todos/", who="bob"), needs(HOME + "todos/none.ics", "D:bind")),
        (put("some.ics", todo("some"), HOME + "todos/"), stored(todo("some"))),
        (put("some.ics", todo("some"), HOME + "todos/", who="bob"), stored(todo("some"), 204)),
        (put("mine.ics", NEW, HOME + "part/", who="bob"), stored(NEW)),
        (put("one.ics", E1, HOME + "none/"), reply(404)),
        (put("one.ics", E1, "/calendars/nobody/calendar/"), reply(404)),
        (put("one.ics", E1, if_none="*"), reply(412)),
        (put("one.ics", E1, if_match='"0"'), reply(412)),
        (put("one.ics", E1, if_match=f'W/"{etag(E1)}"'), reply(412)),
        (put("one.ics", NEW), conflict("one.ics")),
        (put("one.ics", starting("20250101T000000Z", "two")), conflict("two.ics")),
        (put("new.ics", E1, HOME + "part/", who="bob"), refused("<C:no-uid-conflict/>")),
        (put("one.ics", E1, if_match=f'"0", "{etag(E1)}"'), stored(E1, 204)),
        (put("one.ics", E1, if_none='"0"'), stored(E1, 204)),
        (request("GET", CALENDAR + "one.ics"), reply(200, E1, TEXT, etag(E1))),
    ])


def properties():
    order = Order("PROPPATCH", CALENDAR, found((CALENDAR, [(200, "<D:displayname/>")])), body=update("<D:displayname>x</D:displayname>"), media="text/xml", if_match='"0"')
    starts(order)
    order.add("privilege", lambda path: needs(path, "D:write-properties"), who="bob")
    fields(order)
    order.add("body", reply(400), body=b"<D:propertyupdate xmlns:D='DAV:'/>")
    order.add("malformed", reply(400), if_none="x")
    order.add("setting", found((CALENDAR, [(403, "<D:getetag/>"), (424, "<D:displayname/>")])), body=update("<D:displayname>x</D:displayname>", "<D:getetag/>"))
    order.run((("hidden", "privilege"), dict(who="carol")))
    kinds = '<C:supported-calendar-component-set><C:comp name="VTODO"/></C:supported-calendar-component-set>'
    runs("PROPPATCH: settings that are refused, and those beside them", [
        (request("PROPPATCH", CALENDAR, update(*names)), found((CALENDAR, told))) for names, told in (
            (("<C:calendar-timezone>x</C:calendar-timezone>",), [(403, "<C:calendar-timezone/>")]),
            ((kinds, "<D:displayname>x</D:displayname>"), [(403, "<C:supported-calendar-component-set/>"), (424, "<D:displayname/>")]),
            (('<x xmlns="u">a<y/></x>', '<z xmlns="u"/>', "<C:max-instances/>"), [(403, '<x:x xmlns:x="u"/><C:max-instances/>'), (424, '<x:z xmlns:x="u"/>')]),
        )
    ] + [(request("PROPFIND", CALENDAR, propfind('<D:displayname/><z xmlns="u"/>'), depth="0"),
          found((CALENDAR, [(200, "<D:displayname>calendar</D:displayname>"), (404, '<x:z xmlns:x="u"/>')])))])
    order = Order("MKCALENDAR", HOME + "work/", reply(201), if_match='"0"')
    starts(order)
    order.add("privilege", lambda path: needs(path, "D:bind"), who="bob")
    fields(order)
    order.add("body", reply(400), body=b"<C:mkcalendar xmlns:C='urn:ietf:params:xml:ns:caldav'/>")
    order.add("malformed", reply(400), if_none="x")
    order.add("there", refused("<D:resource-must-be-null/>"), path=CALENDAR)
    order.add("setting", refused("<D:cannot-modify-protected-property/>"), body=make("<D:displayname>x</D:displayname>", "<D:getetag/>"))
    order.run((("hidden", "privilege"), dict(who="carol")))
    kinds = "<C:supported-calendar-component-set><C:comp name=\"VTIMEZONE\"/></C:supported-calendar-component-set>"
    zone, odd, text = "<C:calendar-timezone>x</C:calendar-timezone>", '<x xmlns="u"><y/></x>', "<D:displayname>x</D:displayname>"
    protected, bad = refused("<D:cannot-modify-protected-property/>"), refused("<C:valid-calendar-data/>")
    runs("MKCALENDAR: the first setting that is refused decides", [
        (request("MKCALENDAR", HOME + "work/", make(*names)), told) for names, told in (
            ((text, zone, kinds), bad), ((text, kinds, zone), protected), ((odd, zone), protected), ((zone, odd), bad), (("<D:acl/>", zone), protected), ((kinds,), protected), ((zone,), bad))
    ] + [(request("PROPFIND", HOME + "work/", depth="0"), reply(404))])


def granting():
    empty = "<D:principal/>"
    odd = "<D:principal><D:self/></D:principal>"
    bad = "<D:unlock/>"
    deny = "<D:deny><D:privilege><D:read/></D:privilege></D:deny>"
    short = "<ace><principal><all/></principal><grant><privilege><%s/></privilege></grant></ace>"

    def many(last):
        return f'<acl xmlns="DAV:">{short % "read" * 64}{short % last}</acl>'.encode()

    order = Order("ACL", CALENDAR, reply(200), body=grants(ace(BOB)), media="text/xml", if_match='"0"')
    starts(order)
    order.add("privilege", lambda path: needs(path, "D:write-acl"), who="bob")
    fields(order)
    order.add("body", reply(400), body=grants(f"<D:ace>{BOB}</D:ace>"))
    order.add("grant-only", refused("<D:grant-only/>"), body=grants(ace(BOB, inner=deny)))
    order.add("no-invert", refused("<D:no-invert/>"), body=grants(ace("", inner=f"<D:invert>{BOB}</D:invert>")))
    order.add("recognized-principal", refused("<D:recognized-principal/>"), body=grants(ace(NOBODY)))
    order.add("allowed-principal", refused("<D:allowed-principal/>"), body=grants(ace(odd)))
    order.add("not-supported-privilege", refused("<D:not-supported-privilege/>"), body=grants(ace(BOB, bad)))
    order.add("limited-number-of-aces", refused("<D:limited-number-of-aces/>"), body=many("read"))
    order.add("malformed", reply(400), if_none="x")
    order.run(
        (("hidden", "privilege"), dict(who="carol")),
        (("body", "grant-only"), dict(body=grants(ace(BOB, inner=deny), f"<D:ace>{BOB}</D:ace>"))),
        (("grant-only", "no-invert"), dict(body=grants(ace(BOB, inner=deny + f"<D:invert>{BOB}</D:invert>")))),
        (("no-invert", "recognized-principal"), dict(body=grants(ace(NOBODY, inner=f"<D:invert>{BOB}</D:invert>")))),
        (("allowed-principal", "not-supported-privilege"), dict(body=grants(ace(empty, bad)))),
        (("not-supported-privilege", "limited-number-of-aces"), dict(body=many("unlock"))),
        (("recognized-principal", "not-supported-privilege"), dict(body=grants(ace(NOBODY, bad)))),
        never=[("recognized-principal", "allowed-principal")],
    )
    later = ace(BOB, inner=deny)
    runs("ACL: the first ace that is refused decides", SETTING + [
        (request("ACL", CALENDAR, grants(ace(BOB, bad), later)), refused("<D:not-supported-privilege/>")),
        (request("ACL", CALENDAR, grants(ace(odd), later)), refused("<D:allowed-principal/>")),
        (request("ACL", CALENDAR, grants(ace(NOBODY), later)), refused("<D:recognized-principal/>")),
        (request("ACL", CALENDAR, grants(ace("", inner=f"<D:invert>{BOB}</D:invert>"), later)), refused("<D:no-invert/>")),
        (request("ACL", CALENDAR, grants(ace(BOB), later)), refused("<D:grant-only/>")),
        (request("GET", CALENDAR + "one.ics", who="bob"), needs(CALENDAR + "one.ics", "D:read")),
    ])


def reporting():
    month = ("20250301T000000Z", "20250401T000000Z")
    early, late = ("15991231T000000Z", "20250401T000000Z"), ("20250301T000000Z", "21010101T000000Z")
    nameless = "<C:prop-filter/>"
    dated = f'<C:prop-filter name="SUMMARY"><C:time-range{attributes(*month)}/></C:prop-filter>'
    collated = '<C:prop-filter name="SUMMARY"><C:text-match collation="x">a</C:text-match></C:prop-filter>'
    old = '<C:calendar-data version="3.0"/>'
    zone = "<C:timezone>x</C:timezone>"
    of_one = found((CALENDAR + "one.ics", [(200, f'<D:getetag>"{etag(E1)}"</D:getetag>')]), (CALENDAR + "two.ics", [(200, f'<D:getetag>"{etag(E2)}"</D:getetag>')]))

    def asks(*faults, span=month, asked="<D:getetag/>"):
        return query(*span, asked + "".join(f for f in faults if f == old), "".join(f for f in faults if f in (nameless, dated, collated)), "".join(f for f in faults if f == zone))

    def refuses(name, space="C"):
        return refused(f"<{space}:{name}/>")

    order = Order("REPORT", CALENDAR, of_one, body=asks(), media="text/xml", if_match='"0"')
    starts(order)
    fields(order)
    order.add("body", reply(400), body=b"x")
    order.add("supported-report", refuses("supported-report", "D"), body=b"<a/>")
    order.add("nameless", reply(400), body=asks(nameless))
    order.add("valid-filter", refuses("valid-filter"), body=asks(span=("", "")))
    order.add("supported-filter", refuses("supported-filter"), body=asks(dated))
    order.add("supported-collation", refuses("supported-collation"), body=asks(collated))
    order.add("supported-calendar-data", refuses("supported-calendar-data"), body=asks(old))
    order.add("malformed", reply(400), if_none="x")
    order.add("privilege", lambda path: needs(path, "D:read"), who="bob")
    order.add("zone", refuses("valid-calendar-data"), body=asks(zone))
    order.add("min-date-time", refuses("min-date-time"), body=asks(span=early))
    order.add("max-date-time", refuses("max-date-time"), body=asks(span=late))
    order.run(
        (("body", "supported-report"), dict(body=b"<a/>x")),
        (("nameless", "valid-filter"), dict(body=asks(nameless, span=("", "")))),
        (("valid-filter", "supported-filter"), dict(body=asks(dated, span=("", "")))),
        (("supported-filter", "supported-collation"), dict(body=asks(collated, dated))),
        (("supported-collation", "supported-calendar-data"), dict(body=asks(collated, old))),
        (("zone", "min-date-time"), dict(body=asks(zone, span=early))),
        (("min-date-time", "max-date-time"), dict(body=asks(span=("15991231T000000Z", "21010101T000000Z")))),
        (("supported-report", "malformed"), dict(body=b"<a/>", if_none="x")),
        never=[("supported-report", "nameless")],
    )
    several = f"<C:calendar-multiget {NAMES}><D:prop><D:getetag/></D:prop>%s</C:calendar-multiget>"
    href = f"<D:href>{CALENDAR}one.ics</D:href>"

    def expands(first, second, limit=""):
        return report(query(*second, f'<C:calendar-data><C:expand{attributes(*first)}/>{limit}</C:calendar-data>'))

    def gets(inner="<D:getetag/>", hrefs=href):
        return (several.replace("<D:getetag/>", inner) % hrefs).encode()

    def expanding(span):
        return gets(f"<C:calendar-data><C:expand{attributes(*span)}/></C:calendar-data>")

    times = busy_times(*month, ("BUSY", "20250310T090000Z/20250310T100000Z"), ("BUSY", "20250311T090000Z/20250311T100000Z"))
    order = Order("REPORT", CALENDAR, times, body=busy(*month), media="text/xml", if_match='"0"', who="bob")
    starts(order)
    fields(order)
    order.add("body", reply(400), body=f"<C:free-busy-query {NAMES}/>".encode())
    order.add("valid-filter", refuses("valid-filter"), body=busy("", ""))
    order.add("malformed", reply(400), if_none="x")
    order.add("privilege", lambda path: needs(path, "C:read-free-busy"), path=HOME + "part/")
    order.add("min-date-time", refuses("min-date-time"), body=busy(*early))
    order.add("max-date-time", refuses("max-date-time"), body=busy(*late))
    order.run(
        (("body", "valid-filter"), dict(body=busy("", "") + b"x")),
        (("min-date-time", "max-date-time"), dict(body=busy("15991231T000000Z", "21010101T000000Z"))),
    )
    order = Order("REPORT", CALENDAR, found((CALENDAR + "one.ics", [(200, f'<D:getetag>"{etag(E1)}"</D:getetag>')])), body=gets(), media="text/xml", if_match='"0"')
    starts(order)
    fields(order)
    order.add("body", reply(400), body=gets(hrefs=""))
    order.add("valid-filter", refuses("valid-filter"), body=expanding(("", "")))
    order.add("supported-calendar-data", refuses("supported-calendar-data"), body=gets(old))
    order.add("malformed", reply(400), if_none="x")
    order.add("privilege", lambda path: needs(path, "D:read"), who="bob")
    order.add("min-date-time", refuses("min-date-time"), body=expanding(early))
    order.add("max-date-time", refuses("max-date-time"), body=expanding(late))
    order.run(
        (("body", "valid-filter"), dict(body=gets('<C:calendar-data><C:expand/></C:calendar-data>', ""))),
        (("valid-filter", "supported-calendar-data"), dict(body=gets('<C:calendar-data version="3.0"><C:expand/></C:calendar-data>'))),
        (("min-date-time", "max-date-time"), dict(body=expanding(("15991231T000000Z", "21010101T000000Z")))),
    )

    def named(first, second, third, fourth, own=month, kind="expand"):
        """A query with ranges in each place where one can stand: a selection's two, the filter's own, that of a property in it and that of a component in it."""
        first, second, third, fourth = [attributes(*span) for span in (first, second, third, fourth)]
        inner = f'<C:comp-filter name="VALARM"><C:time-range{fourth}/></C:comp-filter><C:prop-filter name="DTSTART"><C:time-range{third}/></C:prop-filter>'
        return report(query(*own, f"<C:calendar-data><C:limit-freebusy-set{second}/><C:{kind}{first}/></C:calendar-data>", inner))

    steps = []
    for kind in ("expand", "limit-recurrence-set"):
        steps += [(named(early, late, late, late, late, kind), refuses("min-date-time")), (named(late, early, early, early, early, kind), refuses("max-date-time"))]
    for one, other, told in ((early, late, "min-date-time"), (late, early, "max-date-time")):
        steps += [(named(month, one, other, other, other), refuses(told)), (named(month, month, other, other, one), refuses(told)),
                  (named(month, month, one, other), refuses(told)), (named(month, month, month, one), refuses(told))]
    steps += [(named(month, month, month, month), found())]
    runs("REPORT: the first range that leaves the dates decides", SETTING + steps)

    def filtered(inner, top="VCALENDAR"):
        return report(f'<C:calendar-query {NAMES}><D:prop/><C:filter><C:comp-filter name="{top}">{inner}</C:comp-filter></C:filter></C:calendar-query>'.encode())

    def ranged(name, span):
        return f'<C:comp-filter name="{name}"><C:time-range{span}/></C:comp-filter>'

    absent, month_of = "<C:is-not-defined/>", attributes(*month)
    runs("REPORT: what a filter and a selection may not say", SETTING + [
        (filtered("", "VEVENT"), refuses("valid-filter")),
        (filtered(ranged("VEVENT", "")), refuses("valid-filter")),
        (filtered(ranged("VEVENT", ' start="20250301T000000"')), refuses("valid-filter")),
        (filtered(ranged("VEVENT", attributes(month[1], month[0]))), refuses("valid-filter")),
        (filtered(ranged("VEVENT", attributes(month[0], month[0]))), refuses("valid-filter")),
        (filtered(ranged("VTIMEZONE", month_of)), refuses("valid-filter")),
        (filtered(f'<C:comp-filter name="VEVENT">{absent}<C:time-range{month_of}/></C:comp-filter>'), refuses("valid-filter")),
        (filtered(f'<C:comp-filter name="VEVENT"><C:prop-filter name="SUMMARY">{absent}<C:text-match>a</C:text-match></C:prop-filter></C:comp-filter>'), refuses("valid-filter")),
        (filtered(f'<C:comp-filter name="VEVENT"><C:prop-filter name="SUMMARY"><C:time-range{month_of}/></C:prop-filter></C:comp-filter>'), refuses("supported-filter")),
        (filtered('<C:comp-filter name="VEVENT"><C:prop-filter name="SUMMARY"><C:text-match collation="i;unicode-casemap">a</C:text-match></C:prop-filter></C:comp-filter>'),
         refuses("supported-collation")),
        (report(query(*month, '<C:calendar-data content-type="text/plain"/>')), refuses("supported-calendar-data")),
        (report(query(*month, '<C:calendar-data version="1.0"/>')), refuses("supported-calendar-data")),
        (report(query(*month, f"<C:calendar-data><C:expand{month_of}/><C:limit-recurrence-set{month_of}/></C:calendar-data>")), reply(400)),
        (report(query(*month, "<C:calendar-data><C:expand/></C:calendar-data>")), refuses("valid-filter")),
        (report(f"<C:calendar-query {NAMES}><D:prop/></C:calendar-query>".encode()), reply(400)),
        (report(f"<C:calendar-query {NAMES}><D:prop/><C:filter/></C:calendar-query>".encode()), reply(400)),
        (filtered("<C:comp-filter/>"), reply(400)),
        (filtered(ranged("VEVENT", month_of)), found((CALENDAR + "one.ics", []), (CALENDAR + "two.ics", []))),
    ])
    runs("REPORT: other reports, and ranges of several kinds", SETTING + [
        (report(busy(*month), who="carol"), reply(404)),
        (report(busy(*month), HOME + "part/", who="bob"), needs(HOME + "part/", "C:read-free-busy")),
        (report(busy("", ""), HOME + "part/", who="bob"), refuses("valid-filter")),
        (report(f"<C:free-busy-query {NAMES}/>".encode()), reply(400)),
        (report(busy(*early)), refuses("min-date-time")),
        (report(busy(*late)), refuses("max-date-time")),
        (report((several % "").encode()), reply(400)),
        (report((several % href).encode(), who="bob"), needs(CALENDAR, "D:read")),
        (report((several % href).encode(), who="carol"), reply(404)),
        (report((several % href).encode()), found((CALENDAR + "one.ics", [(200, f'<D:getetag>"{etag(E1)}"</D:getetag>')]))),
        (expands(late, early), refuses("max-date-time")),
        (expands(early, late), refuses("min-date-time")),
        (expands(month, early, f"<C:limit-freebusy-set{attributes(*late)}/>"), refuses("max-date-time")),
    ])


def full_home():
    """A home that has accepted 33,554,432 octets, and what it then refuses: 507 comes behind all else, and deletions are made.

    MKCALENDAR without a body costs 256, and a PUT its body and 256, so the last PROPPATCH is the shorter by these. What is
    answered 507 costs nothing: behind three such requests, each of one octet too many, there is room for what fits to the
    octet.
    """
    part = HOME + "part/"
    displayname, made = update("<D:displayname>p</D:displayname>"), make("<D:displayname>p</D:displayname>")

    def costing(cost, method, path, body):
        return request(method, path, b"<!--~%d~-->" % (cost - 256 - len(b"<!---->") - len(body)) + body)

    def spends(cost):
        return (costing(cost, "PROPPATCH", part, displayname), found((part, [(200, "<D:displayname/>")])))

    left = 1_048_576 - 256 - (len(E1) + 256)
    wider = NEW.replace(b"UID:new", b"UID:newe")
    over = request("PROPPATCH", part, displayname)
    conflict = refused(f"<C:no-uid-conflict><D:href>{part}one.ics</D:href></C:no-uid-conflict>")
    return [
        (request("MKCALENDAR", part), reply(201)),
        (put("one.ics", E1, part), stored(E1)),
        *[spends(1_048_576)] * 31,
        (costing(left + 1, "PROPPATCH", part, displayname), reply(507)),
        (costing(left + 1, "ACL", part, grants()), reply(507)),
        (costing(left + 1, "MKCALENDAR", HOME + "more/", made), reply(507)),
        spends(left - (len(NEW) + 256)),
        (put("new.ics", wider, part), reply(507)),
        (put("new.ics", NEW, part), stored(NEW)),
        (over, reply(507)),
        (request("PROPPATCH", part, update("<D:getetag/>")), found((part, [(403, "<D:getetag/>")]))),
        (put("two.ics", E2, part), reply(507)),
        (put("one.ics", E1, part), reply(507)),
        (put("one.ics", E1, part, if_match='"0"'), reply(412)),
        (put("two.ics", E1, part), conflict),
        (request("ACL", part, grants()), reply(507)),
        (request("ACL", part, grants(ace(NOBODY))), refused("<D:recognized-principal/>")),
        (request("MKCALENDAR", HOME + "more/"), reply(507)),
        (request("MKCALENDAR", HOME + "more/", make("<D:getetag/>")), refused("<D:cannot-modify-protected-property/>")),
        (request("MKCALENDAR", part), refused("<D:resource-must-be-null/>")),
        (put("one.ics", E1, "/calendars/bob/calendar/", who="bob"), stored(E1)),
        (request("DELETE", part + "one.ics"), reply(204)),
        (request("GET", part + "two.ics"), reply(404)),
        (request("GET", part + "new.ics"), reply(200, NEW, TEXT, etag(NEW))),
        (request("DELETE", part), reply(204)),
        (put("new.ics", NEW), reply(507)),
    ]


def long_answers():
    """Answers of more octets than one may have: 403 comes behind a range that leaves the dates."""
    size = 262_144 - len(event("large", "DTSTART:20250101T000000Z", "X-NOTE:"))
    large = event("large", "DTSTART:20250101T000000Z", f"X-NOTE:~{size}~")

    def gets(count, data):
        return report(f"<C:calendar-multiget {NAMES}><D:prop>{data}</D:prop>{f'<D:href>{CALENDAR}large.ics</D:href>' * count}</C:calendar-multiget>".encode())

    def limited(start):
        return f"<C:calendar-data><C:limit-recurrence-set{attributes(start, '20250401T000000Z')}/></C:calendar-data>"

    over = refused("<D:number-of-matches-within-limits/>")
    runs("answers of more than 67,108,864 octets", [
        (put("large.ics", large), stored(large)), (gets(256, "<C:calendar-data/>"), over),
        (gets(257, limited("15991231T000000Z")), refused("<C:min-date-time/>")), (gets(257, limited("")), over),
        (gets(1, "<D:getcontentlength/>"), found((CALENDAR + "large.ics", [(200, "<D:getcontentlength>262144</D:getcontentlength>")]))),
    ])


def homes():
    runs("a home that has accepted all that it may", full_home())
    runs("a home of 64 calendars", [(request("MKCALENDAR", f"{HOME}c{n}/"), reply(201)) for n in range(63)] + [
        (request("MKCALENDAR", HOME + "c63/"), reply(507)), (request("MKCALENDAR", HOME + "c62/"), refused("<D:resource-must-be-null/>")),
        (request("MKCALENDAR", HOME + "c63/", make("<D:getetag/>")), refused("<D:cannot-modify-protected-property/>")), (request("GET", HOME + "c63/one.ics"), reply(404)),
        (request("DELETE", HOME + "c62/"), reply(204)), (request("MKCALENDAR", HOME + "c63/"), reply(201)),
    ])


def rows():
    """Worked examples, from an object to what a query, an expansion or a free-busy-query shows of it."""
    def day(*hours):
        return [f"20250310T{hour}00Z" for hour in hours]

    def shows(name, octets, path=CALENDAR):
        return found((path + name, [(200, f'<D:getetag>"{etag(octets)}"</D:getetag>' + data(octets))]))

    def asks(start, end, **how):
        return report(query(*day(start, end), **how))

    runs("queries that meet a meeting, and that touch it", [
        (put("one.ics", E1), stored(E1)), (asks("0900", "1000"), shows("one.ics", E1)), (asks("1000", "1100"), found()), (asks("0800", "0900"), found())])
    point = event("point", "DTSTART:20250310T090000Z", "DURATION:PT0S")
    runs("queries that begin and end at an event without a length", [(put("point.ics", point), stored(point)), (asks("0900", "1000"), shows("point.ics", point)), (asks("0800", "0900"), found())])
    long = event("long", "DTSTART:20250101T000000Z", "DTEND:20250411T000000Z")
    runs("an hour on the last day of a hundred", [(put("long.ics", long), stored(long)), (report(query("20250410T000000Z", "20250410T010000Z")), shows("long.ics", long))])

    def instances(uid, starts, value=""):
        return calendar(*[line for start in starts for line in (
            "BEGIN:VEVENT", "UID:" + uid, "DTSTAMP:20250101T000000Z", f"DTSTART{value}:{start}", f"RECURRENCE-ID{value}:{start}", "END:VEVENT")])

    def recurring(uid, start, rule):
        return event(uid, start, "RRULE:" + rule)

    def new_york(uid, *inner):
        return calendar(*NY, "BEGIN:VEVENT", "UID:" + uid, "DTSTAMP:20250101T000000Z", *inner, "END:VEVENT")

    leap = [f"{year}0229" for year in range(1604, 2100, 4) if year not in (1700, 1800, 1900)]
    assert len(leap) == 121 and leap[-1] == "20960229"
    week = "FREQ=WEEKLY;INTERVAL=2;COUNT=4;BYDAY=TU,SU;WKST="
    recurrences = [
        ("a31", recurring("a31", "DTSTART:20250131T090000Z", "FREQ=MONTHLY;BYMONTHDAY=31;COUNT=4"), instances("a31", [f"2025{month}31T090000Z" for month in ("01", "03", "05", "07")])),
        ("b-2", recurring("b-2", "DTSTART:19970929T090000", "FREQ=MONTHLY;BYDAY=MO,TU,WE,TH,FR;BYSETPOS=-2;COUNT=4"),
         instances("b-2", [f"1997{day}T090000" for day in ("0929", "1030", "1127", "1230")])),
        ("c3", recurring("c3", "DTSTART:19970904T090000", "FREQ=MONTHLY;COUNT=3;BYDAY=TU,WE,TH;BYSETPOS=3"), instances("c3", [f"1997{day}T090000" for day in ("0904", "1007", "1106")])),
        ("dmo", recurring("dmo", "DTSTART:19970805T090000", week + "MO"), instances("dmo", [f"199708{day}T090000" for day in ("05", "10", "19", "24")])),
        ("esu", recurring("esu", "DTSTART:19970805T090000", week + "SU"), instances("esu", [f"199708{day}T090000" for day in ("05", "17", "19", "31")])),
        ("fgap", new_york("fgap", "DTSTART;TZID=NY:20250308T023000", "RRULE:FREQ=DAILY;COUNT=3"), instances("fgap", ["20250308T073000Z", "20250310T063000Z", "20250311T063000Z"])),
        ("gtwice", new_york("gtwice", "DTSTART;TZID=NY:20251102T013000"), event("gtwice", "DTSTART:20251102T053000Z")),
        ("hleap", recurring("hleap", "DTSTART;VALUE=DATE:16040229", "FREQ=YEARLY"), instances("hleap", leap, ";VALUE=DATE")),
    ]
    runs("instances of rules: the 31st, places in a month, weeks from Monday and from Sunday, a time that is skipped and one that comes twice, each 29 February", [
        *[(put(f"{name}.ics", octets), stored(octets)) for name, octets, _ in recurrences],
        (report(expanded(*ALL)), found(*[(f"{CALENDAR}{name}.ics", [(200, data(shown))]) for name, _, shown in recurrences])),
    ])
    whole_day = ("20250310T000000Z", "20250311T000000Z")
    events = [
        event("tentative", "DTSTART:20250310T090000Z", "DTEND:20250310T110000Z", "STATUS:TENTATIVE"), event("busy", "DTSTART:20250310T100000Z", "DTEND:20250310T120000Z"),
        event("free", "DTSTART:20250310T080000Z", "DTEND:20250310T130000Z", "TRANSP:TRANSPARENT"),
    ]
    runs("a tentative event, one that overlaps it, and one that is transparent", [
        *[(put(f"{n}.ics", octets), stored(octets)) for n, octets in enumerate(events)],
        (report(busy(*whole_day)), busy_times(*whole_day, ("BUSY-TENTATIVE", "20250310T090000Z/20250310T100000Z"), ("BUSY", "20250310T100000Z/20250310T120000Z"))),
    ])
    asked = query(*day("0900", "1000"))
    runs("busy times are granted, and nothing else", [
        (put("one.ics", E1), stored(E1)), (request("ACL", CALENDAR, grants(ace(BOB))), reply(200)),
        (report(asked, who="bob"), needs(CALENDAR, "D:read")), (report(busy(*whole_day), who="bob"), busy_times(*whole_day, ("BUSY", "20250310T090000Z/20250310T100000Z"))),
        *[(request("GET", CALENDAR + name, who="bob"), needs(CALENDAR + name, "D:read")) for name in ("one.ics", "two.ics")],
        *[(report(body, who="carol"), reply(404)) for body in (asked, busy(*whole_day))],
    ])
    again = event("one", "DTSTART:20250311T090000Z")
    runs("what is refused changes nothing", [
        (put("one.ics", E1), stored(E1)), (put("one.ics", again, if_none="*"), reply(412)), (put("one.ics", again, if_match='"0"'), reply(412)), (report(asked), shows("one.ics", E1)),
        (put("two.ics", E1), refused(f"<C:no-uid-conflict><D:href>{CALENDAR}one.ics</D:href></C:no-uid-conflict>")),
        (put("h.ics", recurring("h", "DTSTART:20250101T000000Z", "FREQ=HOURLY")), refused("<C:max-instances/>")),
        (put("m.ics", recurring("m", "DTSTART:20250101T000000Z", "FREQ=MINUTELY;COUNT=2")), refused("<C:max-instances/>")),
        (put("e.ics", event("e", "DTSTART:15991231T235959Z")), refused("<C:min-date-time/>")), (put("l.ics", event("l", "DTSTART:21010101T000000Z")), refused("<C:max-date-time/>")),
        *[(request("GET", f"{CALENDAR}{name}.ics"), reply(404)) for name in ("two", "h", "m", "e", "l")], (request("GET", CALENDAR + "one.ics"), reply(200, E1, TEXT, etag(E1))),
    ])
    due, some = todo("due", "DUE:20250310T090000Z"), todo("some")
    tagged = [(f"{CALENDAR}{name}.ics", [(200, f'<D:getetag>"{etag(octets)}"</D:getetag>')]) for name, octets in (("due", due), ("some", some))]
    runs("a task that is due, and one without a date", [
        (put("due.ics", due), stored(due)), (put("some.ics", some), stored(some)),
        *[(asks(*hours, asked="<D:getetag/>", name=' name="VTODO"'), told) for hours, told in ((("0800", "0900"), found(*tagged)), (("0900", "1000"), found(tagged[1])))],
    ])

    def ringing(*more):
        return event("one", "DTSTART:20250310T090000Z", "DTEND:20250310T100000Z", "BEGIN:VALARM", "TRIGGER:-PT15M", *more, "END:VALARM", "SUMMARY:Stand-up")

    def rings(start, end):
        inner = f'<C:comp-filter name="VALARM"><C:time-range{attributes(*day(start, end))}/></C:comp-filter>'
        return report(query(*ALL, "<D:getetag/>", inner))

    once, thrice = ringing(), ringing("REPEAT:2", "DURATION:PT5M")
    told = [found((CALENDAR + "one.ics", [(200, f'<D:getetag>"{etag(octets)}"</D:getetag>')])) for octets in (once, thrice)]
    runs("an alarm a quarter of an hour before, and one that repeats", [
        (put("one.ics", once), stored(once)), (rings("0845", "0846"), told[0]), (rings("0846", "0930"), found()), (rings("0850", "0851"), found()),
        (put("one.ics", thrice), stored(thrice, 204)), (rings("0850", "0851"), told[1]), (rings("0855", "0856"), told[1]), (rings("0856", "0930"), found()),
    ])
    work = HOME + "work/"
    runs("a calendar is made, named, shown and deleted", [
        (request("MKCALENDAR", work), reply(201)), (request("MKCALENDAR", work), refused("<D:resource-must-be-null/>")),
        (request("PROPPATCH", work, update("<D:displayname>Work</D:displayname>")), found((work, [(200, "<D:displayname/>")]))),
        (request("PROPPATCH", work, update("<D:displayname>Play</D:displayname>", "<D:getetag/>")), found((work, [(403, "<D:getetag/>"), (424, "<D:displayname/>")]))),
        (request("PROPFIND", work, propfind("<D:displayname/>"), depth="0"), found((work, [(200, "<D:displayname>Work</D:displayname>")]))),
        (request("DELETE", work), reply(204)), (request("DELETE", work), reply(404)),
    ])


def teams():
    """Groups of users: `team` has bob and carol, `own` has alice and bob. What is granted to a group is granted to each who is in it."""
    def principal(name):
        return f"<D:href>/principals/{name}/</D:href>"

    def to(name, privilege="<D:read/>"):
        return request("ACL", CALENDAR, grants(ace(f"<D:principal>{principal(name)}</D:principal>", privilege)))

    def of_team(title, steps):
        runs(title, steps, words="script --users team")

    asked, shown = query("20250310T090000Z", "20250310T100000Z"), reply(200, E1, TEXT, etag(E1))
    queried = found((CALENDAR + "one.ics", [(200, f'<D:getetag>"{etag(E1)}"</D:getetag>' + data(E1))]))
    hidden = [(request("GET", CALENDAR + "one.ics", who="bob"), reply(404)), (report(asked, who="carol"), reply(404))]
    bobs = [(request("GET", CALENDAR + "one.ics", who="bob"), shown), (report(asked, who="bob"), queried)]
    of_team("a calendar that is granted to a group, then to one who is in it, then to a group of others", [
        (put("one.ics", E1), stored(E1)), *hidden, (to("team"), reply(200)), *bobs, (report(asked, who="carol"), queried),
        (to("bob"), reply(200)), *bobs, hidden[1], (to("own"), reply(200)), *bobs, hidden[1], (to("alice"), reply(200)), *hidden,
    ])
    read = "<D:privilege><C:read-free-busy/></D:privilege><D:privilege><D:read/></D:privilege>"
    owners = "<D:ace><D:principal><D:property><D:owner/></D:property></D:principal><D:grant><D:privilege><D:all/></D:privilege></D:grant><D:protected/></D:ace>"
    of_team("a grant to a group is shown by the group's name, and one to a group that there is not is refused", [
        (to("crew"), refused("<D:recognized-principal/>")), (to("team"), reply(200)), (to("crew"), refused("<D:recognized-principal/>")),
        (request("PROPFIND", CALENDAR, propfind("<D:acl/>"), depth="0"),
         found((CALENDAR, [(200, f"<D:acl>{owners}<D:ace><D:principal>{principal('team')}</D:principal><D:grant>{read}</D:grant></D:ace></D:acl>")]))),
        (put("one.ics", E1, who="bob"), needs(CALENDAR + "one.ics", "D:bind")),
    ])

    def asks(name, body, *told):
        return request("PROPFIND", f"/principals/{name}/", body, depth="0"), found((f"/principals/{name}/", list(told)))

    both = propfind("<D:group-member-set/><D:group-membership/><C:calendar-home-set/>")
    home = "<C:calendar-home-set><D:href>/calendars/%s/</D:href></C:calendar-home-set>"
    names = f"<D:propfind {NAMES}><D:propname/></D:propfind>".encode()
    of_team("who is in a group, and in which groups a user is, in the order of their numbers", [
        asks("team", both, (200, f"<D:group-member-set>{principal('bob')}{principal('carol')}</D:group-member-set><D:group-membership/>"), (404, "<C:calendar-home-set/>")),
        asks("own", both, (200, f"<D:group-member-set>{principal('alice')}{principal('bob')}</D:group-member-set><D:group-membership/>"), (404, "<C:calendar-home-set/>")),
        asks("alice", both, (200, f"<D:group-membership>{principal('own')}</D:group-membership>" + home % "alice"), (404, "<D:group-member-set/>")),
        asks("bob", both, (200, f"<D:group-membership>{principal('team')}{principal('own')}</D:group-membership>" + home % "bob"), (404, "<D:group-member-set/>")),
        asks("team", None, (200, "<D:resourcetype><D:collection/><D:principal/></D:resourcetype><D:displayname>team</D:displayname>")),
        asks("team", names, (200, "<D:resourcetype/><D:current-user-principal/><D:displayname/><D:principal-URL/><D:group-member-set/><D:group-membership/>")),
        asks("bob", names, (200, "<D:resourcetype/><D:current-user-principal/><D:displayname/><D:principal-URL/><C:calendar-home-set/><D:group-membership/>")),
        asks("team", propfind("<D:principal-URL/><D:owner/><D:current-user-principal/>"),
             (200, f"<D:principal-URL>{principal('team')}</D:principal-URL><D:current-user-principal>{principal('alice')}</D:current-user-principal>"), (404, "<D:owner/>")),
    ])
    of_team("a group has a principal, and no home", [
        (request("OPTIONS", "/principals/team/"), reply(200, allow=OF_HOME)), (request("PROPPATCH", "/principals/team/"), reply(405, allow=OF_HOME)),
        *[(request("PROPFIND", "/principals/crew/", depth="0"), reply(404)), (request("PROPFIND", "/calendars/team/", depth="0"), reply(404))],
        *[(request(method, path), reply(404)) for method, path in (("OPTIONS", "/calendars/team/"), ("OPTIONS", "/calendars/team/calendar/"), ("MKCALENDAR", "/calendars/team/work/"))],
    ])
    case("a users file with a group whose member is no user", b"", 3, 226, b"", words="script --users stranger")


def replaced():
    """An object that is replaced, or replaced and put back, between a worker's frames: a query shows what was put last."""
    later = event("one", "DTSTART:20250310T110000Z", "DTEND:20250310T120000Z")
    asked = report(query("20250310T000000Z", "20250311T000000Z"))
    for title, puts in (("replaced while it is expanded", (E1, later)), ("replaced and put back while it is expanded", (E1, later, E1))):
        shown = found((CALENDAR + "one.ics", [(200, f'<D:getetag>"{etag(puts[-1])}"</D:getetag>' + data(puts[-1]))]))
        frames, output = exchange([(put("one.ics", octets), stored(octets, 204) if n else stored(octets)) for n, octets in enumerate(puts)] + [(asked, shown)])
        first, last = len(frame(put("one.ics", E1))), len(frame(asked))
        text = frames[:first] + b"claim 0\n" + frames[first:-last] + b"expand 0\npublish 0\n" + frames[-last:]
        case("an object is " + title, text, 0, len(text), output)


def several():
    """Hrefs that name nothing, a report that asks for no property, and objects of more than four components, in which a filter goes another way."""
    tag = (200, f'<D:getetag>"{etag(E1)}"</D:getetag>')
    hrefs = f"<D:href>{CALENDAR}none.ics</D:href><D:href>{CALENDAR}one.ics</D:href><D:href>http://h/elsewhere</D:href><D:href>{CALENDAR}%6fne.ics</D:href>"
    runs("a multiget of hrefs that name nothing, and of one that repeats", [
        (put("one.ics", E1), stored(E1)),
        (report(f"<C:calendar-multiget {NAMES}><D:prop><D:getetag/></D:prop>{hrefs}</C:calendar-multiget>".encode()),
         found((CALENDAR + "none.ics", 404), (CALENDAR + "one.ics", [tag]), ("http://h/elsewhere", 404), (CALENDAR + "one.ics", [tag]))),
        (report(f"<C:calendar-multiget {NAMES}>{hrefs}</C:calendar-multiget>".encode()),
         found((CALENDAR + "none.ics", 404), (CALENDAR + "one.ics", 200), ("http://h/elsewhere", 404), (CALENDAR + "one.ics", 200))),
    ])
    moved = calendar(
        "BEGIN:VEVENT", "UID:six", "DTSTART:20250303T090000Z", "DTEND:20250303T100000Z", "RRULE:FREQ=DAILY;COUNT=6", "SUMMARY:Plain", "END:VEVENT",
        *[line for day in range(4, 9) for line in (
            "BEGIN:VEVENT", "UID:six", f"RECURRENCE-ID:2025030{day}T090000Z", f"DTSTART:2025030{day}T150000Z", f"DTEND:2025030{day}T160000Z", f"SUMMARY:Moved {day}", "END:VEVENT",
        )],
    )
    shown, nothing = found((CALENDAR + "six.ics", [(200, f'<D:getetag>"{etag(moved)}"</D:getetag>')])), found()

    def asks(day, hour, text=None):
        inner = f'<C:prop-filter name="SUMMARY"><C:text-match>{text}</C:text-match></C:prop-filter>' if text else ""
        return report(query(f"2025030{day}T{hour:02}0000Z", f"2025030{day}T{hour + 1:02}0000Z", "<D:getetag/>", inner))

    runs("a meeting of which five instances were moved, asked for by what is left of it", [
        (put("six.ics", moved), stored(moved)), (asks(3, 9), shown), (asks(3, 15), nothing), (asks(5, 9), nothing), (asks(5, 15), shown), (asks(8, 15), shown), (asks(9, 9), nothing),
        (asks(7, 15, "moved 7"), shown), (asks(6, 15, "moved 7"), nothing), (asks(3, 9, "plain"), shown), (asks(7, 15, "plain"), nothing),
    ])


def walk(title, steps):
    """A walk through a book: for each step its letter, the request that it answers, if it answers one, and what is printed."""
    letters = "".join(letter for letter, _, _ in steps)
    octets = b"".join(asked for _, asked, _ in steps)
    assert b"#" not in octets
    WALKS.append(f"#{title}\n{letters}\n".encode() + octets)
    TOLD.append(f"# {title}\n".encode() + b"".join(told + b"\n" for _, _, told in steps))


def books():
    """What a script does not show: which piece is claimed, what becomes of it, and how many entries there are."""
    def daily(start, count):
        return event("one", "DTSTART:" + start, f"RRULE:FREQ=DAILY;COUNT={count}")

    # 1741600000 lies in window 314, so the horizon begins with window 310: 27 April to 29 June 2024
    first, second = daily("20240501T090000Z", 3), daily("20240601T090000Z", 2)
    shown = report(query("20240427T000000Z", "20240630T000000Z"))

    def asks(asked, status, body=b""):
        return ("a", asked, f"answered {status}".encode() + (b"\n" + body if body else b""))

    def shows(octets):
        told = found((CALENDAR + "one.ics", [(200, f'<D:getetag>"{etag(octets)}"</D:getetag>' + data(octets))]))
        return asks(shown, 207, reply_body(told))

    def does(letter, told):
        return (letter, b"", told.encode())

    def claims(origin, window):
        return does("c", f"claimed {origin} in window {window}")

    published = does("p", "published")
    walk("an object is replaced while it is expanded: its rows are not kept", [
        asks(put("one.ics", first), 201), claims(0, 310), asks(put("one.ics", second), 204), does("e", "3 rows"), does("p", "stale, now 1"), shows(second),
        claims(1, 310), does("e", "2 rows"), published, shows(second), claims(1, 311), does("n", "2 entries"),
    ])
    walk("an object is replaced and put back: its rows are not kept, though they are the same", [
        asks(put("one.ics", first), 201), claims(0, 310), asks(put("one.ics", second), 204), asks(put("one.ics", first), 204),
        does("e", "3 rows"), does("p", "stale, now 2"), shows(first), claims(2, 310), does("e", "3 rows"), published, shows(first), does("n", "3 entries"),
    ])
    walk("an object is deleted while it is expanded, and another put in its place", [
        asks(put("one.ics", first), 201), claims(0, 310), asks(request("DELETE", CALENDAR + "one.ics"), 204), does("e", "3 rows"), does("p", "stale, gone"),
        does("c", "nothing is open"), asks(shown, 207, reply_body(found())), asks(put("one.ics", first), 201), claims(2, 310), does("n", "3 entries"),
    ])
    walk("a claim that is given up is open again, with its rows and without", [
        does("c", "nothing is open"), asks(put("one.ics", first), 201), claims(0, 310), does("b", "given up"), claims(0, 310), does("e", "3 rows"),
        does("b", "given up"), does("p", "no rows"), claims(0, 310), does("e", "3 rows"), published, does("e", "no claim"), does("b", "no claim"), shows(first),
    ])
    walk("a deletion for which room was made", [
        asks(put("one.ics", first), 201), does("r", "room"), asks(request("DELETE", CALENDAR + "one.ics"), 204), does("r", "room"),
        asks(request("DELETE", CALENDAR + "one.ics"), 404), does("r", "room"), asks(request("DELETE", CALENDAR), 204), does("n", "3 entries"),
    ])
    walk("all pieces of the horizon, and then none is open", [
        asks(put("one.ics", first), 201),
        *[step for window in range(310, 323) for step in (claims(0, window), does("e", "3 rows" if window == 310 else "0 rows"), published)],
        does("c", "nothing is open"), shows(first), asks(put("two.ics", E2), 201), claims(1, 310), does("n", "2 entries"),
    ])
    long = event("one", "DTSTART:20250101T000000Z", "DTEND:20250411T000000Z")
    hour = report(query("20250410T000000Z", "20250410T010000Z"))
    held = asks(hour, 207, reply_body(found((CALENDAR + "one.ics", [(200, f'<D:getetag>"{etag(long)}"</D:getetag>' + data(long))]))))
    walk("a hundred days in one row that begins two windows before a query, with no piece and with all", [
        asks(put("one.ics", long), 201), held,
        *[step for window in range(310, 323) for step in (claims(0, window), does("e", "1 rows" if window == 313 else "0 rows"), published)],
        does("c", "nothing is open"), held, does("n", "1 entries"),
    ])
    walk("what is refused leaves no entry", [
        asks(put("one.ics", first), 201), asks(put("one.ics", second, if_none="*"), 412), asks(put("one.ics", second, if_match='"0"'), 412),
        asks(put("two.ics", second), 403, reply_body(refused(f"<C:no-uid-conflict><D:href>{CALENDAR}one.ics</D:href></C:no-uid-conflict>"))),
        asks(request("DELETE", CALENDAR + "none.ics"), 404), asks(request("PROPPATCH", CALENDAR, update("<D:getetag/>")), 207, reply_body(found((CALENDAR, [(403, "<D:getetag/>")])))),
        asks(request("ACL", CALENDAR, grants(ace(NOBODY))), 403, reply_body(refused("<D:recognized-principal/>"))), does("n", "1 entries"), shows(first),
        asks(request("ACL", CALENDAR, grants(ace(BOB))), 200), asks(put("one.ics", first, who="bob"), 403, reply_body(needs(CALENDAR + "one.ics", "D:bind"))), does("n", "2 entries"),
    ])
    more = request("MKCALENDAR", HOME + "c63/")
    walk("a home of 64 calendars takes no more, and what it does not take leaves no entry", [
        *[asks(request("MKCALENDAR", f"{HOME}c{n}/"), 201) for n in range(63)], asks(more, 507), does("n", "63 entries"),
        asks(request("DELETE", HOME + "c0/"), 204), asks(more, 201), does("n", "65 entries"),
    ])


# Journal files of alice and bob

MEMBERS = ("alice", "bob")


def named(name):
    return struct.pack(">B", len(name)) + name.encode()


def counted(octets):
    return struct.pack(">I", len(octets)) + octets


HEADER = b"caldavjournal 1\n" + counted(b"".join(b"user %s\n" % who.encode() for who in MEMBERS))


class Record:
    """A record behind its open gate, and what is printed of it: who asked for a change, when and with which status, and the fields of its kind."""

    def __init__(self, kind, status, fields, home="alice", name="calendar", who="alice", moment=MOMENT):
        self.octets = b"\1" + counted(struct.pack(">BIQHI", kind, MEMBERS.index(who), moment, status, MEMBERS.index(home)) + named(name) + fields)
        self.told = f"session 0, user {MEMBERS.index(who)}, moment {moment}, status {status}"


def settings(size, *made):
    """Settings, each a namespace, a name and a value, or None where the property is removed."""
    return struct.pack(">II", size, len(made)) + b"".join(
        counted(space.encode()) + counted(name.encode()) + (b"\0" if value is None else b"\1" + counted(value.encode())) for space, name, value in made
    )


def granted(size, *made):
    """Grants, each a kind, a number and the bits of the privileges."""
    return struct.pack(">IB", size, len(made)) + b"".join(struct.pack(">BIH", *grant) for grant in made)


def kept(title, frames, replies, records, first, told, end=0, begin=0):
    """A script at a new book, the entry of the first object that is left, and what is loaded of the file up to one place and from another on."""
    left = "nothing is to be expanded" if first is None else f"object {first} is expanded next"
    size = len(HEADER) + sum(len(record.octets) for record in records) + 1
    KEPT.append(f"#{title}\n{end} {begin}\n".encode() + b"".join(frames))
    LOADED.append("".join(line + "\n" for line in [f"# {title}", f"done: {replies} replies, {size} octets; {left}", *told]).encode())


def journals():
    one, work = CALENDAR + "one.ics", HOME + "work/"
    later = event("one", "DTSTART:20250310T110000Z", "DTEND:20250310T120000Z")
    made = make("<D:displayname>Work</D:displayname>")
    patched = (
        f"<D:propertyupdate {NAMES}><D:set><D:prop><D:displayname>Home</D:displayname><x:colour xmlns:x=\"urn:x\">red</x:colour></D:prop></D:set>"
        "<D:remove><D:prop><x:note xmlns:x=\"urn:x\"/></D:prop></D:remove></D:propertyupdate>"
    ).encode()
    reads = grants(ace(BOB, "<D:read/>"))
    xml = {"media": "application/xml"}
    stores, removes = frame(put("one.ics", E1)), frame(request("DELETE", one))
    others = frame(put("two.ics", E2, path="/calendars/bob/calendar/", who="bob"), 1)
    first, last = Record(1, 201, named("one.ics") + counted(E1)), Record(2, 204, named("one.ics"))
    records = [
        first, Record(1, 204, named("one.ics") + counted(later), moment=MOMENT + 60), Record(4, 201, settings(len(made), ("DAV:", "displayname", "Work")), name="work"),
        Record(5, 207, settings(len(patched), ("DAV:", "displayname", "Home"), ("urn:x", "colour", "red"), ("urn:x", "note", None)), name="work"),
        Record(6, 200, granted(len(reads), (2, 1, 3))), Record(1, 201, named("two.ics") + counted(E2), home="bob", who="bob"), last, Record(3, 204, b"", name="work"),
    ]
    # two requests change nothing: bob may read the object, and may not delete it
    frames = [
        stores, frame(put("one.ics", later), moment=MOMENT + 60), frame(request("MKCALENDAR", work, made, **xml)), frame(request("PROPPATCH", work, patched, **xml)),
        frame(request("ACL", CALENDAR, reads, **xml)), frame(request("GET", one, who="bob"), 1), frame(request("DELETE", one, who="bob"), 1), others, removes, frame(request("DELETE", work)),
    ]
    kept("each kind of change", frames, 10, records, 5, [f"entry {number}: {record.told}" for number, record in enumerate(records)])
    kept("no change", [], 0, [], None, [])
    begin = len(HEADER)
    end = begin + len(first.octets)
    kept("a record that stands twice", [stores], 1, [first], 0, [f"at {end} status 201 is kept, and 204 is made"], end, begin)
    kept("a record that is lost", [stores, removes], 2, [first, last], None, [f"at {begin} status 204 is kept, and 0 is made"], begin, end)
    kept("the last gate is lost", [stores], 1, [first], 0, [f"refused at {end}"], end, end + 1)
    kept("the mark is cut", [stores], 1, [first], 0, ["refused at 0"], 0, 1)
    kept("the first user is lost", [stores], 1, [first], 0, ["refused at 5"], 20, 20 + len("user alice\n"))
    # a change is in the file and not answered where the last sync fails, and nowhere else
    title = "each call of the disk fails in turn, while two connections change something"
    KEPT.append(f"#{title}\nfails\n".encode() + stores + others + removes)
    LOADED.append(f"# {title}\nof 200 calls 197 leave what was answered, 3 one change more\n".encode())


# Journal files

class File:
    """The journal file of the three users, and the cases that go on with it: how long it is, and how many entries it has."""

    NAMES = ("alice", "bob", "carol")

    def __init__(self):
        self.header = 16 + 4 + sum(len(f"user {name}\n") for name in self.NAMES)
        self.length, self.entries, self.frames = 0, 0, []

    def case(self, title, steps):
        """Requests with their replies, and the lengths of the payloads of those that are accepted."""
        text, output = exchange([(asked, told) for asked, told, _ in steps])
        assert b"#" not in text and "#" not in title
        made = self.length == 0
        length = (self.length or self.header + 1) + sum(4 + size + 1 for _, _, size in steps if size)
        told = [f"# {title}\ndone {len(text)}, a file of {length} octets\n".encode() + output]
        failing, stopped = self.loading(made)
        written, entries = 0, self.entries
        for _, answered, size in steps:
            if size:
                failing += [("broken", written, f"{entries} entries"), ("broken", written, f"{entries + 1} entries")]
                stopped += [(entries, entries), (entries, entries + 1)]
                entries += 1
            written += len(answer(answered))
        told += [f"a call fails: {end}, {many} octets written, then {then}\n".encode() for end, many, then in distinct(failing)]
        stopped = [tuple(it if isinstance(it, str) else f"{it} entries" for it in both) for both in stopped]
        told += [f"stopped within a call: {without}, or {with_it}\n".encode() for without, with_it in distinct(stopped)]
        self.length, self.entries = length, entries
        RUNS.append(f"#{title}\n".encode() + text)
        LEFT.append(b"".join(told))

    def loading(self, made):
        """What comes where a call fails while the file is loaded, and what a stop leaves then."""
        if not made:
            return [("failed", 0, f"{self.entries} entries")], [(self.entries, self.entries)]
        # The length, the header, the gate, and the sync; a file that is not there is made anew, and one without its gate is refused at that.
        header = f"refused at {self.header}"
        return [("failed", 0, "0 entries"), ("failed", 0, header), ("failed", 0, "0 entries")], [(0, 0), (0, header), (0, 0)]


def distinct(lines):
    """Without those that are the same as the one before."""
    return [line for line, before in zip(lines, [None, *lines]) if line != before]


def files():
    """Runs at one journal file, one after another."""
    def payload(calendar, *own):
        return 1 + 4 + 8 + 2 + 4 + 1 + len(calendar) + sum(own)

    def stores(name, body, calendar="calendar"):
        return payload(calendar, 1 + len(name), 4 + len(body))

    file = File()
    file.case("a new file", [])
    file.case("a PUT", [(put("one.ics", E1), stored(E1), stores("one.ics", E1))])
    assert (file.header, file.length) == (51, 288)
    day = query("20250310T090000Z", "20250310T100000Z", "<D:getetag/>")
    tag = f'<D:getetag>"{etag(E1)}"</D:getetag>'
    work, later = HOME + "work/", event("one", "DTSTART:20250310T110000Z", "DTEND:20250310T120000Z")
    file.case("what was put before, and changes of each kind between requests that change nothing", [
        (report(day), found((CALENDAR + "one.ics", [(200, tag)])), 0),
        (put("one.ics", E1, if_none="*"), reply(412), 0),
        (request("MKCALENDAR", work), reply(201), payload("work", 4, 4)),
        (request("MKCALENDAR", work), refused("<D:resource-must-be-null/>"), 0),
        (request("PROPPATCH", work, update("<D:displayname>Work</D:displayname>")), found((work, [(200, "<D:displayname/>")])), payload("work", 4, 4, 4 + len("DAV:"), 4 + len("displayname"), 1 + 4 + len("Work"))),
        (request("ACL", work, grants(ace(BOB))), reply(200), payload("work", 4, 1, 7)),
        (put("two.ics", E2, work), stored(E2), stores("two.ics", E2, "work")),
        (put("new.ics", NEW, work), stored(NEW), stores("new.ics", NEW, "work")),
        (request("DELETE", work + "two.ics"), reply(204), payload("work", 1 + len("two.ics"))),
        (request("GET", work + "two.ics"), reply(404), 0),
        (put("one.ics", later), stored(later, 204), stores("one.ics", later)),
    ])
    month = ("20250301T000000Z", "20250401T000000Z")
    file.case("what each of these left, and the calendar is deleted", [
        (request("GET", CALENDAR + "one.ics"), reply(200, later, TEXT, etag(later)), 0),
        (request("GET", work + "two.ics"), reply(404), 0),
        (request("GET", work + "new.ics", who="bob"), needs(work + "new.ics", "D:read"), 0),
        (report(busy(*month), work, who="bob"), busy_times(*month, ("BUSY", "20250312T090000Z/20250312T100000Z")), 0),
        (request("PROPFIND", work, propfind("<D:displayname/>"), depth="0"), found((work, [(200, "<D:displayname>Work</D:displayname>")])), 0),
        (request("DELETE", work), reply(204), payload("work")),
    ])
    file.case("the calendar is not there", [(request("PROPFIND", work, propfind("<D:displayname/>"), depth="0"), reply(404), 0)])
    sides = []
    for who in ("alice", "bob"):
        names = [f"{who}{number}" for number in range(3)]
        sides.append(b"".join(put(name + ".ics", event(name, "DTSTART:20250310T090000Z"), f"/calendars/{who}/calendar/", who=who) for name in names))
    RUNS.append(b"#two sessions\n" + b"|".join(sides))
    # Whichever session comes first, the changes are kept one behind the other, so that the number of the call says how many were kept before it.
    both = [(told, told + more) for told in range(6) for more in (0, 1)]
    LEFT.append(b"# two sessions\n6 answered, 6 in the file\n" + b"".join(b"a call fails: %d answered, %d in the file\n" % pair for pair in both))
    without = sum(len(f"user {name}\n") for name in File.NAMES[:2])
    LEFT.append(f"without a file: the same replies\nfor other users: refused at {without}\n".encode())


def with_part(text, kind, cases):
    """An input or an output of the program with other cases of a kind, which stand behind the line `@KIND` up to the next `@`."""
    front, head, rest = text.partition(b"@%s\n" % kind.encode())
    if not head or b"@" in cases:
        sys.exit(f"no part @{kind}, or an @ in its cases")
    _, sign, rest = rest.partition(b"@")
    return front + head + cases + sign + rest


def main():
    orders = (methods, shapes, conditions, bodies, reading, deleting, putting, properties, granting, reporting, long_answers, homes)
    for part in (ends, cuttings, moments, streams, objects, *orders, replaced, several, rows, teams, books, journals, files):
        part()
    for name, made in (("stdin", {"books": WALKS, "kept": KEPT, "scripts": CASES, "journals": RUNS}), ("stdout", {"books": TOLD, "kept": LOADED, "scripts": ANSWERS, "journals": LEFT})):
        path = os.path.join(TOP, "crates/cases_server", name)
        with open(path, "rb") as file:
            text = file.read()
        told = text
        for kind, cases in made.items():
            told = with_part(told, kind, b"".join(cases))
            print(f"{name}, {kind}: {len(cases)} cases, {sum(map(len, cases))} octets")
        if "--check" not in sys.argv:
            with open(path, "wb") as file:
                file.write(told)
        elif told != text:
            sys.exit(f"{path} is not what the rules give")


if __name__ == "__main__":
    main()
