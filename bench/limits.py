#!/usr/bin/env python3
"""Runs the built program at the limits of docs/LIMITS.md that a script of requests can meet, and at one more, and says where it answers otherwise.

    bench/limits.py [PROGRAM]

Build the program first: `rt run` in crates/caldav_server. It needs Python 3 alone.
"""
import os, re, subprocess, sys, tempfile

sys.path.insert(0, os.path.dirname(os.path.abspath(__file__)))
from cases import (
    CALENDAR, HOME, PASSWORDS, ace, calendar, event, exchange, expanded, frame, full_home, grants, make, propfind, put, query, report, request, todo, update, whole, NAMES, BOB, NY, TOP, E1,
)

PROGRAM = os.path.abspath(sys.argv[1] if len(sys.argv) > 1 else os.path.join(TOP, "crates/caldav_server/out/caldav_server"))
HASH = b"ba7816bf8f01cfea414140de5dae2223b00361a396177a9cb410ff61f20015ad"
USERS = b"".join(b"user %s %s\n" % (name.encode(), HASH) for name in PASSWORDS)


def run(octets, users=USERS, connection=0):
    """The status of the program, and its replies."""
    with tempfile.NamedTemporaryFile() as file:
        file.write(users)
        file.flush()
        text = b"".join(frame(piece, connection) for piece in (octets[at:at + (1 << 20)] for at in range(0, len(octets), 1 << 20)))
        ended = subprocess.run([PROGRAM, "script", "--users", file.name], input=text, capture_output=True)
    told, at, output = [], 0, ended.stdout
    while at < len(output):
        end = output.index(b"\n", at)
        length = int(output[at:end].split(b" ")[2])
        told.append(output[end + 1:end + 1 + length])
        at = end + 2 + length
    return ended.returncode, ended.stderr, told


FAULTS = []


def last(what, requests, wanted, condition=""):
    """The last of some requests has this status, and this condition in its body."""
    status, _, told = run(b"".join(requests))
    got = told[-1] if told else b""
    body = got.split(b"\r\n\r\n", 1)[-1]
    fine = status == 0 and got.startswith(b"HTTP/1.1 %d " % wanted) and condition.encode() in body
    if wanted == 207 and condition == "":
        fine = fine and b"403 Forbidden" not in body
    print(f"{'fine' if fine else 'WRONG':6} {what}: {got[:12].decode(errors='replace')} {condition}")
    if not fine:
        FAULTS.append(what)
        print(f"       status {status}, {got[:300]!r}")


def both(what, at, over, status_at, status_over, condition=""):
    last(what, at, status_at)
    last(what + ", and one more", over, status_over, condition)


def streams():
    head = b"OPTIONS / HTTP/1.1\r\nAuthorization: Basic " + PASSWORDS["alice"].encode() + b"\r\n"

    def of_size(size):
        return head + b"X: " + b"y" * (size - len(head) - 7) + b"\r\n\r\n"

    both("octets of a head", [of_size(16384)], [of_size(16385)], 200, 431)
    both("fields", [head + b"a: b\r\n" * 99 + b"\r\n"], [head + b"a: b\r\n" * 100 + b"\r\n"], 200, 431)
    both("octets of a body", [head + b"Content-Length: 1048576\r\n\r\n" + b"x" * 1048576], [head + b"Content-Length: 1048577\r\n\r\n"], 200, 413)
    chunked = head + b"Transfer-Encoding: chunked\r\n\r\n"
    both("octets of chunks", [chunked + b"80000\r\n" + b"x" * 524288 + b"\r\n80000\r\n" + b"x" * 524288 + b"\r\n0\r\n\r\n"],
         [chunked + b"80000\r\n" + b"x" * 524288 + b"\r\n80001\r\n"], 200, 413)
    both("digits of a length", [head + b"Content-Length: 0000000000000000000\r\n\r\n"], [head + b"Content-Length: 00000000000000000000\r\n\r\n"], 200, 400)
    both("digits of a chunk", [chunked + b"00000001\r\nx\r\n00000000\r\n\r\n"], [chunked + b"000000001\r\nx\r\n0\r\n\r\n"], 200, 400)
    both("octets of a chunk's line", [chunked + b"1;" + b"a" * 252 + b"\r\nx\r\n0\r\n\r\n"], [chunked + b"1;" + b"a" * 253 + b"\r\nx\r\n0\r\n\r\n"], 200, 400)
    both("octets of a trailer", [chunked + b"0\r\nT: " + b"a" * (16384 - 7) + b"\r\n\r\n"], [chunked + b"0\r\nT: " + b"a" * (16385 - 7) + b"\r\n\r\n"], 200, 400)
    status, _, told = run(request("OPTIONS", "/") * 1001)
    fine = status == 0 and len(told) == 1000 and b"Connection: close" in told[-1] and b"Connection: close" not in told[-2]
    print("fine   requests of a connection" if fine else f"WRONG  requests of a connection: {len(told)}")
    FAULTS.extend([] if fine else ["requests"])
    both("octets of an object's name", [put("x" * 200, E1)], [put("x" * 201, E1)], 201, 404)
    both("octets of a calendar's name", [request("MKCALENDAR", HOME + "x" * 200 + "/")], [request("MKCALENDAR", HOME + "x" * 201 + "/")], 201, 404)


def bodies():
    def nest(depth):
        return propfind("<a>" * (depth - 3) + "<a/>" + "</a>" * (depth - 3))

    both("elements within one another", [request("PROPFIND", "/", nest(32), depth="0")], [request("PROPFIND", "/", nest(33), depth="0")], 207, 400)
    grant = "<ace><principal><all/></principal><grant><privilege><read/></privilege></grant></ace>"
    both("grants", [request("ACL", CALENDAR, f'<acl xmlns="DAV:">{grant * 64}</acl>'.encode())], [request("ACL", CALENDAR, f'<acl xmlns="DAV:">{grant * 65}</acl>'.encode())],
         200, 403, "<D:limited-number-of-aces/>")
    wide = f'<a:x xmlns:a="{"n" * 100000}"/>'
    long = f'<x xmlns="{"n" * 200000}">{"<a/>" * 400}</x>'
    last("a long namespace that one element has", [request("PROPFIND", "/", propfind(wide), depth="0")], 207, "404 Not Found")
    last("a long namespace that many elements have", [request("PROPFIND", "/", propfind(long), depth="0")], 503)
    both("a range's dates", [report(query("16000101T000000Z", "21001231T235959Z"))], [report(query("15991231T235959Z", "21001231T235959Z"))], 207, 403, "<C:min-date-time/>")
    last("a range's last date, and one more", [report(query("16000101T000000Z", "21010101T000000Z"))], 403, "<C:max-date-time/>")


def answers():
    """A multiget of as many octets as an answer may have."""
    def sized(uid, size):
        front = len(event(uid, "DTSTART:20250101T000000Z", "X-NOTE:"))
        return event(uid, "DTSTART:20250101T000000Z", "X-NOTE:" + "x" * (size - front))

    def several(hrefs, data="<C:calendar-data/>"):
        asked = "".join(f"<D:href>{CALENDAR}{name}</D:href>" for name in hrefs)
        return report(f"<C:calendar-multiget {NAMES}><D:prop>{data}</D:prop>{asked}</C:calendar-multiget>".encode())

    big = put("big.ics", sized("big", 262144))
    hrefs = ["big.ics"] * 255 + ["fit.ics"]
    length = int(re.search(rb"Content-Length: (\d+)", run(b"".join([big, put("fit.ics", sized("fit", 200)), several(hrefs)]))[2][-1])[1])
    room = 67_108_864 - length
    both("octets of an answer", [big, put("fit.ics", sized("fit", 200 + room)), several(hrefs)], [big, put("fit.ics", sized("fit", 201 + room)), several(hrefs)],
         207, 403, "<D:number-of-matches-within-limits/>")
    limited = "<C:calendar-data><C:limit-recurrence-set%s end='20250401T000000Z'/></C:calendar-data>"
    last("a range before the first date, and an answer of more octets", [big, several(["big.ics"] * 257, limited % " start='15991231T000000Z'")], 403, "<C:min-date-time/>")
    last("the same with a range in the dates", [big, several(["big.ics"] * 257, limited % "")], 403, "<D:number-of-matches-within-limits/>")
    names = [f'<x:t{n} xmlns:x="u"' for n in range(64)]
    zone = calendar(*NY, "X-NOTE:" + "&" * (262_144 - len(calendar(*NY, "X-NOTE:")))).decode()
    settings = update(f"<C:calendar-timezone><![CDATA[{zone}]]></C:calendar-timezone>", *[f"{name}><![CDATA[{'&' * 4096}]]></x:t{n}>" for n, name in enumerate(names)])
    shown = request("PROPFIND", HOME, propfind("<C:calendar-timezone/>" + "".join(f"{name}/>" for name in names)), depth="1")
    made = [step for n in range(26) for step in (request("MKCALENDAR", f"{HOME}c{n}/"), request("PROPPATCH", f"{HOME}c{n}/", settings))]
    both("octets of the properties of a home", made[:50] + [shown], made + [shown], 207, 403, "<D:number-of-matches-within-limits/>")


def objects():
    def refuses(what, at, over, condition="<C:valid-calendar-data/>"):
        both(what, [put("a.ics", at)], [put("a.ics", over)], 201, 403, condition)

    def noted(size):
        front = len(event("a", "DTSTART:20250101T000000Z", "X-NOTE:"))
        return event("a", "DTSTART:20250101T000000Z", "X-NOTE:" + "x" * (size - front))

    def having(*lines):
        return event("a", "DTSTART:20250101T000000Z", *lines)

    def deep(*names):
        return having(*["BEGIN:" + name for name in names], *["END:" + name for name in reversed(names)])

    def onsets(count):
        # one part, whose rule gives the other moments: one counts the part, one its start
        return calendar("BEGIN:VTIMEZONE", "TZID:Z", "BEGIN:STANDARD", "DTSTART:16010101T000000", f"RRULE:FREQ=HOURLY;COUNT={count - 1}", "TZOFFSETFROM:+0000", "TZOFFSETTO:+0100",
                        "END:STANDARD", "END:VTIMEZONE", "BEGIN:VEVENT", "UID:a", "DTSTART:20250101T000000Z", "END:VEVENT")

    refuses("octets of an object", noted(262144), noted(262145), "<C:max-resource-size/>")
    refuses("components within one another", deep("VALARM", "X-A"), deep("VALARM", "X-A", "X-B"))
    refuses("rules of a component", having(*["RRULE:FREQ=DAILY;COUNT=2"] * 8), having(*["RRULE:FREQ=DAILY;COUNT=2"] * 9))
    refuses("moments of zones", onsets(50_000), onsets(50_001))
    refuses("a length", having("DURATION:P200000D"), having("DURATION:P200000DT1S"))
    refuses("an alarm's length", having("BEGIN:VALARM", "TRIGGER:-P200000D", "END:VALARM"), having("BEGIN:VALARM", "TRIGGER:-P200001D", "END:VALARM"))
    refuses("digits of a number", having("RRULE:FREQ=DAILY;COUNT=000000002"), having("RRULE:FREQ=DAILY;COUNT=0000000002"))
    hours = "BYHOUR=" + ",".join(map(str, range(24)))
    twelve = "BYHOUR=" + ",".join(map(str, range(12)))
    refuses("times among which a rule picks", having(f"RRULE:FREQ=DAILY;COUNT=2;BYSETPOS=1;{twelve};BYMINUTE=0,30"), having(f"RRULE:FREQ=DAILY;COUNT=2;BYSETPOS=1;{hours};BYMINUTE=0,30"))
    refuses("the first date", event("a", "DTSTART:16000101T000000Z"), event("a", "DTSTART:15991231T235959Z"), "<C:min-date-time/>")
    refuses("the last date", event("a", "DTSTART:21001231T235959Z"), event("a", "DTSTART:21010101T000000Z"), "<C:max-date-time/>")
    refuses("instances", having("RRULE:FREQ=HOURLY;COUNT=250000"), having("RRULE:FREQ=HOURLY;COUNT=250001"), "<C:max-instances/>")
    refuses("frequency", having("RRULE:FREQ=HOURLY;COUNT=2"), having("RRULE:FREQ=MINUTELY;COUNT=2"), "<C:max-instances/>")
    todos = request("MKCALENDAR", HOME + "t/", make('<C:supported-calendar-component-set><C:comp name="VTODO"/></C:supported-calendar-component-set>'))
    both("kinds", [todos, put("a.ics", todo("a"), HOME + "t/")], [todos, put("a.ics", having(), HOME + "t/")], 201, 403, "<C:supported-calendar-component/>")
    both("objects of a UID", [put("a.ics", having())], [put("a.ics", having()), put("b.ics", having())], 201, 403, f"<C:no-uid-conflict><D:href>{CALENDAR}a.ics</D:href></C:no-uid-conflict>")


def texts():
    def named(count):
        return [f'<x:t{n} xmlns:x="u"/>' for n in range(count)]

    def patch(*names):
        return request("PROPPATCH", CALENDAR, update(*names))

    def zoned(size):
        text = calendar(*NY).decode().replace("\r\n", "\n")
        return f"<C:calendar-timezone>{text}{chr(10) * (size - len(text))}</C:calendar-timezone>"

    refused = "403 Forbidden"
    both("texts of a calendar", [patch(*named(64))], [patch(*named(65))], 207, 207, refused)
    last("texts of a calendar that is made, and one more", [request("MKCALENDAR", HOME + "t/", make(*named(65)))], 403, "<D:cannot-modify-protected-property/>")
    both("octets of a text's name", [patch(f'<{"t" * 255} xmlns="u"/>')], [patch(f'<{"t" * 256} xmlns="u"/>')], 207, 207, refused)
    for name in ("D:displayname", "C:calendar-description", 'x xmlns="u"'):
        end = name.split(" ")[0]
        both(f"octets of {end}", [patch(f"<{name}>{'v' * 4096}</{end}>")], [patch(f"<{name}>{'v' * 4097}</{end}>")], 207, 207, refused)
    both("octets of a time zone", [patch(zoned(262144))], [patch(zoned(262145))], 207, 207, refused)


def homes():
    made = [request("MKCALENDAR", f"{HOME}c{n}/") for n in range(64)]
    both("calendars of a home", made[:63], made, 201, 507)
    name = update("<D:displayname>p</D:displayname>")

    def spends(cost):
        return request("PROPPATCH", CALENDAR, b" " * (cost - 256 - len(name)) + name)

    full = [spends(1_048_576)] * 31
    both("octets that a home accepts", full + [spends(1_048_576)], full + [spends(1_048_575), request("ACL", CALENDAR, grants())], 207, 507)
    steps = full_home()
    _, _, told = run(b"".join(whole(asked) for asked, _ in steps))
    fine = told == [octets for _, octets in steps]
    print(f"{'fine' if fine else 'WRONG':6} what a full home refuses")
    FAULTS.extend([] if fine else ["a full home"])
    last("a deletion in a full home", [put("a.ics", E1)] + full + [spends(1_048_576 - 256 - len(E1)), request("DELETE", CALENDAR + "a.ics")], 204)


def users():
    def line(name):
        return b"user %s %s\n" % (name.encode(), HASH)

    def starts(what, octets, place=None):
        status, told, _ = run(b"", octets)
        fine = (status, told.partition(b"\n")[0]) == ((0, b"") if place is None else (3, b"users file: bad line at octet %d" % place))
        print(f"{'fine' if fine else 'WRONG':6} {what}: {status} {told!r}")
        FAULTS.extend([] if fine else [what])

    many = [line(f"u{n}") for n in range(33)]
    starts("users", b"".join(many[:32]))
    starts("users, and one more", b"".join(many), len(b"".join(many[:32])))
    groups = [b"group g%d u0\n" % n for n in range(17)]
    starts("groups", many[0] + b"".join(groups[:16]))
    starts("groups, and one more", many[0] + b"".join(groups), len(many[0] + b"".join(groups[:16])))
    starts("octets of a user's name", line("u" * 32))
    starts("octets of a user's name, and one more", line("u" * 33), 0)
    starts("octets of a group's name", many[0] + b"group %s u0\n" % (b"g" * 32))
    starts("octets of a group's name, and one more", many[0] + b"group %s u0\n" % (b"g" * 33), len(many[0]))
    starts("octets of a users file", b"\n" * 65536)
    starts("octets of a users file, and one more", b"\n" * 65537, 65536)


if not os.path.exists(PROGRAM):
    sys.exit(f"{PROGRAM} is not built: run `rt run` in crates/caldav_server first")
for part in (streams, bodies, answers, objects, texts, homes, users):
    part()
print(f"{len(FAULTS)} wrong" + "".join(f"\n  {what}" for what in FAULTS))
sys.exit(1 if FAULTS else 0)
