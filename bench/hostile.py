#!/usr/bin/env python3
"""Runs bad input in bulk through the command `script`: streams of requests that are valid, nearly valid, or neither.

    bench/hostile.py [--streams N] [--seed S] [--seconds S] [--keep FOLDER] [--program PATH]

Each stream is made of requests with heads, chunks, calendar objects, filters and settings, and then changed at random
places. Sixteen of them, cut into frames at random, with frames of workers between, make a script. What has to hold:

- the program ends with status 0, whatever comes, within half a minute;
- there is a reply for each request that the rules of docs/HTTP.md find in a stream, and one with the right status and
  `Connection: close` for its first fault, and no other; each is a reply by docs/REPLIES.md, with a length that is its body's;
- a body of kind XML can be read, and one of kind calendar begins and ends as one.

It prints its seed, what does not hold with the scripts kept in FOLDER, and the streams that took longest for each octet.
It needs Python 3 alone; build the program first by `rt run` in crates/caldav_server. A million streams take some
twenty minutes.
"""
import argparse, base64, os, random, re, signal, sys, tempfile, time
import xml.parsers.expat

TOP = os.path.dirname(os.path.dirname(os.path.abspath(__file__)))
HASH = b"ba7816bf8f01cfea414140de5dae2223b00361a396177a9cb410ff61f20015ad"
USERS = b"".join(b"user %s %s\n" % (name, HASH) for name in (b"alice", b"bob", b"carol"))
KEYS = {name: base64.b64encode(name + b":abc") for name in (b"alice", b"bob", b"carol")}

# What the streams are made of

NUMBERS = [b"0", b"1", b"2", b"7", b"-1", b"31", b"53", b"-53", b"54", b"366", b"-366", b"367", b"59", b"60", b"100", b"9999", b"65536", b"250000", b"999999999", b"1000000000", b"18446744073709551616", b"+3", b"", b"1e9", b"0x10"]
DATES = [b"20250310", b"19700101", b"16000101", b"15991231", b"21001231", b"21010101", b"00010101", b"99991231", b"20240229", b"20250229", b"20251301", b"2025031"]
TIMES = [b"T090000Z", b"T090000", b"T000000Z", b"T235959Z", b"T235960Z", b"T240000", b"T023000", b"", b"Z", b"T0900"]
LENGTHS = [b"PT1H", b"P1D", b"P200000D", b"P200001D", b"-PT15M", b"PT0S", b"P1W", b"P999999999W", b"PT999999999S", b"P", b"PT", b"P1DT1H1M1S", b"P1Y"]
OFFSETS = [b"+0000", b"-0500", b"+235959", b"-235959", b"+2400", b"-0000", b"0500", b"+01"]
NAMES = [b"DTSTART", b"DTEND", b"DUE", b"DURATION", b"RRULE", b"RDATE", b"EXDATE", b"RECURRENCE-ID", b"COMPLETED", b"CREATED", b"DTSTAMP", b"LAST-MODIFIED", b"FREEBUSY", b"TRIGGER", b"REPEAT", b"TZOFFSETFROM", b"TZOFFSETTO", b"UID", b"SUMMARY", b"STATUS", b"TRANSP", b"TZID", b"X-A", b"ATTENDEE"]
PARAMS = [b"", b"", b"", b";VALUE=DATE", b";TZID=NY", b";TZID=None", b";VALUE=PERIOD", b";RANGE=THISANDFUTURE", b";FBTYPE=FREE", b';X="a:b;c,d"', b";RELATED=END", b";VALUE=DATE-TIME"]
KINDS = [b"VEVENT", b"VTODO", b"VJOURNAL", b"VFREEBUSY", b"VALARM", b"VTIMEZONE", b"STANDARD", b"DAYLIGHT", b"X-COMP"]
METHODS = [b"GET", b"HEAD", b"PUT", b"DELETE", b"OPTIONS", b"PROPFIND", b"PROPPATCH", b"REPORT", b"MKCALENDAR", b"ACL"]
FREQS = [b"SECONDLY", b"MINUTELY", b"HOURLY", b"DAILY", b"WEEKLY", b"MONTHLY", b"YEARLY"]
PARTS = [b"BYSECOND", b"BYMINUTE", b"BYHOUR", b"BYDAY", b"BYMONTHDAY", b"BYYEARDAY", b"BYWEEKNO", b"BYMONTH", b"BYSETPOS", b"WKST", b"INTERVAL", b"COUNT", b"UNTIL"]
DAYS = [b"MO", b"TU", b"WE", b"TH", b"FR", b"SA", b"SU", b"1MO", b"-1FR", b"5SU", b"-53TU", b"54WE"]
SPACES_OF_XML = b'xmlns:D="DAV:" xmlns:C="urn:ietf:params:xml:ns:caldav"'
PROPS = [b"D:getetag", b"D:displayname", b"D:acl", b"D:resourcetype", b"C:calendar-data", b"C:calendar-timezone", b"C:supported-calendar-component-set", b"D:owner", b'x xmlns="urn:x"', b"D:getcontentlength"]
TOKENS = [b"\0", b"\r\n", b"\n", b"\r", b" ", b"\t", b"<", b">", b"&", b'"', b"'", b"%", b"%2F", b"%00", b"%c3%28", b"\xff", b"\xc3\xa9", b"\xef\xbf\xbe", b"]]>", b"<![CDATA[", b"<!--", b"-->", b"<?x", b"?>", b"<!DOCTYPE a>", b"&#0;", b"&#x110000;", b"&amp;", b"&lol;", b"..", b"/", b"//", b"?", b";", b":", b",", b"=", b"HTTP/1.1", b"BEGIN:VEVENT\r\n", b"END:VEVENT\r\n", b"0\r\n\r\n", b"A" * 300, b"9" * 40]


def zone(pick):
    return (
        b"BEGIN:VTIMEZONE\r\nTZID:NY\r\nBEGIN:DAYLIGHT\r\nDTSTART:%s0311T020000\r\nRRULE:%s\r\nTZOFFSETFROM:%s\r\nTZOFFSETTO:%s\r\nEND:DAYLIGHT\r\n"
        b"BEGIN:STANDARD\r\nDTSTART:16010101T020000\r\nRRULE:FREQ=YEARLY;BYDAY=1SU;BYMONTH=11\r\nTZOFFSETFROM:-0400\r\nTZOFFSETTO:-0500\r\nEND:STANDARD\r\nEND:VTIMEZONE\r\n"
        % (pick([b"2007", b"1601", b"1970", b"0001"]), rule(pick) if pick(range(4)) == 0 else b"FREQ=YEARLY;BYMONTH=3;BYDAY=2SU", pick(OFFSETS), pick(OFFSETS))
    )


def rule(pick):
    parts = [b"FREQ=" + pick(FREQS[2:] if pick(range(6)) else FREQS)]
    for _ in range(pick([0, 0, 1, 1, 2, 3, 5])):
        name = pick(PARTS)
        if name == b"BYDAY":
            value = b",".join(pick(DAYS) for _ in range(pick([1, 1, 2, 7])))
        elif name == b"WKST":
            value = pick(DAYS)
        elif name == b"UNTIL":
            value = pick(DATES) + pick(TIMES)
        elif name in (b"INTERVAL", b"COUNT"):
            value = pick(NUMBERS)
        else:
            value = b",".join(pick(NUMBERS) if pick(range(5)) == 0 else b"%d" % pick(range(1, 24)) for _ in range(pick([1, 1, 2, 5, 24])))
        parts.append(name + b"=" + value)
    return b";".join(parts)


def value(pick, name):
    if name == b"RRULE":
        return rule(pick)
    if name in (b"DURATION", b"TRIGGER"):
        return pick(LENGTHS)
    if name in (b"TZOFFSETFROM", b"TZOFFSETTO"):
        return pick(OFFSETS)
    if name == b"REPEAT":
        return pick(NUMBERS)
    if name in (b"RDATE", b"EXDATE", b"FREEBUSY"):
        one = lambda: pick(DATES[:6]) + pick(TIMES[:3]) + (b"/" + pick(LENGTHS) if name == b"FREEBUSY" or pick(range(4)) == 0 else b"")
        return b",".join(one() for _ in range(pick([1, 1, 2, 30])))
    if name in (b"UID", b"SUMMARY", b"TZID", b"X-A", b"ATTENDEE"):
        return pick([b"one", b"two", b"a\\,b\\n", b"\xc3\xa9t\xc3\xa9", b"x" * 200, b""])
    if name in (b"STATUS", b"TRANSP"):
        return pick([b"TENTATIVE", b"CANCELLED", b"TRANSPARENT", b"OPAQUE", b"x"])
    return pick(DATES) + pick(TIMES) if pick(range(3)) == 0 else b"202503%02d" % pick(range(1, 29)) + pick(TIMES[:3])


def component(pick, depth=0):
    kind = pick(KINDS[:4] if depth == 0 else KINDS)
    start = b"DTSTART%s:%s\r\n" % (pick([b"", b"", b";TZID=NY", b";VALUE=DATE"]), b"20250310T090000Z" if pick(range(3)) else pick(DATES) + pick(TIMES))
    own = b"".join(b"%s%s:%s\r\n" % (name, pick(PARAMS), value(pick, name)) for name in (pick(NAMES[1:]) for _ in range(pick([0, 1, 1, 2, 4]))))
    more = component(pick, depth + 1) if depth < 4 and pick(range(5)) == 0 else b""
    return b"BEGIN:%s\r\nUID:%s\r\n%s%s%sEND:%s\r\n" % (kind, pick([b"one", b"two", b"three"]), start, own, more, kind)


def calendar(pick):
    inner = b"".join(component(pick) for _ in range(pick([1, 1, 1, 2, 3])))
    return b"BEGIN:VCALENDAR\r\nVERSION:2.0\r\nPRODID:-//a//EN\r\n" + (zone(pick) if pick(range(3)) == 0 else b"") + inner + b"END:VCALENDAR\r\n"


def span(pick):
    if pick(range(4)) == 0:
        return b' start="%s" end="%s"' % (pick(DATES) + pick(TIMES), pick(DATES) + pick(TIMES))
    return b' start="202503%02dT000000Z" end="2025%02d01T000000Z"' % (pick(range(1, 29)), pick(range(4, 13)))


def comp_filter(pick, depth=0):
    name = b"VCALENDAR" if depth == 0 else pick(KINDS)
    tests = b""
    if pick(range(3)) == 0:
        tests += b"<C:time-range%s/>" % span(pick)
    if pick(range(4)) == 0:
        tests += b'<C:prop-filter name="%s">%s</C:prop-filter>' % (pick(NAMES), pick([b"<C:is-not-defined/>", b"<C:text-match>o</C:text-match>", b'<C:text-match collation="i;octet" negate-condition="yes">two</C:text-match>', b"<C:time-range%s/>" % span(pick), b'<C:param-filter name="X"><C:is-not-defined/></C:param-filter>']))
    if pick(range(8)) == 0:
        tests += b"<C:is-not-defined/>"
    if depth < 3 and pick(range(4)):
        tests += comp_filter(pick, depth + 1)
    return b'<C:comp-filter name="%s">%s</C:comp-filter>' % (name, tests)


def asked(pick):
    props = b"".join(b"<%s/>" % pick(PROPS) for _ in range(pick([0, 1, 2, 5])))
    if pick(range(3)) == 0:
        props += b"<C:calendar-data>%s</C:calendar-data>" % pick([b"", b"<C:expand%s/>" % span(pick), b"<C:limit-recurrence-set%s/>" % span(pick), b"<C:limit-freebusy-set%s/>" % span(pick), b'<C:comp name="VCALENDAR"><C:prop name="VERSION"/><C:comp name="VEVENT"><C:allprop/></C:comp></C:comp>'])
    return pick([b"<D:prop>%s</D:prop>" % props, b"<D:allprop/>", b"<D:propname/>", b"<D:prop>%s</D:prop>" % props])


def settings(pick):
    texts = [b"", b"Work", b"x" * 4096, b"x" * 4097, b"<a/>", b"<C:comp name='VEVENT'/>", calendar(pick).replace(b"<", b"")]
    return b"".join(b"<%s>%s</%s>" % (name, pick(texts), name.split(b" ")[0]) for name in (pick(PROPS) for _ in range(pick([1, 1, 3]))))


def ace(pick):
    who = pick([b"<D:href>/principals/bob/</D:href>", b"<D:all/>", b"<D:authenticated/>", b"<D:property><D:owner/></D:property>", b"<D:href>/principals/nobody/</D:href>", b"<D:self/>"])
    held = b"".join(b"<D:privilege><%s/></D:privilege>" % pick([b"D:read", b"C:read-free-busy", b"D:write", b"D:all", b"D:bind", b"D:unlock"]) for _ in range(pick([1, 1, 2])))
    return b"<D:ace><D:principal>%s</D:principal>%s%s</D:ace>" % (who, pick([b"<D:grant>%s</D:grant>" % held] * 5 + [b"<D:deny/>"]), pick([b""] * 5 + [b"<D:protected/>"]))


def body(pick, method):
    if method == b"PUT":
        return calendar(pick)
    if method == b"PROPFIND":
        return b"<D:propfind %s>%s</D:propfind>" % (SPACES_OF_XML, asked(pick)) if pick(range(4)) else b""
    if method == b"PROPPATCH":
        return b"<D:propertyupdate %s><D:set><D:prop>%s</D:prop></D:set><D:remove><D:prop><%s/></D:prop></D:remove></D:propertyupdate>" % (SPACES_OF_XML, settings(pick), pick(PROPS))
    if method == b"MKCALENDAR":
        return b"<C:mkcalendar %s><D:set><D:prop>%s</D:prop></D:set></C:mkcalendar>" % (SPACES_OF_XML, settings(pick)) if pick(range(3)) == 0 else b""
    if method == b"ACL":
        return b"<D:acl %s>%s</D:acl>" % (SPACES_OF_XML, b"".join(ace(pick) for _ in range(pick([0, 1, 1, 3, 66]))))
    if method == b"REPORT":
        form = pick(range(6))
        if form == 0:
            return b"<C:free-busy-query %s><C:time-range%s/></C:free-busy-query>" % (SPACES_OF_XML, span(pick))
        if form == 1:
            hrefs = b"".join(b"<D:href>/calendars/alice/calendar/%s</D:href>" % pick([b"one.ics", b"two.ics", b"no%20", b"%6fne.ics", b"../x"]) for _ in range(pick([0, 1, 3, 20])))
            return b"<C:calendar-multiget %s>%s%s</C:calendar-multiget>" % (SPACES_OF_XML, asked(pick), hrefs)
        text = b"<C:timezone>%s</C:timezone>" % (b"BEGIN:VCALENDAR\r\n" + zone(pick) + b"END:VCALENDAR") if pick(range(6)) == 0 else b""
        return b"<C:calendar-query %s>%s%s<C:filter>%s</C:filter></C:calendar-query>" % (SPACES_OF_XML, asked(pick), text, comp_filter(pick))
    return b""


def chunked(pick, octets):
    out, at = b"", 0
    while at < len(octets):
        size = pick([1, 2, 16, 100, 4096])
        piece = octets[at:at + size]
        out += b"%x%s\r\n%s\r\n" % (len(piece), pick([b"", b"", b";a=b"]), piece)
        at += size
    return out + b"0\r\n" + pick([b"", b"", b"T: 1\r\n"]) + b"\r\n"


def request(pick):
    method = pick(METHODS) if pick(range(30)) else pick([b"POST", b"get", b"LOCK", b"M@", b"X" * 50])
    name = pick([b"one.ics", b"two.ics", b"three.ics"])
    if method in (b"GET", b"HEAD", b"PUT"):
        path = b"/calendars/alice/calendar/" + name
    elif method == b"DELETE":
        path = b"/calendars/alice/" + pick([b"calendar/" + name, b"work/"])
    elif method == b"MKCALENDAR":
        path = b"/calendars/alice/" + pick([b"work/", b"w%d/" % pick(range(70))])
    elif method in (b"OPTIONS", b"PROPFIND"):
        path = pick([b"/", b"/principals/alice/", b"/calendars/alice/", b"/calendars/alice/calendar/", b"/calendars/alice/calendar/" + name])
    else:
        path = b"/calendars/alice/" + pick([b"calendar/", b"calendar/", b"work/"])
    if pick(range(30)) == 0:
        path = pick([b"/", b"*", b"http://h/calendars/alice/calendar/%6fne.ics?x", b"/calendars/%2e%2e/x", b"/calendars/nobody/c/o", b"/a/b/c/d/e", b"/calendars/alice/" + b"x" * 201 + b"/"])
    text = body(pick, method)
    fields = [b"Host: h"]
    if pick(range(40)):
        fields.append(b"Authorization: Basic " + KEYS[b"alice" if pick(range(8)) else pick([b"bob", b"carol"])])
    if method in (b"PROPFIND", b"REPORT") and pick(range(10)):
        fields.append(b"Depth: " + pick([b"0", b"1", b"1", b"infinity"]))
    if pick(range(12)) == 0:
        fields.append(pick([b"If-Match: ", b"If-None-Match: "]) + pick([b"*", b'"0"', b'W/"a", "b"', b"x", b""]))
    if pick(range(20)) == 0:
        fields.append(pick([b"Connection: close", b"Connection: keep-alive, close", b"Content-Encoding: gzip", b"Content-Encoding: identity", b"X: " + b"y" * 500, b"Expect: 100-continue", b"Depth: 0", b" folded", b"Content-Length: 1", b"Transfer-Encoding: gzip"]))
    if text or method == b"PUT":
        if method == b"PUT" and pick(range(4)):
            fields.append(b"Content-Type: text/calendar")
        elif pick(range(2)):
            fields.append(b"Content-Type: " + pick([b"application/xml", b"text/xml; charset=utf-8", b"text/plain"]))
        if pick(range(6)) == 0:
            fields.append(b"Transfer-Encoding: chunked")
            text = chunked(pick, text)
        else:
            fields.append(b"Content-Length: %d" % len(text))
    end = b"\r\n" if pick(range(10)) else b"\n"
    version = b"HTTP/1.1" if pick(range(40)) else pick([b"HTTP/1.0", b"HTTP/2.0", b"HTTP/1.10", b"http/1.1"])
    return b"%s %s %s%s%s%s%s%s" % (method, path, version, end, end.join(fields), end, end, text)


def changed(pick, octets):
    """A stream with something changed at a random place."""
    at = pick(range(len(octets) + 1))
    form = pick(range(9))
    if form == 0:
        return octets[:at] + pick(TOKENS) + octets[at:]
    if form == 1:
        return octets[:at] + octets[at + pick([1, 1, 2, 5, 30]):]
    if form == 2:
        return octets[:at] + bytes([pick(range(256))]) + octets[at + 1:]
    if form == 3:
        piece = octets[at:at + pick([1, 5, 30, 200])]
        return octets[:at] + piece * pick([2, 2, 3, 10, 100]) + octets[at:]
    if form == 4:
        end = pick(range(len(octets) + 1))
        return octets[:at] + octets[end:]
    if form == 5:
        found = list(re.finditer(rb"\d+", octets))
        if found:
            one = pick(found)
            return octets[:one.start()] + pick(NUMBERS) + octets[one.end():]
        return octets
    if form == 6:
        rows = octets.split(b"\r\n")
        one, other = pick(range(len(rows))), pick(range(len(rows)))
        rows[one], rows[other] = rows[other], rows[one]
        return b"\r\n".join(rows)
    if form == 7:
        rows = octets.split(b"\r\n")
        rows.insert(pick(range(len(rows) + 1)), pick(rows))
        return b"\r\n".join(rows)
    return octets[:at]


def stream(pick):
    octets = b"".join(request(pick) for _ in range(pick([1, 1, 1, 2, 4])))
    for _ in range(pick([0, 0, 1, 1, 2, 4])):
        octets = changed(pick, octets)
    return octets


# What the streams have to give, by docs/HTTP.md

TOKEN = rb"[A-Za-z0-9!#$%&'*+\-.^_`|~]+"
REQUEST_LINE = re.compile(rb"(" + TOKEN + rb") ([^\x00-\x20\x7f]+) HTTP/1\.([01])")
FIELD = re.compile(rb"(" + TOKEN + rb"):[ \t]*((?:[^\x00-\x08\x0a-\x1f\x7f]*[^\x00-\x20\x7f])?)[ \t]*")
BODY_LIMIT, HEAD_LIMIT = 1048576, 16384
SINGLE = (b"authorization", b"content-length", b"content-type", b"depth", b"transfer-encoding")


def is_text(octets):
    try:
        octets.decode()
        return True
    except UnicodeDecodeError:
        return False


def requests(octets):
    """The requests of a stream, each as its method and whether it asks to close, and the status of the fault behind them, if there is one."""
    given, at = [], 0
    while True:
        begin = at
        while octets.startswith((b"\n", b"\r\n"), at):
            at += 1 if octets.startswith(b"\n", at) else 2
        end = re.compile(rb"\n\r?\n").search(octets, at)
        if end is None or end.end() - begin > HEAD_LIMIT:
            if len(octets) - begin >= HEAD_LIMIT or end is not None:
                return given, 431
            return given, None
        rows = [row[:-1] if row.endswith(b"\r") else row for row in octets[at:end.start()].split(b"\n")]
        if len(rows) - 1 > 100:
            return given, 431
        if re.search(rb"HTTP/[0-9]\.[0-9]$", rows[0]) and rows[0][-8:] not in (b"HTTP/1.0", b"HTTP/1.1"):
            return given, 505
        line = REQUEST_LINE.fullmatch(rows[0])
        fields = [FIELD.fullmatch(row) for row in rows[1:]]
        if line is None or not is_text(line[2]) or None in fields:
            return given, 400
        named = {}
        for field in fields:
            named.setdefault(field[1].lower(), []).append(field[2])
        if any(len(named.get(name, ())) > 1 for name in SINGLE):
            return given, 400
        length, coding = named.get(b"content-length"), named.get(b"transfer-encoding")
        if length and coding or length and not re.fullmatch(rb"\d{1,19}", length[0]) or coding and coding[0] != b"chunked":
            return given, 400
        if length and int(length[0]) > BODY_LIMIT:
            return given, 413
        at = end.end()
        if length:
            if len(octets) - at < int(length[0]):
                return given, None
            at += int(length[0])
        elif coding:
            at, fault = behind_chunks(octets, at)
            if at is None:
                return given, fault
        members = [member.strip(b" \t") for text in named.get(b"connection", ()) for member in text.split(b",")]
        closes = line[3] == b"0" or b"close" in members
        given.append((line[1], closes))
        if closes or len(given) == 1000:
            return given, None


CHUNK_LINE = re.compile(rb"([0-9A-Fa-f]{1,8})(;[^\r\n]*)?\r\n")


def goes_on_as_chunk_line(octets):
    """Whether a front of a chunk line may still become one."""
    if len(octets) > 256:
        return False
    front = re.fullmatch(rb"(?:[0-9A-Fa-f]{0,8}|[0-9A-Fa-f]{1,8};[^\r\n]*)", octets)
    if front:
        return len(octets) <= 254
    return re.fullmatch(rb"[0-9A-Fa-f]{1,8}(;[^\r\n]*)?\r", octets) is not None


def behind_chunks(octets, at):
    """Where a body in chunks ends, or none and the status of its fault, if there is one."""
    total = 0
    while True:
        line = CHUNK_LINE.match(octets, at)
        if line is None or line.end() - at > 256:
            rest = octets[at:at + 257]
            return None, None if goes_on_as_chunk_line(rest) else 400
        size = int(line[1], 16)
        total += size
        if total > BODY_LIMIT:
            return None, 413
        at = line.end()
        if size == 0:
            break
        if not b"\r\n".startswith(octets[at + size:at + size + 2]):
            return None, 400
        if len(octets) < at + size + 2:
            return None, None
        at += size + 2
    begin = at
    while True:
        end = octets.find(b"\n", at, begin + HEAD_LIMIT)
        if end < 0:
            rest = octets[at:begin + HEAD_LIMIT]
            left = HEAD_LIMIT - (len(octets) - begin)
            wanted = 1 if rest in (b"", b"\r") else 2
            return None, None if left >= wanted else 400
        if octets[at:end] in (b"", b"\r"):
            return end + 1, None
        at = end + 1


# Running scripts

STATUSES = {200, 201, 204, 207, 304, 400, 401, 403, 404, 405, 412, 413, 415, 431, 501, 503, 505, 507}


LITTLE = 2000  # octets; what less takes is the noise of the machine


def frames(pick, streams):
    """A script of streams, each on a connection of its own, in frames of random lengths, with workers between."""
    parts = []
    for number, octets in enumerate(streams):
        at = 0
        while at < len(octets):
            size = pick([len(octets), len(octets), len(octets), 1 + len(octets) // 3, 40])
            piece = octets[at:at + size]
            parts.append(b"bytes %d 1741600000 %d\n%s\n" % (number, len(piece), piece))
            at += len(piece)
            if pick(range(3)) == 0:
                parts.append(b"claim 0\nexpand 0\npublish 0\n" * pick([1, 1, 14]))
    return b"".join(parts)


class Runner:
    """Runs the program over scripts, and measures it."""

    def __init__(self, program, folder, patience):
        self.program, self.patience = program, patience
        self.users = os.path.join(folder, "users")
        self.given, self.taken = os.path.join(folder, "given"), os.path.join(folder, "taken")
        with open(self.users, "wb") as file:
            file.write(USERS)

    def run(self, text):
        """Status, output and processor seconds; the status is that of a signal, below 0, where the time was up."""
        with open(self.given, "wb") as file:
            file.write(text)
        actions = [
            (os.POSIX_SPAWN_OPEN, 0, self.given, os.O_RDONLY, 0),
            (os.POSIX_SPAWN_OPEN, 1, self.taken, os.O_WRONLY | os.O_CREAT | os.O_TRUNC, 0o600),
        ]
        child = os.posix_spawn(self.program, [self.program, "script", "--users", self.users], {}, file_actions=actions)
        signal.signal(signal.SIGALRM, lambda *_: os.kill(child, signal.SIGKILL))
        signal.alarm(self.patience)
        _, status, used = os.wait4(child, 0)
        signal.alarm(0)
        with open(self.taken, "rb") as file:
            output = file.read()
        return os.waitstatus_to_exitcode(status), output, used.ru_utime + used.ru_stime


def replies(output):
    """The replies of an output, by connection."""
    given, at = {}, 0
    while at < len(output):
        end = output.index(b"\n", at)
        word, connection, length = output[at:end].split(b" ")
        assert word == b"reply"
        octets = output[end + 1:end + 1 + int(length)]
        assert len(octets) == int(length) and output[end + 1 + int(length):end + 2 + int(length)] == b"\n"
        given.setdefault(int(connection), []).append(octets)
        at = end + 2 + int(length)
    return given


def wrong_reply(octets, method):
    """What is wrong with a reply, if anything is."""
    head, _, content = octets.partition(b"\r\n\r\n")
    rows = head.split(b"\r\n")
    status = int(rows[0].split(b" ")[1])
    fields = dict(row.split(b": ", 1) for row in rows[1:])
    if status not in STATUSES:
        return f"status {status}"
    if status in (204, 304):
        return "content" if content or b"Content-Length" in fields else None
    if method == b"HEAD":
        return "content of a HEAD" if content else None
    if int(fields[b"Content-Length"]) != len(content):
        return "another length"
    media = fields.get(b"Content-Type", b"")
    if media.startswith(b"application/xml"):
        try:
            # the separator is no character of XML, so it stands in no namespace
            xml.parsers.expat.ParserCreate(namespace_separator="\x0c").Parse(content, True)
        except xml.parsers.expat.ExpatError as fault:
            return f"no XML: {fault}"
    elif media.startswith(b"text/calendar"):
        # RFC 5545, 3.4, with the lenient ends of lines that are stored as they were sent
        if not re.match(rb"(?i)\s*B", content):
            return "no calendar"
    elif content:
        return "content of no kind"
    return None


def wrong(streams, status, output):
    """What is wrong with the output for some streams, if anything is."""
    if status:
        return f"status {status}"
    try:
        given = replies(output)
    except (AssertionError, ValueError) as fault:
        return f"no frames: {fault!r}"
    for number, octets in enumerate(streams):
        asked, fault = requests(octets)
        told = given.pop(number, [])
        wanted = len(asked) + (fault is not None)
        if len(told) != wanted:
            return f"stream {number}: {len(told)} replies where {wanted} are due"
        for reply, (method, closes) in zip(told, asked):
            why = wrong_reply(reply, method)
            if why:
                return f"stream {number}: {why}"
            if (b"\r\nConnection: close\r\n" in reply.split(b"\r\n\r\n")[0] + b"\r\n") != closes:
                return f"stream {number}: it says of closing what is not so"
        if fault is not None and not told[-1].startswith(b"HTTP/1.1 %d " % fault):
            return f"stream {number}: {told[-1][:40]!r} where the fault is {fault}"
    return f"replies on connections {sorted(given)}" if given else None


def main():
    words = argparse.ArgumentParser(description=__doc__, formatter_class=argparse.RawDescriptionHelpFormatter)
    words.add_argument("--streams", type=int, default=1_000_000)
    words.add_argument("--seed", type=int, default=random.SystemRandom().randrange(1 << 32))
    words.add_argument("--seconds", type=float, default=float("inf"), help="stop after so many")
    words.add_argument("--keep", default="hostile-kept", help="the folder for scripts that went wrong, and for the slowest")
    words.add_argument("--program", default=os.path.join(TOP, "crates/caldav_server/out/caldav_server"))
    words.add_argument("--patience", type=int, default=30, help="the seconds after which a script is ended")
    words.add_argument("--show", type=int, default=20, help="how many of the slowest hundred are printed")
    asked = words.parse_args()
    program = os.path.abspath(asked.program)
    if not os.path.exists(program):
        sys.exit(f"{program} is not built: run `rt run` in crates/caldav_server first")
    print(f"seed {asked.seed}", flush=True)
    os.makedirs(asked.keep, exist_ok=True)
    begin = time.monotonic()
    done = octets_in_all = faults = 0
    statuses, seconds_in_all, slowest = {}, 0.0, []
    with tempfile.TemporaryDirectory(dir="/dev/shm" if os.path.isdir("/dev/shm") else None) as folder:
        runner = Runner(program, folder, asked.patience)
        start = min(runner.run(b"")[2] for _ in range(20))
        batch = 0
        while done < asked.streams and time.monotonic() - begin < asked.seconds:
            pick = random.Random(f"{asked.seed}.{batch}").choice
            streams = [stream(pick) for _ in range(16)]
            text = frames(pick, streams)
            status, output, seconds = runner.run(text)
            why = wrong(streams, status, output)
            if why:
                faults += 1
                print(f"batch {batch}: {why}", flush=True)
                with open(os.path.join(asked.keep, f"wrong-{asked.seed}-{batch}.frames"), "wb") as file:
                    file.write(text)
            for told in re.findall(rb"HTTP/1\.1 (\d+) ", output):
                statuses[told] = statuses.get(told, 0) + 1
            octets_in_all += len(text)
            seconds_in_all += seconds - start
            slowest.append(((seconds - start) / max(len(text) + len(output), LITTLE), batch))
            if len(slowest) > 1000:
                slowest = sorted(slowest, reverse=True)[:100]
            batch, done = batch + 1, done + 16
            if batch % 5000 == 0:
                print(f"{done} streams, {octets_in_all} octets, {seconds_in_all / octets_in_all * 1e9:.0f} ns an octet, {faults} wrong", flush=True)
        print(f"{done} streams in {batch} scripts, {octets_in_all} octets, {seconds_in_all:.1f} s of the program ({seconds_in_all / max(octets_in_all, 1) * 1e9:.0f} ns an octet), {faults} wrong")
        print("replies: " + ", ".join(f"{status.decode()} {count}" for status, count in sorted(statuses.items())))
        print_slowest(asked, runner, start, sorted(slowest, reverse=True)[:100])
    sys.exit(1 if faults else 0)


def print_slowest(asked, runner, start, slowest):
    """Runs the slowest scripts once more, stream by stream, and prints which of their streams takes the time."""
    found = []
    for _, batch in slowest:
        pick = random.Random(f"{asked.seed}.{batch}").choice
        streams = [stream(pick) for _ in range(16)]
        text = frames(pick, streams)
        before, shown = 0.0, 0
        for number in range(16):
            front = text[:text.index(b"bytes %d " % (number + 1)) if number < 15 and b"\nbytes %d " % (number + 1) in text else len(text)]
            runs = [runner.run(front) for _ in range(3)]
            seconds, output = min(run[2] for run in runs) - start, len(runs[0][1])
            size = len(streams[number]) + output - shown
            found.append(((seconds - before) / max(size, LITTLE), seconds - before, size, batch, number))
            before, shown = seconds, output
    found.sort(reverse=True)
    print(f"the streams that take longest for each octet that comes in or goes out, of at least {LITTLE}:")
    for each, seconds, size, batch, number in found[:100]:
        pick = random.Random(f"{asked.seed}.{batch}").choice
        octets = [stream(pick) for _ in range(16)][number]
        with open(os.path.join(asked.keep, f"slow-{asked.seed}-{batch}-{number}.octets"), "wb") as file:
            file.write(octets)
    for each, seconds, size, batch, number in found[:asked.show]:
        print(f"  {each * 1e9:9.0f} ns an octet, {seconds * 1e6:9.0f} us, {size:7d} octets: batch {batch}, stream {number}")


if __name__ == "__main__":
    main()
