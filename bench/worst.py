#!/usr/bin/env python3
"""Looks for requests that cost the server much of the processor, or much memory, for each of their octets.

    bench/worst.py [--seconds S] [--seed S] [--octets N] [--patience S] [--short S] [--show N] [--each N] [--keep FOLDER] [--only WORD] [--climb] [--program PATH]

It begins with families that are known to be dear: of each it makes a small and a large one, prints what both cost, whether
the cost grows with the work that was thought of (so many alarms times so many instances times so many tests) or faster,
and what that comes to at the limits of docs/LIMITS.md. Then it climbs for S seconds of processor time of the server (0:
families alone): it takes one of the worst requests so far, changes it (lines, blocks, items of lists, numbers and parts
of rules of the stored object; elements, attributes and texts of the body; the one or the other from another of them),
measures it, and keeps it where it costs more for each octet. Its cases have N octets at most, so that each is short.

Each case is run by a server of its own, `serve` with one session and no worker: the object is put, perhaps some times over
under other names, and then the request is asked. Measured are the processor seconds of the PUT and of the request, what
the server took at most while each ran and, of a PUT, what it keeps. The octets of a request are those of its own body and
of what it asks of; less than 2,000 count as 2,000. A server that takes more than so many seconds of patience for a request
is ended (in the climb more than so many of `--short`), and the request counts as one that took these.

It prints the worst requests, so many of each family, and keeps them in FOLDER: `put`, `asked` and how often the object is
put. WORD picks the families whose name has it in it. It needs Linux and Python 3 alone; build the program first by
`rt run` in crates/caldav_server.
"""
import argparse, base64, math, os, random, re, resource, socket, subprocess, sys, tempfile, time
import xml.etree.ElementTree as Tree
from collections import namedtuple

sys.path.insert(0, os.path.dirname(os.path.abspath(__file__)))
sys.dont_write_bytecode = True
import hostile

TOP = os.path.dirname(os.path.dirname(os.path.abspath(__file__)))
USERS = b"user alice ba7816bf8f01cfea414140de5dae2223b00361a396177a9cb410ff61f20015ad\n"
KEY = base64.b64encode(b"alice:abc").decode()
CALENDAR = "/calendars/alice/calendar/"
SPACES = 'xmlns="urn:ietf:params:xml:ns:caldav" xmlns:D="DAV:"'
LITTLE = 2000  # octets; what less takes is the noise of the machine
OBJECT, BODY, HOME = 262_144, 1_048_576, 33_554_432  # octets at most
INSTANCES, ONSETS, COST = 250_000, 50_000, 256

# An object, how often it is put, and what is then asked of the calendar; where there is no object, or no body, that part is left out.
Case = namedtuple("Case", "family text copies method body")
# What one request of a case cost: octets of memory at most beside those before, and those that stay.
Cost = namedtuple("Cost", "case what status octets seconds most stays")


# Running


class Ended(Exception):
    """The server took more of the processor than there is patience for."""


class Server:
    """A server with one session, on which no case was run before."""

    def __init__(self, options, users):
        with socket.socket() as link:
            link.bind(("127.0.0.1", 0))
            self.port = link.getsockname()[1]
        words = [options.program, "serve", "--users", users, "--listen", f"127.0.0.1:{self.port}", "--sessions", "1", "--workers", "0"]
        self.process = subprocess.Popen(words, stdin=subprocess.DEVNULL, stderr=subprocess.PIPE)
        line = self.process.stderr.readline()
        if not line.startswith(b"listening"):
            self.stop()
            raise OSError(f"the server said {line!r}")
        self.patience = options.patience
        resource.prlimit(self.process.pid, resource.RLIMIT_DATA, (options.memory, options.memory))
        for octets in WARM:
            self.reply(octets)

    def stop(self):
        self.process.kill()
        self.process.communicate()

    def seconds(self):
        """Processor seconds of all threads."""
        folder = f"/proc/{self.process.pid}/task"
        return sum(int(open(f"{folder}/{thread}/schedstat").read().split()[0]) for thread in os.listdir(folder)) / 1e9

    def memory(self, name):
        """The resident octets now (VmRSS), or at most (VmHWM)."""
        with open(f"/proc/{self.process.pid}/status") as file:
            return int(re.search(name + r":\s+(\d+)", file.read())[1]) * 1024

    def reply(self, octets):
        """The status and the length of the one reply on a connection of its own."""
        with socket.create_connection(("127.0.0.1", self.port)) as link:
            link.sendall(octets)
            link.settimeout(0.1)
            front, count, began = b"", 0, self.seconds()
            while True:
                try:
                    piece = link.recv(1 << 20)
                except TimeoutError:
                    if self.seconds() - began > self.patience:
                        raise Ended
                    continue
                if not piece:
                    break
                front, count = front or piece, count + len(piece)
        if not front:
            raise OSError("no answer came")
        return front[9:12].decode(), count

    def asked(self, octets):
        """The status of a reply, processor seconds, octets of memory at most and those that stay."""
        with open(f"/proc/{self.process.pid}/clear_refs", "w") as file:
            file.write("5")
        before, began = self.memory("VmRSS"), self.seconds()
        status, _ = self.reply(octets)
        return status, self.seconds() - began, self.memory("VmHWM") - before, self.memory("VmRSS") - before


def request(method, path, body):
    media = "text/calendar" if method == "PUT" else "application/xml"
    lines = [f"{method} {path} HTTP/1.1", "Host: h", f"Authorization: Basic {KEY}", "Depth: 1" if method == "PROPFIND" else "X: y"]
    lines += [f"Content-Type: {media}", f"Content-Length: {len(body)}", "Connection: close", "", ""]
    return "\r\n".join(lines).encode() + body


def put(text, number):
    """The PUT of a copy: the number stands in its UID, so that each may be stored."""
    return request("PUT", f"{CALENDAR}o{number}.ics", text.replace("UID:u", f"UID:u{number}").encode())


def costs(options, users, case):
    """What the requests of a case cost, each of which has come to its end or to that of patience."""
    server, told, octets = Server(options, users), [], 0
    try:
        for number in range(case.copies if case.text else 0):
            asked = put(case.text, number)
            octets += len(case.text)
            found = ended(server, options, asked) if number in (0, case.copies - 1) else (server.reply(asked)[0], 0.0, 0, 0)
            if number == 0:
                told.append(Cost(case, "PUT", found[0], octets, *found[1:]))
            if found[0] not in ("201", "204"):
                break
        if case.body and (not told or found[0] in ("201", "204")):
            octets += len(case.body)
            found = ended(server, options, request(case.method, CALENDAR + ("m/" if case.method == "MKCALENDAR" else ""), case.body.encode()))
            told.append(Cost(case, case.method, found[0], octets, *found[1:]))
        return told
    except (OSError, Ended):
        return told
    finally:
        server.stop()


def ended(server, options, octets):
    """What a request cost; one that takes longer than that has its patience."""
    try:
        return server.asked(octets)
    except Ended:
        return "none", options.patience, 0, 0
    except OSError:
        return "broken", 0.0, 0, 0


# The families that are known


def calendar(*lines):
    return "\r\n".join(["BEGIN:VCALENDAR", "VERSION:2.0", "PRODID:a", *lines, "END:VCALENDAR", ""])


def event(*lines):
    return calendar("BEGIN:VEVENT", "UID:u", "DTSTAMP:20250101T000000Z", *lines, "END:VEVENT")


def query(*tests, name="VEVENT", zone="", data=""):
    ask = f"<D:prop><D:getetag/>{data}</D:prop>" + (f"<timezone>{zone}</timezone>" if zone else "")
    inner = f'<comp-filter name="{name}">{"".join(tests)}</comp-filter>'
    return f'<calendar-query {SPACES}>{ask}<filter><comp-filter name="VCALENDAR">{inner}</comp-filter></filter></calendar-query>'


def multiget(count, data):
    href = f"<D:href>{CALENDAR}o0.ics</D:href>"
    return f"<calendar-multiget {SPACES}><D:prop>{data}</D:prop>{href * count}</calendar-multiget>"


def span(start="16000101T000000Z", end="21001231T235959Z"):
    return f'<time-range start="{start}" end="{end}"/>'


HOURLY = ("DTSTART:16000101T000000Z", f"RRULE:FREQ=HOURLY;COUNT={INSTANCES}")
ALARM = ("BEGIN:VALARM", "TRIGGER:PT0S", "END:VALARM")
SPARSE_ALARM = ("BEGIN:VALARM", "TRIGGER:PT0S", "REPEAT:9999999", "DURATION:PT1H", "END:VALARM")  # of all its repeats none is within an hour
FAR_ALARM = ("BEGIN:VALARM", "TRIGGER:P200000D", "END:VALARM")  # so that a report looks at all rows of 547 years
LAST_ALARM = ("BEGIN:VALARM", "TRIGGER;VALUE=DATE-TIME:20990601T000000Z", "END:VALARM")
WEEK = ["MO", "TU", "WE", "TH", "FR", "SA", "SU"]


# A rule that has no moment: every second year from an odd one on, and so no leap year. Each of the months of these years is looked at.
NEVER = "RRULE:FREQ=YEARLY;INTERVAL=2;BYYEARDAY=366"


def zone(*lines, parts=1):
    part = ("BEGIN:STANDARD", *lines, "TZOFFSETFROM:+0000", "TZOFFSETTO:+0100", "END:STANDARD")
    return ("BEGIN:VTIMEZONE", "TZID:Z", *part * parts, "END:VTIMEZONE")


def zoned(*lines, parts=1):
    """An object in the zone of so many parts of these lines."""
    return event("DTSTART;TZID=Z:20250101T000000").replace("BEGIN:VEVENT", "\r\n".join([*zone(*lines, parts=parts), "BEGIN:VEVENT"]))


def alarm_test(*ends):
    return f'<comp-filter name="VALARM">{span(*ends)}</comp-filter>'


def alarms(size):
    return Case("alarms", event(*HOURLY, *ALARM * size, *FAR_ALARM, *LAST_ALARM), 1, "REPORT", query(alarm_test("20990101T000000Z") * 100))


def sparse_alarms(size):
    test = alarm_test("20990101T001234Z", "20990101T001235Z")
    last = LAST_ALARM[0], LAST_ALARM[1].replace("T000000Z", "T001234Z").replace("0601", "0101"), LAST_ALARM[2]
    return Case("alarms with gaps", event(*HOURLY, *SPARSE_ALARM * size, *FAR_ALARM, *last), 1, "REPORT", query(test * 4))


def zone_of_query(size):
    text = calendar(*zone("DTSTART:00010101T000000", *[NEVER] * 8, parts=size))
    return Case("zone of a query", "", 0, "REPORT", query(zone=text))


def zone_of_put(size):
    return Case("zone of a PUT", zoned("DTSTART:00010101T000000", *[NEVER] * 8, parts=size), 1, "", "")


def repeated_days(size):
    return Case("repeated days", event("DTSTART:16000101T000000Z", "RRULE:FREQ=DAILY;BYDAY=" + ",".join(["MO"] * size + WEEK)), 1, "", "")


def texts(size):
    test = '<prop-filter name="X"><text-match negate-condition="yes">zzz</text-match></prop-filter>'
    return Case("texts", event("DTSTART:20250101T000000Z", "X:" + "y" * 200_000), 1, "REPORT", query(test * size))


def busy(size):
    return Case("free-busy", event(*HOURLY), size, "REPORT", f"<free-busy-query {SPACES}>{span()}</free-busy-query>")


def one_object(size):
    return Case("one object named often", event("DTSTART:20250101T000000Z", "X:" + "y" * 261_900), 1, "REPORT", multiget(size, "<calendar-data/>"))


def expanded_often(size):
    data = '<calendar-data><expand start="20990101T000000Z" end="20990102T000000Z"/></calendar-data>'
    return Case("one object expanded often", event(*HOURLY, *FAR_ALARM), 1, "REPORT", multiget(size, data))


def named_days(size):
    override = ("BEGIN:VEVENT", "UID:u", "DTSTAMP:20250101T000000Z", "RECURRENCE-ID;RANGE=THISANDFUTURE;VALUE=DATE:{}", "DTSTART:{}T003000Z", "END:VEVENT")
    days = [f"1625{month:02}{day:02}" for month in range(1, 13) for day in range(1, 29)][:size]
    more = "\r\n".join(line.replace("{}", day) for day in days for line in override)
    return Case("days that overrides name", event(*HOURLY).replace("END:VEVENT", "END:VEVENT\r\n" + more), 1, "", "")


def onsets(size):
    return Case("onsets", zoned("DTSTART:19700101T000000", f"RRULE:FREQ=HOURLY;COUNT={size}"), 1, "", "")


def small_lines(size):
    return Case("small lines", event("DTSTART:20250101T000000Z", *["X:"] * size), 1, "", "")


def small_components(size):
    return Case("small components", event("DTSTART:20250101T000000Z", *["BEGIN:X", "END:X"] * size), 1, "", "")


def elements(size):
    return Case("elements", "", 0, "PROPFIND", f"<D:propfind {SPACES}><D:prop>{'<a/>' * size}</D:prop></D:propfind>")


def long_namespace(size):
    """So long a namespace that its elements come to 64 octets for each of the body."""
    return Case("a long namespace", "", 0, "PROPPATCH", f'<D:propertyupdate {SPACES}><D:set><D:prop xmlns="{"n" * size}">{"<a/>" * 62}</D:prop></D:set></D:propertyupdate>')


def many_tests(size):
    return Case("many tests", event("DTSTART:20250101T000000Z"), 1, "REPORT", query('<prop-filter name="X"/>' * size))


# What a server is asked first, so that it has the pages of its own code: an ordinary event in a zone is put, asked for and deleted.
WARM = [
    put(zoned("DTSTART:19700101T000000", "RRULE:FREQ=YEARLY").replace("DTSTART;", "RRULE:FREQ=WEEKLY;COUNT=9\r\nDTSTART;"), 0),
    request("REPORT", CALENDAR, query(span()).encode()),
    request("REPORT", CALENDAR, multiget(1, '<calendar-data><expand start="20250101T000000Z" end="20260101T000000Z"/></calendar-data>').encode()),
    request("REPORT", CALENDAR, busy(1).body.encode()),
    request("DELETE", CALENDAR + "o0.ics", b""),
]
MONTHS = 12 * 1_050  # of every second year from the year 1 to 2101
# A family: how its case of a size is made, a small and a large size, the request that is meant, what of it (seconds, octets
# at most or octets that stay), the work of a size, and the most that the limits allow in one request of one user.
Family = namedtuple("Family", "make sizes what measure work most told")
OF_ALARM, OF_SPARSE_ALARM, OF_TEST, OF_RULE = 42, 73, 82, len(NEVER) + 2
FAMILIES = [
    Family(alarms, (1_500, 3_000), "REPORT", "seconds", lambda n: n * 100, OBJECT // OF_ALARM * (BODY // OF_TEST), "alarms x tests, of one object"),
    Family(sparse_alarms, (20, 40), "REPORT", "seconds", lambda n: n * INSTANCES * 4, OBJECT // OF_SPARSE_ALARM * INSTANCES * (BODY // OF_TEST), "alarms x instances x tests, of one object"),
    Family(zone_of_query, (40, 80), "REPORT", "seconds", lambda n: n * 8 * MONTHS, BODY // OF_RULE * MONTHS, "months x rules"),
    Family(zone_of_put, (40, 80), "PUT", "seconds", lambda n: n * 8 * MONTHS, OBJECT // OF_RULE * MONTHS, "months x rules"),
    Family(repeated_days, (20_000, 40_000), "PUT", "seconds", lambda n: n * 3, OBJECT, "octets of the rule"),
    Family(texts, (200, 400), "REPORT", "seconds", lambda n: n * 200_000, HOME * (BODY // 95), "octets x tests"),
    Family(busy, (2, 4), "REPORT", "seconds", lambda n: n * INSTANCES, HOME // (130 + COST) * INSTANCES, "instances of the calendar"),
    Family(busy, (2, 4), "REPORT", "most", lambda n: n * INSTANCES, HOME // (130 + COST) * INSTANCES, "instances of the calendar"),
    Family(one_object, (64, 128), "REPORT", "most", lambda n: n * 262_000, 64 << 20, "octets of the reply"),
    Family(expanded_often, (40, 80), "REPORT", "seconds", lambda n: n * INSTANCES, BODY // 49 * INSTANCES, "hrefs x instances"),
    Family(named_days, (30, 60), "PUT", "seconds", lambda n: n * INSTANCES, OBJECT // 144 * INSTANCES, "overrides x instances"),
    Family(onsets, (24_000, 48_000), "PUT", "stays", lambda n: n, HOME // (400 + COST) * ONSETS, "onsets of zones that differ"),
    Family(small_lines, (30_000, 60_000), "PUT", "stays", lambda n: n * 4, HOME, "octets"),
    Family(small_components, (6_000, 12_000), "PUT", "stays", lambda n: n * 16, HOME, "octets"),
    Family(elements, (60_000, 120_000), "PROPFIND", "most", lambda n: n * 4, BODY, "octets of the body"),
    Family(long_namespace, (100_000, 200_000), "PROPPATCH", "most", lambda n: n, BODY, "octets of the body"),
    Family(many_tests, (10_000, 20_000), "REPORT", "most", lambda n: n * 23, BODY, "octets of the body"),
]


def spelled(measure, amount):
    """An amount of seconds or of octets, in a unit that suits it."""
    units = [(3600, "h"), (60, "min"), (1, "s"), (1e-3, "ms"), (0, "us")] if measure == "seconds" else [(1e9, "GB"), (1e6, "MB"), (0, "kB")]
    size, unit = next((size, unit) for size, unit in units if amount >= size)
    return f"{amount / (size or (1e-6 if measure == 'seconds' else 1e3)):.3g} {unit}"


def show_family(options, users, family):
    """Makes a family at both sizes and prints what they cost; gives all that was measured."""
    found, told = [], []
    for size in family.sizes:
        case = family.make(size)
        found += costs(options, users, case)
        told += [one for one in found if one.case == case and one.what == family.what][:1]
    if len(told) < 2 or any(one.status == "none" for one in told):
        print(f"{family.make(1).family}: {', '.join(f'{one.what} {one.status}' for one in found)}", flush=True)
        return found
    amounts = [max(getattr(one, family.measure), 1e-9) for one in told]
    # what takes less at the larger size is the noise of the machine
    each = max(amounts[1] - amounts[0], 0) / (family.work(family.sizes[1]) - family.work(family.sizes[0]))
    power = math.log(amounts[1] / amounts[0]) / math.log(family.sizes[1] / family.sizes[0])
    unit = (1e9, "ns") if family.measure == "seconds" else (1, "octets")
    print(
        f"{told[0].case.family} ({family.what} {told[1].status}, {family.measure}): "
        + ", ".join(f"{one.octets} octets {spelled(family.measure, amount)}" for one, amount in zip(told, amounts))
        + f"; {each * unit[0]:.3g} {unit[1]} more for each of {family.told}; grows as the {power:.2f}th power; at the limits {spelled(family.measure, each * family.most)}",
        flush=True,
    )
    return found


# Climbing


LISTS = re.compile(r"(BYDAY|BYMONTHDAY|BYYEARDAY|BYWEEKNO|BYMONTH|BYHOUR|BYMINUTE|BYSECOND|BYSETPOS)=([^;]*)")
NUMBERS = ["0", "1", "2", "3", "7", "23", "24", "31", "53", "-1", "59", "366", "-366", "1600", "2100", "200000", "250000", "999999999"]
TEXTS = ["", "a", "A", "yyyyyyyyz", "zzz", "y" * 100, "é" * 20, "1600", "&#13;"]


def whole_block(lines, at):
    """The first line and the line behind the last of the smallest block in which a line stands, or of the line alone."""
    depth, first = 0, at
    while first > 0 and not (lines[first].startswith("BEGIN:") and depth == 0):
        depth += lines[first].startswith("END:") and first != at
        depth -= lines[first].startswith("BEGIN:")
        first -= 1
    depth, last = 0, first
    while last < len(lines):
        depth += lines[last].startswith("BEGIN:") - lines[last].startswith("END:")
        last += 1
        if depth == 0:
            break
    return (first, last) if first > 0 else (at, at + 1)


def new_line(chance):
    """A line that has to do with time, or a block."""
    pick = chance.choice
    kind = pick(["RRULE", "RDATE", "EXDATE", "DURATION", "RECURRENCE-ID", "alarm", "zone", "other"])
    if kind == "alarm":
        return ["BEGIN:VALARM", f"TRIGGER{pick(['', ';RELATED=END'])}:{hostile.value(pick, b'TRIGGER').decode()}", f"REPEAT:{pick(NUMBERS)}", "DURATION:PT1S", "END:VALARM"]
    if kind == "zone":
        return list(zone("DTSTART:16010101T000000", "RRULE:" + hostile.rule(pick).decode()))
    name = kind if kind != "other" else pick(hostile.NAMES).decode()
    params = pick(["", "", ";TZID=Z", ";VALUE=DATE", ";RANGE=THISANDFUTURE"])
    return [f"{name}{params}:{hostile.value(pick, name.encode()).decode('latin-1')}"]


def changed_rule(chance, line):
    """A line whose rule has one part more, less or other, or whose lists have other items."""
    pick = chance.choice
    parts = line.split(";")
    kind = pick(["list", "list", "part", "drop", "freq"])
    found = list(LISTS.finditer(line))
    if kind == "list" and found:
        one = pick(found)
        items = one[2].split(",")
        items = pick([items * pick([2, 3, 10]), items + [pick(NUMBERS[1:12])], items[: len(items) // 2 + 1], [pick(["MO", "1MO", "-1SU", "5SA", "MO,TU,WE,TH,FR,SA,SU"])]])
        return line[: one.start(2)] + ",".join(items) + line[one.end(2):]
    if kind == "drop" and len(parts) > 1:
        parts.pop(chance.randrange(1, len(parts)))
        return ";".join(parts)
    if kind == "freq":
        return re.sub(r"FREQ=\w+", f"FREQ={pick(['HOURLY', 'DAILY', 'WEEKLY', 'MONTHLY', 'YEARLY'])}", line)
    return line + ";" + pick(hostile.rule(pick).decode().split(";")[1:] or ["INTERVAL=1"])


def changed_lines(chance, text, other):
    """The lines of a calendar with something changed."""
    pick, lines = chance.choice, text.split("\r\n")[:-1]
    at = chance.randrange(3, len(lines) - 1) if len(lines) > 4 else 0
    first, last = whole_block(lines, at) if pick((True, False)) else (at, at + 1)
    kind = pick(["repeat", "repeat", "number", "rule", "rule", "new", "drop", "long", "other", "other"])
    if kind == "repeat":
        lines[first:last] = lines[first:last] * pick([2, 2, 3, 10, 30])
    elif kind == "number" and (found := list(re.finditer(r"\d+", lines[at]))):
        one = pick(found)
        value = pick([pick(NUMBERS), str(int(one[0]) + 1), str(max(int(one[0]) - 1, 0))])
        lines[at] = lines[at][: one.start()] + value.zfill(len(one[0])) + lines[at][one.end():]
    elif kind == "rule" and (rules := [number for number, line in enumerate(lines) if "FREQ=" in line]):
        number = pick(rules)
        lines[number] = changed_rule(chance, lines[number])
    elif kind == "drop":
        del lines[first:last]
    elif kind == "long":
        lines[at] += pick(["y", "yz", ",", lines[at].partition(":")[2]]) * pick([1, 10, 100, 1000])
    elif kind == "other" and other:
        theirs = other.split("\r\n")[:-1]
        one, behind = whole_block(theirs, chance.randrange(len(theirs)))
        lines[at:at] = theirs[one:behind]
    else:
        lines[at:at] = new_line(chance) * pick([1, 1, 10])
    return "\r\n".join(lines) + "\r\n"


def new_element(chance):
    """A test of a filter, a property, a selection or an href."""
    pick = chance.choice
    texts = [hostile.comp_filter(pick, 1), b'<C:prop-filter name="%s"><C:text-match>%s</C:text-match></C:prop-filter>' % (pick(hostile.NAMES), pick(TEXTS).encode())]
    texts += [b"<C:time-range%s/>" % hostile.span(pick), b"<C:calendar-data><C:expand%s/></C:calendar-data>" % hostile.span(pick), b"<D:href>%so0.ics</D:href>" % CALENDAR.encode()]
    return Tree.fromstring(b"<x %s>%s</x>" % (hostile.SPACES_OF_XML, pick(texts)))[0]


def changed_body(chance, body, other):
    """An XML body with something changed."""
    pick, root = chance.choice, Tree.fromstring(body)
    nodes = [(parent, child) for parent in root.iter() for child in parent]
    if not nodes:
        return body
    parent, child = pick(nodes[:200])
    at = list(parent).index(child)
    kind = pick(["repeat", "repeat", "repeat", "drop", "attribute", "text", "new", "other"])
    if kind == "repeat":
        for _ in range(pick([1, 1, 2, 9, 30])):
            parent.insert(at, child)
    elif kind == "drop":
        parent.remove(child)
    elif kind == "attribute" and child.attrib:
        name = pick(sorted(child.attrib))
        child.attrib[name] = pick([pick(hostile.DATES).decode() + "T000000Z", pick(hostile.KINDS).decode(), pick(hostile.NAMES).decode(), "yes", "i;octet"])
    elif kind == "text" and child.text and "BEGIN:" in child.text:
        child.text = changed_lines(chance, child.text.replace("\n", "\r\n"), "").replace("\r\n", "\n")
    elif kind == "text":
        child.text = pick([pick(TEXTS), (child.text or "y") * pick([2, 10])])
    elif kind == "other" and other and (theirs := [node for node in Tree.fromstring(other).iter()][1:]):
        parent.insert(at, pick(theirs))
    else:
        parent.insert(at, new_element(chance))
    return Tree.tostring(root, encoding="unicode")


def changed(chance, case, others):
    """A case with a few things changed, or its object with the question of another."""
    other = chance.choice(others)
    for _ in range(chance.choice([1, 1, 2, 4])):
        kind = chance.randrange(10)
        if kind == 0 and other.body and case.text:
            case = case._replace(method=other.method, body=other.body)
        elif kind == 1 and case.text:
            case = case._replace(copies=max(1, chance.choice([case.copies * 2, case.copies // 2, case.copies + 1])))
        elif case.text and (kind < 6 or not case.body):
            case = case._replace(text=changed_lines(chance, case.text, other.text))
        elif case.body:
            case = case._replace(body=changed_body(chance, case.body, other.body))
    return case


def each(cost, measure):
    """What a request costs for each of its octets."""
    return getattr(cost, measure) / max(cost.octets, LITTLE)


def seeds():
    """The families again, small enough to be changed and run often."""
    sizes = {alarms: 5, zone_of_query: 40, zone_of_put: 40, repeated_days: 100, texts: 20, busy: 1, one_object: 8, expanded_often: 2, named_days: 6, onsets: 2000, small_lines: 500}
    sizes.update({small_components: 200, elements: 500, long_namespace: 500, many_tests: 50})
    cases = [make(size) for make, size in sizes.items()]
    return [case._replace(text=case.text.replace("y" * 200_000, "y" * 4000).replace("y" * 261_900, "y" * 4000)) for case in cases]


def climb(options, users, chance, found):
    """Changes the worst cases as long as there is time; gives all that was measured."""
    best, used, tried = {}, 0.0, 0
    first = [case for case in seeds() if options.only in case.family]
    while used < options.seconds:
        case = first[tried] if tried < len(first) else next_case(options, chance, best)
        told = costs(options, users, case)
        used += sum(one.seconds for one in told) + 0.01
        tried += 1
        for one in told:
            found.append(one)
            for measure in ("seconds", "most"):
                place = (case.family, one.what, measure)
                if place not in best or each(one, measure) > each(best[place], measure):
                    best[place] = one
        if len(found) > 5000:
            found[:] = worst(found, 2000, 200)
        if tried % 100 == 0:
            print(f"{tried} cases, {used:.0f} s", flush=True)
    print(f"{tried} cases in {used:.0f} s of the server's processor time")


def next_case(options, chance, best):
    """One of the best changed, of so many octets at most."""
    cases = [one.case for one in best.values()]
    while True:
        case = chance.choice(cases)
        try:
            case = changed(chance, case, cases)
        except (ValueError, IndexError, Tree.ParseError, TypeError):
            continue
        if len(case.text) * case.copies + len(case.body) <= options.octets:
            return case


def worst(found, count, of_each):
    """The worst requests by time and by memory in turn, so many of each family and method at most."""
    told, families = {}, {}
    ranks = [sorted(found, key=lambda one: -each(one, measure)) for measure in ("seconds", "most")]
    for one in (one for pair in zip(*ranks) for one in pair):
        family = (one.case.family, one.what)
        if (one.case, one.what) not in told and families.get(family, 0) < of_each:
            families[family] = families.get(family, 0) + 1
            told[one.case, one.what] = one
    return list(told.values())[:count]


def shown(case):
    """A few words of a case: how often its object is put, and what stands in it most often."""
    lines = re.findall(r"[^\r\n]+", case.text) + re.findall(r"<[^<>/?]+", case.body)
    lines = [re.sub(r"(.{60}).*", r"\1..", line.replace(f" {SPACES}", "")) for line in lines if not line.startswith(("BEGIN:VCAL", "END:", "VERSION", "PRODID", "DTSTAMP"))]
    counted = sorted({line: lines.count(line) for line in lines}.items(), key=lambda it: -it[1])
    return f"{case.copies} x " + ", ".join(f"{count} {line}" for line, count in counted[:4])


def show(options, found):
    os.makedirs(options.keep, exist_ok=True)
    print("| | Family | Request, status | Octets | Seconds | us an octet | MB at most | Octets of memory for each |")
    print("|---|---|---|---|---|---|---|---|")
    for number, one in enumerate(worst(found, options.show, options.each)):
        print(f"| {number} | {one.case.family} | {one.what} {one.status} | {one.octets} | {one.seconds:.3f} | {each(one, 'seconds') * 1e6:.1f} | {one.most / 1e6:.1f} | {each(one, 'most'):.0f} |")
        with open(os.path.join(options.keep, f"{number}.case"), "w") as file:
            file.write(f"{shown(one.case)}\n\nput {one.case.copies} times:\n{one.case.text}\nasked by {one.case.method}:\n{one.case.body}\n")


def main():
    parser = argparse.ArgumentParser(description=__doc__.splitlines()[0])
    parser.add_argument("--seconds", type=float, default=3600)
    parser.add_argument("--seed", type=int, default=random.randrange(1 << 30))
    parser.add_argument("--octets", type=int, default=16_000)
    parser.add_argument("--patience", type=float, default=30)
    parser.add_argument("--short", type=float, default=2)
    parser.add_argument("--memory", type=int, default=4 << 30)
    parser.add_argument("--show", type=int, default=100)
    parser.add_argument("--each", type=int, default=8)
    parser.add_argument("--keep", default=os.path.join(tempfile.gettempdir(), "worst"))
    parser.add_argument("--only", default="")
    parser.add_argument("--climb", action="store_true", help="without the families at both sizes")
    parser.add_argument("--program", default=f"{TOP}/crates/caldav_server/out/caldav_server")
    options = parser.parse_args()
    Tree.register_namespace("D", "DAV:")
    Tree.register_namespace("C", "urn:ietf:params:xml:ns:caldav")
    print(f"seed {options.seed}")
    found = []
    with tempfile.NamedTemporaryFile(suffix=".users") as users:
        users.write(USERS)
        users.flush()
        for family in FAMILIES:
            if options.only in family.make(1).family and not options.climb:
                found += show_family(options, users.name, family)
        if options.seconds > 0:
            options.patience = options.short
            climb(options, users.name, random.Random(options.seed), found)
            show(options, found)


if __name__ == "__main__":
    main()
