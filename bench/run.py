#!/usr/bin/env python3
"""Times the programs over generated input, and prints the figures. It needs Python 3, and Debian's package `time` for the memory.

Build the programs once before: `rt run` in crates/caldav_server and in crates/bench.
Words name the parts that are to run (scripts, growth, puts, expansions, zones, lines, values, objects, rules, rows, filters, bodies, requests, wire, busy, slots, index, claims, turns); without a word all do.
"""
import base64, contextlib, datetime, os, re, resource, socket, subprocess, sys, tempfile, time

TOP = os.path.dirname(os.path.dirname(os.path.abspath(__file__)))
SERVER = os.path.join(TOP, "crates/caldav_server/out/caldav_server")
BENCH = os.path.join(TOP, "crates/bench/out/bench")
USERS = b"user alice ba7816bf8f01cfea414140de5dae2223b00361a396177a9cb410ff61f20015ad\n"


MOMENT = 1741600000  # 09:46:40 on 10 March 2025
RULES_OF_THIRDS = (b"FREQ=WEEKLY;COUNT=52", b"FREQ=DAILY;COUNT=30", b"FREQ=MONTHLY;COUNT=24")


def octets_of(method, target, body=b"", media=b"application/xml", depth=b"", user=b"alice"):
    """The octets of a request of a user."""
    fields = [b"%s %s HTTP/1.1" % (method, target), b"Host: h", b"Authorization: Basic " + base64.b64encode(user + b":abc")]
    fields += [b"Depth: " + depth] if depth else []
    fields += [b"Content-Type: " + media, b"Content-Length: %d" % len(body)] if body else []
    return b"\r\n".join(fields + [b"", body])


def request(method, target, body=b"", media=b"application/xml", depth=b"", connection=15):
    """The frame of a request of alice. A connection takes 1,000 requests."""
    payload = octets_of(method, target, body, media, depth)
    return b"bytes %d %d %d\n%s\n" % (connection, MOMENT, len(payload), payload)


CALENDAR = b"/calendars/alice/calendar/"
WORDS_OF_TEXT = b"we talk over what was done since the last time and what comes next, then about all that is still open "


def name_of(number):
    return b"o%06d" % number


def event(number, zone=()):
    """An event of half an hour within 2025, of some 700 octets without its zone; each third one recurs."""
    date = datetime.date(2025, 1, 1) + datetime.timedelta(days=number * 7 % 365)
    moment = (b";TZID=NY:%sT%02d%02d00" if zone else b":%sT%02d%02d00Z") % (date.strftime("%Y%m%d").encode(), 8 + number % 9, number * 5 % 60)
    lines = [
        b"BEGIN:VCALENDAR", b"VERSION:2.0", b"PRODID:-//a//EN", *zone, b"BEGIN:VEVENT", b"UID:" + name_of(number),
        b"DTSTAMP:20250101T000000Z", b"DTSTART" + moment, b"DURATION:PT30M",
        *([b"RRULE:" + RULES_OF_THIRDS[number // 3 % 3]] if number % 3 == 0 else []),
        b"SUMMARY:Meeting %d" % number, b"LOCATION:Room %d" % (number % 40),
        *[b"X-NOTE-%d:%s" % (n, WORDS_OF_TEXT[:60]) for n in range(7)], b"END:VEVENT", b"END:VCALENDAR", b"",
    ]
    return b"\r\n".join(lines)


def put(number, zone=()):
    return request(b"PUT", CALENDAR + name_of(number) + b".ics", event(number, zone), b"text/calendar", connection=number // 1000)


def query(start, end, data=b"<C:calendar-data/>"):
    return request(b"REPORT", CALENDAR, (
        b'<C:calendar-query xmlns:D="DAV:" xmlns:C="urn:ietf:params:xml:ns:caldav">'
        b"<D:prop><D:getetag/>" + data + b"</D:prop>"
        b'<C:filter><C:comp-filter name="VCALENDAR"><C:comp-filter name="VEVENT">'
        b'<C:time-range start="' + start + b'" end="' + end + b'"/>'
        b"</C:comp-filter></C:comp-filter></C:filter></C:calendar-query>"
    ))


def multiget(numbers):
    hrefs = b"".join(b"<D:href>%so%06d.ics</D:href>" % (CALENDAR, n) for n in numbers)
    return request(b"REPORT", CALENDAR, (
        b'<C:calendar-multiget xmlns:D="DAV:" xmlns:C="urn:ietf:params:xml:ns:caldav">'
        b"<D:prop><D:getetag/><C:calendar-data/></D:prop>" + hrefs + b"</C:calendar-multiget>"
    ))


MONTH = (b"20250301T000000Z", b"20250401T000000Z")
ASKED = {
    "GET": request(b"GET", CALENDAR + b"o000042.ics"),
    "PROPFIND of all, getetag": request(
        b"PROPFIND", CALENDAR, b'<D:propfind xmlns:D="DAV:"><D:prop><D:getetag/></D:prop></D:propfind>', depth=b"1"
    ),
    "multiget of 50": multiget(range(100, 150)),
    "a day that is past": query(b"20240101T000000Z", b"20240102T000000Z"),
    "month, getetag": query(*MONTH, data=b""),
    "month": query(*MONTH),
    "month, expanded": query(*MONTH, data=b'<C:calendar-data><C:expand start="%s" end="%s"/></C:calendar-data>' % MONTH),
    "year": query(b"20250101T000000Z", b"20260101T000000Z"),
    "free-busy of a year": request(b"REPORT", CALENDAR, (
        b'<C:free-busy-query xmlns:C="urn:ietf:params:xml:ns:caldav">'
        b'<C:time-range start="20250101T000000Z" end="20260101T000000Z"/></C:free-busy-query>'
    )),
}
WORK = b"claim 0\nexpand 0\npublish 0\n"
HORIZON = 13


def run(program, words, text):
    """Seconds, the greatest memory in MiB (Debian's package `time` tells it, else 0), and the output."""
    with tempfile.TemporaryFile() as given, tempfile.TemporaryFile() as taken, tempfile.NamedTemporaryFile() as told:
        given.write(text)
        given.seek(0)
        measured = ["/usr/bin/time", "-f", "%M", "-o", told.name] if os.path.exists("/usr/bin/time") else []
        begin = time.perf_counter()
        status = subprocess.run([*measured, program, *words], stdin=given, stdout=taken).returncode
        seconds = time.perf_counter() - begin
        taken.seek(0)
        output = taken.read()
        memory = int(told.read() or b"0") / 1024
    if status:
        sys.exit(f"{program} ended with status {status}")
    return seconds, memory, output


def script_words(folder):
    """The words of a script of the users, whose file is written into a folder."""
    users = os.path.join(folder, "users")
    with open(users, "wb") as file:
        file.write(USERS)
    return ["script", "--users", users]


def scripts():
    print(f"{'script':44} {'seconds':>8} {'us each':>9} {'MiB':>6} {'octets each':>12} {'shown':>7}")
    with tempfile.TemporaryDirectory() as folder:
        words = script_words(folder)
        for count in (1000, 5000):
            puts = b"".join(put(n) for n in range(count))
            for pieces, work in (("no pieces", b""), ("all pieces", WORK * (count * HORIZON))):
                base, memory, before = processor_run(SERVER, words, puts + work)
                if not work:
                    print(f"{f'{count} PUTs':44} {base:8.3f} {base / count * 1e6:9.1f} {memory:6.1f} {len(before) // count:12d}")
                    of_puts = base
                else:
                    steps = count * HORIZON
                    print(f"{f'{steps} claims, expansions, publications':44} {base - of_puts:8.3f} {(base - of_puts) / steps * 1e6:9.1f} {memory:6.1f}")
                for label, text in ASKED.items():
                    times = 1000 if label == "GET" else 20
                    seconds, memory, output = processor_run(SERVER, words, puts + work + text * times)
                    if output.count(b"reply 15 ") != times:
                        sys.exit(f"{label}: replies are missing")
                    each = (seconds - base) / times * 1e6
                    octets = (len(output) - len(before)) // times
                    shown = output.count(b"<D:response>") // times
                    print(f"{f'{label}, {count} objects, {pieces}':44} {seconds:8.3f} {each:9.0f} {memory:6.1f} {octets:12d} {shown:7d}")


def growth():
    print(f"{'the last thousand of so many PUTs':44} {'us each':>8}")
    with tempfile.TemporaryDirectory() as folder:
        words = script_words(folder)
        for count in (1000, 2000, 4000, 8000, 15000):
            scripts_of = [b"".join(put(n) for n in range(many)) for many in (count - 1000, count)]
            before, after = (min(processor_run(SERVER, words, script)[0] for _ in range(5)) for script in scripts_of)
            print(f"{count:44d} {(after - before) * 1000:8.1f}")


@contextlib.contextmanager
def served(users):
    """A program that serves some users, whose password is `abc`, at a free port of this machine: its number and the port."""
    with tempfile.TemporaryDirectory() as folder:
        path = os.path.join(folder, "users")
        with open(path, "wb") as file:
            file.write(b"".join(USERS.replace(b"alice", user) for user in users))
        with socket.create_server(("127.0.0.1", 0)) as free:
            port = free.getsockname()[1]
        words = ["serve", "--users", path, "--listen", f"127.0.0.1:{port}", "--sessions", "1", "--workers", "0"]
        program = subprocess.Popen([SERVER, *words], stderr=subprocess.PIPE)
        try:
            if not program.stderr.readline().startswith(b"listening on "):
                sys.exit(f"{SERVER} does not serve")
            yield program.pid, port
        finally:
            program.kill()
            program.wait()


def created(link, requests):
    """Sends PUTs one after the other over a connection. Each has to be answered 201, which has no body."""
    for sent in requests:
        link.sendall(sent)
        reply = b""
        while not reply.endswith(b"\r\n\r\n"):
            more = link.recv(65536)
            if not more:
                sys.exit("the server closed a connection")
            reply += more
        if not reply.startswith(b"HTTP/1.1 201 "):
            sys.exit(f"the server answered {reply[:200]}")


def put_times(users, octets, count):
    """Microseconds of processor of the server for each PUT, thousand by thousand, and its memory in MiB. The users take turns at a thousand."""
    taken = []
    with served(users) as (program, port):
        clock = ~program * 8 + 2  # the time that the system counts for all threads of a program (Linux)
        for begin in range(0, count, 1000):
            user = users[begin // 1000 % len(users)]
            target = CALENDAR.replace(b"alice", user)
            requests = [octets_of(b"PUT", target + name_of(n) + b".ics", octets(n), b"text/calendar", user=user) for n in range(begin, begin + 1000)]
            before = time.clock_gettime(clock)
            with socket.create_connection(("127.0.0.1", port), timeout=30) as link:
                created(link, requests)
            taken.append((time.clock_gettime(clock) - before) * 1000)
        with open(f"/proc/{program}/status") as file:
            memory = int(re.search(r"VmHWM:\s+(\d+)", file.read())[1]) / 1024
    return taken, memory


def small_event(number):
    """An event of 300 octets."""
    lines = [
        b"BEGIN:VCALENDAR", b"VERSION:2.0", b"PRODID:-//a//EN", b"BEGIN:VEVENT", b"UID:" + name_of(number), b"DTSTAMP:20250101T000000Z",
        b"DTSTART:%s" % (datetime.date(2025, 1, 1) + datetime.timedelta(days=number % 365)).strftime("%Y%m%dT090000Z").encode(),
        b"DURATION:PT30M", b"SUMMARY:Meeting", b"X-NOTE:", b"END:VEVENT", b"END:VCALENDAR", b"",
    ]
    lines[9] += (WORDS_OF_TEXT * 2)[:300 - sum(len(line) + 2 for line in lines[:-1])]
    return b"\r\n".join(lines)


def puts():
    print(f"{'the last thousand of so many PUTs':44} {'us each':>8} {'MiB':>6}")
    homes = [b"alice", b"bob", b"carol"]
    for label, users, octets, counts in (
        ("of 700 octets, three calendars", homes, event, (1000, 10000, 100000)),
        ("of 300 octets, one calendar", homes[:1], small_event, (1000, 10000, 60000)),
    ):
        for count in counts:
            runs = [put_times(users, octets, count) for _ in range(3 if count == 1000 else 1)]
            best = min(min(taken[-3:]) for taken, _ in runs)
            print(f"{f'{count} {label}':44} {best:8.1f} {max(memory for _, memory in runs):6.1f}")


def expansions():
    print(f"{'expand of so many years of a daily meeting':44} {'us each':>9} {'octets':>9} {'ns an octet':>12}")
    meeting = [
        b"BEGIN:VCALENDAR", b"VERSION:2.0", b"PRODID:-//a//EN", b"BEGIN:VEVENT", b"UID:daily", b"DTSTAMP:20250101T000000Z",
        b"DTSTART:20250101T090000Z", b"DURATION:PT15M", b"RRULE:FREQ=DAILY", b"SUMMARY:Stand-up", b"LOCATION:Room 1", b"END:VEVENT", b"END:VCALENDAR", b"",
    ]
    front = request(b"PUT", CALENDAR + b"daily.ics", b"\r\n".join(meeting), b"text/calendar", connection=0) + WORK * HORIZON
    with tempfile.TemporaryDirectory() as folder:
        words = script_words(folder)
        base = min(processor_run(SERVER, words, front)[0] for _ in range(3))
        for years in (1, 2, 4, 8):
            span = (b"20250101T000000Z", b"%d0101T000000Z" % (2025 + years))
            text = query(*span, data=b'<C:calendar-data><C:expand start="%s" end="%s"/></C:calendar-data>' % span)
            runs = [processor_run(SERVER, words, front + text * 50) for _ in range(3)]
            each = (min(seconds for seconds, _, _ in runs) - base) / 50
            octets = len(runs[0][2].split(b"reply 15 ")[1])
            print(f"{years:44d} {each * 1e6:9.0f} {octets:9d} {each / octets * 1e9:12.1f}")


def lines():
    print(f"{'text':34} {'octets':>8} {'seconds':>8} {'ns/octet':>9}  answer")
    size = 262144
    for scale in (1, 4):
        n = size * scale
        texts = {
            "one line": b"SUMMARY:" + b"a" * (n - 10) + b"\r\n",
            "one line, an octet a fold": b"SUMMARY:" + b"a\r\n " * ((n - 11) // 4) + b"a\r\n",
            "many lines": b"A:\r\n" * (n // 4),
        }
        for name, text in texts.items():
            best = min(run(BENCH, ["lines"], text)[0] for _ in range(5))
            answer = run(BENCH, ["lines"], text)[2].decode().strip()
            print(f"{name:34} {len(text):8d} {best:8.4f} {best / len(text) * 1e9:9.1f}  {answer}")


def processor_run(program, words, text):
    """As `run`, with the seconds of processor that the program took, which a busy machine changes less."""
    before = resource.getrusage(resource.RUSAGE_CHILDREN)
    _, memory, output = run(program, words, text)
    after = resource.getrusage(resource.RUSAGE_CHILDREN)
    return after.ru_utime + after.ru_stime - before.ru_utime - before.ru_stime, memory, output


def index():
    print(f"{'index':34} {'pieces':>8} {'add':>8} {'find':>8} {'drop':>8} {'MiB':>6}  ns of processor a piece")
    for objects, windows in ((10000, 1), (100000, 1), (20000, 5), (2000, 50)):
        for rows in (0, 60):
            pieces = objects * windows
            seconds, most = {}, 0
            for task, answer in (("add", [0, pieces * rows]), ("find", [pieces, pieces * rows]), ("drop", [0, 0])):
                runs = [processor_run(BENCH, ["index", task, str(objects), str(windows), str(rows)], b"") for _ in range(3)]
                if any([int(word) for word in output.split()] != answer for _, _, output in runs):
                    sys.exit(f"{BENCH} index answered {runs[0][2]}")
                seconds[task] = min(taken for taken, _, _ in runs)
                most = max([most] + [memory for _, memory, _ in runs])
            each = [seconds["add"], seconds["find"] - seconds["add"], seconds["drop"] - seconds["add"]]
            label = f"{objects} objects, {windows} windows, {rows} rows"
            figures = " ".join(f"{taken / pieces * 1e9:8.0f}" for taken in each)
            print(f"{label:34} {pieces:8d} {figures} {most:6.1f}")


def claims():
    print(f"{'claims':44} {'pairs':>8} {'seconds':>8} {'us each':>8} {'MiB':>6}")
    for objects, rows in ((1000, 0), (10000, 0), (20000, 0), (40000, 0), (10000, 20)):
        runs = [processor_run(BENCH, ["claims", str(objects), str(rows)], b"") for _ in range(3)]
        seconds, memory = min(taken for taken, _, _ in runs), max(most for _, most, _ in runs)
        published = int(runs[0][2].split()[0])
        if published != objects * HORIZON:
            sys.exit(f"{BENCH} claims answered {runs[0][2]}")
        label = f"{objects} objects, {rows} rows a piece"
        print(f"{label:44} {published:8d} {seconds:8.3f} {seconds / published * 1e6:8.3f} {memory:6.1f}")


def turns():
    print(f"{'turns':34} {'seconds':>8} {'us each':>8}")
    for threads, each in ((1, 1000000), (4, 200000), (16, 20000)):
        output = run(BENCH, ["turns", str(threads), str(each), "times"], b"")[2].decode()
        micros = int(re.search(r"taken (\d+)", output)[1])
        label = f"{threads} threads, {each} turns each"
        print(f"{label:34} {micros / 1e6:8.3f} {micros / (threads * each):8.3f}")


def values():
    print(f"{'value':34} {'octets':>8} {'seconds':>8} {'ns/octet':>9}  answer")
    for count in (3855, 7710, 15420, 30840, 61680):
        text = b"RDATE:" + b",".join([b"19970714T133000Z"] * count) + b"\r\n"
        best = min(run(BENCH, ["values"], text)[0] for _ in range(5))
        answer = run(BENCH, ["values"], text)[2].decode().strip()
        print(f"{f'RDATE of {count} moments':34} {len(text):8d} {best:8.4f} {best / len(text) * 1e9:9.1f}  {answer}")
    for count in (13105, 26211, 52424, 104856, 209712):
        text = b"RRULE:FREQ=YEARLY;BYYEARDAY=" + b",".join([b"-366"] * count) + b"\r\n"
        best = min(run(BENCH, ["values"], text)[0] for _ in range(5))
        answer = run(BENCH, ["values"], text)[2].decode().strip()
        print(f"{f'RRULE of {count} days':34} {len(text):8d} {best:8.4f} {best / len(text) * 1e9:9.1f}  {answer}")


def filled(front, part, end, size):
    """A body of about so many octets: a front, a part with its number over and over, and an end."""
    parts, octets = [front], len(front) + len(end)
    while octets < size:
        parts.append(part.replace(b"$", b"%d" % len(parts)))
        octets += len(parts[-1])
    return b"".join(parts) + end


def bodies():
    print(f"{'body':34} {'octets':>8} {'seconds':>8} {'ns/octet':>9} {'MiB':>6}  answer")
    for size in (131072, 262144, 524288, 1048576):
        declared = b"".join(b" xmlns:p%d='u'" % n for n in range(size // 900))
        deep = b"<q:a xmlns:q='u'>" + (b"<a%s>" % declared) * 30
        levels = b"".join(b"<a%s>" % b"".join(b" xmlns:p%d='u%d'" % (n, n) for n in range(size // 600)) for _ in range(32))
        texts = {
            "attributes of one tag": filled(b"<a", b" a$=''", b"/>", size),
            "declarations of one tag": filled(b"<a", b" xmlns:p$='u'", b"/>", size),
            "prefixed attributes": filled(b"<a xmlns:p='u'", b" p:a$=''", b"/>", size),
            "32 levels that redeclare": levels + b"</a>" * 32,
            "a prefix 31 levels up": filled(deep, b"<q:b/>", b"</a>" * 30 + b"</q:a>", size),
            "character references": filled(b"<a>", b"&#65;", b"</a>", size),
            "references in a value": filled(b"<a b='", b"&#65;", b"'/>", size),
            "carriage returns": b"<a>" + b"\r" * (size - 7) + b"</a>",
            "a section": b"<a><![CDATA[" + b"x" * (size - 19) + b"]]></a>",
            "empty elements": filled(b"<a>", b"<b/>", b"</a>", size),
            "a tag that is cut": filled(b"<a", b" a$=''", b"", size),
            "one long namespace, many elements": b"<a xmlns='" + b"u" * (size // 2) + b"'>" + b"<b/>" * (size // 8 - 5) + b"</a>",
        }
        for name, text in texts.items():
            best, memory, output = min(processor_run(BENCH, ["bodies"], text) for _ in range(3))
            print(f"{name:34} {len(text):8d} {best:8.4f} {best / len(text) * 1e9:9.1f} {memory:6.1f}  {output.decode().strip()}")


def requests():
    print(f"{'body':34} {'octets':>8} {'seconds':>8} {'read':>8} {'ns/octet':>9} {'MiB':>6}  answer")
    both = b" xmlns:D='DAV:' xmlns:C='urn:ietf:params:xml:ns:caldav'>"
    grant = b"<D:ace><D:principal><D:href>/principals/a/</D:href></D:principal><D:grant><D:privilege><D:read/></D:privilege></D:grant></D:ace>"
    query = (b"<C:calendar-query" + both + b"<C:filter><C:comp-filter name='VCALENDAR'>", b"</C:comp-filter></C:filter></C:calendar-query>")
    for size in (262144, 524288, 1048576):
        texts = {
            "names of properties": ("find", filled(b"<D:propfind" + both + b"<D:prop>", b"<D:a/>", b"</D:prop></D:propfind>", size)),
            "properties that are set": ("patch", filled(b"<D:propertyupdate" + both + b"<D:set><D:prop>", b"<a>1</a>", b"</D:prop></D:set></D:propertyupdate>", size)),
            "sets of one property": ("patch", filled(b"<D:propertyupdate" + both, b"<D:set><D:prop><a/></D:prop></D:set>", b"</D:propertyupdate>", size)),
            "hrefs": ("report", filled(b"<C:calendar-multiget" + both, b"<D:href>/$</D:href>", b"</C:calendar-multiget>", size)),
            "filters side by side": ("report", filled(query[0], b"<C:comp-filter name='A'/>", query[1], size)),
            "filters of properties": ("report", filled(query[0], b"<C:prop-filter name='A'><C:text-match>a</C:text-match></C:prop-filter>", query[1], size)),
            "elements beside one filter": ("report", filled(query[0], b"<a/>", query[1], size)),
            "aces": ("acl", filled(b"<D:acl" + both, grant, b"</D:acl>", size)),
            "protected aces": ("acl", filled(b"<D:acl" + both, b"<D:ace><D:protected/></D:ace>", b"</D:acl>", size)),
        }
        for name, (word, text) in texts.items():
            best, memory, output = min(processor_run(BENCH, ["requests", word], text) for _ in range(3))
            body = min(processor_run(BENCH, ["bodies"], text)[0] for _ in range(3))
            print(f"{name:34} {len(text):8d} {best:8.4f} {best - body:8.4f} {(best - body) / len(text) * 1e9:9.1f} {memory:6.1f}  {output.decode().strip()}")


def rules():
    print(f"{'rule':34} {'by days':>8} {'by steps':>8} {'times as fast':>14}")
    best = {}
    for _ in range(11):
        for label, plain, step, unit in re.findall(r"(.*): (\d+) and (\d+) (ns a step|us a table)", run(BENCH, ["rules", "times"], b"")[2].decode()):
            plain, step = int(plain), int(step)
            before = best.get((label, unit), (plain, step))
            best[label, unit] = min(plain, before[0]), min(step, before[1])
    for (label, unit), (plain, step) in best.items():
        print(f"{f'{label}, {unit}':34} {plain:8d} {step:8d} {plain / step:14.1f}")


def zones():
    print(f"{'PUTs of events of a zone':44} {'MiB':>6} {'kB an object':>13}")
    count = 5000
    each = {"none": lambda number: [], "the same": lambda number: NEW_YORK, "one of its own": lambda number: [line.replace(b"DTSTART:16010101T02", b"DTSTART:1601%02d%02dT02" % (1 + number // 28 % 12, 1 + number % 28)) for line in NEW_YORK]}
    with tempfile.TemporaryDirectory() as folder:
        words = script_words(folder)
        for label, zone_of in each.items():
            scripts_of = [b"".join(put(number, zone_of(number)) for number in range(many)) for many in (count // 5, count)]
            few, most = (run(SERVER, words, script)[1] - len(script) / 1048576 for script in scripts_of)
            print(f"{f'{count} in {label}':44} {most:6.1f} {(most - few) * 1048.576 / (count - count // 5):13.1f}")


NEW_YORK = [
    b"BEGIN:VTIMEZONE", b"TZID:NY",
    b"BEGIN:DAYLIGHT", b"DTSTART:16010101T020000", b"RRULE:FREQ=YEARLY;BYDAY=2SU;BYMONTH=3", b"TZOFFSETFROM:-0500", b"TZOFFSETTO:-0400", b"END:DAYLIGHT",
    b"BEGIN:STANDARD", b"DTSTART:16010101T020000", b"RRULE:FREQ=YEARLY;BYDAY=1SU;BYMONTH=11", b"TZOFFSETFROM:-0400", b"TZOFFSETTO:-0500", b"END:STANDARD",
    b"END:VTIMEZONE",
]


def calendar(zone, *events):
    """A calendar object with a zone or none, and some events, each by its lines."""
    parts = [b"BEGIN:VCALENDAR", *zone]
    for event in events:
        parts += [b"BEGIN:VEVENT", b"UID:a", *event, b"END:VEVENT"]
    return b"\r\n".join([*parts, b"END:VCALENDAR", b""])


def numbered(size, before, after, piece):
    """A text of at most so many octets: what stands before, as many pieces as fit, each by its number, and what stands after."""
    parts, room, number = [before], size - len(before) - len(after), 0
    while True:
        more = piece(number)
        if len(more) > room:
            return b"".join([*parts, after])
        parts.append(more)
        room -= len(more)
        number += 1


def content(*lines):
    return b"".join(line + b"\r\n" for line in lines)


def object_kinds(size):
    """Calendar objects of at most so many octets, by name: the ordinary kind first, then those that are hard to read."""
    begin = content(b"BEGIN:VCALENDAR", b"VERSION:2.0")
    event = content(b"BEGIN:VEVENT", b"UID:a", b"DTSTART:19900101T090000Z")
    end = content(b"END:VEVENT", b"END:VCALENDAR")
    only_end = content(b"END:VCALENDAR")
    days = stamps((1990, 1, 1, 9), 86400, 20000)
    master = event + content(b"RRULE:FREQ=DAILY", b"END:VEVENT")

    def moved(number):
        return content(
            b"BEGIN:VEVENT", b"UID:a", b"DTSTAMP:20250101T000000Z", b"RECURRENCE-ID:" + days[number], b"DTSTART:" + days[number][:8] + b"T100000Z", b"DURATION:PT1H",
            b"SUMMARY:Stand-up, moved", b"LOCATION:Room %d" % number, b"STATUS:CONFIRMED", b"TRANSP:OPAQUE", b"SEQUENCE:1", b"ORGANIZER:mailto:alice@example.org",
            b"ATTENDEE;PARTSTAT=ACCEPTED;CN=Bob:mailto:bob@example.org", b"END:VEVENT",
        )

    def zone(number):
        return content(b"BEGIN:VTIMEZONE", b"TZID:%d" % number, b"BEGIN:STANDARD", b"DTSTART:19700101T000000", b"TZOFFSETFROM:+0000", b"TZOFFSETTO:+0000", b"END:STANDARD", b"END:VTIMEZONE")

    return {
        "overrides with some ten lines each": numbered(size, begin + master, only_end, moved),
        "overrides of three lines": numbered(size, begin + master, only_end, lambda n: content(b"BEGIN:VEVENT", b"UID:a", b"RECURRENCE-ID:" + days[n], b"END:VEVENT")),
        "components without lines": numbered(size, begin + event, end, lambda n: content(b"BEGIN:A", b"END:A")),
        "alarms": numbered(size, begin + event, end, lambda n: content(b"BEGIN:VALARM", b"ACTION:AUDIO", b"TRIGGER:-PT%dM" % n, b"END:VALARM")),
        "zones without use": numbered(size, begin, event + end, zone),
        "onsets of one zone, as RDATEs": numbered(
            size, begin + content(b"BEGIN:VTIMEZONE", b"TZID:0", b"BEGIN:STANDARD", b"DTSTART:19700101T000000", b"TZOFFSETFROM:+0000", b"TZOFFSETTO:+0100") + b"RDATE:19710101T000000",
            b"\r\n" + content(b"END:STANDARD", b"END:VTIMEZONE") + event + end, lambda n: b"," + days[n][:15],
        ),
        "lines without a value": numbered(size, begin + event, end, lambda n: b"A:\r\n"),
        "one line of parameters": numbered(size, begin + event + b"A", b":\r\n" + end, lambda n: b";A=b"),
        "one parameter of many values": numbered(size, begin + event + b"A;A=b", b":\r\n" + end, lambda n: b",b"),
        "one line folded at each octet": numbered(size, begin + event + b"A:", b"\r\n" + end, lambda n: b"\r\n b"),
        "one RDATE of many dates": numbered(size, begin + event + b"RDATE:" + days[1], b"\r\n" + end, lambda n: b"," + days[n + 2]),
        "one EXDATE of one date again": numbered(size, begin + event + b"EXDATE:" + days[1], b"\r\n" + end, lambda n: b"," + days[1]),
        "RDATEs of periods": numbered(size, begin + event, end, lambda n: content(b"RDATE;VALUE=PERIOD:" + days[n] + b"/PT1H")),
        "categories": numbered(size, begin + event + b"CATEGORIES:a", b"\r\n" + end, lambda n: b",a"),
    }


def objects():
    print(f"{'object':36} {'octets':>8} {'ns an octet':>12} {'of it kept':>11}")
    sizes = [object_kinds(size) for size in (65536, 131072, 262144)]
    for name in sizes[0]:
        for text in (kinds[name] for kinds in sizes):
            one, many = run(BENCH, ["objects", "1"], text)[1], run(BENCH, ["objects", "9"], text)[1]
            found = [re.findall(rb"\d+", run(BENCH, ["objects", "7"], text)[2]) for _ in range(3)]
            if any(len(it) != 2 for it in found):
                sys.exit(f"{name}: {run(BENCH, ['objects', '1'], text)[2]!r}")
            nanos = min(int(nanos) for _, nanos in found)
            print(f"{name:36} {len(text):8d} {nanos / len(text):12.1f} {(many - one) / 8 * 1048576 / len(text):11.1f}")
    for name, zone in (("an event of 700 octets", []), ("the same with its zone", NEW_YORK)):
        start = b"DTSTART;TZID=NY:20260105T090000" if zone else b"DTSTART:20260105T090000Z"
        text = calendar(zone, [b"DTSTAMP:20250101T000000Z", start, b"DURATION:PT30M", b"RRULE:FREQ=WEEKLY", b"SUMMARY:Stand-up", b"DESCRIPTION:" + b"x" * 440, b"LOCATION:Room 1", b"STATUS:CONFIRMED"])
        one, many = run(BENCH, ["objects", "1"], text)[1], run(BENCH, ["objects", "4001"], text)[1]
        print(f"{name:36} {len(text):8d} octets: {(many - one) * 1048576 / 4000:.0f} octets kept for an object")


def stamps(first, step, count):
    """So many moments of UTC, one a step after the other."""
    moment = datetime.datetime(*first)
    return [(moment + datetime.timedelta(seconds=step * n)).strftime("%Y%m%dT%H%M%SZ").encode() for n in range(count)]


def recurring(start, zone=b"", rule=b"", count=0):
    """An event that recurs from the start on."""
    begin = (b"DTSTART;TZID=NY:%sT090000" if zone else b"DTSTART:%sT090000Z") % start
    return [begin, b"DURATION:PT30M", b"RRULE:FREQ=" + rule + (b";COUNT=%d" % count if count else b"")]


def row_objects():
    """The objects whose rows are found, by name."""
    objects = {}
    for rule, count in ((b"DAILY", 40000), (b"WEEKLY", 5000), (b"MONTHLY", 1000), (b"YEARLY", 100)):
        name = rule.decode()
        objects[f"{name} since 1970"] = calendar([], recurring(b"19700105", rule=rule))
        objects[f"{name} since 1970, with COUNT"] = calendar([], recurring(b"19700105", rule=rule, count=count))
    objects["DAILY since 2005"] = calendar([], recurring(b"20050103", rule=b"DAILY"))
    objects["DAILY since 1970 in New York"] = calendar(NEW_YORK, recurring(b"19700105", b"NY", b"DAILY"))
    objects["HOURLY since 1970"] = calendar([], recurring(b"19700105", rule=b"HOURLY"))
    objects["last weekday of a month since 1970"] = calendar([], recurring(b"19700130", rule=b"MONTHLY;BYDAY=MO,TU,WE,TH,FR;BYSETPOS=-1"))
    for number in (1250, 2500, 5000):
        master = recurring(b"20000101", rule=b"DAILY")
        moved = [[b"RECURRENCE-ID:" + at, b"DTSTART:" + at[:8] + b"T100000Z"] for at in stamps((2014, 1, 1, 9), 86400, number)]
        objects[f"{number} overrides"] = calendar([], master, *moved)
    for number in (2500, 5000, 10000):
        dates = stamps((2025, 12, 1), 3600, number)
        without = stamps((2025, 12, 1), 7200, number)
        event = [b"DTSTART:20251130T000000Z", b"RDATE:" + b",".join(reversed(dates)), b"EXDATE:" + b",".join(without)]
        objects[f"{number} RDATEs and EXDATEs"] = calendar([], event)
    return objects


def rows():
    print(f"{'rows of the window from 27 January 2026':42} {'octets':>8} {'rows':>6} {'us':>9} {'us a row':>9}")
    for name, text in row_objects().items():
        found = [re.findall(rb"\d+", run(BENCH, ["rows", "320", "20"], text)[2]) for _ in range(3)]
        number = int(found[0][0])
        micros = min(int(nanos) for _, nanos in found) / 1000
        print(f"{name:42} {len(text):8d} {number:6d} {micros:9.1f} {micros / max(number, 1):9.3f}")


def asking(*tests):
    """A calendar-query with these tests of the outermost component."""
    return (
        b'<C:calendar-query xmlns:D="DAV:" xmlns:C="urn:ietf:params:xml:ns:caldav"><D:prop><D:getetag/></D:prop>'
        b'<C:filter><C:comp-filter name="VCALENDAR">' + b"".join(tests) + b"</C:comp-filter></C:filter></C:calendar-query>"
    )


def test_of(name, *inner):
    """A test of the components of a name."""
    return b'<C:comp-filter name="%s">%s</C:comp-filter>' % (name, b"".join(inner))


def range_of(start, end):
    return b'<C:time-range start="%s" end="%s"/>' % (start, end)


def text_of(name, text):
    return b'<C:prop-filter name="%s"><C:text-match>%s</C:text-match></C:prop-filter>' % (name, text)


def meetings(count):
    """So many weekly meetings of eight weeks, half an hour long. They begin on each day of a year in turn."""
    starts = stamps((1970, 1, 1, 9), 86400, 365)
    return [content(
        b"BEGIN:VCALENDAR", b"VERSION:2.0", b"BEGIN:VEVENT", b"UID:a-name@example.org", b"DTSTAMP:20250101T000000Z", b"DTSTART:" + starts[number % 365],
        b"DURATION:PT30M", b"RRULE:FREQ=WEEKLY;COUNT=8", b"LOCATION:Here", b"SUMMARY:Object %d" % (number % 10),
        b"DESCRIPTION:" + b"what is said and what is done. " * 20, b"END:VEVENT", b"END:VCALENDAR",
    ) for number in range(count)]


def small_parts(size, width):
    """Tests of so great a width and objects of about so many octets, by name: the objects consist of thousands of small parts, of which the last alone passes."""
    begin, end = content(b"BEGIN:VCALENDAR", b"VERSION:2.0"), content(b"END:VCALENDAR")
    event = content(b"BEGIN:VEVENT", b"UID:a", b"DTSTART:19700101T000000Z", b"DURATION:PT30M", b"RRULE:FREQ=WEEKLY;COUNT=8")
    days, minutes = stamps((1970, 1, 1), 86400, size // 90), stamps((1970, 1, 1), 60, size // 40 + 1)

    def overrides(*inner):
        parts = [content(b"BEGIN:VEVENT", b"UID:a", b"RECURRENCE-ID:" + day, b"DTSTART:" + day, *inner, b"END:VEVENT") for day in days]
        number = size // len(parts[0])
        last = days[number - 1]
        return begin + b"".join(parts[:number]) + end, range_of(last, last[:11] + b"0100Z")

    def alarm(minute):
        return [b"BEGIN:VALARM", b"TRIGGER:PT%dM" % minute, b"END:VALARM"]

    many = size // 42
    alarms = begin + event + b"".join(content(*alarm(minute)) for minute in range(many)) + content(b"END:VEVENT") + end
    words = b"COMMENT:what is said and what is done "
    lines = begin + event + content(*[words + b"from here on"] * (size // 52), words + b"at the end", b"END:VEVENT") + end
    small, of_last = overrides()
    alarmed, of_last_alarm = overrides(*alarm(0))
    return {
        "ranges over overrides": (asking(*[test_of(b"VEVENT", of_last)] * width), small),
        "ranges of alarms over overrides": (asking(*[test_of(b"VEVENT", test_of(b"VALARM", of_last_alarm))] * width), alarmed),
        "ranges over alarms of an event": (asking(test_of(b"VEVENT", *[test_of(b"VALARM", range_of(minutes[many - 1], minutes[many]))] * width)), alarms),
        "texts over lines of an event": (asking(test_of(b"VEVENT", *[text_of(b"COMMENT", b"THE END")] * width)), lines),
        "ranges over an event of lines": (asking(*[test_of(b"VEVENT", range_of(days[0], days[1]))] * width), lines),
    }


def asked(query, objects, rounds):
    """How many objects match, and the nanoseconds of an object in the round that took least."""
    output = run(BENCH, ["filters", str(rounds)], b"|".join([query, *objects]))[2].decode()
    found = re.fullmatch(r"(\d+) of (\d+) match\n(\d+) ns an object\n", output)
    if not found or int(found[2]) != len(objects):
        sys.exit(f"{BENCH} filters answered {output}")
    return int(found[1]), int(found[3])


def filters():
    print(f"{'filter':34} {'objects':>8} {'ns each':>8}  answer")
    queries = {
        "a month": asking(test_of(b"VEVENT", range_of(b"19700411T000000Z", b"19700511T000000Z"))),
        "a short text": asking(test_of(b"VEVENT", text_of(b"SUMMARY", b"OBJECT 7"))),
        "a long text": asking(test_of(b"VEVENT", text_of(b"DESCRIPTION", b"not there"))),
    }
    for count in (2500, 5000, 10000):
        objects = meetings(count)
        for label, query in queries.items():
            runs = [asked(query, objects, 20) for _ in range(3)]
            print(f"{label:34} {count:8d} {min(nanos for _, nanos in runs):8d}  {runs[0][0]} match")
    print(f"{'filter of small parts':34} {'octets':>8} {'tests':>6} {'us':>9} {'us a test':>10}")
    for octets, width, rounds in ((65536, 1, 60), (131072, 1, 60), (262144, 1, 60), (262144, 100, 3), (262144, 1000, 1)):
        for label, (query, text) in small_parts(octets, width).items():
            matches, nanos = asked(query, [text], rounds)
            if matches != 1:
                sys.exit(f"{label}: no match")
            print(f"{label:34} {octets:8d} {width:6d} {nanos / 1000:9.1f} {nanos / 1000 / width:10.2f}")


def busy():
    print(f"{'busy times':34} {'seconds':>8} {'us each':>8} {'MiB':>6}  answer")
    for count in (50000, 100000, 200000):
        runs = [processor_run(BENCH, ["busy", str(count)], b"") for _ in range(3)]
        seconds = min(taken for taken, _, _ in runs)
        most = max(memory for _, memory, _ in runs)
        answer = runs[0][2].decode().strip()
        print(f"{f'{count} times that all overlap':34} {seconds:8.4f} {seconds / count * 1e6:8.3f} {most:6.1f}  {answer}")


def slots():
    print(f"{'common free time':34} {'times':>8} {'ms a look':>10} {'ns a time':>10}  answer")
    for calendars, times in ((1, 320000), (8, 40000), (32, 5000), (32, 10000)):
        for way in ("on", "back"):
            words = ["slots", str(calendars), str(times), way]
            made = min(processor_run(BENCH, [*words, "0"], b"")[0] for _ in range(3))
            runs = [processor_run(BENCH, [*words, "50"], b"") for _ in range(3)]
            seconds = (min(taken for taken, _, _ in runs) - made) / 50
            answer = runs[0][2].decode().strip()
            print(f"{f'{calendars} calendars, {way}':34} {calendars * times:8d} {seconds * 1e3:10.2f} {seconds / (calendars * times) * 1e9:10.1f}  {answer}")


def wire():
    print(f"{'stream':34} {'piece':>8} {'octets':>9} {'seconds':>8} {'ns/octet':>9} {'MiB':>6}  answer")
    chunked = b"PUT /a HTTP/1.1\r\nTransfer-Encoding: chunked\r\n\r\n"
    head = b"GET / HTTP/1.1\r\nX: "
    streams = {
        "a head": head + b"a" * (16380 - len(head)) + b"\r\n\r\n",
        "a body in one chunk": chunked + b"100000\r\n" + b"x" * 1048576 + b"\r\n0\r\n\r\n",
        "a body in chunks of 4,096": chunked + (b"1000\r\n" + b"x" * 4096 + b"\r\n") * 256 + b"0\r\n\r\n",
        "a body in chunks of 16": chunked + (b"10\r\n" + b"x" * 16 + b"\r\n") * 65536 + b"0\r\n\r\n",
        "a body in chunks of 1": chunked + b"1\r\nx\r\n" * 1048576 + b"0\r\n\r\n",
        "1,000 requests": (b"PUT /a HTTP/1.1\r\nContent-Length: 1000\r\n\r\n" + b"y" * 1000) * 1000,
    }
    for name, stream in streams.items():
        for size in (1, 1000, len(stream)):
            runs = [processor_run(BENCH, ["wire", str(size)], stream) for _ in range(3)]
            best = min(taken for taken, _, _ in runs)
            memory = max(most for _, most, _ in runs)
            answer = runs[0][2].decode().strip()
            print(f"{name:34} {size:8d} {len(stream):9d} {best:8.3f} {best / len(stream) * 1e9:9.1f} {memory:6.1f}  {answer}")


PARTS = {
    "scripts": scripts, "growth": growth, "puts": puts, "expansions": expansions, "zones": zones, "lines": lines, "values": values, "objects": objects, "rules": rules, "rows": rows, "filters": filters,
    "bodies": bodies, "requests": requests, "wire": wire, "busy": busy, "slots": slots, "index": index, "claims": claims, "turns": turns,
}
OF_SERVER = ("scripts", "growth", "puts", "expansions", "zones")
chosen = sys.argv[1:] or list(PARTS)
for name in chosen:
    if name not in PARTS:
        sys.exit(f"no part {name}: there are {', '.join(PARTS)}")
    program = SERVER if name in OF_SERVER else BENCH
    if not os.path.exists(program):
        sys.exit(f"{program} is not built: run `rt run` in its crate's folder first")
for name in chosen:
    PARTS[name]()
