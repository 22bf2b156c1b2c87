#!/usr/bin/env python3
"""Reads and writes journal files, from docs/JOURNAL.md alone: a second program that knows their form.

    bench/journals.py list FILE [USERS]
    bench/journals.py carry FILE USERS NEW
    bench/journals.py make COUNT USERS NEW [OCTETS]

- `list` prints a line for each record: where its gate is, when it was asked, by whom, what, and its status. Then it says
  where the closed gate is and how many octets stand behind it, or at which place the file is bad and why. With the users
  file it also says whether the journal is of these users. Its status is 1 where the file would be refused for its form.
- `carry` writes the records of a journal into a new file for a users file that has more than the journal: further users
  behind the old ones, further groups behind the old ones, further members of a group. Numbers stay as they are, so each
  record says what it said. FILE is only read.
- `make` writes a journal of so many PUTs of different objects of some 700 octets (or so many octets each), by the users
  in turn, each into the first calendar, as if they had all been accepted.

No file that is there is written to. Whether the server accepts the changes of a file it alone can say: this program knows
the form and not the rules. It needs Python 3 alone.
"""
import datetime, mmap, os, struct, sys
from collections import namedtuple

MARK = b"caldavjournal 1\n"
LAST_MOMENT = 253402300799
MOST_OCTETS, MOST_SETTINGS, MOST_VALUES, MOST_GRANTS, MOST_BITS = 134_217_728, 262_144, 1_048_576, 64, 511
PUT, DELETE, DROP, MAKE, SET, GRANT = range(1, 7)
WORDS = {PUT: "PUT", DELETE: "DELETE", DROP: "DELETE", MAKE: "MKCALENDAR", SET: "PROPPATCH", GRANT: "ACL"}

# name and octets are those of an object; size is that of a request's body; settings are triples of namespace, local name
# and value (None where it is removed); grants are triples of for whom, number and bits. What a kind does not have is None.
Record = namedtuple("Record", "kind who moment status home calendar name octets size settings grants", defaults=[None] * 5)


class Bad(Exception):
    """A file outside the form: the place, and why."""

    def __init__(self, place, why):
        super().__init__(f"bad at octet {place}: {why}")
        self.place, self.why = place, why


# Users


def principals(octets):
    """The names of the users, and the groups as names with the numbers of their members, of a users file."""
    users, groups = [], []
    for line in octets.decode("latin-1").split("\n"):
        words = line.split(" ")
        if words[0] == "user":
            users.append(words[1])
        elif words[0] == "group":
            groups.append((words[1], sorted(users.index(one) for one in words[2:])))
    return users, groups


def users_text(users, groups):
    lines = [f"user {name}\n" for name in users]
    lines += [f"group {name} {' '.join(users[number] for number in members)}\n" for name, members in groups]
    return "".join(lines).encode()


def header(users, groups):
    text = users_text(users, groups)
    return MARK + struct.pack(">I", len(text)) + text


# Writing


def name_octets(name):
    octets = name.encode()
    return struct.pack(">B", len(octets)) + octets


def text_octets(octets):
    return struct.pack(">I", len(octets)) + octets


def payload(record):
    out = [struct.pack(">BIQHI", record.kind, record.who, record.moment, record.status, record.home), name_octets(record.calendar)]
    if record.kind in (PUT, DELETE):
        out.append(name_octets(record.name))
    if record.kind == PUT:
        out.append(text_octets(record.octets))
    if record.kind in (MAKE, SET):
        out.append(struct.pack(">II", record.size, len(record.settings)))
        for space, local, value in record.settings:
            out += [text_octets(space), text_octets(local), b"\0" if value is None else b"\1" + text_octets(value)]
    if record.kind == GRANT:
        out.append(struct.pack(">IB", record.size, len(record.grants)))
        out += [struct.pack(">BIH", *grant) for grant in record.grants]
    return b"".join(out)


def open_record(octets):
    """A payload with an open gate and its length in front."""
    return b"\1" + struct.pack(">I", len(octets)) + octets


def journal(users, groups, payloads):
    return header(users, groups) + b"".join(map(open_record, payloads)) + b"\0"


# Reading


class Parts:
    """Reads a payload from front to end."""

    def __init__(self, octets, users, groups):
        self.octets, self.at, self.counts = octets, 0, {2: users, 3: groups}

    def take(self, count):
        if len(self.octets) - self.at < count:
            raise ValueError("it ends too soon")
        self.at += count
        return self.octets[self.at - count:self.at]

    def number(self, form):
        return struct.unpack(">" + form, self.take(struct.calcsize(">" + form)))[0]

    def at_most(self, form, most, what):
        number = self.number(form)
        if most < number:
            raise ValueError(f"{what} {number}")
        return number

    def user(self, what):
        return self.at_most("I", self.counts[2] - 1, what)

    def name(self):
        octets = self.take(self.number("B"))
        if not 1 <= len(octets) <= 200 or octets in (b".", b"..") or b"/" in octets or min(octets) < 32:
            raise ValueError(f"the name {octets!r}")
        return octets.decode()  # a ValueError where it is no UTF-8

    def text(self):
        return self.take(self.number("I"))

    def settings(self):
        found, values = [], 0
        for _ in range(self.at_most("I", MOST_SETTINGS, "the number of settings")):
            space, local = self.text(), self.text()
            value = self.text() if self.at_most("B", 1, "a mark of a value") else None
            values += len(value or b"")
            found.append((space, local, value))
        if MOST_VALUES < values:
            raise ValueError("the values of the settings are too long")
        return found

    def grant(self):
        whom = self.at_most("B", 3, "a grant for")
        number = self.at_most("I", self.counts[whom] - 1 if whom in self.counts else 0, "a grant to number")
        return whom, number, self.at_most("H", MOST_BITS, "the bits")

    def record(self):
        kind = self.number("B")
        if kind not in WORDS:
            raise ValueError(f"kind {kind}")
        front = [kind, self.user("user"), self.at_most("Q", LAST_MOMENT, "the moment"), self.number("H"), self.user("the home of user"), self.name()]
        more = {}
        if kind in (PUT, DELETE):
            more["name"] = self.name()
        if kind == PUT:
            more["octets"] = self.text()
        if kind in (MAKE, SET, GRANT):
            more["size"] = self.number("I")
        if kind in (MAKE, SET):
            more["settings"] = self.settings()
        if kind == GRANT:
            more["grants"] = [self.grant() for _ in range(self.at_most("B", MOST_GRANTS, "the number of grants"))]
        if self.at != len(self.octets):
            raise ValueError(f"{len(self.octets) - self.at} octets too many")
        return Record(*front, **more)


class Journal:
    """A file whose header is in the form. `octets` may be changed by nobody while it is read."""

    def __init__(self, octets):
        self.octets = octets
        if octets[:16] != MARK or len(octets) < 20 or len(octets) - 20 < struct.unpack(">I", octets[16:20])[0]:
            raise Bad(0, "no journal")
        self.first = 20 + struct.unpack(">I", octets[16:20])[0]
        self.text = bytes(octets[20:self.first])
        lines = self.text.split(b"\n")[:-1]
        self.users, self.groups = (sum(line.startswith(word) for line in lines) for word in (b"user ", b"group "))
        self.end = None

    def payloads(self):
        """The place of each open gate, and the payload behind it. Afterwards `end` is the place of the closed gate."""
        at = self.first
        while True:
            if len(self.octets) <= at:
                raise Bad(at, "no gate")
            if self.octets[at] != 1:
                self.end = at
                return
            if len(self.octets) - at < 5:
                raise Bad(at, "no length")
            count = struct.unpack(">I", self.octets[at + 1:at + 5])[0]
            if not 1 <= count <= MOST_OCTETS:
                raise Bad(at, f"a payload of {count} octets")
            if len(self.octets) - at - 5 < count:
                raise Bad(at, f"the file ends within a payload of {count} octets")
            yield at, bytes(self.octets[at + 5:at + 5 + count])
            at += 5 + count

    def records(self):
        for gate, octets in self.payloads():
            try:
                yield gate, Parts(octets, self.users, self.groups).record()
            except ValueError as why:
                raise Bad(gate, str(why)) from None

    def other_users(self, text):
        """The place of the first octet at which the text of the users is another one, or None."""
        if text == self.text:
            return None
        short = min(len(text), len(self.text))
        return next((at for at in range(short) if text[at] != self.text[at]), short)


def mapped(path):
    with open(path, "rb") as file:
        return mmap.mmap(file.fileno(), 0, access=mmap.ACCESS_READ) if os.path.getsize(path) else b""


def contents(path):
    with open(path, "rb") as file:
        return file.read()


def write_new(path, pieces):
    """A new file, for its owner alone, brought to the disk."""
    with os.fdopen(os.open(path, os.O_WRONLY | os.O_CREAT | os.O_EXCL, 0o600), "wb") as file:
        for piece in pieces:
            file.write(piece)
        file.flush()
        os.fsync(file.fileno())


# The commands


def shown(record, names):
    path = f"/calendars/{names[record.home]}/{record.calendar}/" + (record.name or "")
    when = datetime.datetime.fromtimestamp(record.moment, datetime.timezone.utc).strftime("%Y%m%dT%H%M%SZ")
    more = {PUT: lambda: f" of {len(record.octets)} octets", GRANT: lambda: f" of {len(record.grants)} grants"}
    more |= {kind: lambda: f" of {len(record.settings)} settings" for kind in (MAKE, SET)}
    return f"{when} {names[record.who]} {WORDS[record.kind]} {path}{more.get(record.kind, str)()}: {record.status}"


def list_file(path, users_path=None):
    file = Journal(mapped(path))
    names = [line.split(b" ")[1].decode() for line in file.text.split(b"\n") if line.startswith(b"user ")]
    for gate, record in file.records():
        print(gate, shown(record, names))
    print(f"closed gate at {file.end}, {len(file.octets) - file.end - 1} octets behind it")
    if users_path is not None:
        place = file.other_users(users_text(*principals(contents(users_path))))
        if place is not None:
            raise Bad(place, "of other users; the place is one in the text of users, which begins at octet 20 of the file")


def carry(path, users_path, new):
    file = Journal(mapped(path))
    users, groups = principals(contents(users_path))
    old = principals(file.text)
    same = users[:len(old[0])] == old[0] and [name for name, _ in groups[:len(old[1])]] == [name for name, _ in old[1]]
    if not same or not all(set(before) <= set(after) for (_, before), (_, after) in zip(old[1], groups)):
        sys.exit("the users file has to begin with the users, and with the groups, of the journal, and a group has to have its members")
    for _ in file.records():
        pass
    write_new(new, [header(users, groups), file.octets[file.first:file.end], b"\0"])
    print(f"{file.end - file.first} octets of records carried")


def made_object(number, octets):
    """A calendar object of about so many octets; each third recurs."""
    start = (datetime.datetime(2025, 1, 1, 8) + datetime.timedelta(days=number * 7 % 365, hours=number % 9)).strftime("%Y%m%dT%H%M%SZ")
    rules = ("", "", ("RRULE:FREQ=WEEKLY;COUNT=52\r\n", "RRULE:FREQ=DAILY;COUNT=30\r\n", "RRULE:FREQ=MONTHLY;COUNT=24\r\n")[number // 3 % 3])
    front = (
        f"BEGIN:VCALENDAR\r\nVERSION:2.0\r\nPRODID:-//a//EN\r\nBEGIN:VEVENT\r\nUID:o{number}\r\nDTSTAMP:20250101T000000Z\r\nDTSTART:{start}\r\n"
        f"DURATION:PT30M\r\n{rules[number % 3]}SUMMARY:Meeting {number}\r\n"
    )
    end = "END:VEVENT\r\nEND:VCALENDAR\r\n"
    lines, left = [], octets - len(front) - len(end)
    while left > 9:
        lines.append("X-NOTE:" + "note " * 12 if left > 80 else "X-NOTE:" + "x" * (left - 9))
        left -= len(lines[-1]) + 2
    return (front + "".join(line + "\r\n" for line in lines) + end).encode()


def made_payloads(count, users, octets):
    for number in range(count):
        user = number % users
        yield payload(Record(PUT, user, 1741600000, 201, user, "calendar", f"o{number}.ics", made_object(number, octets)))


def make(count, users_path, new, octets=700):
    users, groups = principals(contents(users_path))
    write_new(new, [header(users, groups), *(open_record(one) for one in made_payloads(count, len(users), octets)), b"\0"])


def main():
    words = sys.argv[1:]
    if words[:1] == ["list"] and len(words) in (2, 3):
        list_file(*words[1:])
    elif words[:1] == ["carry"] and len(words) == 4:
        carry(*words[1:])
    elif words[:1] == ["make"] and len(words) in (4, 5):
        make(int(words[1]), *words[2:4], *map(int, words[4:]))
    else:
        sys.exit(__doc__)


if __name__ == "__main__":
    try:
        main()
    except (Bad, OSError) as why:
        sys.exit(str(why))
