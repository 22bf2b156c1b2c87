#!/usr/bin/env python3
"""Cuts the power while the command `serve` keeps its journal, at thousands of moments, and looks what the next start finds.

    bench/power.py [--cuts N] [--runs N] [--changes N] [--copies N] [--jobs N] [--seed S] [--folder FOLDER] [--program PATH]

A server runs over a journal file, and four connections of two users change calendars as fast as they can: objects are put,
replaced and deleted, calendars made and deleted, settings and grants changed, and some requests are refused. A library in
front of the C library's writes down each write and each sync of the file, and of its folder, with their octets and with the
moments at which they begin and end; the clients write down when each change was asked for and when it was acknowledged. At
a moment within a change the server is killed. From that record the file is made that a cut of the power at any moment of
the run may leave, as often as wanted; the server is started over each such file, and asked for all calendars with all they
have.

What a cut leaves is what docs/JOURNAL.md says of a disk, and as bad as that allows. All that was written before a sync
began which has ended by then stays. Of what was written since, in whatever order, each range may hold any octets, and so
may all that lies past the end that the file had at that sync: of each write all is kept, or all lost, or a front of it, or
some of its sectors of 512 octets; or other octets stand there: random ones, zeros, ones (open gates), or whole records in
the form that nobody asked for. The file may have grown, by as much as was written, less or more, or not at all. Until its
folder was synced there may be no file. A sync that has not ended by then has done nothing.

What has to hold of each file:

- the server starts over it, and leaves it as it is;
- of each connection all changes are there that were acknowledged by that moment, and none behind them but the one that was
  asked for by then; what was refused left nothing, and nothing is there for which nobody asked. Octets of objects, entity
  tags, names, settings and grants are compared;
- as a second reader (`journals.py`) sees it, the file has the records of the last sync, or one more, in the order in which
  they were written, and they are as many as the changes that are there.

Moments are drawn over the whole run: evenly, right before and behind the beginnings and ends of calls, and at
acknowledgements. Each run but the first goes on with a file that a cut of the one before has left, so what stands behind its
closed gate is written over. A cut while a new journal is made may leave a file that is refused with status 9, and no record is
lost by it; such cuts are counted by themselves. So that moments between calls are long, each call waits up to a millisecond
before it is made.

Beside it the file is copied while it is written, by `cat`, by `cp`, by a reader that goes slowly from front to end, and by
one that takes the length first. Of a copy the same has to hold, with the changes acknowledged before it began as the least
and those asked for before it ended as the most. Where the length was taken first a record may be cut at the end: the server
then has to refuse the copy at the gate in front of it, and to take it once it ends there with a closed gate.

At last the same cuts are made as if the disk had lied about each sync. Changes have to be missed then, or this program sees
nothing.

It prints a line for each run and for what is wrong, and keeps those files. The status is 0 where nothing is. It needs Linux,
Python 3 and a C compiler; build the program first by `rt run` in crates/caldav_server.
"""
import argparse, base64, hashlib, itertools, multiprocessing, os, random, re, shutil, socket, struct, subprocess, sys, tempfile, threading, time
import xml.etree.ElementTree as ElementTree
from collections import namedtuple

sys.dont_write_bytecode = True
import journals
from workers import free_port

TOP = os.path.dirname(os.path.dirname(os.path.abspath(__file__)))
HASH = "ba7816bf8f01cfea414140de5dae2223b00361a396177a9cb410ff61f20015ad"
USERS = ["alice", "bob"]
USERS_FILE = "".join(f"user {name} {HASH}\n" for name in [*USERS, "carol"]) + "group team bob carol\n"
CONNECTIONS = 4
WAIT = 60  # seconds for what takes a moment on a quiet machine
CHAIN = 4  # how many runs go on with what cuts have left, before one begins without a file
SLOW = 1_000_000  # nanoseconds that a call of the disk waits at most before it is made
DAV, CALDAV, OWN = "{DAV:}", "{urn:ietf:params:xml:ns:caldav}", "{urn:power}"
NAMES = 'xmlns:D="DAV:" xmlns:C="urn:ietf:params:xml:ns:caldav"'

# The library in front of the C library's. Each entry of its record is four numbers, and behind that of a write its octets.
SHIM = r"""
#define _GNU_SOURCE
#include <errno.h>
#include <fcntl.h>
#include <limits.h>
#include <stdint.h>
#include <stdio.h>
#include <stdlib.h>
#include <string.h>
#include <sys/syscall.h>
#include <sys/uio.h>
#include <time.h>
#include <unistd.h>
enum { WRITE = 1, WROTE, SYNC, SYNCED, FOLDER, FOLDER_SYNCED, OTHER };
enum { ELSEWHERE, JOURNAL, ITS_FOLDER };
static int record = -1;
static char journal[PATH_MAX], folder[PATH_MAX];
static unsigned drawn = 1;
static long slow;
static void tell(int64_t kind, int64_t place, int64_t count, const void *octets, size_t length) {
    struct timespec now;
    clock_gettime(CLOCK_MONOTONIC, &now);
    int64_t entry[4] = {kind, now.tv_sec * 1000000000LL + now.tv_nsec, place, count};
    struct iovec parts[2] = {{entry, sizeof entry}, {(void *)octets, length}};
    int kept = errno;
    if (syscall(SYS_writev, record, parts, length ? 2 : 1) != (long)(sizeof entry + length)) abort();
    errno = kept;
}
static int kind_of(int fd) {
    char link[40], path[PATH_MAX];
    int kept = errno;
    if (record < 0 || fd == record) return ELSEWHERE;
    snprintf(link, sizeof link, "/proc/self/fd/%d", fd);
    ssize_t length = syscall(SYS_readlink, link, path, sizeof path - 1);
    errno = kept;
    if (length < 0) return ELSEWHERE;
    path[length] = 0;
    return !strcmp(path, journal) ? JOURNAL : !strcmp(path, folder) ? ITS_FOLDER : ELSEWHERE;
}
static void rest(void) {
    struct timespec some = {0, slow ? rand_r(&drawn) % slow : 0};
    if (slow) syscall(SYS_nanosleep, &some, 0);
}
static ssize_t write_piece(int fd, const void *octets, size_t count, off_t place) {
    tell(WRITE, place, count, octets, count);
    rest();
    ssize_t put = syscall(SYS_pwrite64, fd, octets, count, place);
    tell(WROTE, place, put, 0, 0);
    return put;
}
static int sync_file(int fd, long call) {
    int kind = kind_of(fd);
    if (kind == ELSEWHERE) return syscall(call, fd);
    tell(kind == JOURNAL ? SYNC : FOLDER, 0, 0, 0, 0);
    rest();
    int end = syscall(call, fd);
    tell(kind == JOURNAL ? SYNCED : FOLDER_SYNCED, 0, end, 0, 0);
    return end;
}
static int other(int fd) {
    if (kind_of(fd) == JOURNAL) tell(OTHER, 0, 0, 0, 0);
    return fd;
}
ssize_t pwrite64(int fd, const void *octets, size_t count, off_t place) {
    return kind_of(fd) == JOURNAL ? write_piece(fd, octets, count, place) : syscall(SYS_pwrite64, fd, octets, count, place);
}
ssize_t pwrite(int fd, const void *octets, size_t count, off_t place) { return pwrite64(fd, octets, count, place); }
ssize_t write(int fd, const void *octets, size_t count) {
    if (kind_of(fd) != JOURNAL) return syscall(SYS_write, fd, octets, count);
    off_t place = syscall(SYS_lseek, fd, 0, SEEK_CUR);
    ssize_t put = write_piece(fd, octets, count, place);
    if (0 < put) syscall(SYS_lseek, fd, place + put, SEEK_SET);
    return put;
}
ssize_t writev(int fd, const struct iovec *parts, int count) { return syscall(SYS_writev, other(fd), parts, count); }
ssize_t pwritev64(int fd, const struct iovec *parts, int count, off_t place) { return syscall(SYS_pwritev, other(fd), parts, count, place, 0); }
ssize_t pwritev(int fd, const struct iovec *parts, int count, off_t place) { return pwritev64(fd, parts, count, place); }
int ftruncate64(int fd, off_t length) { return syscall(SYS_ftruncate, other(fd), length); }
int ftruncate(int fd, off_t length) { return ftruncate64(fd, length); }
int fallocate64(int fd, int mode, off_t place, off_t length) { return syscall(SYS_fallocate, other(fd), mode, place, length); }
int fallocate(int fd, int mode, off_t place, off_t length) { return fallocate64(fd, mode, place, length); }
int posix_fallocate64(int fd, off_t place, off_t length) { return fallocate64(fd, 0, place, length) ? errno : 0; }
int posix_fallocate(int fd, off_t place, off_t length) { return posix_fallocate64(fd, place, length); }
int fsync(int fd) { return sync_file(fd, SYS_fsync); }
int fdatasync(int fd) { return sync_file(fd, SYS_fdatasync); }
__attribute__((constructor)) static void begin(void) {
    const char *path = getenv("POWER_RECORD"), *file = getenv("POWER_JOURNAL"), *most = getenv("POWER_SLOW");
    if (!path || !file) return;
    snprintf(journal, sizeof journal, "%s", file);
    snprintf(folder, sizeof folder, "%s", file);
    char *slash = strrchr(folder, '/');
    if (slash) *slash = 0;
    slow = most ? atol(most) : 0;
    int fd = syscall(SYS_openat, AT_FDCWD, path, O_WRONLY | O_CREAT | O_APPEND | O_CLOEXEC, 0600);
    record = syscall(SYS_fcntl, fd, F_DUPFD_CLOEXEC, 500);
    syscall(SYS_close, fd);
}
"""
WRITE, WROTE, SYNC, SYNCED, FOLDER, FOLDER_SYNCED, OTHER = range(1, 8)

# A call of the disk: a write (of octets at a place), a sync of the file or one of its folder. Its end is None where it was cut.
Call = namedtuple("Call", "kind begin end place octets")

# What a calendar shows: its name, a text of ours, its grants, and its objects by name.
Shown = namedtuple("Shown", "name note grants objects")
FRESH = Shown(None, None, (), {})
AT_START = FRESH._replace(name="calendar")  # the one that every user has

# A run: the file at its beginning (None where there is none), the calls, the clients, and the changes of each of them that
# stood at the beginning.
Run = namedtuple("Run", "base calls clients")


# Replies and requests


def request(method, path, user, body=b"", fields=()):
    key = base64.b64encode(f"{user}:abc".encode()).decode()
    lines = [f"{method} {path} HTTP/1.1", "Host: power", f"Authorization: Basic {key}", f"Content-Length: {len(body)}", *fields, "", ""]
    return "\r\n".join(lines).encode() + body


class Link:
    """A connection, which is made anew when the server has closed it."""

    def __init__(self, port):
        self.port, self.socket, self.got = port, None, b""

    def ask(self, octets):
        """The status of the reply and its body; OSError where the server goes away."""
        if self.socket is None:
            self.socket, self.got = socket.create_connection(("127.0.0.1", self.port), timeout=WAIT), b""
            self.socket.setsockopt(socket.IPPROTO_TCP, socket.TCP_NODELAY, 1)
        self.socket.sendall(octets)
        while True:
            head, there, body = self.got.partition(b"\r\n\r\n")
            if there:
                length = re.search(rb"(?i)\r\nContent-Length: (\d+)", head)
                if not length or int(length[1]) <= len(body):
                    break
            more = self.socket.recv(1 << 20)
            if not more:
                raise ConnectionResetError
            self.got += more
        count = int(length[1]) if length else 0
        self.got = body[count:]
        if re.search(rb"(?i)\r\nConnection: close", head):
            self.close()
        return int(head[9:12]), body[:count]

    def close(self):
        if self.socket is not None:
            self.socket.close()
            self.socket = None


# What clients ask for

TEXT = "Content-Type: text/calendar"
XML = "Content-Type: application/xml"
WORDS = "".join(chr(97 + number * number % 26) for number in range(5000))
PRIVILEGES = ["C:read-free-busy", "D:write-content", "D:write-properties", "D:bind", "D:unbind", "D:read-acl", "D:write-acl"]
HOLDERS = ["/principals/alice/", "/principals/bob/", "/principals/carol/", "/principals/team/", ""]  # the last is everyone


def event(uid, version, size, chance):
    """An event of about so many octets."""
    front = (
        f"BEGIN:VCALENDAR\r\nVERSION:2.0\r\nPRODID:-//power//EN\r\nBEGIN:VEVENT\r\nUID:{uid}\r\nDTSTAMP:20250101T000000Z\r\n"
        f"DTSTART:2025{chance.randrange(1, 13):02}{chance.randrange(1, 29):02}T090000Z\r\nDURATION:PT1H\r\nSUMMARY:{version}\r\n"
    )
    end = "END:VEVENT\r\nEND:VCALENDAR\r\n"
    lines, left = [], size - len(front) - len(end)
    while 10 < left:
        at, count = chance.randrange(4900), min(60, left - 9)
        lines.append(f"X-NOTE:{WORDS[at:at + count]}\r\n")
        left -= count + 9
    return (front + "".join(lines) + end).encode()


# A change: the octets that ask for it, the status that is due, and the calendars behind it (None where it is refused).
Change = namedtuple("Change", "octets status after")


class Client(threading.Thread):
    """Changes what is its own: objects and calendars whose names begin as its own do, and, if it is the first of its user,
    the settings of the calendar that every user has."""

    def __init__(self, number, states, seed):
        super().__init__(daemon=True)
        self.number, self.user, self.start_of_names = number, USERS[number % len(USERS)], f"c{number}-"
        self.states = states  # what its own calendars show after each of its changes
        self.asked, self.acknowledged, self.wrong = [], [], None
        self.chance, self.seed, self.count = random.Random(f"{seed} {number}"), seed, 0
        self.port, self.stopped = None, None

    # calendars as a dictionary; a change makes a new one

    def settable(self, state):
        return [name for name in sorted(state) if name != "calendar" or self.number < len(USERS)]

    def objects(self, state):
        return [(calendar, name) for calendar in sorted(state) for name in sorted(state[calendar].objects)]

    def fresh_name(self):
        self.count += 1
        return f"{self.start_of_names}{self.seed}-{self.count}"

    def path(self, calendar, name=""):
        return f"/calendars/{self.user}/{calendar}/{name}"

    def sized(self, uid):
        most = self.chance.choices([1500, 9000, 70_000, 262_000], [70, 24, 4, 2])[0]
        return event(uid, self.fresh_name(), self.chance.randrange(300, most), self.chance)

    def putting(self, state, calendar, name, status, fields=()):
        octets = self.sized(name)
        of = state[calendar]
        after = {**state, calendar: of._replace(objects={**of.objects, name: octets})}
        return Change(request("PUT", self.path(calendar, name), self.user, octets, [TEXT, *fields]), status, after)

    def put_new(self, state):
        return self.putting(state, self.chance.choice(sorted(state)), self.fresh_name() + ".ics", 201, ["If-None-Match: *"])

    def put_again(self, state):
        calendar, name = self.chance.choice(self.objects(state))
        tag = hashlib.sha256(state[calendar].objects[name]).hexdigest()
        return self.putting(state, calendar, name, 204, [f'If-Match: "{tag}"'])

    def delete_object(self, state):
        calendar, name = self.chance.choice(self.objects(state))
        of = state[calendar]
        after = {**state, calendar: of._replace(objects={key: value for key, value in of.objects.items() if key != name})}
        return Change(request("DELETE", self.path(calendar, name), self.user), 204, after)

    def make_calendar(self, state):
        name = self.fresh_name()
        body = f"<C:mkcalendar {NAMES}><D:set><D:prop><D:displayname>made {name}</D:displayname></D:prop></D:set></C:mkcalendar>".encode()
        after = {**state, name: FRESH._replace(name=f"made {name}")}
        return Change(request("MKCALENDAR", self.path(name), self.user, body, [XML]), 201, after)

    def delete_calendar(self, state):
        name = self.chance.choice([name for name in sorted(state) if name != "calendar"])
        return Change(request("DELETE", self.path(name), self.user), 204, {key: value for key, value in state.items() if key != name})

    def set_settings(self, state):
        calendar, text = self.chance.choice(self.settable(state)), self.fresh_name()
        note = None if self.chance.random() < 0.3 else "note " + text * self.chance.choice([1, 1, 1, 200])
        noted = ("remove", "<note xmlns='urn:power'/>") if note is None else ("set", f"<note xmlns='urn:power'>{note}</note>")
        settings = [("set", f"<D:displayname>{text}</D:displayname>"), noted]
        body = f"<D:propertyupdate {NAMES}>{''.join(f'<D:{how}><D:prop>{one}</D:prop></D:{how}>' for how, one in settings)}</D:propertyupdate>".encode()
        after = {**state, calendar: state[calendar]._replace(name=text, note=note)}
        return Change(request("PROPPATCH", self.path(calendar), self.user, body, [XML]), 207, after)

    def grant(self, state):
        calendar, holders = self.chance.choice(self.settable(state)), [one for one in HOLDERS if self.user not in one]
        grants = state[calendar].grants
        while grants == state[calendar].grants:
            many = self.chance.randrange(4)
            grants = tuple((self.chance.choice(holders), tuple(sorted(self.chance.sample(PRIVILEGES, self.chance.randrange(1, 4))))) for _ in range(many))
        aces = "".join(
            f"<D:ace><D:principal>{f'<D:href>{holder}</D:href>' if holder else '<D:all/>'}</D:principal><D:grant>"
            + "".join(f"<D:privilege><{one}/></D:privilege>" for one in privileges) + "</D:grant></D:ace>"
            for holder, privileges in grants
        )
        body = f"<D:acl {NAMES}>{aces}</D:acl>".encode()
        return Change(request("ACL", self.path(calendar), self.user, body, [XML]), 200, {**state, calendar: state[calendar]._replace(grants=grants)})

    def refused(self, state):
        name = self.fresh_name() + ".ics"
        body = self.sized(name)
        return self.chance.choice([
            Change(request("PUT", self.path("calendar", name), self.user, body, [TEXT, 'If-Match: "none"']), 412, None),
            Change(request("PUT", self.path("calendar", name), self.user, body[:-20], [TEXT]), 403, None),
            Change(request("DELETE", self.path("calendar", name), self.user), 404, None),
            Change(request("MKCALENDAR", self.path("calendar"), self.user), 403, None),
        ])

    def next_change(self, state):
        kinds = [(self.put_new, 36), (self.refused, 6), (self.make_calendar, 4 if len(state) < 8 else 0)]
        kinds += [(self.put_again, 20), (self.delete_object, 14 if len(self.objects(state)) < 60 else 40)] if self.objects(state) else []
        kinds += [(self.delete_calendar, 3)] if 1 < len(state) else []
        kinds += [(self.set_settings, 9), (self.grant, 8)] if self.settable(state) else []
        return self.chance.choices([kind for kind, _ in kinds], [weight for _, weight in kinds])[0](state)

    def run(self):
        link = Link(self.port)
        try:
            while not self.stopped.is_set():
                change = self.next_change(self.states[-1])
                if change.after is not None:
                    self.states.append(change.after)
                    self.asked.append(time.monotonic_ns())
                status, body = link.ask(change.octets)
                if status != change.status or (status == 207 and re.search(rb"HTTP/1.1 (?!200)", body)):
                    self.wrong = f"a request was answered {status} and not {change.status}: {change.octets[:200]!r} {body[:300]!r}"
                    return
                if change.after is not None:
                    self.acknowledged.append(time.monotonic_ns())
        except OSError:
            pass  # the server was killed
        finally:
            link.close()

    def ahead(self):
        """How many changes stood before this run."""
        return len(self.states) - 1 - len(self.asked)


# The server


class NotStarted(Exception):
    def __init__(self, status, told):
        super().__init__(f"the server does not start: status {status}, {told.decode(errors='replace').strip()!r}")
        self.status, self.told = status, told


class Server:
    """A server over a journal file, or without one, which is killed at the end; perhaps with words in front of its own."""

    def __init__(self, program, users, journal, sessions, workers, more=None, front=()):
        for _ in range(5):
            self.port = free_port()
            words = [*front, program, "serve", "--users", users, "--listen", f"127.0.0.1:{self.port}", "--sessions", f"{sessions}", "--workers", f"{workers}"]
            words += ["--journal", journal] if journal else []
            how = {"stdin": subprocess.DEVNULL, "stdout": subprocess.DEVNULL, "stderr": subprocess.PIPE, "env": {**os.environ, **(more or {})}}
            self.process = subprocess.Popen(words, **how)
            limit = threading.Timer(WAIT, self.process.kill)
            limit.start()
            told = self.process.stderr.readline()
            limit.cancel()
            if told.startswith(b"listening on"):
                return
            status = self.process.wait()
            self.process.stderr.close()
            if told != b"input fault\n":  # another program may have taken the port
                break
        raise NotStarted(status, told)

    def __enter__(self):
        return self

    def __exit__(self, *_):
        self.process.kill()
        self.process.wait()
        self.process.stderr.close()


# What a server shows


def found(element, name):
    """The element of this name that a response has with status 200."""
    for one in element.iter(DAV + "propstat"):
        if " 200 " in one.findtext(DAV + "status"):
            return one.find(f"{DAV}prop/{name}")
    return None


def text_of(element):
    return None if element is None else element.text or ""


def grants_of(acl):
    grants = []
    for ace in acl:
        if ace.find(DAV + "protected") is not None:
            continue
        holder = ace.findtext(f"{DAV}principal/{DAV}href") or ""
        names = [one[0].tag.replace(DAV, "D:").replace(CALDAV, "C:") for one in ace.find(DAV + "grant")]
        grants.append((holder, tuple(sorted(names))))
    return tuple(grants)


def answered(link, method, path, user, body, depth):
    status, octets = link.ask(request(method, path, user, body.encode(), [XML, f"Depth: {depth}"]))
    if status != 207:
        raise ValueError(f"{method} of {path} is answered {status}: {octets[:200]!r}")
    return [(one.findtext(DAV + "href"), one) for one in ElementTree.fromstring(octets).iter(DAV + "response")]


def calendars_of(port, user):
    """All calendars of a user with all that they show."""
    link, home, shown = Link(port), f"/calendars/{user}/", {}
    listed = f"<D:propfind {NAMES}><D:prop><D:displayname/><note xmlns='urn:power'/><D:acl/></D:prop></D:propfind>"
    all_objects = '<D:prop><D:getetag/><C:calendar-data/></D:prop><C:filter><C:comp-filter name="VCALENDAR"/></C:filter>'
    asked = f"<C:calendar-query {NAMES}>{all_objects}</C:calendar-query>"
    for href, calendar in answered(link, "PROPFIND", home, user, listed, 1):
        if href == home:
            continue
        objects = {}
        for path, one in answered(link, "REPORT", href, user, asked, 1):
            octets = text_of(found(one, CALDAV + "calendar-data")).encode()
            if text_of(found(one, DAV + "getetag")) != f'"{hashlib.sha256(octets).hexdigest()}"':
                raise ValueError(f"{path} has another entity tag than its octets")
            objects[path.rsplit("/", 1)[1]] = octets
        settings = [text_of(found(calendar, name)) for name in (DAV + "displayname", OWN + "note")]
        shown[href.split("/")[3]] = Shown(*settings, grants_of(found(calendar, DAV + "acl")), objects)
    link.close()
    return shown


def part_of(shown, client):
    """What belongs to a client of that which its user's calendars show; it is taken out."""
    own = {name: shown.pop(name) for name in [*shown] if name.startswith(client.start_of_names)}
    objects = shown["calendar"].objects
    mine = {name: objects.pop(name) for name in [*objects] if name.startswith(client.start_of_names)}
    settings = shown["calendar"] if client.number < len(USERS) else FRESH
    own["calendar"] = settings._replace(objects=mine)
    return own


def differences(wanted, got):
    """A few words for where the calendars of a client differ."""
    told = []
    for name in sorted(wanted.keys() | got.keys()):
        if name not in got or name not in wanted:
            told.append(f"{name} is {'missing' if name in wanted else 'too many'}")
            continue
        ours, theirs = wanted[name], got[name]
        told += [f"{name}: {what} {b!r} and not {a!r}" for what, a, b in zip(Shown._fields[:3], ours[:3], theirs[:3]) if a != b]
        for key in sorted(ours.objects.keys() | theirs.objects.keys()):
            if ours.objects.get(key) != theirs.objects.get(key):
                told.append(f"{name}/{key} is {'missing' if key not in theirs.objects else 'too many' if key not in ours.objects else 'another one'}")
    return "; ".join(told[:4])


def counts_found(port, clients, least, most):
    """How many changes of each client are there, from the least to the most of it: all numbers that may be (an object that was
    put and deleted again leaves what was before). ValueError where there is none."""
    shown = {user: calendars_of(port, user) for user in USERS}
    counts = []
    for client, low, high in zip(clients, least, most):
        own = part_of(shown[client.user], client)
        able = [count for count in range(low, high + 1) if client.states[count] == own]
        if not able:
            earlier = next((count for count in range(low - 1, -1, -1) if client.states[count] == own), None)
            if earlier is not None:
                raise ValueError(f"LOST: connection {client.number} has {earlier} changes, of which {low} were acknowledged")
            raise ValueError(f"connection {client.number} has not what is behind its change {low}: {differences(client.states[low], own)}")
        counts.append(able)
    for user, rest in shown.items():
        if sorted(rest) != ["calendar"] or rest["calendar"].objects:
            raise ValueError(f"NEVER ASKED: {user} has {sorted(rest)} with {sorted(rest['calendar'].objects)}")
    return counts


# The record of a run


def read_record(path):
    """The calls of a run. They came one after the other."""
    with open(path, "rb") as file:
        octets = file.read()
    calls, at, begun = [], 0, None
    while at < len(octets):
        kind, moment, place, count = struct.unpack_from("<4q", octets, at)
        at += 32
        if kind == OTHER:
            sys.exit("the program changes its journal by a call that is not written down here")
        if kind in (WRITE, SYNC, FOLDER):
            if begun:
                sys.exit("two calls of the disk at once")
            begun = Call(kind, moment, None, place, octets[at:at + count])
            at += count if kind == WRITE else 0
        else:
            if count != len(begun.octets):  # of a sync both are 0
                sys.exit(f"a call of the disk failed in the run: it gave {count}")
            calls.append(begun._replace(end=moment))
            begun = None
    return calls + ([begun] if begun else [])


def with_piece(octets, call):
    octets.extend(bytes(max(0, call.place - len(octets))))
    octets[call.place:call.place + len(call.octets)] = call.octets


def looks_whole(base, calls, journal):
    """Whether the calls that were written down make of the file at the beginning what is there at the end."""
    octets = bytearray(base or b"")
    for call in calls:
        if call.kind == WRITE and call.end is not None:
            with_piece(octets, call)
    with open(journal, "rb") as file:
        there = file.read()
    if there != octets and calls[-1].kind == WRITE and calls[-1].end is None:
        with_piece(octets, calls[-1])
    return there == octets


# What a cut leaves


class Disk:
    """A file at a moment: what the last sync left, what was written since, and whether its name is on the disk."""

    def __init__(self, base, calls, moment, lies=False):
        begun = [call for call in calls if call.begin < moment]
        ended = [(at, call.kind) for at, call in enumerate(begun) if call.end is not None and call.end <= moment and not lies]
        settled = max((at for at, kind in ended if kind == SYNC), default=0)
        self.pending = [call for call in begun[settled:] if call.kind == WRITE]
        self.synced = bytearray(base or b"")
        for call in begun[:settled]:
            if call.kind == WRITE:
                with_piece(self.synced, call)
        self.named = base is not None or any(kind == FOLDER for _, kind in ended)
        self.made = self.named and bool(self.synced)

    def read(self):
        """What a read gives."""
        octets = bytearray(self.synced)
        for call in self.pending:
            with_piece(octets, call)
        return bytes(octets)

    def image(self, chance):
        """One of the files that a cut now may leave, or None for no file."""
        if not self.named and chance.random() < 0.3:
            return None
        octets, end = bytearray(self.synced), len(self.synced)
        ways = ["lost", "kept", "front", "sectors", "noise", "forged"]
        how = chance.choice([*ways, "kept", "mixed", "mixed"])
        for call in self.pending:
            self.tear(octets, call, chance.choice(ways) if how == "mixed" else how, chance)
        if self.pending and chance.random() < 0.5:
            grown = chance.choice([end, max(end, len(octets) - chance.randrange(600)), len(octets) + chance.randrange(5000)])
            octets.extend(chance.choice([noise, forged])(max(0, grown - len(octets)), chance))
            del octets[grown:]
        return bytes(octets)

    def tear(self, octets, call, how, chance):
        """Makes of a range what a cut may leave of it."""
        piece, end = call.octets, len(octets)
        if how == "lost":
            return
        if how == "front":
            piece = piece[:chance.randrange(len(piece) + 1)]
        if how == "noise":
            piece = noise(len(piece), chance)
        if how == "forged":
            piece = forged(len(piece), chance, chance.randrange(2))
        if how == "sectors":
            piece = self.sectors(octets, call, chance)
        octets.extend(noise(max(0, call.place - end), chance))
        octets[call.place:call.place + len(piece)] = piece

    def sectors(self, octets, call, chance):
        """The sectors of a range, each kept, lost, or with other octets. What was lost past the end is other octets too."""
        pieces, at, end = [], call.place, call.place + len(call.octets)
        while at < end:
            to = min(end, at - at % 512 + 512)
            new, old = call.octets[at - call.place:to - call.place], bytes(octets[at:to])
            pieces.append(chance.choice([new, new, old + noise(to - at - len(old), chance), noise(to - at, chance)]))
            at = to
        return b"".join(pieces)


def noise(count, chance):
    return chance.choice([chance.randbytes, bytes, lambda count: b"\1" * count, lambda count: bytes(chance.choices(b"\0\1\2", k=count))])(count)


def forged(count, chance, gates=0):
    """Octets that look like records with open gates, of changes that nobody asked for, from a gate on or from behind one."""
    octets = b""
    while len(octets) < count + gates:
        name = f"never-{chance.randrange(10)}.ics"
        made = journals.Record(journals.PUT, chance.randrange(2), 1741600000, 201, 0, "calendar", name, event(name, "never", 300, chance))
        calendar = journals.Record(journals.MAKE, 0, 1741600000, 201, 0, name, size=0, settings=[])
        octets += journals.open_record(journals.payload(chance.choice([made, calendar])))
    return octets[gates:count + gates]


# Looking at one file

# How it went: the cut was within the making of the file, between two changes, or within one, which is there or not.
MAKING, BETWEEN, WITHOUT, WITH = "while the file was made", "between changes", "within one that is gone", "within one that is there"
WRONG = (ValueError, LookupError, OSError, journals.Bad, ElementTree.ParseError)


def records_of(octets):
    """The payloads of a file in the form; journals.Bad elsewhere."""
    return [payload for _, payload in journals.Journal(octets).payloads()]


def may_be(counts, records):
    """Whether so many changes of each client may be so many records in all."""
    return any(sum(chosen) == len(records) for chosen in itertools.product(*counts))


class Looking:
    """What is handed to the processes that look at files, and where they do."""

    def __init__(self, options, folder, users):
        self.options, self.folder, self.users, self.run = options, folder, users, None

    def counts_at(self, moment, moments):
        return [client.ahead() + sum(at <= moment for at in getattr(client, moments)) for client in self.run.clients]

    def started(self, octets, least, most):
        """The counts of changes that a server shows over a file of these octets (None for no file)."""
        path = os.path.join(self.folder, f"image-{os.getpid()}")
        if os.path.exists(path):
            os.remove(path)
        if octets is not None:
            with open(path, "wb") as file:
                file.write(octets)
        with Server(self.options.program, self.users, path, 1, 0) as server:
            counts = counts_found(server.port, self.run.clients, least, most)
        if octets:
            with open(path, "rb") as file:
                if file.read() != octets:
                    raise ValueError("the start changed the file")
        return counts

    def image(self, seed, moment, lies=False):
        """The state of the disk at a moment, and a file that a cut leaves then: the same for the same seed."""
        disk = Disk(self.run.base, self.run.calls, moment, lies)
        return disk, disk.image(random.Random(seed))

    def cut(self, seed, moment, lies=False):
        """What is wrong with the file that a cut at a moment leaves, or None; a word for how it went; the file where it is wrong; the counts."""
        disk, octets = self.image(seed, moment, lies)
        try:
            counts = self.started(octets, self.counts_at(moment, "acknowledged"), self.counts_at(moment, "asked"))
            if not disk.made:
                return None, MAKING, None, counts
            before, there = records_of(bytes(disk.synced)), records_of(octets)
            if not len(before) <= len(there) <= len(before) + 1 or there != records_of(disk.read())[:len(there)]:
                raise ValueError(f"{len(there)} records are there, and at the last sync there were {len(before)}")
            if not may_be(counts, there):
                raise ValueError(f"{counts} changes are there, and {len(there)} records")
        except NotStarted as why:
            if not disk.made and why.status == 9:
                return None, MAKING + ", and refused", None, None
            return str(why), "wrong", octets, None
        except WRONG as why:
            return str(why) or repr(why), "wrong", octets, None
        return None, BETWEEN if not disk.pending else WITHOUT if len(there) == len(before) else WITH, None, counts

    def copy(self, octets, begin, end):
        """The same for a copy that was made between two moments."""
        least, most = self.counts_at(begin, "acknowledged"), self.counts_at(end, "asked")
        how = "whole"
        try:
            try:
                there = records_of(octets)
            except journals.Bad as bad:
                try:
                    self.started(octets, least, most)
                    raise ValueError("the server takes a copy that is cut")
                except NotStarted as why:
                    if (why.status, why.told) != (9, f"journal: refused at octet {bad.place}\n".encode()):
                        raise
                octets, how = octets[:bad.place] + b"\0", "cut at its end"
                there = records_of(octets)
            counts = self.started(octets, least, most)
            if not may_be(counts, there):
                raise ValueError(f"{counts} changes are in a copy, and {len(there)} records")
        except (NotStarted, *WRONG) as why:
            return str(why) or repr(why), "wrong", octets, None
        return None, how, None, None


LOOKING = None  # what the processes that look share with the one that they were made from


def look(task):
    what, *words = task
    return (*(LOOKING.cut if what == "cut" else LOOKING.copy)(*words), task)


# Runs and copies


def copied(path, way, copy, chance):
    """The octets of a copy of a file that may grow meanwhile."""
    if way in ("cat", "cp"):
        subprocess.run([way, path, copy] if way == "cp" else ["sh", "-c", 'cat "$0" > "$1"', path, copy], check=True)
        with open(copy, "rb") as file:
            return file.read()
    octets, most = b"", os.path.getsize(path) if way == "length first" else 1 << 62
    with open(path, "rb", buffering=0) as file:
        while len(octets) < most and (piece := file.read(min(1 << chance.randrange(9, 17), most - len(octets)))):
            octets += piece
            time.sleep(chance.choice([0, 0, 0.001]))
    return octets


class Copier(threading.Thread):
    """Copies the file again and again while it is written."""

    def __init__(self, path, many, stopped, seed):
        super().__init__(daemon=True)
        self.path, self.many, self.stopped, self.chance, self.copies = path, many, stopped, random.Random(seed), []

    def run(self):
        while not self.stopped.is_set() and len(self.copies) < self.many:
            way = ("cat", "front to end", "length first", "cp")[len(self.copies) % 4]
            begin = time.monotonic_ns()
            octets = copied(self.path, way, self.path + ".copy", self.chance)
            self.copies.append(("copy", octets, begin, time.monotonic_ns()))
            self.stopped.wait(self.chance.random() * 0.1)


def changed(clients):
    """How many changes were acknowledged in a run."""
    return sum(len(client.acknowledged) for client in clients)


def recorded(options, folder, users, library, base, states, seed):
    """A run over a file, with the copies that were made meanwhile."""
    journal, record = os.path.join(folder, "journal"), os.path.join(folder, "record")
    for path in (journal, record):
        if os.path.exists(path):
            os.remove(path)
    if base is not None:
        with open(journal, "wb") as file:
            file.write(base)
    clients, stopped = [Client(number, states[number], seed) for number in range(CONNECTIONS)], threading.Event()
    copier = Copier(journal, options.copies, stopped, seed)
    more = {"LD_PRELOAD": library, "POWER_RECORD": record, "POWER_JOURNAL": journal, "POWER_SLOW": f"{SLOW}"}
    with Server(options.program, users, journal, CONNECTIONS, 1, more) as server:
        for client in clients:
            client.port, client.stopped = server.port, stopped
            client.start()
        copier.start()
        limit = time.monotonic() + 10 * WAIT
        while changed(clients) < options.changes and time.monotonic() < limit and all(client.is_alive() for client in clients):
            time.sleep(0.002)
    stopped.set()
    for one in [*clients, copier]:
        one.join()
    for client in clients:
        if client.wrong:
            sys.exit(f"connection {client.number}: {client.wrong}")
    calls = read_record(record)
    if not calls or not looks_whole(base, calls, journal):
        sys.exit("the calls that were written down do not make the file that is there")
    if changed(clients) < options.changes:
        sys.exit("the server ended, or was too slow")
    return Run(base, calls, clients), copier.copies


def moments(run, many, chance):
    """Moments of a run: evenly, at calls, and at acknowledgements."""
    calls = [call for call in run.calls if call.end]
    first, last = calls[0].begin, calls[-1].end + 1_000_000
    ends = [moment for call in calls for moment in (call.begin, call.begin + 1, (call.begin + call.end) // 2, call.end - 1, call.end, call.end + 1)]
    told = [moment for client in run.clients for moment in client.acknowledged]
    return [chance.choice([lambda: chance.randrange(first, last), lambda: chance.choice(ends), lambda: chance.choice(told)])() for _ in range(many)]


class Totals:
    """How many files there were of each kind, and where those that are wrong are kept."""

    def __init__(self, keep, what):
        self.ways, self.wrong, self.keep, self.what = {}, 0, keep, what

    def add(self, result, of):
        why, way, octets, _, task = result
        self.ways[way] = self.ways.get(way, 0) + 1
        if why is None:
            return
        self.wrong += 1
        os.makedirs(self.keep, exist_ok=True)
        path = os.path.join(self.keep, f"{self.what}-{self.wrong}")
        with open(path, "wb") as file:
            file.write(octets or b"")
        print(f"WRONG {of}, {self.what} {task[1] if self.what == 'cut' else ''}: {why}\n      {path}", flush=True)

    def told(self, what):
        ways = ", ".join(f"{count} {way}" for way, count in sorted(self.ways.items()))
        return f"{sum(self.ways.values())} {what}, {self.wrong} wrong ({ways})"


def looked_at(looking, tasks):
    """The results of looking at files, in several processes."""
    global LOOKING
    LOOKING = looking
    with multiprocessing.get_context("fork").Pool(looking.options.jobs) as pool:
        return pool.map(look, tasks, chunksize=4)


def gone_on(results, looking, chance):
    """The file with which the next run goes on, and the states of the clients: that of a cut within a change."""
    of, counts = chance.choice([(task[1:], counts) for _, way, _, counts, task in results if way in (WITHOUT, WITH)])
    _, octets = looking.image(*of)
    return octets, [client.states[:able[0] + 1] for client, able in zip(looking.run.clients, counts)]


def blind(looking, run, chance):
    """How many of some cuts show that a disk lied about its syncs."""
    tasks = [("cut", f"lies {number}", moment, True) for number, moment in enumerate(moments(run, 40, chance))]
    return sum(result[0] is not None for result in looked_at(looking, tasks)), len(tasks)


def compiled(folder):
    source, library = os.path.join(folder, "shim.c"), os.path.join(folder, "shim.so")
    with open(source, "w") as file:
        file.write(SHIM)
    subprocess.run(["gcc", "-O1", "-shared", "-fPIC", "-w", "-o", library, source], check=True)
    return library


def at_first():
    """No file, and what the clients' own calendars then show."""
    return None, [[{"calendar": AT_START if number < len(USERS) else FRESH}] for number in range(CONNECTIONS)]


def one_run(looking, number, of, cuts, copies):
    """Looks at the cuts and copies of a run that was recorded; the results of the cuts."""
    options, run = looking.options, looking.run
    begun, seed = time.monotonic(), f"{options.seed} {number}"
    many = options.cuts * (number + 1) // options.runs - options.cuts * number // options.runs
    tasks = [("cut", f"{seed} {each}", moment) for each, moment in enumerate(moments(run, many, random.Random(seed)))]
    results = looked_at(looking, tasks)
    for result in results:
        cuts.add(result, f"run {number}")
    for result in looked_at(looking, of):
        copies.add(result, f"run {number}")
    asked = sum(len(client.asked) for client in run.clients)
    took, wrong = time.monotonic() - begun, cuts.wrong + copies.wrong
    print(f"run {number}: {asked} changes, {len(run.calls)} calls of the disk, {many} cuts, {len(of)} copies, {wrong} wrong so far ({took:.0f} s)", flush=True)
    return results


def all_runs(options, folder):
    library, users, chance = compiled(folder), os.path.join(folder, "users"), random.Random(options.seed)
    with open(users, "w") as file:
        file.write(USERS_FILE)
    cuts, copies, changes, looking = Totals(options.keep, "cut"), Totals(options.keep, "copy"), 0, Looking(options, folder, users)
    for number in range(options.runs):
        base, states = at_first() if number % CHAIN == 0 else gone_on(results, looking, chance)
        looking.run, made = recorded(options, folder, users, library, base, states, f"{options.seed}-{number}")
        results = one_run(looking, number, made, cuts, copies)
        changes += sum(len(client.asked) for client in looking.run.clients)
        if cuts.wrong:
            break
    seen, of = blind(looking, looking.run, chance)
    print(f"seed {options.seed}: {changes} changes over {CONNECTIONS} connections, " + cuts.told("cuts"))
    print("copies made meanwhile: " + copies.told("copies"))
    print(f"the same over a disk that lies about its syncs: {seen} of {of} cuts are wrong" + ("" if seen else ", so this program sees nothing"))
    return cuts.wrong == 0 and copies.wrong == 0 and 0 < seen


def main():
    parser = argparse.ArgumentParser(description=__doc__.splitlines()[0])
    parser.add_argument("--cuts", type=int, default=2400)
    parser.add_argument("--runs", type=int, default=8)
    parser.add_argument("--changes", type=int, default=240, help="of a run, over the four connections")
    parser.add_argument("--copies", type=int, default=12, help="of a run")
    parser.add_argument("--jobs", type=int, default=os.cpu_count())
    parser.add_argument("--seed", type=int, default=None)
    parser.add_argument("--folder", default="/dev/shm" if os.path.isdir("/dev/shm") else None, help="where files are made, which go at the end")
    parser.add_argument("--keep", default=os.path.join(tempfile.gettempdir(), f"power-{os.getpid()}"), help="where files that are wrong are kept")
    parser.add_argument("--program", default=f"{TOP}/crates/caldav_server/out/caldav_server")
    options = parser.parse_args()
    options.seed = options.seed if options.seed is not None else random.randrange(1 << 30)
    options.program = os.path.abspath(options.program)
    if not os.path.exists(options.program):
        sys.exit(f"{options.program} is not built: run `rt run` in crates/caldav_server first")
    folder = os.path.realpath(tempfile.mkdtemp(prefix="power-", dir=options.folder))
    try:
        holds = all_runs(options, folder)
    finally:
        shutil.rmtree(folder, ignore_errors=True)
    sys.exit(0 if holds else 1)


if __name__ == "__main__":
    main()
