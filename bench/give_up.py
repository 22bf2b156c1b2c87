#!/usr/bin/env python3
"""Puts bodies that give up in the place of right ones, and says which test refuses each.

    bench/give_up.py [--only WORD] [--tests NAME,NAME..] [--folder FOLDER] [--jobs N] [--rt RT]

No contract can say that there is memory, that a read or a write succeeds, that a worker ever claims a piece, or that a
connection which was accepted is served. So a body that always answers want of memory, or always a fault, is proved, and
only a test refuses it. This program tries each of them:

- each public call of the server's crates that may answer want of memory: it always does;
- each call of a source, sink, link, file or door that may fail, and each that tells so: it always does;
- the commands with each of their statuses, the book with 503, a session with each of its faults;
- workers that never claim, or that expand a piece while they hold the turn; sessions that answer from a look while they
  hold it, or that count no moment of such an answer; connections that are let go at once; frames of a script's workers
  that do nothing.

The repository's crates are copied, and each wrong body is put into the copy in front of the right one, behind a look at
a number that a C function gives. So a test crate is built once, unproved, by `rt try`, and then run once for each body
below it that no other has refused yet; those first that refuse most. It ends with status 0 where each body is refused.
It needs Python 3 and a C compiler, and some forty minutes of a processor.

WORD picks the bodies whose name has it in it, and NAME the tests, in the order in which they are to run. FOLDER is where
the copy and the built tests are kept; with the same folder they are built again only after a change.
"""
import argparse, concurrent.futures, hashlib, os, re, shutil, signal, subprocess, sys, tempfile, threading, time

sys.path.insert(0, os.path.dirname(os.path.abspath(__file__)))
sys.dont_write_bytecode = True
import commands, workers

TOP = os.path.dirname(os.path.dirname(os.path.abspath(__file__)))

SHORT = 7000  # octets of a case that is run

CHOICE = r"""
#include <fcntl.h>
#include <stdlib.h>
#include <unistd.h>

// Whether the wrong body of this number is to run.
int given_up(unsigned number) {
    const char *text = getenv("GIVEN_UP");
    return text && (unsigned)atol(text) == number;
}

// Keeps the program that `rt try` built and starts.
__attribute__((constructor)) static void keep(int count, char **words) {
    static char piece[65536];
    long size;
    int to = count > 0 ? open("%s", O_WRONLY | O_CREAT | O_EXCL, 0755) : -1, from;
    if (to < 0) return;
    from = open(words[0], O_RDONLY);
    while ((size = read(from, piece, sizeof piece)) > 0) if (write(to, piece, size) != size) _exit(99);
    close(from);
    close(to);
}
"""
CHOOSER = """//! Which wrong body is to run.

unsafe extern "C" {
    safe fn given_up(number: u32) -> i32;
}

/// Whether the wrong body of this number is to run.
pub fn gives_up(number: u32) -> bool {
    given_up(number) != 0
}
"""

# The bodies that are written by hand: what they do, the file and the function, and the body.
HELD = """let Held { mut value } = lock.take(rt, pass);
        let turn = match value.claim() {
            Ok(Some(claim)) => {
                gate.pass(rt, claim.origin);
                match expand(alloc, claim, steps) {
                    Ok(expanded) => Some(match value.publish(expanded, steps) {
                        Publish::Published => Turn::Published,
                        Publish::Stale { now: _ } => Turn::Stale,
                        Publish::NoMemory => Turn::Refused,
                    }),
                    Err((claim, NoMemory)) => {
                        value.abandon(claim);
                        Some(Turn::Refused)
                    }
                }
            }
            _ => None,
        };
        lock.give(pass, Held { value });
        return turn;"""
LOOKED = """let Held { mut value } = context.lock.take(context.rt, pass);
        let at = begin_turn(&mut value, counts);
        let told = match value.look(event) {
            Some(look) => Told::Reply(answer_from(context, look, at, event, counts)),
            None => value.ask(context.alloc, event, reading, &mut counts.steps),
        };
        context.lock.give(pass, Held { value });
        return (at, told);"""
ENDED = "return crate::served::Ended { how: crate::served::How::%s, turns: cal_base::List::new(alloc) };"
BY_HAND = [
    *[("a script ends with status %d" % status, "cal_script/src/command.rt", "run_script", "return without_place(%d);" % status) for status in (4, 5, 6, 7)],
    *[("frames end with %s" % end, "cal_script/src/running.rt", "run_frames", "return FrameEnd::%s;" % end) for end in ("Input", "Output", "Frame { place: 0 }", "NoMemory")],
    *[("frames at a desk end with %s" % end, "cal_script/src/running.rt", "frames_on", "return FramesOn::End(FrameEnd::%s);" % end) for end in ("Input", "Output", "Frame { place: 0 }", "NoMemory")],
    ("frames of workers do nothing", "cal_script/src/slots.rt", "act", "return;"),
    ("the book answers 503", "cal_book/src/book.rt", "request", "return bare_reply(alloc, 503);"),
    ("the book gives no look", "cal_book/src/book.rt", "look", "return None;"),
    ("a session answers from a look while it holds the turn", "cal_session/src/turn.rt", "ask_once", LOOKED),
    ("a session notes no moment", "cal_session/src/counts.rt", "note", "return;"),
    ("a session that ends tells no moment", "cal_session/src/turn.rt", "tell_at_end", "return;"),
    ("a session ends with its read failed", "cal_session/src/service.rt", "serve_connection", ENDED % "ReadFault"),
    ("a session ends with its write failed", "cal_session/src/service.rt", "serve_connection", ENDED % "WriteFault"),
    ("a session ends without memory", "cal_session/src/service.rt", "serve_connection", ENDED % "NoMemory"),
    ("a session at a desk ends with its read failed", "cal_session/src/session.rt", "serve_on", "return OnEnd::Ended(Ended { how: How::ReadFault, turns: cal_base::List::new(alloc) });"),
    ("a session at a desk ends with its write failed", "cal_session/src/session.rt", "serve_on", "return OnEnd::Ended(Ended { how: How::WriteFault, turns: cal_base::List::new(alloc) });"),
    ("a session at a desk ends without memory", "cal_session/src/session.rt", "serve_on", "return OnEnd::Ended(Ended { how: How::NoMemory, turns: cal_base::List::new(alloc) });"),
    *[("a journal file is not made: %s" % end, "cal_keeper/src/creating.rt", "create", "return Created::%s(disk);" % end) for end in ("Failed", "NoMemory")],
    *[("a journal file is not opened: %s" % end, "cal_keeper/src/opening.rt", "open", "return Opened::%s(disk);" % end) for end in ("Failed", "NoMemory")],
    ("no record of a journal file is read", "cal_keeper/src/reader.rt", "next", "return NextEntry::NoMemory(self);"),
    *[("a kept book is not loaded: %s" % end, "cal_session/src/loading.rt", "load_kept", "return Loaded::%s(disk);" % end) for end in ("Failed", "NoMemory")],
    ("a worker never claims", "expansion_workers/src/worker.rt", "work", "return Worked { claimed: 0, published: 0, stale: 0, refused: 0 };"),
    ("a worker at a desk never claims", "expansion_workers/src/worker.rt", "work_on", "return Worked { claimed: 0, published: 0, stale: 0, refused: 0 };"),
    ("a worker gives each claim up", "expansion_workers/src/worker.rt", "take_turn", "if let Some(claim) = take_claim(rt, lock, pass) {\n            give_up(rt, lock, pass, claim);\n            return Some(Turn::Refused);\n        }\n        return None;"),
    ("a worker expands while it holds the turn", "expansion_workers/src/worker.rt", "take_turn", HELD),
    ("no work is done for load", "caldav_server/src/load_sessions.rt", "run_role", "return Outcome::Failed;"),
    *[("load ends with status %d" % status, "caldav_server/src/load.rt", "run_load", "return ScriptEnd { status: %d, place: 0 };" % status) for status in (5, 7)],
    *[("serve ends with status %d" % status, "caldav_server/src/serve.rt", "run_serve", "return without_place(%d);" % status) for status in (4, 7)],
    ("a connection that was accepted is let go", "caldav_server/src/sessions.rt", "serve_next", "let _ = door.accept(rt);\n        return;"),
    ("workers of serve do nothing", "caldav_server/src/sessions.rt", "expand_claims", "return;"),
    ("the lock is not made", "turn_lock/src/lock.rt", "new", "return Err((value, cal_base::NoMemory));"),
    ("a claim is not expanded", "cal_book/src/expanding.rt", "expand", "return Err((claim, cal_base::NoMemory));"),
]
SCRIPTS = {  # each is asked what is wrong with a built program
    "commands.py": commands.fault,
    "workers.py": lambda program, more: workers.fault(program, 3, more)[0],  # few, since what `rt try` builds is slow
}
REFUSED_BY_PROOF = {  # where there is room already it has to succeed, and a claim ends with its publication
    "cal_book::Book::reserve of Desk answers no memory", "cal_session::Kept::reserve of Desk answers no memory", "cal_session::Kept::publish of Desk answers no memory",
}
USES = {  # names that a body by hand needs more
    "expansion_workers/src/worker.rt": [("use turn_lock::{Pass, TurnLock};", "use turn_lock::{Held, Pass, TurnLock};")],
}


def crates_below():
    below = {}
    with open(os.path.join(TOP, "crates.txt")) as file:
        for line in file:
            if ":" in line and not line.startswith("#"):
                name, others = line.split(":", 1)
                below[name] = others.split()

    def closed(name, found):
        if name in below and name not in found:
            found.add(name)
            for other in below[name]:
                closed(other, found)
        return found

    return {name: closed(name, set()) for name in below}


BELOW = crates_below()
FUNCTION = re.compile(r"^( *)(pub(?:\(crate\))? )?fn (\w+)", re.M)


def functions(text):
    """The functions with a body: where each begins, whether it is public, its name, what it gives, and where its body begins."""
    for found in FUNCTION.finditer(text):
        indent, at = found[1], found.start()
        while True:
            end = text.find("\n", at)
            line = text[at:end]
            ends = line == indent + "{" or line.endswith(" {") and (at == found.start() or line.startswith(indent + ")"))
            if end < 0 or ends or line.endswith(";"):
                break
            at = end + 1
        if not ends:
            continue
        head = re.split(r"\n *(?:requires|ensures|where)", text[found.start():end - 1])[0]
        gives = re.search(r"-> (.*)$", re.sub(r"\s+", " ", head).strip())
        yield found.start(), found[2] == "pub ", found[3], gives[1] if gives else "", end + 1


def within(text, at):
    """The trait and the type of the impl that a place lies in, where it lies in one."""
    begin, end = text.rfind("\nimpl", 0, at), text.rfind("\n}", 0, at)
    if begin < 0 or begin < end:
        return None, None
    head = text[begin:text.index("{", begin)]
    while "<" in head:
        head, many = re.subn(r"<[^<>]*>", "", head)
        if not many:
            break
    return re.match(r"\s*impl (?:(\w+)\s+for )?(\w+)", head).groups()


def all_sources(crate):
    for folder, _, names in sorted(os.walk(os.path.join(TOP, "crates", crate, "src"))):
        for name in sorted(names):
            if name.endswith(".rt"):
                path = os.path.join(folder, name)
                with open(path, newline="") as file:
                    yield os.path.relpath(path, os.path.join(TOP, "crates")), file.read()


def answers_without_memory():
    """The enumerations with an answer for want of memory."""
    found = set()
    for crate in BELOW["caldav_server"]:
        for _, text in all_sources(crate):
            for one in re.finditer(r"^pub enum (\w+)[^{]*\{(.*?)^\}", text, re.M | re.S):
                if re.search(r"^    NoMemory,", one[2], re.M):
                    found.add(one[1])
    return found


ENDS = answers_without_memory()


def giving_up(crate, gives):
    """What a call that gives such a thing says for want of memory, and what it says of a fault, where it can say that."""
    own = "crate" if crate == "cal_base" else "cal_base"
    found = re.match(r"Result<(.*), (\w+)>$", gives)
    if found and found[2] == "NoMemory":
        return [("no memory", f"Err({own}::NoMemory)")]
    if found and found[2] == "AllocError":
        return [("no memory", "Err(std::alloc::AllocError)")]
    if found and found[2] == "Failed":
        return [("a fault", f"Err({own}::Failed)")]
    if found and found[2] in ENDS:
        more = [("a fault", f"Err({found[2]}::Failed)")] if found[2] in ("FileFault", "ReadEnd") else []
        return [("no memory", f"Err({found[2]}::NoMemory)")] + more
    return [("no memory", f"{gives}::NoMemory")] if gives in ENDS and not gives == "FrameEnd" else []


def bodies():
    """The wrong bodies: name, crate, file, where they stand, and their text."""
    made = []
    for crate in (name for name in BELOW if name in BELOW["caldav_server"]):
        for path, text in all_sources(crate):
            for begin, public, name, gives, at in functions(text):
                trait, owner = within(text, begin)
                title = f"{crate}::{owner + '::' if owner else ''}{name}{' of ' + trait if trait else ''}"
                if public or trait not in (None, "From"):
                    made += [(f"{title} answers {what}", crate, path, at, f"return {told};") for what, told in giving_up(crate, gives)]
                for what, where, which, body in BY_HAND:
                    if where == path and which == name:
                        made.append((what, crate, path, at, body))
    missing = {one[0] for one in BY_HAND} - {one[0] for one in made}
    if missing:
        sys.exit(f"no such function: {', '.join(sorted(missing))}")
    return [one for one in made if one[0] not in REFUSED_BY_PROOF]


def tests(picked):
    """What is run: the test crates, and the programs with an output that is wanted; those first that refuse most, and slow ones last."""
    found = []
    for name in BELOW:
        if "#[test]" in "".join(text for _, text in all_sources(name)):
            found.append((name if name.startswith("tests_") else f"{name}-tests", name, True))
        if os.path.exists(os.path.join(TOP, "crates", name, "stdout")) and name != "bench":
            found.append((name, name, False))
    found += [(script, "caldav_server", None) for script in SCRIPTS]
    if picked:
        by_label = {one[0]: one for one in found}
        return [by_label[label] for label in picked.split(",")]
    first, slow = ["tests_base", "cases_server", "commands.py"], ["tests_recurrence", "workers.py"]
    order = {label: place for place, label in enumerate(first + [None] + slow)}
    return sorted(found, key=lambda one: (order.get(one[0], len(first)), len(BELOW[one[1]])))


class Copy:
    """A copy of the crates, with all wrong bodies in it."""

    def __init__(self, folder, rt, made):
        self.folder, self.rt = folder, rt
        shutil.rmtree(os.path.join(folder, "crates"), ignore_errors=True)
        shutil.copytree(os.path.join(TOP, "crates"), os.path.join(folder, "crates"), ignore=shutil.ignore_patterns("out", "must-fail"))
        for name in ("crates.txt", "HANDLES"):
            shutil.copy(os.path.join(TOP, name), folder)
        texts = {}
        for number, (_, crate, path, at, body) in sorted(enumerate(made, 1), key=lambda one: -one[1][3]):
            if path not in texts:
                with open(os.path.join(TOP, "crates", path), newline="") as file:
                    texts[path] = file.read()
            base = "crate" if crate == "cal_base" else "cal_base"
            guard = f"    if {base}::gives_up({number}) {{\n        {body}\n    }}\n"
            texts[path] = texts[path][:at] + guard + texts[path][at:]
        for path, changes in USES.items():
            for old, new in changes:
                if path in texts:
                    assert texts[path].count(old) == 1, (path, old)
                    texts[path] = texts[path].replace(old, new)
        base = "cal_base/src/lib.rt"
        with open(os.path.join(TOP, "crates", base), newline="") as file:
            texts[base] = file.read().replace("\npub use ", "\npub mod given_up;\n\npub use given_up::gives_up;\npub use ", 1)
        texts["cal_base/src/given_up.rt"] = CHOOSER
        for path, text in texts.items():
            with open(os.path.join(folder, "crates", path), "w", newline="") as file:
                file.write(text)
        self.sum = hashlib.sha256("".join(path + text for path, text in sorted(texts.items())).encode())
        os.makedirs(os.path.join(folder, "crates/cal_base/c"), exist_ok=True)

    def build(self, name, is_test):
        """The built test, from an earlier run where nothing has changed."""
        total = self.sum.copy()
        for crate in sorted(BELOW[name]):
            for _, text in all_sources(crate):
                total.update(text.encode())
        kept = os.path.join(self.folder, f"{name}{'-tests' if is_test else ''}-{total.hexdigest()[:16]}")
        if not os.path.exists(kept):
            with open(os.path.join(self.folder, "crates/cal_base/c/given_up.c"), "w") as file:
                file.write(CHOICE.replace("%s", kept))
            words = [self.rt, "try", "--seconds", "5"] + ["--test"] * is_test
            ran = subprocess.run(words, cwd=os.path.join(self.folder, "crates", name), stdin=subprocess.DEVNULL, capture_output=True, text=True, env={**os.environ, "RT_ALLOW_C": "1"})
            if not os.path.exists(kept):
                sys.exit(f"{name} was not built:\n{ran.stdout[-2000:]}{ran.stderr[-4000:]}")
        return kept


def short_cases(given, wanted):
    """A part of a program's input and of its output without the cases that are long, where both have a title before each case."""
    (given_head, *cases), (wanted_head, *told) = given.split(b"#"), re.split(rb"^# ", wanted, flags=re.M)
    if len(cases) != len(told):
        return given, wanted
    kept = [(case, its) for case, its in zip(cases, told) if len(case) < SHORT and b"~" not in case and b"\noctets " not in case]
    return b"#".join([given_head, *(case for case, _ in kept)]), b"# ".join([wanted_head, *(its for _, its in kept)])


class Test:
    def __init__(self, copy, name, is_test):
        self.is_test = is_test
        self.program = copy.build(name, is_test)
        self.at = os.path.join(TOP, "crates", name)
        self.words = []
        if not is_test and os.path.exists(os.path.join(self.at, "args")):
            with open(os.path.join(self.at, "args")) as file:
                self.words = file.read().split("\n")[:-1]
        self.given, self.wanted = b"", None
        if not is_test:
            self.given, self.wanted = (self.read(name) for name in ("stdin", "stdout"))
            if self.given.startswith(b"@"):
                self.leave_long_cases_out()

    def read(self, name):
        path = os.path.join(self.at, name)
        if not os.path.exists(path):
            return b""
        with open(path, "rb") as file:
            return file.read()

    def leave_long_cases_out(self):
        """Of a program's cases those stay that are short: the others take long and make no other calls."""
        parts = [short_cases(given, wanted) for given, wanted in zip(self.given.split(b"@"), self.wanted.split(b"@"), strict=True)]
        self.given, self.wanted = (b"@".join(side) for side in zip(*parts))

    def started(self, number, words):
        """Status and output, or none where it does not end; 0 is the number of no body. It is ended where its output is wrong."""
        with tempfile.TemporaryDirectory() as place:
            data = os.path.join(self.at, "data")
            if os.path.isdir(data):
                shutil.copytree(data, place, dirs_exist_ok=True)
            with tempfile.TemporaryFile() as file:
                file.write(self.given)
                file.seek(0)
                how = {"stdin": file, "stdout": subprocess.PIPE, "stderr": subprocess.DEVNULL, "cwd": place}
                ran = subprocess.Popen([self.program, *words], env={"GIVEN_UP": str(number)}, **how)
            ends = threading.Timer(self.limit, ran.kill)
            ends.start()
            output = b""
            while piece := ran.stdout.read1(65536):
                output += piece
                if self.wanted is not None and not self.wanted.startswith(output):
                    ran.kill()
            status = ran.wait()
            ends.cancel()
        has_ended = self.wanted is not None and not self.wanted.startswith(output)
        return None if status == -signal.SIGKILL and not has_ended else 0 if has_ended else status, output

    def begin(self):
        """What fails over the right bodies, if anything does. All runs may take five times as long as this one."""
        self.limit, begun = 1000, time.monotonic()
        why = self.run(0)
        self.limit = max(20, 5 * (time.monotonic() - begun))
        return why

    def run(self, number):
        """What refuses the body of this number, if anything does."""
        if not self.is_test:
            return self.refusal(*self.started(number, self.words))
        for name in re.findall(r"^(\S+): test$", self.started(0, ["--list"])[1].decode(), re.M):
            status, _ = self.started(number, [name])
            if status != 0:
                return f"{name}, " + ("which does not end" if status is None else f"status {status}")
        return None

    def refusal(self, status, output):
        if output == self.wanted and status == 0:
            return None
        rows, wanted = output.split(b"\n"), self.wanted.split(b"\n")
        place = next((at for at, (one, other) in enumerate(zip(rows, wanted)) if one != other), min(len(rows), len(wanted)))
        titles = [row for row in wanted[:place + 1] if row.startswith((b"# ", b"@"))]
        where = titles[-1].lstrip(b"# @").decode() if titles else f"line {place + 1} of its output"
        return where + (", which does not end" if status is None else f", status {status}" if status else "")


class Script:
    """A script beside this one, over the built program."""

    def __init__(self, copy, name, script):
        self.program, self.fault = copy.build(name, False), SCRIPTS[script]

    def begin(self):
        return self.run(0)

    def run(self, number):
        return self.fault(self.program, {"GIVEN_UP": str(number)})


def main():
    words = argparse.ArgumentParser(description=__doc__, formatter_class=argparse.RawDescriptionHelpFormatter)
    words.add_argument("--only", default="")
    words.add_argument("--tests", default="")
    words.add_argument("--folder", default=None)
    words.add_argument("--rt", default="rt")
    words.add_argument("--jobs", type=int, default=os.cpu_count())
    asked = words.parse_args()
    made = bodies()
    with tempfile.TemporaryDirectory() as other:
        folder = os.path.abspath(asked.folder or other)
        os.makedirs(folder, exist_ok=True)
        copy = Copy(folder, asked.rt, made)
        open_ones = {number: one for number, one in enumerate(made, 1) if asked.only in one[0]}
        refused, many = 0, len(open_ones)
        for label, name, is_test in tests(asked.tests):
            mine = [number for number, one in open_ones.items() if one[1] in BELOW[name]]
            if not mine:
                continue
            test = Script(copy, name, label) if is_test is None else Test(copy, name, is_test)
            why = test.begin()
            if why:
                sys.exit(f"{label} fails over the right bodies: {why}")
            with concurrent.futures.ThreadPoolExecutor(asked.jobs if is_test is False else 1) as pool:
                for number, why in zip(mine, pool.map(test.run, mine)):
                    if why:
                        print(f"{open_ones.pop(number)[0]}: refused by {label}: {why}", flush=True)
                        refused += 1
        for one in open_ones.values():
            print(f"{one[0]}: NOT REFUSED ({one[2]})")
        print(f"{many} bodies, {refused} refused")
    sys.exit(1 if open_ones else 0)


if __name__ == "__main__":
    main()
