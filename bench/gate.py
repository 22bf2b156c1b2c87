#!/usr/bin/env python3
"""Measures what the gate costs: runs `rt ci` over this repository, with the words that it is given, and books the
processor time of each step to its crate. Prints a table of processor minutes, and which crates are above their share
(the table of bench/README.md has the shares). Ends with the status of `rt ci`.

    bench/gate.py --anew                       the whole gate from nothing
    bench/gate.py --steps FILE cal_moment      one crate and those below it; a line for each step in FILE as it ends
    bench/gate.py --watch PID                  an `rt ci` that runs already, from now on

It only reads /proc, five times a second, and the gate goes on if it fails or is ended. A step's time is user and system
time, of all processes that it began. What the last look at a step missed (a fifth of a second at most) is what the
processor time of rt's ended children has more than was seen; steps that end between the same two looks share it.
Beside the table stand the load, the wall time, what other processes took, and how long a fixed loop takes: on a busy
processor each step takes more."""
import argparse, collections, os, pathlib, re, signal, statistics, subprocess, sys, time

TOP = pathlib.Path(__file__).resolve().parent.parent
TICKS = os.sysconf("SC_CLK_TCK")
KINDS = ("proof", "tests", "seed", "edits", "builds", "runs")
NO_CRATE = "(no crate)"


def processor_time(pid):
    """The seconds of a process itself, and those of its children that ended and were waited for."""
    fields = pathlib.Path(f"/proc/{pid}/stat").read_text().rpartition(")")[2].split()
    own, of_children = int(fields[11]) + int(fields[12]), int(fields[13]) + int(fields[14])
    return own / TICKS, of_children / TICKS


def children(pid):
    found = []
    for thread in pathlib.Path(f"/proc/{pid}/task").iterdir():
        try:
            found += map(int, (thread / "children").read_text().split())
        except OSError:
            pass  # a thread that has ended
    return found


def tree_time(pid):
    """The seconds of a process and of all that it began."""
    try:
        return sum(processor_time(pid)) + sum(map(tree_time, children(pid)))
    except OSError:
        return 0.0  # it has ended


def words_of(pid):
    return pathlib.Path(f"/proc/{pid}/cmdline").read_bytes().decode(errors="replace").split("\0")[:-1]


def after(words, flag):
    return words[words.index(flag) + 1] if flag in words[:-1] else None


def step_of(words, folder, checked_seeds):
    """The crate and the kind of a step, by the words of its command and the folder that it runs in."""
    crate = after(words, "--crate-name")
    if crate is None:
        program = next((re.search(r"/rt-run-[^/]*/bin/(\w+?)(_tests)?$", it) for it in words if "/rt-run-" in it), None)
        if program:
            return program[1], "runs"
        if any(it.endswith("/rattle-link") for it in words):
            return os.path.basename(folder), "builds"
        return NO_CRATE, "builds"
    over = after(words, "--incremental")
    if "--test" in words:
        return crate, "tests"
    if "--crate-checked" in words:
        return crate, "builds"
    if over is None:
        return crate, "proof" if "--empty-contracts" in words else "edits"
    if not over.endswith("/seed"):
        return crate, "edits"
    # the crate is checked over an empty seed before its edits, and over what that left when all were tried
    kind = "last check" if over in checked_seeds else "seed"
    checked_seeds.add(over)
    return crate, kind


class Step:
    def __init__(self, pid):
        self.pid, self.crate, self.kind, self.seconds, self.began = pid, NO_CRATE, "builds", 0.0, time.time()
        self.words, self.is_named = [], False

    def look(self, checked_seeds):
        self.seconds = max(self.seconds, tree_time(self.pid))
        try:
            words = words_of(self.pid)
            if words and words != self.words:  # a child becomes the command that it was made for
                self.words = words
                if not self.is_named:
                    self.crate, self.kind = step_of(words, os.readlink(f"/proc/{self.pid}/cwd"), checked_seeds)
                    self.is_named = self.crate != NO_CRATE
        except OSError:
            pass  # it has ended


class Gate:
    """What was seen of one run of rt."""

    def __init__(self, rt, steps_file):
        self.rt, self.steps_file, self.began = rt, steps_file, time.time()
        self.alive, self.gone, self.checked_seeds = {}, [], set()
        self.minutes, self.edits = collections.Counter(), collections.Counter()
        self.own, self.children_at_start = processor_time(rt)
        self.own_at_start, self.owed, self.of_children = self.own, 0.0, self.children_at_start
        self.short = Step(0)  # commands that no look has seen
        self.loads, self.loops, self.machine_at_start, self.machine = [], [], machine_time(), machine_time()

    def look(self):
        before = self.of_children
        self.own, self.of_children = processor_time(self.rt)
        now = set(children(self.rt))
        ended = [self.alive.pop(pid) for pid in set(self.alive) - now]
        unseen = self.of_children - before + self.owed - sum(step.seconds for step in ended)
        for step in ended or self.gone or [self.short]:
            step.seconds += max(unseen, 0.0) / len(ended or self.gone or [self.short])
        # a step that ended since rt's time was read stands in it at the next look
        self.owed = min(unseen, 0.0) if ended else 0.0
        for step in self.gone:
            self.book(step)
        self.gone = ended
        for pid in now:
            self.alive.setdefault(pid, Step(pid)).look(self.checked_seeds)
        self.machine = machine_time()

    def book(self, step):
        if step.crate == NO_CRATE and step.seconds < 1:
            step.kind = "other"
        self.minutes[step.crate, "edits" if step.kind == "last check" else step.kind] += step.seconds / 60
        self.edits[step.crate] += step.kind == "edits"
        if self.steps_file:
            said = f"{step.crate}\t{step.kind}\t{step.seconds:.2f}\t{time.time() - step.began:.1f}\t{os.getloadavg()[0]:.1f}"
            print(said, file=self.steps_file, flush=True)

    def end(self):
        for step in [*self.gone, *self.alive.values(), self.short]:
            self.book(step)

    def watch(self, is_over):
        """Looks until rt has ended. What goes wrong here is told, and rt is left alone."""
        next_loop = 0.0
        while True:
            is_last = is_over()
            try:
                self.look()
            except OSError:
                break  # rt is gone
            if is_last:
                break
            if time.time() >= next_loop:
                self.loads.append(os.getloadavg()[0])
                self.loops.append(fixed_loop())
                next_loop = time.time() + 60
            time.sleep(0.2)
        self.end()


def has_ended(pid):
    """Whether a child has ended; it is not waited for, so that /proc still has its times."""
    return os.waitid(os.P_PID, pid, os.WEXITED | os.WNOHANG | os.WNOWAIT) is not None


def machine_time():
    """The seconds that all processors of the machine were at work."""
    user, nice, system = map(int, open("/proc/stat").readline().split()[1:4])
    return (user + nice + system) / TICKS


def fixed_loop():
    began, number = time.process_time(), 0
    for _ in range(1_000_000):
        number = (number * 1103515245 + 12345) & 0x7FFFFFFF
    return time.process_time() - began


def shares():
    """The shares in bench/README.md: the second column of the table whose head begins with Crate and Share."""
    found, is_inside = {}, False
    for line in (TOP / "bench" / "README.md").read_text().split("\n"):
        cells = [it.strip() for it in line.strip("|").split("|")]
        is_inside = line.startswith("|") and (is_inside or cells[:2] == ["Crate", "Share"])
        if is_inside and re.fullmatch(r"[0-9.]+", cells[1]):
            found[cells[0].strip("`")] = float(cells[1])
    return found


def table(gate, share):
    order = re.findall(r"^(\w+)", (TOP / "crates.txt").read_text(), re.M)
    seen = {crate for crate, _ in gate.minutes if crate != NO_CRATE}
    yield "| Crate | Share | Proof | Tests | Seed | Edits | Builds | Runs | All |"
    yield "|---|---|---|---|---|---|---|---|---|"
    for crate in [*(it for it in order if it in seen), *sorted(seen - set(order))]:
        cells = [gate.minutes[crate, kind] for kind in KINDS]
        shown = [f"{it:.1f}" if it else "" for it in cells]
        if gate.edits[crate]:
            shown[KINDS.index("edits")] += f" ({gate.edits[crate]})"
        yield f"| `{crate}` | {share.get(crate, '')} | {' | '.join(shown)} | {sum(cells):.1f} |"
    sums = [sum(minutes for (crate, it), minutes in gate.minutes.items() if it == kind and crate != NO_CRATE) for kind in KINDS]
    yield f"| all | {sum(share.get(it, 0) for it in seen):.1f} | {' | '.join(f'{it:.1f}' for it in sums)} | {sum(sums):.1f} |"


def told(gate, share):
    own = gate.own - gate.own_at_start
    whole = gate.of_children - gate.children_at_start + own
    others = gate.machine - gate.machine_at_start - whole
    by_crate = collections.Counter()
    for (crate, _), minutes in gate.minutes.items():
        by_crate[crate] += minutes
    rest = by_crate.pop(NO_CRATE, 0.0) + own / 60
    yield f"All that rt began took {whole / 60:.1f} processor minutes (its own work, layouts and copies among them: {rest:.1f}), and the wall clock {(time.time() - gate.began) / 60:.1f} minutes."
    busy = f"the load was {statistics.mean(gate.loads):.1f} on average and {max(gate.loads):.1f} at most" if gate.loads else ""
    loop = f"a fixed loop took {statistics.median(gate.loops):.2f} s (median)" if gate.loops else ""
    yield f"Of {os.cpu_count()} processors; {busy}; other processes took {max(others, 0) / 60:.1f} processor minutes; {loop}."
    above = [f"{crate} ({minutes:.1f} of {share[crate]})" for crate, minutes in by_crate.items() if minutes > share.get(crate, 1e9)]
    yield f"Above their share: {', '.join(above) or 'none'}."
    without = sorted(set(by_crate) - set(share))
    if without:
        yield f"Without a share: {', '.join(without)}."


def main():
    asked = argparse.ArgumentParser(description="Runs rt ci and says what each crate costs.", allow_abbrev=False)
    asked.add_argument("--steps", metavar="FILE", help="writes crate, kind, processor seconds, wall seconds and load of each step")
    asked.add_argument("--watch", metavar="PID", type=int, help="watches an rt ci that runs, and starts none")
    asked.add_argument("words", nargs="*", help="what rt ci is given: --anew, or names of crates")
    given, rest = asked.parse_known_args()
    if not os.path.exists(f"/proc/self/task/{os.getpid()}/children"):
        sys.exit("this kernel does not say which children a process has")
    steps_file = open(given.steps, "a") if given.steps else None
    signal.signal(signal.SIGINT, lambda *_: None)  # rt has it too, and the table is wanted all the same
    if given.watch:
        gate = Gate(given.watch, steps_file)
        gate.watch(lambda: not os.path.exists(f"/proc/{given.watch}"))
        status = 0
    else:
        started = subprocess.Popen(["rt", "ci", *rest, *given.words], cwd=TOP)
        try:
            gate = Gate(started.pid, steps_file)
            gate.watch(lambda: has_ended(started.pid))
        except Exception as error:
            print(f"gate.py: the gate is no longer measured, and goes on: {error!r}", file=sys.stderr, flush=True)
            gate = None
        status = started.wait()
    if gate:
        share = shares()
        none = [] if share else ["bench/README.md has no table of shares."]
        print("\n".join(["", *table(gate, share), "", *told(gate, share), *none]))
    sys.exit(status)


if __name__ == "__main__":
    main()
