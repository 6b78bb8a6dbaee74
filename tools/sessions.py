#!/usr/bin/env python3
"""Times the lines of a session beside a plain script that stays open over the same tables.

    python3 sessions.py PROGRAM [COUNT]    over a project of so many thousand workunits, 20 by default

`tools/bench --session` runs it. Each line is timed by its round trip through the pipes of a session, and through those
of `plain.py --session` over a copy of the same file; both have to answer the same. So has `plain.c` over a third copy,
where a C compiler and the headers of SQLite are there. It prints the least milliseconds of three turns, and the ratios
of the session to the others. A line that changes nothing is asked twenty times in each turn. Then come a hundred small
commands: each in an opening of its own, all in one script, and in a session that is open; all three have to print the
same. At last come the largest log over 10,000 commands of a session, and its memory after 100,000 lines.

A figure beyond its bound has a star: a pass or a cycle with nothing due may take 5 ms, and of all other lines only a
purge may be slower than the script. The exit status is 0, 2 for unknown words, and 1 for a failure, another answer or a
star.
"""
import os
import shutil
import subprocess
import sys
import tempfile
import time

TOOLS = os.path.dirname(os.path.abspath(__file__))
PLAIN = os.path.join(TOOLS, "plain.py")
NOON, LATER = "2026-03-01T12:00:00Z", "2026-03-01T15:00:00Z"
SENDS, REPORTS = "result,host,moment", "result,host,moment,status,output"
SENT, BACK = "2026-03-01T13:00:00Z", "2026-03-01T14:00:00Z,success,aa"
MAKES = f"transition --now {NOON} --limit 1000"
PASSES = {
    "validate": "validate --limit 1000",
    "assimilate": f"assimilate --now {LATER} --limit 1000",
    "transition after": f"transition --now {LATER} --limit 1000",
    "delete": "delete --limit 1000",
    "purge": f"purge --now {LATER} --limit 1000 --min-age 0",
}
CYCLE = f"cycle --now {LATER} --limit 1000 --min-age 0"
DONE = b"= 0\n"
MOST_IDLE = 5
IDLE_ROUNDS = 20


def write(name, header, rows):
    with open(name, "w") as file:
        file.write("\n".join([header, *rows]) + "\n")


def run(*words):
    """Runs the program, and returns what it prints."""
    return subprocess.run(words, stdout=subprocess.PIPE, stderr=subprocess.DEVNULL, check=True).stdout


def since(begun):
    return (time.perf_counter() - begun) * 1000


def make_project(program, count):
    """Makes made.db, with so many thousand workunits and their instances."""
    lines = []
    for batch in range(count):
        write(f"make_{batch}.csv", "name,input", [f"job_{batch}_{place},00ff" for place in range(1000)])
        lines += [f"batch --name make_{batch} --jobs make_{batch}.csv", MAKES]
    write("make.txt", "# the project", lines)
    run(program, "script", "--db", "made.db", "--file", "make.txt")


def copy_project(path):
    for end in ("", "-wal"):
        if os.path.exists("made.db" + end):
            shutil.copy("made.db" + end, path + end)


class Process:
    """A process that answers lines over a copy of the project."""

    def __init__(self, path, *words):
        copy_project(path)
        self.path, begun = path, time.perf_counter()
        pipes = {"stdin": subprocess.PIPE, "stdout": subprocess.PIPE, "stderr": subprocess.DEVNULL}
        self.process = subprocess.Popen(words, **pipes)
        self.read()
        self.opening = since(begun)

    def read(self):
        """Reads an answer, up to the line that ends it."""
        answer = []
        for line in self.process.stdout:
            answer.append(line)
            if line.startswith(b"="):
                return answer
        sys.exit(f"sessions: {self.path}: the process ended")

    def ask(self, line, end=DONE):
        """Returns how long the answer to a line took, and its lines."""
        begun = time.perf_counter()
        self.process.stdin.write(line.encode() + b"\n")
        self.process.stdin.flush()
        answer = self.read()
        took = since(begun)
        if answer[-1] != end:
            sys.exit(f"sessions: {self.path}: {line}: {answer[-1]}")
        return took, answer

    def ask_least(self, line, rounds):
        """Returns the least time of so many answers in a row to a line, and the last answer."""
        asked = [self.ask(line) for _ in range(rounds)]
        return min(took for took, _ in asked), asked[-1][1]

    def memory(self):
        """Returns the most memory that the process has had, in MB."""
        with open(f"/proc/{self.process.pid}/status") as file:
            return next(int(line.split()[1]) / 1000 for line in file if line.startswith("VmHWM:"))

    def close(self):
        self.process.stdin.close()
        if status := self.process.wait():
            sys.exit(f"sessions: {self.path}: status {status}")


def session(program, path):
    return Process(path, program, "session", "--db", path)


def turn(number):
    """Writes the files of a turn, in which a thousand workunits come and are purged. Returns its lines, each with its
    name in the table."""
    names = [f"t{number}_{place}" for place in range(1000)]
    write("jobs.csv", "name,input", [f"{name},00ff" for name in names])
    batch = f"batch --name t{number} --jobs jobs.csv"
    lines = [("batch of 1,000", batch), ("the same batch again", batch), ("transition of 1,000", MAKES)]
    sends, reports = [], []
    for place in (0, 1):
        write(f"sends_{place}.csv", SENDS, [f"{name}_{place},h{place},{SENT}" for name in names])
        write(f"reports_{place}.csv", REPORTS, [f"{name}_{place},h{place},{BACK}" for name in names])
        sends.append(("sends of 1,000", f"sent --name t{number}_{place} --file sends_{place}.csv"))
        reports.append(("reports of 1,000", f"reported --name t{number}_{place} --file reports_{place}.csv"))
    lines += [*sends, *reports, *[(f"{what} of 1,000", line) for what, line in PASSES.items()]]
    lines += [(f"{what.split()[0]} of none", line) for what, line in PASSES.items()]
    views = [(f"view {view}", f"show --view {view}") for view in ("summary", "hosts")]
    return [*lines, ("cycle of none", CYCLE), *views]


def changes_nothing(what):
    return what.startswith(("the same", "view")) or what.endswith("of none")


def compiled():
    """Returns the path of plain.c, compiled; nothing where it cannot be."""
    words = ["cc", "-O2", "-D_GNU_SOURCE", "-o", "plain", os.path.join(TOOLS, "plain.c"), "-lsqlite3"]
    if shutil.which("cc") and subprocess.run(words, stderr=subprocess.DEVNULL).returncode == 0:
        return os.path.abspath("plain")
    print("sessions: plain.c cannot be compiled here")
    return None


def time_lines(ours, others):
    """Prints the least time of each line in all processes; returns whether each of ours is within its bounds."""
    least = {}
    for number in range(3):
        for what, line in turn(number):
            rounds = IDLE_ROUNDS if changes_nothing(what) else 1
            took, answer = ours.ask_least(line, rounds)
            times = [took]
            for other in others.values():
                took, told = other.ask_least(line, rounds)
                times.append(took)
                if answer != told:
                    sys.exit(f"sessions: {line}: {answer[:3]}, {other.path} says {told[:3]}")
            least[what] = [min(pair) for pair in zip(times, least.get(what, times))]
    print(f"{'milliseconds':24} {'session':>9}" + "".join(f" {name:>9} {'ratio':>7}" for name in others))
    print(f"{'opening':24} {ours.opening:9.2f}")
    is_within = True
    for what, (took, *times) in least.items():
        bound = MOST_IDLE if what.endswith("of none") else times[0]
        is_beyond = took > bound and what != "purge of 1,000"
        is_within = is_within and not is_beyond
        beside = "".join(f" {other:9.2f} {took / other:7.2f}" for other in times)
        print(f"{what:24} {took:9.2f}{beside}{' *' if is_beyond else ''}")
    return is_within


def day(rounds):
    """Writes the files of a day, and returns its lines. In each round a job comes, its instances are made, one is sent
    and reported, and the summary is shown."""
    lines = []
    for number in range(rounds):
        write(f"job_{number}.csv", "name,input", [f"day_{number},00"])
        write(f"send_{number}.csv", SENDS, [f"day_{number}_0,h1,{SENT}"])
        write(f"report_{number}.csv", REPORTS, [f"day_{number}_0,h1,{BACK}"])
        lines += [
            f"batch --name day_{number} --jobs job_{number}.csv",
            MAKES,
            f"sent --name day_{number} --file send_{number}.csv",
            f"reported --name day_{number} --file report_{number}.csv",
            "show --view summary",
        ]
    return lines


def time_day(program):
    """Prints how long a hundred commands take: each in an opening of its own, in one script, and in a session."""
    lines = day(20)
    for path in ("cold.db", "script.db"):
        copy_project(path)
    begun = time.perf_counter()
    cold = [run(program, line.split()[0], "--db", "cold.db", *line.split()[1:]) for line in lines]
    took = [since(begun)]
    write("day.txt", "# a day", lines)
    begun = time.perf_counter()
    script = run(program, "script", "--db", "script.db", "--file", "day.txt")
    took.append(since(begun))
    warm = session(program, "warm.db")
    begun = time.perf_counter()
    answers = [warm.ask(line)[1][:-1] for line in lines]
    took.append(since(begun))
    warm.close()
    if not b"".join(cold) == script == b"".join(sum(answers, [])):
        sys.exit("sessions: a script or a session answers otherwise")
    print("a hundred commands: {:.0f} ms each in an opening, {:.0f} in one script, {:.0f} in a session".format(*took))


def wear(ours):
    """Prints the largest log of a session over 10,000 commands, and its memory up to 100,000 lines."""
    memory, log = [ours.memory()], 0
    for line in day(2000):
        ours.ask(line)
        log = max(log, os.path.getsize(ours.path + "-wal"))
    memory.append(ours.memory())
    lines = [(line, DONE) for line in (MAKES, "show --view hosts", "sent --name day_0 --file send_0.csv")]
    lines.append(("cancel --workunit nobody", b"= 1 F9 UnknownWorkunit\n"))
    for place in range(90_000):
        ours.ask(*lines[place % len(lines)])
    memory.append(ours.memory())
    print(f"10,000 commands: the log has at most {log / 1e6:.1f} MB")
    print("memory: {:.0f} MB after the turns, {:.0f} after these commands, {:.0f} after 100,000 lines".format(*memory))


def main():
    words = sys.argv[1:]
    if not 1 <= len(words) <= 2 or not all(word.isdigit() for word in words[1:]):
        print("usage: tools/bench --session PROGRAM [COUNT]", file=sys.stderr)
        return 2
    program, count = os.path.realpath(words[0]), int((words[1:] or ["20"])[0])
    with tempfile.TemporaryDirectory() as room:
        os.chdir(room)
        make_project(program, count)
        print(f"over {count},000 workunits")
        ours = session(program, "ours.db")
        others = {"script": Process("plain.db", sys.executable, PLAIN, "plain.db", "--session")}
        if native := compiled():
            others["C"] = Process("native.db", native, "native.db")
        is_within = time_lines(ours, others)
        for other in others.values():
            other.close()
        time_day(program)
        wear(ours)
        ours.close()
    return 0 if is_within else 1


if __name__ == "__main__":
    sys.exit(main())
