#!/usr/bin/env python3
"""Times the statements of each command alone: in the store, and in SQLite's library.

    python3 statements.py

`tools/bench --statements` runs it. It proves and builds a program of nothing but these statements over the store, which
takes two to four minutes, and compiles `statements.c`, the same over SQLite's library. Both run each statement for a
thousand workunits among twenty thousand others, in one transaction a command, and commit. The store gets what the
program asks, and the library what `plain.c` asks. It prints for each command the least milliseconds of five turns, and
their ratio: what no code around these statements can go below. Then it prints the microseconds of each statement in
the last command that has it. It ends with 0, and with 1 where anything fails.
"""
import os
import re
import shutil
import sqlite3
import subprocess
import sys
import tempfile

TOOLS = os.path.dirname(os.path.abspath(__file__))
sys.path.insert(0, TOOLS)
from plain import RESULT, SCHEMA, WORKUNIT  # noqa: E402

TURNS, OTHERS = 5, 20_000
SENT, DEADLINE, RECEIVED, CLOSED = 1772366400, 1772452800, 1772370000, 1772377200

PROGRAM = '''//! Times statements over the store.
#![tactic(auto)]

use anyhow::Result;
use sqlite::{Alter, Connection, params};
use std::env;
use std::io::Print;
use std::time::{Clock, Instant};

fn prints(rt: &(impl AllocGlobal + Clock + Print), start: Instant) -> Result<()> {
    let micros = start.elapsed(rt)?.as_micros();
    println!(rt; "{micros}")?;
    Ok(())
}

fn time_named<S: Alter>(rt: &(impl AllocGlobal + Clock + Print), conn: &mut Connection<S>, text: &str) -> Result<()> {
    let start = Instant::now(rt)?;
    for k in 0..1000 {
        let number: i64 = 200001 + k;
        let name = format!(in rt.alloc(); "job_{number}")?;
        conn.query_all(text, params![name.as_str()])?;
    }
    prints(rt, start)
}

fn time_asked<S: Alter>(rt: &(impl AllocGlobal + Clock + Print), conn: &mut Connection<S>, text: &str) -> Result<()> {
    let start = Instant::now(rt)?;
    for k in 0..1000 {
        let number: i64 = 200001 + k;
        conn.query_all(text, params![number])?;
    }
    prints(rt, start)
}

fn time_done<S: Alter>(rt: &(impl AllocGlobal + Clock + Print), conn: &mut Connection<S>, text: &str) -> Result<()> {
    let start = Instant::now(rt)?;
    for k in 0..1000 {
        let number: i64 = 200001 + k;
        conn.execute(text, params![number])?;
    }
    prints(rt, start)
}

fn take<S: Alter>(rt: &(impl AllocGlobal + Clock + Print), conn: &mut Connection<S>, line: &str) -> Result<()> {
    if let Some(text) = line.strip_prefix("NAMED ") {
        return time_named(rt, conn, text);
    }
    let Some(text) = line.strip_prefix("EACH ") else {
        conn.execute(line, &[])?;
        return Ok(());
    };
    if text.starts_with("SELECT") {
        time_asked(rt, conn, text)
    } else {
        time_done(rt, conn, text)
    }
}

fn main(rt: HostRuntime) -> Result<()> {
    let words: Vec<String> = env::args(&rt)?.collect(rt.alloc())?;
    // a gate runs it without a word
    if words.len() < 3 {
        return Ok(());
    }
    let mut conn = Connection::open(&rt, words[1].as_str())?;
    let list = std::fs::read_to_string(&rt, words[2].as_str())?;
    for line in list.as_str().lines() {
        if !line.is_empty() {
            take(&rt, &mut conn, line)?;
        }
    }
    Ok(())
}
'''

# what a workunit and its two results hold, from their batch on
WORK = dict(zip(WORKUNIT[2:], [2, 2, 3, 10, 6, 86400, 100, "x'00ff'", 0, "NULL", 0, 0, "NULL"]))
BACK = dict(zip(RESULT[2:], [5, 1, 0, 0, "'h1'", SENT, DEADLINE, RECEIVED, "x'aa'"]))
SETTLED = {"canonical": 0, "assimilate": 1}
KEPT = {"canonical": 0, "assimilate": 2, "done_at": CLOSED}


def listed(values):
    return ", ".join(f"{name} = {value}" for name, value in values.items())


def set_work(values, columns=WORK):
    """Sets the row of a workunit: all of it, or the columns that the rules change."""
    changed = {**WORK, **values}
    return f"EACH UPDATE workunit SET {listed({name: changed[name] for name in columns})} WHERE number = ?1"


def set_results(**values):
    return [f"EACH UPDATE result SET {listed({**BACK, **values, 'host': each})} WHERE workunit = ?1 AND n = {n}" for n, each in enumerate(("'h1'", "'h2'"))]


MARKS = "wake to_validate to_assimilate to_delete purge_from".split()
SELECTED = f"SELECT {', '.join(WORKUNIT)} FROM workunit WHERE number = ?1"
LOAD = [f"EACH {SELECTED}", "EACH SELECT class FROM workunit_class WHERE workunit = ?1", f"EACH SELECT {', '.join(RESULT[2:])} FROM result WHERE workunit = ?1 ORDER BY n"]
LOAD_IN_TWO = ["EACH SELECT w.*, class FROM workunit w JOIN workunit_class ON workunit = number WHERE number = ?1", "EACH SELECT * FROM result WHERE workunit = ?1 ORDER BY n"]
CHANGED = "target_nresults input error_mask canonical assimilate file_delete done_at".split()
ADD = [
    f"EACH INSERT INTO workunit ({', '.join(WORKUNIT)}) VALUES (?1, 'job_' || ?1, {', '.join(map(str, WORK.values()))})",
    "EACH INSERT INTO workunit_class (workunit, class) VALUES (?1, 0)",
    f"EACH INSERT INTO queue (workunit, {', '.join(MARKS)}) VALUES (?1, 0, 0, 0, 0, NULL)",
]
MAKE = [f"EACH INSERT INTO result ({', '.join(RESULT)}) VALUES (?1, {n}, 2, 0, 0, 0, NULL, NULL, NULL, NULL, x'')" for n in (0, 1)]
GRANT = [f"EACH INSERT INTO credit_grant (workunit, n, host, credit) VALUES (?1, {n}, 'h{n + 1}', 100)" for n in (0, 1)]
CREDIT = [f"EACH INSERT INTO host VALUES ('h{n}', 100 + 0 * ?1, 1) ON CONFLICT (name) DO UPDATE SET total = total + excluded.total, grants = grants + 1" for n in (1, 2)]
ARCHIVE = f"EACH INSERT INTO archived (number, name, error_mask, canonical, output, done_at) VALUES (?1, 'job_' || ?1, 0, 0, x'aa', {CLOSED})"
NAMES = [f"SELECT number FROM {table} WHERE name = ?1" for table in ("workunit", "archived")]
# what comes in between: sends and reports of all of them
COMES_BACK = [
    *[f"UPDATE result SET {listed({**BACK, 'host': each})} WHERE workunit > 200000 AND n = {n}" for n, each in enumerate(("'h1'", "'h2'"))],
    "UPDATE queue SET to_validate = 1 WHERE workunit > 200000",
]


def commands(load, work, marks, names, credit):
    """Returns the statements of each command, by its name."""
    return {
        "batch": [*names, *ADD],
        "transition": [*load, *MAKE, marks("NULL", 0, 0, 0, "NULL")],
        "validate": [*load, work(SETTLED), *set_results(validate_state=1), marks("NULL", 0, 1, 0, "NULL"), *GRANT, *credit],
        "assimilate": [*load, work(KEPT), ARCHIVE, marks(0, 0, 0, 0, "NULL")],
        "transition after": [*load, work({**KEPT, "file_delete": 1}), *set_results(validate_state=1, file_delete=1), marks("NULL", 0, 0, 1, "NULL")],
        "delete": [*load, work({**KEPT, "file_delete": 2, "input": "x''"}), *set_results(validate_state=1, file_delete=2, output="x''"), marks("NULL", 0, 0, 0, CLOSED)],
    }


def set_marks(*values):
    return f"EACH UPDATE queue SET {listed(dict(zip(MARKS, values)))} WHERE workunit = ?1"


def put_marks(*values):
    return f"EACH INSERT INTO queue VALUES (?1, {', '.join(map(str, values))}) ON CONFLICT (workunit) DO UPDATE SET {', '.join(f'{name} = excluded.{name}' for name in MARKS)}"


OURS = commands(LOAD, set_work, set_marks, [f"NAMED {each}" for each in NAMES], [])
PLAIN = commands(LOAD_IN_TWO, lambda values: set_work(values, CHANGED), put_marks, [f"NAMED {' UNION ALL '.join(NAMES)}"], CREDIT)


def make_database(path):
    db = sqlite3.connect(path, isolation_level=None)
    db.execute("PRAGMA journal_mode = WAL")
    db.executescript(SCHEMA)
    db.execute("BEGIN")
    for number in range(1, OTHERS + 1):
        db.execute(f"INSERT INTO workunit VALUES (?1, 'job_' || ?1, {', '.join(map(str, WORK.values()))})", (number,))
        db.execute("INSERT INTO workunit_class VALUES (?1, 0)", (number,))
        db.execute("INSERT INTO queue VALUES (?1, NULL, 0, 0, 0, NULL)", (number,))
        for n in (0, 1):
            db.execute(f"INSERT INTO result VALUES (?1, {n}, {', '.join(map(str, BACK.values()))})", (number,))
    db.execute("COMMIT")
    db.execute("PRAGMA wal_checkpoint(TRUNCATE)")
    db.close()


def built():
    """Builds both programs, and returns their paths."""
    os.makedirs("store/crates/statements/src")
    for name, text in (("HANDLES", "Handles allowed: none.\n"), ("crates.txt", "statements: sqlite anyhow\n"), ("crates/statements/src/main.rt", PROGRAM)):
        with open(f"store/{name}", "w") as file:
            file.write(text)
    subprocess.run(["git", "init", "-q", "store"], check=True)
    subprocess.run(["rt", "run"], cwd="store/crates/statements", stdout=subprocess.DEVNULL, stderr=subprocess.DEVNULL, check=True)
    subprocess.run(["cc", "-O2", "-o", "plain", f"{TOOLS}/statements.c", "-lsqlite3"], check=True)
    return os.path.abspath("store/crates/statements/out/statements"), os.path.abspath("plain")


def timed(program, lists):
    """Runs the lists in order over a copy of the database, and returns the microseconds of each statement, by command."""
    for each in ("copy.db", "copy.db-wal", "copy.db-shm"):
        if os.path.exists(each):
            os.remove(each)
    shutil.copyfile("made.db", "copy.db")
    found = {}
    for name, texts in lists.items():
        before = COMES_BACK if name == "validate" else []
        with open("list", "w") as file:
            file.write("\n".join(["BEGIN", *before, *texts, "COMMIT", ""]))
        told = subprocess.run([program, "copy.db", "list"], stdout=subprocess.PIPE, text=True, check=True).stdout
        found[name] = [int(each) for each in told.split()]
    return found


def least(program, lists):
    """Returns the least microseconds of each statement in all turns, by command."""
    turns = [timed(program, lists) for _ in range(TURNS)]
    return {name: [min(times) for times in zip(*(turn[name] for turn in turns))] for name in lists}


def label(line):
    """Returns what a statement does, and to which table. An upsert is an UPDATE here."""
    how, text = line.split(" ", 1)
    verb = "UPDATE" if "ON CONFLICT" in text else text.split()[0]
    table = re.search(r"(?:FROM|INTO|UPDATE) (\w+)", text)[1]
    return f"{verb} {table}{' by name' if how == 'NAMED' else ''}"


def each(found, lists):
    """Returns the microseconds of each kind of statement."""
    return {label(line): time / 1000 for name, lines in lists.items() for line, time in zip(lines, found[name])}


def main():
    here = tempfile.mkdtemp()
    try:
        os.chdir(here)
        store, plain = built()
        make_database("made.db")
        ours, others = least(store, OURS), least(plain, PLAIN)
        print(f"{'milliseconds':26} {'store':>8} {'SQLite':>8} {'ratio':>6}")
        for name in ours:
            one, other = sum(ours[name]) / 1000, sum(others[name]) / 1000
            print(f"{name:26} {one:8.1f} {other:8.1f} {one / other:6.2f}")
        print(f"\n{'microseconds':26} {'store':>8} {'SQLite':>8}")
        one, other = each(ours, OURS), each(others, PLAIN)
        for what, time in one.items():
            print(f"{what:26} {time:8.1f} {other[what]:8.1f}" if what in other else f"{what:26} {time:8.1f}")
    finally:
        os.chdir("/")
        shutil.rmtree(here)


if __name__ == "__main__":
    main()
