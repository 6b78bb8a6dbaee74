"""A plain script that does a project's work over Python's sqlite3 module, one commit a command, and times it.

    python3 plain.py FILE           makes a project in FILE; prints a line 'name<TAB>milliseconds' for each command
    python3 plain.py FILE --views   the same for each view of a FILE that exists, and writes their texts to FILE.NAME
    python3 plain.py FILE --session answers each line of standard input over a FILE that exists, as a session of the
                                    program does; it refuses nothing

It keeps the same tables with the same queue, reads the same files and follows the same rules, without the proofs. A
pass reads the rows of its first workunits by the queue with two queries and judges them in Python. It writes them, and
the queue's rows, with executemany. `tools/bench` and `tools/sessions.py` run it. It exits with 0.
"""

import csv
import io
import sqlite3
import sys
import time
from datetime import datetime, timezone

UNSENT, IN_PROGRESS, OVER = 2, 4, 5
INIT, SUCCESS, CLIENT_ERROR, NO_REPLY, DIDNT_NEED = 0, 1, 3, 4, 5
VALID, INVALID, NO_CHECK, INCONCLUSIVE, TOO_LATE = 1, 2, 3, 4, 5
READY, DONE = 1, 2
NOON = 1_772_366_400
AFTERNOON = NOON + 10_800

SCHEMA = """
CREATE TABLE project (one INTEGER PRIMARY KEY CHECK (one = 1), version INTEGER NOT NULL, next_number INTEGER NOT NULL) STRICT;
CREATE TABLE workunit (number INTEGER PRIMARY KEY, name TEXT NOT NULL UNIQUE, min_quorum INTEGER NOT NULL, target_nresults INTEGER NOT NULL, max_error_results INTEGER NOT NULL, max_total_results INTEGER NOT NULL, max_success_results INTEGER NOT NULL, delay_bound INTEGER NOT NULL, credit INTEGER NOT NULL, input BLOB NOT NULL, error_mask INTEGER NOT NULL, canonical INTEGER, assimilate INTEGER NOT NULL, file_delete INTEGER NOT NULL, done_at INTEGER) STRICT;
CREATE TABLE result (workunit INTEGER NOT NULL REFERENCES workunit (number) ON DELETE CASCADE, n INTEGER NOT NULL, server_state INTEGER NOT NULL, outcome INTEGER NOT NULL, validate_state INTEGER NOT NULL, file_delete INTEGER NOT NULL, host TEXT, sent_at INTEGER, deadline INTEGER, received_at INTEGER, output BLOB NOT NULL, PRIMARY KEY (workunit, n)) STRICT;
CREATE TABLE credit_grant (seq INTEGER PRIMARY KEY, workunit INTEGER NOT NULL, n INTEGER NOT NULL, host TEXT NOT NULL, credit INTEGER NOT NULL, UNIQUE (workunit, n)) STRICT;
CREATE TABLE host (name TEXT PRIMARY KEY NOT NULL, total INTEGER NOT NULL, grants INTEGER NOT NULL) STRICT;
CREATE TABLE archived (seq INTEGER PRIMARY KEY, number INTEGER NOT NULL UNIQUE, name TEXT NOT NULL UNIQUE, error_mask INTEGER NOT NULL, canonical INTEGER, output BLOB NOT NULL, done_at INTEGER NOT NULL) STRICT;
CREATE TABLE import (kind INTEGER NOT NULL, name TEXT NOT NULL, template BLOB NOT NULL, content BLOB NOT NULL, first_number INTEGER NOT NULL, verdicts TEXT NOT NULL, PRIMARY KEY (kind, name)) STRICT;
CREATE TABLE queue (workunit INTEGER PRIMARY KEY REFERENCES workunit (number) ON DELETE CASCADE, wake INTEGER, to_validate INTEGER NOT NULL, to_assimilate INTEGER NOT NULL, to_delete INTEGER NOT NULL, purge_from INTEGER) STRICT;
CREATE INDEX queue_wake ON queue (wake);
CREATE INDEX queue_validate ON queue (to_validate, workunit);
CREATE INDEX queue_assimilate ON queue (to_assimilate, workunit);
CREATE INDEX queue_delete ON queue (to_delete, workunit);
CREATE INDEX queue_purge ON queue (purge_from);
CREATE TABLE host_class (host TEXT PRIMARY KEY NOT NULL, class INTEGER NOT NULL) STRICT;
CREATE TABLE workunit_class (workunit INTEGER PRIMARY KEY REFERENCES workunit (number) ON DELETE CASCADE, class INTEGER NOT NULL) STRICT;
INSERT INTO project VALUES (1, 3, 1);
"""

WORKUNIT = "number name min_quorum target_nresults max_error_results max_total_results max_success_results delay_bound credit input error_mask canonical assimilate file_delete done_at".split()
# and its class, which has a row in a table of its own
CLASSED = [*WORKUNIT, "class"]
RESULT = "workunit n server_state outcome validate_state file_delete host sent_at deadline received_at output".split()


def seconds(text):
    return int(datetime.strptime(text, "%Y-%m-%dT%H:%M:%SZ").replace(tzinfo=timezone.utc).timestamp())


def open_file(path):
    db = sqlite3.connect(path, isolation_level=None)
    db.execute("PRAGMA journal_mode = WAL")
    db.execute("PRAGMA synchronous = FULL")
    db.execute("PRAGMA foreign_keys = ON")
    return db


def rows(content):
    return list(csv.reader(io.StringIO(content.decode())))[1:]


def keep(db, kind, name, content, first, verdicts):
    db.execute("INSERT INTO import VALUES (?, ?, ?, ?, ?, ?)", (kind, name, b"", content, first, verdicts))


def kept(db, kind, name, content):
    """Returns the first number and the verdicts of an import that came before, or nothing."""
    found = db.execute("SELECT first_number, verdicts, content FROM import WHERE kind = ? AND name = ?", (kind, name)).fetchone()
    assert found is None or found[2] == content
    return found and found[:2]


def batch(db, name, content):
    if before := kept(db, 1, name, content):
        return before
    db.execute("BEGIN")
    (number,) = db.execute("SELECT next_number FROM project").fetchone()
    first, added = number, []
    for job, data in rows(content):
        taken = db.execute("SELECT 1 FROM workunit WHERE name = ?1 UNION ALL SELECT 1 FROM archived WHERE name = ?1", (job,)).fetchone()
        assert taken is None
        added.append((number, job, 2, 2, 3, 10, 6, 604800, 1, bytes.fromhex(data), 0, None, 0, 0, None))
        number += 1
    db.executemany("INSERT INTO workunit VALUES (" + ", ".join("?" * 15) + ")", added)
    db.executemany("INSERT INTO workunit_class VALUES (?, 0)", [row[:1] for row in added])
    mark(db, [(dict(zip(CLASSED, (*row, 0))), []) for row in added])
    db.execute("UPDATE project SET next_number = ?", (number,))
    keep(db, 1, name, content, first, "0" * len(added))
    db.execute("COMMIT")
    return first, "0" * len(added)


def instance(db, text):
    name, n = text.rsplit("_", 1)
    return db.execute(
        "SELECT r.workunit, r.n, r.server_state, r.outcome, r.host, r.sent_at, w.delay_bound, c.class FROM workunit w JOIN result r ON r.workunit = w.number JOIN workunit_class c ON c.workunit = w.number WHERE w.name = ? AND r.n = ?",
        (name, int(n)),
    ).fetchone()


# of an instance in progress, or a viable success
ACTIVE = "(server_state = 4 OR server_state = 5 AND outcome = 1 AND validate_state IN (0, 4))"


def sent(db, name, content):
    if before := kept(db, 2, name, content):
        return before
    db.execute("BEGIN")
    verdicts, changed = [], set()
    for text, host, moment in rows(content):
        found = instance(db, text)
        if found is None:
            verdicts.append("1")
        elif found[2] != UNSENT:
            verdicts.append("2")
        elif db.execute("SELECT 1 FROM result WHERE workunit = ? AND host = ?", (found[0], host)).fetchone():
            verdicts.append("3")
        elif found[7] != class_of(db, host) and db.execute(f"SELECT 1 FROM result WHERE workunit = ? AND {ACTIVE}", found[:1]).fetchone():
            verdicts.append("4")
        else:
            at = seconds(moment)
            db.execute("UPDATE result SET server_state = 4, host = ?, sent_at = ?, deadline = ? WHERE workunit = ? AND n = ?", (host, at, at + found[6], found[0], found[1]))
            db.execute("UPDATE workunit_class SET class = ? WHERE workunit = ?", (class_of(db, host), found[0]))
            changed.add(found[0])
            verdicts.append("0")
    mark_all(db, changed)
    keep(db, 2, name, content, 0, "".join(verdicts))
    db.execute("COMMIT")
    return 0, "".join(verdicts)


def class_of(db, host):
    """Returns the class of a host; 0 if no file named it."""
    (found,) = db.execute("SELECT coalesce(max(class), 0) FROM host_class WHERE host = ?", (host,)).fetchone()
    return found


def reported(db, name, content):
    if before := kept(db, 3, name, content):
        return before
    db.execute("BEGIN")
    outcomes = {"success": SUCCESS, "client_error": CLIENT_ERROR, "detached": 7}
    verdicts, changed = [], set()
    for text, host, moment, status, output in rows(content):
        found = instance(db, text)
        at = seconds(moment)
        if found is None:
            verdicts.append("1")
        elif found[4] is None:
            verdicts.append("2")
        elif found[4] != host:
            verdicts.append("3")
        elif at < found[5]:
            verdicts.append("4")
        elif found[2] == OVER and found[3] != NO_REPLY:
            verdicts.append("5")
        else:
            db.execute(
                "UPDATE result SET server_state = 5, outcome = ?, validate_state = 0, file_delete = 0, received_at = ?, output = ? WHERE workunit = ? AND n = ?",
                (outcomes[status], at, bytes.fromhex(output), found[0], found[1]),
            )
            changed.add(found[0])
            verdicts.append("0")
    mark_all(db, changed)
    keep(db, 3, name, content, 0, "".join(verdicts))
    db.execute("COMMIT")
    return 0, "".join(verdicts)


def load(db, selects, values):
    """Returns the workunits that the queue selects so, in order."""
    first = f"SELECT workunit FROM queue WHERE {selects} ORDER BY workunit LIMIT ?"
    instances = {}
    for row in db.execute(f"SELECT * FROM result WHERE workunit IN ({first}) ORDER BY workunit, n", values):
        instances.setdefault(row[0], []).append(dict(zip(RESULT, row)))
    found = db.execute(f"SELECT w.*, class FROM workunit w JOIN workunit_class ON workunit = number WHERE number IN ({first}) ORDER BY number", values).fetchall()
    return [(dict(zip(CLASSED, row)), instances.get(row[0], [])) for row in found]


def mark(db, workunits):
    db.executemany("INSERT OR REPLACE INTO queue VALUES (?, ?, ?, ?, ?, ?)", [marks(w, its) for w, its in workunits])


def mark_all(db, numbers):
    """Reads the workunits again, and returns their rows of the queue."""
    found = []
    for number in sorted(numbers):
        (row,) = db.execute("SELECT w.*, class FROM workunit w JOIN workunit_class ON workunit = number WHERE number = ?", (number,))
        its = db.execute("SELECT * FROM result WHERE workunit = ? ORDER BY n", (number,))
        found.append((dict(zip(CLASSED, row)), [dict(zip(RESULT, it)) for it in its]))
    mark(db, found)


def viable(instances):
    return [i for i in instances if i["server_state"] == OVER and i["outcome"] == SUCCESS and i["validate_state"] in (INIT, INCONCLUSIVE)]


def is_bound_in_vain(w, instances):
    """Returns whether a workunit has a class, but no instance in progress and no viable success."""
    return w["class"] > 0 and not viable(instances) and not any(i["server_state"] == IN_PROGRESS for i in instances)


def close_unsent(instances):
    for i in instances:
        if i["server_state"] == UNSENT:
            i["server_state"], i["outcome"] = OVER, DIDNT_NEED


def wants_validation(w, instances):
    if w["error_mask"]:
        return False
    new = [i for i in instances if i["server_state"] == OVER and i["outcome"] == SUCCESS and i["validate_state"] == INIT]
    if w["canonical"] is not None:
        return bool(new)
    return bool(new) and len(viable(instances)) >= w["min_quorum"]


def is_due(w, instances):
    """Returns whether the transitioner has something to do, whatever the moment."""
    if is_bound_in_vain(w, instances):
        return True
    if w["error_mask"]:
        return w["assimilate"] == 0 or any(i["server_state"] == UNSENT for i in instances) or bool(viable(instances)) or is_to_ready(w, instances)
    if w["canonical"] is None:
        if sum(i["outcome"] == CLIENT_ERROR for i in instances) > w["max_error_results"]:
            return True
        out = sum(i["server_state"] in (UNSENT, IN_PROGRESS) for i in instances)
        kept = sum(i["server_state"] == OVER and i["outcome"] == SUCCESS and i["validate_state"] != INVALID for i in instances)
        if w["target_nresults"] > out + kept:
            if len(instances) < w["max_total_results"] or not out and not wants_validation(w, instances):
                return True
    return is_to_ready(w, instances)


def is_to_ready(w, instances):
    if w["assimilate"] != DONE:
        return False
    over, late = all(i["server_state"] == OVER for i in instances), viable(instances)
    if w["file_delete"] == 0 and over:
        return True
    return any(i["file_delete"] == 0 and ((over and not late) if i["n"] == w["canonical"] else (i["server_state"] == OVER and i not in late)) for i in instances)


def marks(w, instances):
    wake = 0 if is_due(w, instances) else min((i["deadline"] + 1 for i in instances if i["server_state"] == IN_PROGRESS), default=None)
    to_delete = w["file_delete"] == READY or any(i["file_delete"] == READY for i in instances)
    through = w["assimilate"] == DONE and w["file_delete"] == DONE and all(i["server_state"] == OVER and i["file_delete"] == DONE for i in instances)
    return w["number"], wake, int(wants_validation(w, instances)), int(w["assimilate"] == READY), int(to_delete), w["done_at"] if through else None


def transition(w, instances, now):
    changed = False
    for i in instances:
        if i["server_state"] == IN_PROGRESS and i["deadline"] < now:
            i["server_state"], i["outcome"], changed = OVER, NO_REPLY, True
    undecided = w["canonical"] is None and w["error_mask"] == 0
    if undecided and sum(i["outcome"] == CLIENT_ERROR for i in instances) > w["max_error_results"]:
        w["error_mask"], undecided, changed = 2, False, True
    if undecided:
        out = sum(i["server_state"] in (UNSENT, IN_PROGRESS) for i in instances)
        kept = sum(i["server_state"] == OVER and i["outcome"] == SUCCESS and i["validate_state"] != INVALID for i in instances)
        needed = max(0, w["target_nresults"] - out - kept)
        allowed = max(0, w["max_total_results"] - len(instances))
        for _ in range(min(needed, allowed)):
            instances.append(dict(zip(RESULT, (w["number"], len(instances), UNSENT, 0, 0, 0, None, None, None, None, b""))))
            changed = True
        if needed and not allowed and not out and not wants_validation(w, instances):
            w["error_mask"], changed = 8, True
    if w["error_mask"]:
        for i in viable(instances):
            i["validate_state"], changed = NO_CHECK, True
        if any(i["server_state"] == UNSENT for i in instances):
            close_unsent(instances)
            changed = True
        if w["assimilate"] == 0:
            w["assimilate"], changed = READY, True
    if w["assimilate"] == DONE:
        over = all(i["server_state"] == OVER for i in instances)
        if w["file_delete"] == 0 and over:
            w["file_delete"], changed = READY, True
        late = viable(instances)
        for i in instances:
            may = (over and not late) if i["n"] == w["canonical"] else (i["server_state"] == OVER and i not in late)
            if i["file_delete"] == 0 and may:
                i["file_delete"], changed = READY, True
    if is_bound_in_vain(w, instances):
        w["class"], changed = 0, True
    return changed


def validate(w, instances, grants):
    if not wants_validation(w, instances):
        return False
    made = []
    if w["canonical"] is None:
        some = viable(instances)
        chosen = next((r for r in some if sum(o["output"] == r["output"] for o in some) >= w["min_quorum"] // 2 + 1), None)
        if chosen is None:
            for i in some:
                i["validate_state"] = INCONCLUSIVE
            if len(some) > w["max_success_results"]:
                w["error_mask"] = 4
                close_unsent(instances)
            elif len(some) >= w["target_nresults"]:
                w["target_nresults"] = len(some) + 1
            return True
        w["canonical"] = chosen["n"]
        for i in some:
            agrees = i["output"] == chosen["output"]
            i["validate_state"] = VALID if agrees else INVALID
            if agrees:
                made.append(i)
        close_unsent(instances)
        if w["assimilate"] == 0:
            w["assimilate"] = READY
    else:
        canonical = instances[w["canonical"]]
        for i in viable(instances):
            if i["validate_state"] == INIT:
                if canonical["file_delete"] == DONE:
                    i["validate_state"] = TOO_LATE
                elif i["output"] == canonical["output"]:
                    i["validate_state"] = VALID
                    made.append(i)
                else:
                    i["validate_state"] = INVALID
    grants.extend((w["number"], i["n"], i["host"], w["credit"]) for i in made)
    return True


def assimilate(w, instances, now, archived):
    if w["assimilate"] != READY:
        return False
    w["assimilate"], w["done_at"] = DONE, now
    output = b"" if w["canonical"] is None else instances[w["canonical"]]["output"]
    archived.append((w["number"], w["name"], w["error_mask"], w["canonical"], output, now))
    return True


def delete(w, instances):
    changed = False
    if w["file_delete"] == READY:
        w["file_delete"], w["input"], changed = DONE, b"", True
    for i in instances:
        if i["file_delete"] == READY:
            i["file_delete"], i["output"], changed = DONE, b"", True
    return changed


def run_pass(db, change, limit, selects, *values):
    db.execute("BEGIN")
    workunits, instances = [], []
    found = load(db, selects, (*values, limit))
    for w, its in found:
        assert change(w, its)
        workunits.append(w)
        instances.extend(its)
    db.executemany("UPDATE workunit SET " + ", ".join(f"{c} = :{c}" for c in WORKUNIT[1:]) + " WHERE number = :number", workunits)
    db.executemany("UPDATE workunit_class SET class = :class WHERE workunit = :number", workunits)
    db.executemany("INSERT OR REPLACE INTO result VALUES (" + ", ".join(":" + c for c in RESULT) + ")", instances)
    mark(db, found)
    return len(workunits)


def validation(db, limit):
    grants = []
    handled = run_pass(db, lambda w, i: validate(w, i, grants), limit, "to_validate = 1")
    (seq,) = db.execute("SELECT coalesce(max(seq), 0) FROM credit_grant").fetchone()
    db.executemany("INSERT INTO credit_grant VALUES (?, ?, ?, ?, ?)", [(seq + k + 1, *g) for k, g in enumerate(grants)])
    db.executemany("INSERT INTO host VALUES (?, ?, 1) ON CONFLICT (name) DO UPDATE SET total = total + excluded.total, grants = grants + 1", [(g[2], g[3]) for g in grants])
    db.execute("COMMIT")
    return handled


def assimilation(db, now, limit):
    archived = []
    handled = run_pass(db, lambda w, i: assimilate(w, i, now, archived), limit, "to_assimilate = 1")
    (seq,) = db.execute("SELECT coalesce(max(seq), 0) FROM archived").fetchone()
    db.executemany("INSERT INTO archived VALUES (?, ?, ?, ?, ?, ?, ?)", [(seq + k + 1, *a) for k, a in enumerate(archived)])
    db.execute("COMMIT")
    return handled


def transitions(db, now, limit):
    handled = run_pass(db, lambda w, i: transition(w, i, now), limit, "wake <= ?", now)
    db.execute("COMMIT")
    return handled


def deletion(db, limit):
    handled = run_pass(db, delete, limit, "to_delete = 1")
    db.execute("COMMIT")
    return handled


def purge(db, now, limit, min_age):
    db.execute("BEGIN")
    gone = db.execute("SELECT workunit FROM queue WHERE purge_from <= ? ORDER BY workunit LIMIT ?", (now - min_age, limit)).fetchall()
    db.executemany("DELETE FROM workunit WHERE number = ?", gone)
    db.execute("COMMIT")
    return len(gone)


STATES = {UNSENT: "UNSENT", IN_PROGRESS: "IN_PROGRESS", OVER: "OVER"}
OUTCOMES = ["INIT", "SUCCESS", "", "CLIENT_ERROR", "NO_REPLY", "DIDNT_NEED"]
VERDICTS = ["INIT", "VALID", "INVALID", "NO_CHECK", "INCONCLUSIVE", "TOO_LATE"]
STEPS = ["INIT", "READY", "DONE", "ERROR"]


def moment(seconds):
    return "-" if seconds is None else datetime.fromtimestamp(seconds, timezone.utc).strftime("%Y-%m-%dT%H:%M:%SZ")


def or_dash(value):
    return "-" if value is None else value


def workunits(db):
    for w in db.execute("SELECT w.*, class FROM workunit w JOIN workunit_class ON workunit = number ORDER BY number"):
        w = dict(zip(CLASSED, w))
        yield f"{w['number']} {w['name']} input={len(w['input'])} quorum={w['min_quorum']} target={w['target_nresults']} max_error={w['max_error_results']} max_total={w['max_total_results']} max_success={w['max_success_results']} delay={w['delay_bound']} credit={w['credit']} mask={w['error_mask']} canonical={or_dash(w['canonical'])} assimilate={STEPS[w['assimilate']]} delete={STEPS[w['file_delete']]} done={moment(w['done_at'])} class={w['class']}"


def results(db):
    lines = "SELECT w.name, n, server_state, outcome, validate_state, r.file_delete, host, sent_at, deadline, received_at, length(output) FROM result r JOIN workunit w ON w.number = workunit ORDER BY workunit, n"
    for name, n, state, outcome, verdict, deletion, host, sent_at, deadline, received, size in db.execute(lines):
        yield f"{name}_{n} {STATES[state]} {OUTCOMES[outcome]} {VERDICTS[verdict]} {STEPS[deletion]} host={or_dash(host)} sent={moment(sent_at)} deadline={moment(deadline)} received={moment(received)} output={size}"


def hosts(db):
    for name, total, grants in db.execute("SELECT name, total, grants FROM host ORDER BY name"):
        yield f"{name} total={total} grants={grants}"


def archive(db):
    for number, name, mask, canonical, output, done in db.execute("SELECT number, name, error_mask, canonical, output, done_at FROM archived ORDER BY seq"):
        yield f"{number} {name} mask={mask} canonical={or_dash(canonical)} done={moment(done)} output={output.hex() or '-'}"


def summary(db):
    def count(table):
        return db.execute(f"SELECT count(*) FROM {table}").fetchone()[0]

    version, following = db.execute("SELECT version, next_number FROM project").fetchone()
    states = dict(db.execute("SELECT server_state, count(*) FROM result GROUP BY server_state"))
    credit = db.execute("SELECT coalesce(sum(credit), 0) FROM credit_grant").fetchone()[0]
    yield f"version {version}"
    yield f"next {following}"
    yield f"workunits {count('workunit')}"
    yield f"results {sum(states.values())}"
    for state, word in ((UNSENT, "unsent"), (IN_PROGRESS, "in_progress"), (OVER, "over")):
        yield f"{word} {states.get(state, 0)}"
    yield f"archived {count('archived')}"
    yield f"grants {count('credit_grant')}"
    yield f"credit {credit}"
    yield f"imports {count('import')}"
    yield f"classes {count('host_class')}"


def classes(db):
    for host, number in db.execute("SELECT host, class FROM host_class ORDER BY host"):
        yield f"{host} class={number}"


VIEWS = [workunits, results, hosts, archive, summary, classes]


def view(db, lines):
    out = io.BytesIO()
    for line in lines(db):
        out.write(f"{line}\n".encode())
    return out


def views(db):
    for lines in VIEWS:
        timed(f"view {lines.__name__}", lambda: view(db, lines))


def timed(name, work):
    start = time.perf_counter()
    work()
    print(f"{name}\t{(time.perf_counter() - start) * 1000:.1f}")


def a_thousand(header, first, rest):
    return (header + "\n" + "".join(f"job_{first + k}{rest}\n" for k in range(1000))).encode()


SENDS = "result,host,moment"
REPORTS = "result,host,moment,status,output"


def day(db, place, first):
    timed(f"{place}: batch", lambda: batch(db, f"b_{first}", a_thousand("name,input", first, ",00ff")))
    timed(f"{place}: transition", lambda: transitions(db, NOON, 1000))
    timed(f"{place}: sends", lambda: sent(db, f"s0_{first}", a_thousand(SENDS, first, "_0,h1,2026-03-01T13:00:00Z")))
    sent(db, f"s1_{first}", a_thousand(SENDS, first, "_1,h2,2026-03-01T13:00:00Z"))
    timed(f"{place}: reports", lambda: reported(db, f"r0_{first}", a_thousand(REPORTS, first, "_0,h1,2026-03-01T14:00:00Z,success,aa")))
    reported(db, f"r1_{first}", a_thousand(REPORTS, first, "_1,h2,2026-03-01T14:00:00Z,success,aa"))
    timed(f"{place}: validate", lambda: validation(db, 1000))
    timed(f"{place}: assimilate", lambda: assimilation(db, AFTERNOON, 1000))
    timed(f"{place}: transition after", lambda: transitions(db, AFTERNOON, 1000))
    timed(f"{place}: delete", lambda: deletion(db, 1000))
    timed(f"{place}: purge", lambda: purge(db, AFTERNOON, 1000, 0))


def idle(db, place):
    """Times each pass when nothing is due."""
    timed(f"{place}: transition of none", lambda: transitions(db, AFTERNOON, 1000))
    timed(f"{place}: validate of none", lambda: validation(db, 1000))
    timed(f"{place}: assimilate of none", lambda: assimilation(db, AFTERNOON, 1000))
    timed(f"{place}: delete of none", lambda: deletion(db, 1000))
    timed(f"{place}: purge of none", lambda: purge(db, AFTERNOON, 1000, 0))


def more(db, first, count):
    for k in range(first, first + count):
        batch(db, f"more_{k}", a_thousand("name,input", 1_000_001 + 1000 * k, ",00ff"))
        transitions(db, NOON, 1000)


def main(path):
    db = open_file(path)
    db.executescript("BEGIN;" + SCHEMA + "COMMIT;")
    day(db, "alone", 1)
    more(db, 0, 20)
    day(db, "among 20,000", 200_001)
    idle(db, "among 20,000")
    views(db)
    more(db, 20, 80)
    day(db, "among 100,000", 300_001)
    idle(db, "among 100,000")
    db.close()

    def reopened():
        return open_file(path).execute("SELECT version FROM project").fetchone()[0]

    timed("opening with 100,000", reopened)


def shown(path):
    db = sqlite3.connect(path)
    views(db)
    for lines in VIEWS:
        with open(f"{path}.{lines.__name__}", "wb") as file:
            file.write(view(db, lines).getvalue())


IMPORTS = {"batch": (batch, "--jobs"), "sent": (sent, "--file"), "reported": (reported, "--file")}
PASSES = {
    "transition": lambda db, said: transitions(db, seconds(said["--now"]), int(said["--limit"])),
    "validate": lambda db, said: validation(db, int(said["--limit"])),
    "assimilate": lambda db, said: assimilation(db, seconds(said["--now"]), int(said["--limit"])),
    "delete": lambda db, said: deletion(db, int(said["--limit"])),
    "purge": lambda db, said: purge(db, seconds(said["--now"]), int(said["--limit"]), int(said["--min-age"])),
}
CYCLE = "transition validate transition assimilate transition delete purge".split()


def answer(db, word, said):
    """Does what a line asks for, and returns the lines of its answer."""
    if word == "show":
        return {lines.__name__: lines for lines in VIEWS}[said["--view"]](db)
    if word not in IMPORTS:
        return [f"{each}: {PASSES[each](db, said)}" for each in (CYCLE if word == "cycle" else [word])]
    imports, option = IMPORTS[word]
    with open(said[option], "rb") as file:
        first, verdicts = imports(db, said["--name"], file.read())
    applied = verdicts.count("0")
    if word == "batch":
        return [f"batch {said['--name']}: {applied} added, first {first}"]
    return [f"{word} {said['--name']}: {applied} applied, {len(verdicts) - applied} skipped"]


def serve(path):
    """Answers lines over one connection; each answer ends as that of a session."""
    db = open_file(path)
    print("= ready version=3", flush=True)
    for line in sys.stdin:
        word, *options = line.split()
        for text in answer(db, word, dict(zip(options[::2], options[1::2]))):
            print(text)
        print("= 0", flush=True)


if __name__ != "__main__":
    pass
elif sys.argv[2:] == ["--views"]:
    shown(sys.argv[1])
elif sys.argv[2:] == ["--session"]:
    serve(sys.argv[1])
else:
    main(sys.argv[1])
