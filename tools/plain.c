/* A program that does a project's work over SQLite in C, and answers lines as a session does.

       plain FILE    answers each line of standard input over a project's FILE that exists; it refuses nothing

   It keeps the same tables with the same queue, and follows the same rules, one commit a command, as plain.py does. Its
   files have no quotes. Each statement is prepared once. A pass loads its workunits one by one, and writes what it
   changed. tools/sessions.py compiles it and times it. It ends with 1 where anything is not as it expects. */
#include <sqlite3.h>
#include <stdbool.h>
#include <stdio.h>
#include <stdlib.h>
#include <string.h>
#include <time.h>

typedef sqlite3_int64 number;
enum { UNSENT = 2, IN_PROGRESS = 4, OVER = 5 };
enum { SUCCESS = 1, CLIENT_ERROR = 3, NO_REPLY = 4, DIDNT_NEED = 5, CLIENT_DETACHED = 7 };
enum { VALID = 1, INVALID = 2, NO_CHECK = 3, INCONCLUSIVE = 4, TOO_LATE = 5 };
enum { READY = 1, DONE = 2 };
enum { NONE = -1 };

typedef struct {
    unsigned char *bytes;
    int size;
} Blob;

typedef struct {
    number server_state, outcome, validate_state, file_delete, sent_at, deadline, received_at;
    char *host;
    Blob output;
    bool is_new, is_changed;
} Instance;

typedef struct {
    number number, min_quorum, target, max_error, max_total, max_success, delay_bound, credit;
    number error_mask, canonical, assimilate, file_delete, done_at, class, old_class;
    char *name;
    Blob input;
    bool is_changed;
    Instance its[100];
    int count;
} Workunit;

typedef struct {
    number workunit, n, credit;
    char *host;
} Grant;

static sqlite3 *db;
static Grant grants[100000];
static int granted;

static void fail(const char *what)
{
    fprintf(stderr, "plain: %s: %s\n", what, db ? sqlite3_errmsg(db) : "");
    exit(1);
}

static void *taken(size_t size)
{
    void *room = malloc(size ? size : 1);
    if (!room) fail("memory");
    return room;
}

/* ---- statements */

/* Returns the statement of a text, prepared at its first use. */
static sqlite3_stmt *statement(const char *text)
{
    static struct { const char *text; sqlite3_stmt *it; } known[100];
    static int count;
    int k = 0;
    while (k < count && known[k].text != text) k++;
    if (k == count) {
        known[k].text = text;
        if (sqlite3_prepare_v3(db, text, -1, SQLITE_PREPARE_PERSISTENT, &known[k].it, 0) != SQLITE_OK) fail(text);
        count++;
    }
    sqlite3_reset(known[k].it);
    return known[k].it;
}

static void number_or_null(sqlite3_stmt *s, int at, number value)
{
    if (value == NONE) sqlite3_bind_null(s, at);
    else sqlite3_bind_int64(s, at, value);
}

static void text_or_null(sqlite3_stmt *s, int at, const char *text)
{
    sqlite3_bind_text(s, at, text, -1, SQLITE_STATIC);
}

static void blob(sqlite3_stmt *s, int at, Blob it)
{
    sqlite3_bind_blob(s, at, it.size ? (void *)it.bytes : "", it.size, SQLITE_STATIC);
}

static bool next(sqlite3_stmt *s)
{
    int told = sqlite3_step(s);
    if (told != SQLITE_ROW && told != SQLITE_DONE) fail(sqlite3_sql(s));
    return told == SQLITE_ROW;
}

static void done(sqlite3_stmt *s)
{
    if (next(s)) fail(sqlite3_sql(s));
    sqlite3_reset(s);
}

static void run(const char *text)
{
    done(statement(text));
}

static number column(sqlite3_stmt *s, int at)
{
    return sqlite3_column_type(s, at) == SQLITE_NULL ? NONE : sqlite3_column_int64(s, at);
}

static char *text_of(sqlite3_stmt *s, int at)
{
    const unsigned char *text = sqlite3_column_text(s, at);
    return text ? strcpy(taken(strlen((const char *)text) + 1), (const char *)text) : 0;
}

static Blob blob_of(sqlite3_stmt *s, int at)
{
    Blob it = { 0, sqlite3_column_bytes(s, at) };
    it.bytes = memcpy(taken(it.size), it.size ? sqlite3_column_blob(s, at) : "", it.size);
    return it;
}

static number one(const char *text)
{
    sqlite3_stmt *s = statement(text);
    if (!next(s)) fail(text);
    number found = column(s, 0);
    sqlite3_reset(s);
    return found;
}

/* ---- workunits */

static void release(Workunit *w)
{
    for (int k = 0; k < w->count; k++) free(w->its[k].host), free(w->its[k].output.bytes);
    free(w->name), free(w->input.bytes);
}

static void load(Workunit *w, number n)
{
    sqlite3_stmt *s = statement("SELECT w.*, class FROM workunit w JOIN workunit_class ON workunit = number WHERE number = ?1");
    sqlite3_bind_int64(s, 1, n);
    if (!next(s)) fail("a workunit is missing");
    number *fields[] = { &w->number, 0, &w->min_quorum, &w->target, &w->max_error, &w->max_total, &w->max_success, &w->delay_bound, &w->credit, 0, &w->error_mask, &w->canonical, &w->assimilate, &w->file_delete, &w->done_at, &w->class };
    for (int k = 0; k < 16; k++) if (fields[k]) *fields[k] = column(s, k);
    w->name = text_of(s, 1), w->input = blob_of(s, 9), w->is_changed = false, w->old_class = w->class, w->count = 0;
    sqlite3_reset(s);
    s = statement("SELECT * FROM result WHERE workunit = ?1 ORDER BY n");
    sqlite3_bind_int64(s, 1, n);
    while (next(s)) {
        Instance *i = &w->its[w->count++];
        *i = (Instance){ column(s, 2), column(s, 3), column(s, 4), column(s, 5), column(s, 7), column(s, 8), column(s, 9), text_of(s, 6), blob_of(s, 10), false, false };
    }
    sqlite3_reset(s);
}

static void save_instance(number workunit, int n, Instance *i)
{
    sqlite3_stmt *s = i->is_new
        ? statement("INSERT INTO result VALUES (?1, ?2, ?3, ?4, ?5, ?6, ?7, ?8, ?9, ?10, ?11)")
        : statement("UPDATE result SET server_state = ?3, outcome = ?4, validate_state = ?5, file_delete = ?6, host = ?7, sent_at = ?8, deadline = ?9, received_at = ?10, output = ?11 WHERE workunit = ?1 AND n = ?2");
    number values[] = { workunit, n, i->server_state, i->outcome, i->validate_state, i->file_delete };
    for (int k = 0; k < 6; k++) sqlite3_bind_int64(s, k + 1, values[k]);
    text_or_null(s, 7, i->host);
    number_or_null(s, 8, i->sent_at), number_or_null(s, 9, i->deadline), number_or_null(s, 10, i->received_at);
    blob(s, 11, i->output);
    done(s);
}

static int count_of(Workunit *w, bool (*holds)(Instance *))
{
    int found = 0;
    for (int k = 0; k < w->count; k++) found += holds(&w->its[k]);
    return found;
}

static bool is_success(Instance *i) { return i->server_state == OVER && i->outcome == SUCCESS; }
static bool is_viable(Instance *i) { return is_success(i) && (i->validate_state == 0 || i->validate_state == INCONCLUSIVE); }
static bool is_new(Instance *i) { return is_success(i) && i->validate_state == 0; }
static bool is_out(Instance *i) { return i->server_state == UNSENT || i->server_state == IN_PROGRESS; }
static bool is_sent(Instance *i) { return i->server_state == IN_PROGRESS; }
static bool is_unsent(Instance *i) { return i->server_state == UNSENT; }
static bool is_kept(Instance *i) { return is_success(i) && i->validate_state != INVALID; }
static bool is_error(Instance *i) { return i->outcome == CLIENT_ERROR; }
static bool is_over(Instance *i) { return i->server_state == OVER; }
static bool is_through(Instance *i) { return i->server_state == OVER && i->file_delete == DONE; }
static bool is_to_delete(Instance *i) { return i->file_delete == READY; }

static bool wants_validation(Workunit *w)
{
    if (w->error_mask || !count_of(w, is_new)) return false;
    return w->canonical != NONE || count_of(w, is_viable) >= w->min_quorum;
}

static bool may_go(Workunit *w, int k)
{
    if (k == w->canonical) return count_of(w, is_over) == w->count && !count_of(w, is_viable);
    return is_over(&w->its[k]) && !is_viable(&w->its[k]);
}

static bool is_bound_in_vain(Workunit *w) { return w->class > 0 && !count_of(w, is_viable) && !count_of(w, is_sent); }

/* Marks the files that may go, and returns whether there are any; only looks where `sets` is false. */
static bool ready(Workunit *w, bool sets)
{
    bool any = false;
    if (w->assimilate != DONE) return false;
    if (w->file_delete == 0 && count_of(w, is_over) == w->count) {
        any = true;
        if (sets) w->file_delete = READY, w->is_changed = true;
    }
    for (int k = 0; k < w->count; k++) if (w->its[k].file_delete == 0 && may_go(w, k)) {
        any = true;
        if (sets) w->its[k].file_delete = READY, w->its[k].is_changed = true;
    }
    return any;
}

static int lacking(Workunit *w)
{
    int lacks = w->target - count_of(w, is_out) - count_of(w, is_kept);
    return lacks > 0 ? lacks : 0;
}

static bool is_undecided(Workunit *w) { return w->canonical == NONE && !w->error_mask; }

static bool is_due(Workunit *w)
{
    if (is_bound_in_vain(w)) return true;
    if (w->error_mask && (!w->assimilate || count_of(w, is_unsent) || count_of(w, is_viable))) return true;
    if (is_undecided(w)) {
        if (count_of(w, is_error) > w->max_error) return true;
        if (lacking(w) && (w->count < w->max_total || (!count_of(w, is_out) && !wants_validation(w)))) return true;
    }
    return ready(w, false);
}

static void mark(Workunit *w)
{
    number wake = NONE;
    if (is_due(w)) wake = 0;
    else for (int k = 0; k < w->count; k++) if (is_sent(&w->its[k]) && (wake == NONE || w->its[k].deadline + 1 < wake)) wake = w->its[k].deadline + 1;
    bool through = w->assimilate == DONE && w->file_delete == DONE && count_of(w, is_through) == w->count;
    sqlite3_stmt *s = statement("INSERT INTO queue VALUES (?1, ?2, ?3, ?4, ?5, ?6) ON CONFLICT (workunit) DO UPDATE SET wake = ?2, to_validate = ?3, to_assimilate = ?4, to_delete = ?5, purge_from = ?6");
    sqlite3_bind_int64(s, 1, w->number);
    number_or_null(s, 2, wake);
    sqlite3_bind_int64(s, 3, wants_validation(w));
    sqlite3_bind_int64(s, 4, w->assimilate == READY);
    sqlite3_bind_int64(s, 5, w->file_delete == READY || count_of(w, is_to_delete));
    number_or_null(s, 6, through ? w->done_at : NONE);
    done(s);
}

static void save(Workunit *w)
{
    if (w->is_changed) {
        sqlite3_stmt *s = statement("UPDATE workunit SET target_nresults = ?2, input = ?3, error_mask = ?4, canonical = ?5, assimilate = ?6, file_delete = ?7, done_at = ?8 WHERE number = ?1");
        sqlite3_bind_int64(s, 1, w->number), sqlite3_bind_int64(s, 2, w->target);
        blob(s, 3, w->input);
        sqlite3_bind_int64(s, 4, w->error_mask);
        number_or_null(s, 5, w->canonical);
        sqlite3_bind_int64(s, 6, w->assimilate), sqlite3_bind_int64(s, 7, w->file_delete);
        number_or_null(s, 8, w->done_at);
        done(s);
    }
    if (w->class != w->old_class) {
        sqlite3_stmt *s = statement("UPDATE workunit_class SET class = ?2 WHERE workunit = ?1");
        sqlite3_bind_int64(s, 1, w->number), sqlite3_bind_int64(s, 2, w->class);
        done(s);
    }
    for (int k = 0; k < w->count; k++) if (w->its[k].is_new || w->its[k].is_changed) save_instance(w->number, k, &w->its[k]);
    mark(w);
}

/* ---- the rules of the passes */

static void close_unsent(Workunit *w)
{
    for (int k = 0; k < w->count; k++) if (is_unsent(&w->its[k])) w->its[k].server_state = OVER, w->its[k].outcome = DIDNT_NEED, w->its[k].is_changed = true;
}

static void judge(Workunit *w, Instance *i, int verdict)
{
    i->validate_state = verdict, i->is_changed = true;
    if (verdict == VALID) grants[granted++] = (Grant){ w->number, i - w->its, w->credit, strcpy(taken(strlen(i->host) + 1), i->host) };
}

static void transition(Workunit *w, number now)
{
    for (int k = 0; k < w->count; k++) if (is_sent(&w->its[k]) && w->its[k].deadline < now) w->its[k].server_state = OVER, w->its[k].outcome = NO_REPLY, w->its[k].is_changed = true;
    if (is_undecided(w) && count_of(w, is_error) > w->max_error) w->error_mask = 2, w->is_changed = true;
    if (is_undecided(w)) {
        int needed = lacking(w), allowed = w->max_total > w->count ? w->max_total - w->count : 0;
        if (needed && !allowed && !count_of(w, is_out) && !wants_validation(w)) w->error_mask = 8, w->is_changed = true;
        for (int k = needed < allowed ? needed : allowed; k > 0; k--) w->its[w->count++] = (Instance){ UNSENT, 0, 0, 0, NONE, NONE, NONE, 0, { 0, 0 }, true, true };
    }
    if (w->error_mask) {
        for (int k = 0; k < w->count; k++) if (is_viable(&w->its[k])) judge(w, &w->its[k], NO_CHECK);
        close_unsent(w);
        if (!w->assimilate) w->assimilate = READY, w->is_changed = true;
    }
    ready(w, true);
    if (is_bound_in_vain(w)) w->class = 0;
}

static bool agree(Instance *one, Instance *other)
{
    return one->output.size == other->output.size && !memcmp(one->output.bytes, other->output.bytes, one->output.size);
}

static void choose(Workunit *w)
{
    int chosen = NONE, some = count_of(w, is_viable);
    for (int k = 0; k < w->count && chosen == NONE; k++) {
        int same = 0;
        for (int j = 0; j < w->count; j++) same += is_viable(&w->its[j]) && is_viable(&w->its[k]) && agree(&w->its[j], &w->its[k]);
        if (same >= w->min_quorum / 2 + 1) chosen = k;
    }
    w->is_changed = true;
    for (int k = 0; k < w->count; k++) if (is_viable(&w->its[k])) judge(w, &w->its[k], chosen == NONE ? INCONCLUSIVE : agree(&w->its[k], &w->its[chosen]) ? VALID : INVALID);
    if (chosen != NONE) {
        w->canonical = chosen;
        close_unsent(w);
        if (!w->assimilate) w->assimilate = READY;
    } else if (some > w->max_success) {
        w->error_mask = 4;
        close_unsent(w);
    } else if (some >= w->target) {
        w->target = some + 1;
    }
}

static void validate(Workunit *w, number now)
{
    if (w->canonical == NONE) {
        choose(w);
        return;
    }
    Instance *canonical = &w->its[w->canonical];
    for (int k = 0; k < w->count; k++) if (is_new(&w->its[k])) judge(w, &w->its[k], canonical->file_delete == DONE ? TOO_LATE : agree(&w->its[k], canonical) ? VALID : INVALID);
}

static void assimilate(Workunit *w, number now)
{
    Blob none = { 0, 0 };
    w->assimilate = DONE, w->done_at = now, w->is_changed = true;
    sqlite3_stmt *s = statement("INSERT INTO archived (number, name, error_mask, canonical, output, done_at) VALUES (?1, ?2, ?3, ?4, ?5, ?6)");
    sqlite3_bind_int64(s, 1, w->number);
    text_or_null(s, 2, w->name);
    sqlite3_bind_int64(s, 3, w->error_mask);
    number_or_null(s, 4, w->canonical);
    blob(s, 5, w->canonical == NONE ? none : w->its[w->canonical].output);
    sqlite3_bind_int64(s, 6, now);
    done(s);
}

static void delete(Workunit *w, number now)
{
    if (w->file_delete == READY) w->file_delete = DONE, w->input.size = 0, w->is_changed = true;
    for (int k = 0; k < w->count; k++) if (is_to_delete(&w->its[k])) w->its[k].file_delete = DONE, w->its[k].output.size = 0, w->its[k].is_changed = true;
}

static void keep_grants(void)
{
    sqlite3_stmt *s;
    for (int k = 0; k < granted; k++) {
        s = statement("INSERT INTO credit_grant (workunit, n, host, credit) VALUES (?1, ?2, ?3, ?4)");
        sqlite3_bind_int64(s, 1, grants[k].workunit), sqlite3_bind_int64(s, 2, grants[k].n);
        text_or_null(s, 3, grants[k].host);
        sqlite3_bind_int64(s, 4, grants[k].credit);
        done(s);
        s = statement("INSERT INTO host VALUES (?1, ?2, 1) ON CONFLICT (name) DO UPDATE SET total = total + excluded.total, grants = grants + 1");
        text_or_null(s, 1, grants[k].host);
        sqlite3_bind_int64(s, 2, grants[k].credit);
        done(s);
        free(grants[k].host);
    }
}

static int numbers_of(sqlite3_stmt *s, number *found)
{
    int count = 0;
    while (next(s)) found[count++] = column(s, 0);
    sqlite3_reset(s);
    return count;
}

static void run_pass(const char *name, const char *selects, number by, number limit, void (*change)(Workunit *, number), number now)
{
    static number found[1000];
    static Workunit w;
    run("BEGIN");
    sqlite3_stmt *s = statement(selects);
    sqlite3_bind_int64(s, 1, by), sqlite3_bind_int64(s, 2, limit);
    int count = numbers_of(s, found);
    granted = 0;
    for (int k = 0; k < count; k++) {
        load(&w, found[k]);
        change(&w, now);
        save(&w);
        release(&w);
    }
    keep_grants();
    run("COMMIT");
    printf("%s: %d\n", name, count);
}

static void purge(number now, number limit, number min_age)
{
    static number found[1000];
    run("BEGIN");
    sqlite3_stmt *s = statement("SELECT workunit FROM queue WHERE purge_from >= 0 AND purge_from <= ?1 ORDER BY workunit LIMIT ?2");
    sqlite3_bind_int64(s, 1, now - min_age), sqlite3_bind_int64(s, 2, limit);
    int count = numbers_of(s, found);
    for (int k = 0; k < count; k++) {
        s = statement("DELETE FROM workunit WHERE number = ?1");
        sqlite3_bind_int64(s, 1, found[k]);
        done(s);
    }
    run("COMMIT");
    printf("purge: %d\n", count);
}

/* ---- imports */

static number seconds(const char *text)
{
    struct tm at = { 0 };
    if (!text || !strptime(text, "%Y-%m-%dT%H:%M:%SZ", &at)) fail("a moment");
    return timegm(&at);
}

static int digit(char c)
{
    return c <= '9' ? c - '0' : (c | 32) - 'a' + 10;
}

static Blob bytes_of(const char *hex)
{
    Blob it = { 0, strlen(hex) / 2 };
    it.bytes = taken(it.size);
    for (int k = 0; k < it.size; k++) it.bytes[k] = digit(hex[2 * k]) * 16 + digit(hex[2 * k + 1]);
    return it;
}

static Blob read_file(const char *path)
{
    Blob it = { taken(1 << 20), 0 };
    FILE *file = fopen(path, "rb");
    if (!file) fail(path);
    it.size = fread(it.bytes, 1, 1 << 20, file);
    fclose(file);
    return it;
}

/* Cuts the next row off a text, and its fields. */
static bool row_of(char **left, char **fields, int count)
{
    char *row = strsep(left, "\n");
    if (!row || !*row) return false;
    for (int k = 0; k < count; k++) fields[k] = strsep(&row, ",");
    return true;
}

/* Returns whether an import came before, with its first number and its verdicts. */
static bool came_before(int kind, const char *name, Blob content, number *first, char *verdicts)
{
    sqlite3_stmt *s = statement("SELECT first_number, verdicts, content FROM import WHERE kind = ?1 AND name = ?2");
    sqlite3_bind_int64(s, 1, kind);
    text_or_null(s, 2, name);
    bool is_there = next(s);
    if (is_there) {
        if (sqlite3_column_bytes(s, 2) != content.size || memcmp(sqlite3_column_blob(s, 2), content.bytes, content.size)) fail("other content");
        *first = column(s, 0);
        strcpy(verdicts, (const char *)sqlite3_column_text(s, 1));
    }
    sqlite3_reset(s);
    return is_there;
}

static void keep(int kind, const char *name, Blob content, number first, const char *verdicts)
{
    Blob none = { 0, 0 };
    sqlite3_stmt *s = statement("INSERT INTO import VALUES (?1, ?2, ?3, ?4, ?5, ?6)");
    sqlite3_bind_int64(s, 1, kind);
    text_or_null(s, 2, name);
    blob(s, 3, none), blob(s, 4, content);
    sqlite3_bind_int64(s, 5, first);
    text_or_null(s, 6, verdicts);
    done(s);
}

static void add_job(number n, const char *name, const char *input)
{
    Workunit w = { n, 2, 2, 3, 10, 6, 604800, 1, 0, NONE, 0, 0, NONE, 0, 0, 0, bytes_of(input), false };
    sqlite3_stmt *s = statement("SELECT 1 FROM workunit WHERE name = ?1 UNION ALL SELECT 1 FROM archived WHERE name = ?1");
    text_or_null(s, 1, name);
    done(s);
    s = statement("INSERT INTO workunit VALUES (?1, ?2, 2, 2, 3, 10, 6, 604800, 1, ?3, 0, NULL, 0, 0, NULL)");
    sqlite3_bind_int64(s, 1, n);
    text_or_null(s, 2, name);
    blob(s, 3, w.input);
    done(s);
    s = statement("INSERT INTO workunit_class VALUES (?1, 0)");
    sqlite3_bind_int64(s, 1, n);
    done(s);
    mark(&w);
    free(w.input.bytes);
}

static number add_jobs(char *left, char *verdicts)
{
    number first = one("SELECT next_number FROM project"), n = first;
    char *fields[2];
    for (strsep(&left, "\n"); row_of(&left, fields, 2); n++) {
        add_job(n, fields[0], fields[1]);
        verdicts[n - first] = '0';
    }
    sqlite3_stmt *s = statement("UPDATE project SET next_number = ?1");
    sqlite3_bind_int64(s, 1, n);
    done(s);
    return first;
}

/* Returns the statement at the instance that the text names, or nothing. */
static sqlite3_stmt *instance(char *text)
{
    char *cut = strrchr(text, '_');
    if (!cut) fail("an instance's name");
    *cut = 0;
    sqlite3_stmt *s = statement("SELECT r.workunit, r.n, r.server_state, r.outcome, r.host, r.sent_at, w.delay_bound, c.class FROM workunit w JOIN result r ON r.workunit = w.number JOIN workunit_class c ON c.workunit = w.number WHERE w.name = ?1 AND r.n = ?2");
    text_or_null(s, 1, text);
    sqlite3_bind_int64(s, 2, atoi(cut + 1));
    if (next(s)) return s;
    sqlite3_reset(s);
    return 0;
}

static bool has(const char *text, number workunit, const char *host)
{
    sqlite3_stmt *s = statement(text);
    sqlite3_bind_int64(s, 1, workunit);
    if (host) text_or_null(s, 2, host);
    bool found = next(s);
    sqlite3_reset(s);
    return found;
}

static number class_of(const char *host)
{
    sqlite3_stmt *s = statement("SELECT class FROM host_class WHERE host = ?1");
    text_or_null(s, 1, host);
    number found = next(s) ? column(s, 0) : 0;
    sqlite3_reset(s);
    return found;
}

static char send(char **fields, number *changed)
{
    sqlite3_stmt *s = instance(fields[0]);
    if (!s) return '1';
    number workunit = column(s, 0), n = column(s, 1), state = column(s, 2), delay = column(s, 6), class = column(s, 7), own = class_of(fields[1]), at = seconds(fields[2]);
    sqlite3_reset(s);
    if (state != UNSENT) return '2';
    if (has("SELECT 1 FROM result WHERE workunit = ?1 AND host = ?2", workunit, fields[1])) return '3';
    if (class != own && has("SELECT 1 FROM result WHERE workunit = ?1 AND (server_state = 4 OR server_state = 5 AND outcome = 1 AND validate_state IN (0, 4))", workunit, 0)) return '4';
    s = statement("UPDATE result SET server_state = 4, host = ?3, sent_at = ?4, deadline = ?5 WHERE workunit = ?1 AND n = ?2");
    sqlite3_bind_int64(s, 1, workunit), sqlite3_bind_int64(s, 2, n);
    text_or_null(s, 3, fields[1]);
    sqlite3_bind_int64(s, 4, at), sqlite3_bind_int64(s, 5, at + delay);
    done(s);
    s = statement("UPDATE workunit_class SET class = ?2 WHERE workunit = ?1");
    sqlite3_bind_int64(s, 1, workunit), sqlite3_bind_int64(s, 2, own);
    done(s);
    *changed = workunit;
    return '0';
}

static char report(char **fields, number *changed)
{
    sqlite3_stmt *s = instance(fields[0]);
    number at = seconds(fields[2]);
    if (!s) return '1';
    number workunit = column(s, 0), n = column(s, 1), state = column(s, 2), outcome = column(s, 3), sent_at = column(s, 5);
    const char *host = (const char *)sqlite3_column_text(s, 4);
    char told = !host ? '2' : strcmp(host, fields[1]) ? '3' : at < sent_at ? '4' : state == OVER && outcome != NO_REPLY ? '5' : '0';
    sqlite3_reset(s);
    if (told != '0') return told;
    Blob output = bytes_of(fields[4]);
    s = statement("UPDATE result SET server_state = 5, outcome = ?3, validate_state = 0, file_delete = 0, received_at = ?4, output = ?5 WHERE workunit = ?1 AND n = ?2");
    sqlite3_bind_int64(s, 1, workunit), sqlite3_bind_int64(s, 2, n);
    sqlite3_bind_int64(s, 3, !strcmp(fields[3], "success") ? SUCCESS : !strcmp(fields[3], "detached") ? CLIENT_DETACHED : CLIENT_ERROR);
    sqlite3_bind_int64(s, 4, at);
    blob(s, 5, output);
    done(s);
    free(output.bytes);
    *changed = workunit;
    return '0';
}

static int by_number(const void *one, const void *other)
{
    number a = *(const number *)one, b = *(const number *)other;
    return (a > b) - (a < b);
}

static void judge_rows(char *left, char *verdicts, int width, char (*row)(char **, number *))
{
    static number changed[1001];
    static Workunit w;
    int count = 0;
    char *fields[5];
    for (strsep(&left, "\n"); row_of(&left, fields, width); verdicts++) {
        number workunit = 0;
        *verdicts = row(fields, &workunit);
        if (workunit) changed[count++] = workunit;
    }
    qsort(changed, count, sizeof *changed, by_number);
    for (int k = 0; k < count; k++) if (!k || changed[k] != changed[k - 1]) {
        load(&w, changed[k]);
        mark(&w);
        release(&w);
    }
}

static void import(int kind, const char *word, const char *name, const char *path)
{
    char verdicts[1100] = { 0 };
    Blob content = read_file(path);
    number first = 0;
    if (!came_before(kind, name, content, &first, verdicts)) {
        char *rows = memcpy(taken(content.size + 1), content.bytes, content.size);
        rows[content.size] = 0;
        run("BEGIN");
        if (kind == 1) first = add_jobs(rows, verdicts);
        else judge_rows(rows, verdicts, kind == 2 ? 3 : 5, kind == 2 ? send : report);
        keep(kind, name, content, first, verdicts);
        run("COMMIT");
        free(rows);
    }
    int all = strlen(verdicts), applied = 0;
    for (int k = 0; k < all; k++) applied += verdicts[k] == '0';
    if (kind == 1) printf("batch %s: %d added, first %lld\n", name, applied, first);
    else printf("%s %s: %d applied, %d skipped\n", word, name, applied, all - applied);
    free(content.bytes);
}

/* ---- views */

static void summary(void)
{
    number states[6] = { 0 };
    sqlite3_stmt *s = statement("SELECT server_state, count(*) FROM result GROUP BY server_state");
    while (next(s)) states[column(s, 0)] = column(s, 1);
    sqlite3_reset(s);
    printf("version %lld\nnext %lld\n", one("SELECT version FROM project"), one("SELECT next_number FROM project"));
    printf("workunits %lld\nresults %lld\n", one("SELECT count(*) FROM workunit"), states[UNSENT] + states[IN_PROGRESS] + states[OVER]);
    printf("unsent %lld\nin_progress %lld\nover %lld\n", states[UNSENT], states[IN_PROGRESS], states[OVER]);
    printf("archived %lld\ngrants %lld\n", one("SELECT count(*) FROM archived"), one("SELECT count(*) FROM credit_grant"));
    printf("credit %lld\nimports %lld\n", one("SELECT coalesce(sum(credit), 0) FROM credit_grant"), one("SELECT count(*) FROM import"));
    printf("classes %lld\n", one("SELECT count(*) FROM host_class"));
}

static void hosts(void)
{
    sqlite3_stmt *s = statement("SELECT name, total, grants FROM host ORDER BY name");
    while (next(s)) printf("%s total=%lld grants=%lld\n", sqlite3_column_text(s, 0), column(s, 1), column(s, 2));
    sqlite3_reset(s);
}

/* ---- lines */

static const char *option(char **words, int count, const char *name)
{
    for (int k = 1; k + 1 < count; k += 2) if (!strcmp(words[k], name)) return words[k + 1];
    return 0;
}

static void pass(const char *name, number now, number limit, number min_age)
{
    if (!strcmp(name, "transition")) run_pass(name, "SELECT workunit FROM queue WHERE wake >= 0 AND wake <= ?1 ORDER BY workunit LIMIT ?2", now, limit, transition, now);
    else if (!strcmp(name, "validate")) run_pass(name, "SELECT workunit FROM queue WHERE to_validate = ?1 ORDER BY workunit LIMIT ?2", 1, limit, validate, now);
    else if (!strcmp(name, "assimilate")) run_pass(name, "SELECT workunit FROM queue WHERE to_assimilate = ?1 ORDER BY workunit LIMIT ?2", 1, limit, assimilate, now);
    else if (!strcmp(name, "delete")) run_pass(name, "SELECT workunit FROM queue WHERE to_delete = ?1 ORDER BY workunit LIMIT ?2", 1, limit, delete, now);
    else if (!strcmp(name, "purge")) purge(now, limit, min_age);
    else fail(name);
}

static void answer(char **words, int count)
{
    static const char *cycle[] = { "transition", "validate", "transition", "assimilate", "transition", "delete", "purge" };
    const char *word = words[0], *name = option(words, count, "--name"), *file = option(words, count, "--file");
    if (!strcmp(word, "batch")) return import(1, word, name, option(words, count, "--jobs"));
    if (!strcmp(word, "sent")) return import(2, word, name, file);
    if (!strcmp(word, "reported")) return import(3, word, name, file);
    if (!strcmp(word, "show")) return strcmp(option(words, count, "--view"), "summary") ? hosts() : summary();
    const char *now = option(words, count, "--now"), *limit = option(words, count, "--limit"), *age = option(words, count, "--min-age");
    number at = now ? seconds(now) : 0;
    if (strcmp(word, "cycle")) return pass(word, at, atoll(limit), age ? atoll(age) : 0);
    for (int k = 0; k < 7; k++) pass(cycle[k], at, atoll(limit), atoll(age));
}

int main(int count, char **paths)
{
    char line[4096], *words[20];
    if (count != 2 || sqlite3_open_v2(paths[1], &db, SQLITE_OPEN_READWRITE, 0) != SQLITE_OK) fail("usage: plain FILE");
    if (sqlite3_exec(db, "PRAGMA journal_mode = WAL; PRAGMA synchronous = FULL; PRAGMA foreign_keys = ON", 0, 0, 0) != SQLITE_OK) fail("a pragma");
    printf("= ready version=3\n");
    fflush(stdout);
    while (fgets(line, sizeof line, stdin)) {
        int found = 0;
        for (char *word = strtok(line, " \n"); word && found < 20; word = strtok(0, " \n")) words[found++] = word;
        if (found) answer(words, found);
        printf("= 0\n");
        fflush(stdout);
    }
    sqlite3_close(db);
    return 0;
}
