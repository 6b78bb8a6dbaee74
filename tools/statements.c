/* Times statements over SQLite in C.

       statements FILE LIST    runs the lines of LIST over FILE, in order

   A line `EACH TEXT` runs the statement a thousand times, with ?1 as a number from 200,001 on; `NAMED TEXT` does so with
   ?1 as the name job_NUMBER. Both print the microseconds of all. Any other line is run once. Values that are asked for
   are read, texts and bytes copied. It ends with 1 where a statement fails. */
#include <sqlite3.h>
#include <stdio.h>
#include <stdlib.h>
#include <string.h>
#include <time.h>

static sqlite3 *db;

static void fail(const char *what)
{
    fprintf(stderr, "statements: %s: %s\n", what, sqlite3_errmsg(db));
    exit(1);
}

static double now(void)
{
    struct timespec time;
    clock_gettime(CLOCK_MONOTONIC, &time);
    return time.tv_sec * 1e6 + time.tv_nsec / 1e3;
}

/* Reads each value of a row, and returns a sum of them, so that no reading is left out. */
static long long read_row(sqlite3_stmt *statement)
{
    long long sum = 0;
    for (int at = 0; at < sqlite3_column_count(statement); at++) {
        int kind = sqlite3_column_type(statement, at);
        if (kind == SQLITE_INTEGER) sum += sqlite3_column_int64(statement, at);
        if (kind != SQLITE_TEXT && kind != SQLITE_BLOB) continue;
        int size = sqlite3_column_bytes(statement, at);
        char *copy = malloc(size + 1);
        if (!copy) fail("memory");
        copy[size] = 0;
        if (size) memcpy(copy, sqlite3_column_blob(statement, at), size);
        sum += copy[size / 2];
        free(copy);
    }
    return sum;
}

static void time_each(const char *text, int is_named)
{
    static volatile long long sum;
    sqlite3_stmt *statement;
    if (sqlite3_prepare_v3(db, text, -1, SQLITE_PREPARE_PERSISTENT, &statement, 0) != SQLITE_OK) fail(text);
    double begun = now();
    for (int number = 200001; number <= 201000; number++) {
        char name[20];
        int told;
        sprintf(name, "job_%d", number);
        if (is_named) sqlite3_bind_text(statement, 1, name, -1, SQLITE_STATIC);
        else sqlite3_bind_int64(statement, 1, number);
        while ((told = sqlite3_step(statement)) == SQLITE_ROW) sum += read_row(statement);
        if (told != SQLITE_DONE) fail(text);
        sqlite3_reset(statement);
    }
    printf("%.0f\n", now() - begun);
    sqlite3_finalize(statement);
}

int main(int count, char **words)
{
    char line[2000];
    FILE *list = count == 3 ? fopen(words[2], "r") : 0;
    if (!list || sqlite3_open(words[1], &db) != SQLITE_OK) fail("cannot open");
    if (sqlite3_exec(db, "PRAGMA journal_mode = WAL; PRAGMA synchronous = FULL; PRAGMA foreign_keys = ON", 0, 0, 0) != SQLITE_OK) fail("pragma");
    while (fgets(line, sizeof line, list)) {
        line[strcspn(line, "\n")] = 0;
        if (!strncmp(line, "EACH ", 5)) time_each(line + 5, 0);
        else if (!strncmp(line, "NAMED ", 6)) time_each(line + 6, 1);
        else if (sqlite3_exec(db, line, 0, 0, 0) != SQLITE_OK) fail(line);
    }
    return 0;
}
