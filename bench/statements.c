/* Runs the statements of acts on the tables of a file by SQLite's C API: what bench/acts.py measures the office beside.
 *
 * Usage: statements FILE < LIST      (built by `cc -O2 -o statements bench/statements.c -lsqlite3`; bench/acts.py makes LIST and builds this)
 *
 * LIST has lines. The first ones, up to an empty one, are texts of SQL. Each other line runs one of them: its number, from 0 on, and the
 * values of its places, with tabs between them: `t` and a text, `i` and an integer, or `n` for null; a line `end` ends an act. The file is
 * opened in WAL mode with synchronous = FULL and foreign keys, as the office keeps it, with room for 12,000 pages, and read whole by a check, as
 * the office reads it. All lines are read, and each text is prepared once, before the first line runs. Of each row that a query shows each
 * column is looked at.
 *
 * Prints how many acts ran, and the nanoseconds that they took of the clock and of the processor.
 */
#include <sqlite3.h>
#include <stdio.h>
#include <stdlib.h>
#include <string.h>
#include <time.h>

enum { MOST_TEXTS = 64, MOST_VALUES = 16 };

struct step {
    int text; /* -1 at the end of an act */
    int count;
    char *values[MOST_VALUES];
};

static sqlite3 *db;
static sqlite3_stmt *prepared[MOST_TEXTS];
static int texts;

static void fail(const char *what)
{
    fprintf(stderr, "%s: %s\n", what, db ? sqlite3_errmsg(db) : "no database");
    exit(1);
}

static void *grown(void *place, size_t bytes)
{
    place = realloc(place, bytes);
    if (!place)
        fail("no memory");
    return place;
}

/* All of the input, with a zero behind it. */
static char *input(void)
{
    size_t length = 0, room = 1 << 20;
    char *all = grown(NULL, room);
    for (size_t got; (got = fread(all + length, 1, room - length - 1, stdin)) > 0; length += got)
        if (room - length - got < 1 << 16)
            all = grown(all, room *= 2);
    all[length] = 0;
    return all;
}

/* The step that a line says, whose values stay in the line. */
static struct step step_of(char *line)
{
    struct step it = {.text = -1, .count = 0};
    if (!strcmp(line, "end"))
        return it;
    char *rest = line, *word = strsep(&rest, "\t");
    it.text = atoi(word);
    while ((word = strsep(&rest, "\t")) && it.count < MOST_VALUES)
        it.values[it.count++] = word;
    if (it.text < 0 || it.text >= texts || sqlite3_bind_parameter_count(prepared[it.text]) != it.count)
        fail(line);
    return it;
}

static void open_file(const char *path)
{
    if (sqlite3_open(path, &db) != SQLITE_OK)
        fail(path);
    const char *settings = "PRAGMA journal_mode = WAL; PRAGMA synchronous = FULL; PRAGMA foreign_keys = ON; PRAGMA cache_size = 12000; PRAGMA integrity_check";
    if (sqlite3_exec(db, settings, NULL, NULL, NULL) != SQLITE_OK)
        fail("settings");
}

static void bind(sqlite3_stmt *statement, int at, const char *value)
{
    int done = value[0] == 't'   ? sqlite3_bind_text(statement, at, value + 1, -1, SQLITE_STATIC)
               : value[0] == 'i' ? sqlite3_bind_int64(statement, at, atoll(value + 1))
                                 : sqlite3_bind_null(statement, at);
    if (done != SQLITE_OK)
        fail(value);
}

static long seen;

/* Looks at each column of a row, as whoever reads it does. */
static void look(sqlite3_stmt *statement)
{
    for (int at = sqlite3_column_count(statement); at-- > 0;)
        seen += sqlite3_column_type(statement, at) == SQLITE_INTEGER ? (long)sqlite3_column_int64(statement, at)
                : sqlite3_column_text(statement, at)                 ? sqlite3_column_bytes(statement, at)
                                                                     : 0;
}

static void run(const struct step *it)
{
    sqlite3_stmt *statement = prepared[it->text];
    for (int at = 0; at < it->count; at++)
        bind(statement, at + 1, it->values[at]);
    int done;
    while ((done = sqlite3_step(statement)) == SQLITE_ROW)
        look(statement);
    if (done != SQLITE_DONE || sqlite3_reset(statement) != SQLITE_OK)
        fail(sqlite3_sql(statement));
}

static long long now(clockid_t clock)
{
    struct timespec it;
    clock_gettime(clock, &it);
    return it.tv_sec * 1000000000LL + it.tv_nsec;
}

int main(int words, char **word)
{
    if (words != 2)
        return fprintf(stderr, "usage: statements FILE < LIST\n"), 2;
    char *rest = input(), *line;
    open_file(word[1]);
    while ((line = strsep(&rest, "\n")) && *line)
        if (texts == MOST_TEXTS || sqlite3_prepare_v3(db, line, -1, SQLITE_PREPARE_PERSISTENT, &prepared[texts++], NULL) != SQLITE_OK)
            fail(line);
    struct step *steps = NULL;
    size_t count = 0, room = 0, acts = 0;
    while ((line = strsep(&rest, "\n")) && *line) {
        if (count == room)
            steps = grown(steps, (room = room ? 2 * room : 1024) * sizeof *steps);
        steps[count++] = step_of(line);
    }
    long long begun = now(CLOCK_MONOTONIC), used = now(CLOCK_PROCESS_CPUTIME_ID);
    for (size_t at = 0; at < count; at++)
        if (steps[at].text < 0)
            acts++;
        else
            run(&steps[at]);
    used = now(CLOCK_PROCESS_CPUTIME_ID) - used;
    begun = now(CLOCK_MONOTONIC) - begun;
    for (int at = 0; at < texts; at++)
        sqlite3_finalize(prepared[at]);
    if (sqlite3_close(db) != SQLITE_OK)
        fail("close");
    printf("%zu %lld %lld\n", acts, begun, used);
    return seen < 0;
}
