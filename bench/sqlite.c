// SQLite with a write-ahead log, nothing synchronous: a row with a blob of 4,096 bytes a page, written in part, or, with -DBY_LINE, a row with
// one of 64 bytes a line.
#include <sqlite3.h>
#include <stdio.h>
#include <stdlib.h>
#include <string.h>
#include "records.h"

static sqlite3 *db;
static sqlite3_stmt *begin, *update, *commit;
static sqlite3_blob *blob;

static void must(int is_right)
{
    if (!is_right) {
        fprintf(stderr, "sqlite: %s\n", sqlite3_errmsg(db));
        exit(1);
    }
}

static void step(sqlite3_stmt *statement)
{
    must(sqlite3_step(statement) == SQLITE_DONE);
    must(sqlite3_reset(statement) == SQLITE_OK);
}

static sqlite3_stmt *prepared(const char *text)
{
    sqlite3_stmt *statement;
    must(sqlite3_prepare_v2(db, text, -1, &statement, 0) == SQLITE_OK);
    return statement;
}

void open_store(void)
{
    char text[512];
    snprintf(text, sizeof text,
        "PRAGMA journal_mode = WAL; PRAGMA synchronous = OFF; CREATE TABLE record (id INTEGER PRIMARY KEY, data BLOB);"
        "WITH RECURSIVE n(id) AS (SELECT 0 UNION ALL SELECT id + 1 FROM n WHERE id < %d)"
        " INSERT INTO record SELECT id, zeroblob(%d) FROM n;", RECORDS - 1, SIZE);
    must(sqlite3_open(path, &db) == SQLITE_OK);
    must(sqlite3_exec(db, text, 0, 0, 0) == SQLITE_OK);
    begin = prepared("BEGIN IMMEDIATE");
    update = prepared("UPDATE record SET data = ?2 WHERE id = ?1");
    commit = prepared("COMMIT");
}

// The blob of a record, opened to be written in part or read.
static void point_at(unsigned id)
{
    if (blob)
        must(sqlite3_blob_reopen(blob, id) == SQLITE_OK);
    else
        must(sqlite3_blob_open(db, "main", "record", "data", id, 1, &blob) == SQLITE_OK);
}

static void put_line(unsigned line, const uint64_t *word)
{
    if (RECORD_LINES == 1) {
        sqlite3_bind_int(update, 1, line);
        sqlite3_bind_blob(update, 2, word, 64, SQLITE_STATIC);
        step(update);
    } else {
        point_at(line / RECORD_LINES);
        must(sqlite3_blob_write(blob, word, 64, 64 * (line % RECORD_LINES)) == SQLITE_OK);
    }
}

static void unpoint(void)
{
    sqlite3_blob_close(blob);
    blob = 0;
}

void play(const struct put put[2])
{
    step(begin);
    for (int i = 0; i < 2; i++)
        put_line(put[i].page * LINES + put[i].line, put[i].word);
    unpoint();
    step(commit);
}

void show(unsigned page, unsigned line, uint64_t word[WORDS])
{
    line += page * LINES;
    point_at(line / RECORD_LINES);
    must(sqlite3_blob_read(blob, word, 64, 64 * (line % RECORD_LINES)) == SQLITE_OK);
    unpoint();
}

// All that it writes goes by write calls: the log's frames, and the pages that a checkpoint of the log copies back.
uint64_t bytes_stored(void)
{
    unsigned long written = 0;
    FILE *io = fopen("/proc/self/io", "r");
    if (io) {
        if (fscanf(io, "rchar: %*u wchar: %lu", &written) != 1)
            written = 0;
        fclose(io);
    }
    return written;
}

void close_store(void)
{
    sqlite3_finalize(begin);
    sqlite3_finalize(update);
    sqlite3_finalize(commit);
    sqlite3_close(db);
}
