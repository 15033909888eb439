// LMDB: a record of 4,096 bytes a page, or, with -DBY_LINE, one of 64 bytes a line, which suits its copying of whole tree pages better.
// MDB_WRITEMAP writes the mapped file in place, MDB_NOSYNC leaves flushing to the system.
#include <lmdb.h>
#include <stdio.h>
#include <stdlib.h>
#include <string.h>
#include <unistd.h>
#include "records.h"

static MDB_env *env;
static MDB_dbi table;

static void must(int answer)
{
    if (answer) {
        fprintf(stderr, "lmdb: %s\n", mdb_strerror(answer));
        exit(1);
    }
}

static void put_record(MDB_txn *txn, unsigned id, void *record)
{
    MDB_val key = { sizeof id, &id }, value = { SIZE, record };
    must(mdb_put(txn, table, &key, &value, 0));
}

static char *record_of(MDB_txn *txn, unsigned id)
{
    MDB_val key = { sizeof id, &id }, value;
    must(mdb_get(txn, table, &key, &value));
    return value.mv_data;
}

void open_store(void)
{
    static char none[SIZE];
    MDB_txn *txn;
    must(mdb_env_create(&env));
    must(mdb_env_set_mapsize(env, PAGES * (256ul << 10)));
    must(mdb_env_open(env, path, MDB_NOSUBDIR | MDB_NOSYNC | MDB_WRITEMAP, 0600));
    must(mdb_txn_begin(env, 0, 0, &txn));
    must(mdb_dbi_open(txn, 0, MDB_INTEGERKEY, &table));
    for (unsigned id = 0; id < RECORDS; id++)
        put_record(txn, id, none);
    must(mdb_txn_commit(txn));
}

void play(const struct put put[2])
{
    MDB_txn *txn;
    must(mdb_txn_begin(env, 0, 0, &txn));
    for (int i = 0; i < 2; i++) {
        unsigned line = put[i].page * LINES + put[i].line;
        char record[SIZE];
        // an old value lies in the map and is not to be used across a put
        if (RECORD_LINES > 1)
            memcpy(record, record_of(txn, line / RECORD_LINES), SIZE);
        memcpy(record + 64 * (line % RECORD_LINES), put[i].word, 64);
        put_record(txn, line / RECORD_LINES, record);
    }
    must(mdb_txn_commit(txn));
}

void show(unsigned page, unsigned line, uint64_t word[WORDS])
{
    MDB_txn *txn;
    must(mdb_txn_begin(env, 0, MDB_RDONLY, &txn));
    line += page * LINES;
    memcpy(word, record_of(txn, line / RECORD_LINES) + 64 * (line % RECORD_LINES), 64);
    mdb_txn_abort(txn);
}

uint64_t bytes_stored(void)
{
    return 0;
}

void close_store(void)
{
    char lock[sizeof path + 8];
    mdb_env_close(env);
    snprintf(lock, sizeof lock, "%s-lock", path);
    unlink(lock);
}
