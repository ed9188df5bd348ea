/* SQLite on a machine without files: a database in memory, one table, one query. */
#include "sqlite3.h"
#include <string.h>

static long call(long number, long a, long b, long c) {
    register long a0 __asm__("a0") = a;
    register long a1 __asm__("a1") = b;
    register long a2 __asm__("a2") = c;
    register long a7 __asm__("a7") = number;
    __asm__ volatile("ecall" : "+r"(a0) : "r"(a1), "r"(a2), "r"(a7) : "memory");
    return a0;
}

static void line(const char *text) {
    call(64, 1, (long)text, strlen(text));
    call(64, 1, (long)"\n", 1);
}

static int row(void *unused, int count, char **values, char **names) {
    for (int i = 0; i < count; i++)
        line(values[i] ? values[i] : "NULL");
    return 0;
}

static int no_open(sqlite3_vfs *v, const char *name, sqlite3_file *f, int flags, int *out) { return SQLITE_CANTOPEN; }
static int no_delete(sqlite3_vfs *v, const char *name, int sync) { return SQLITE_OK; }
static int no_access(sqlite3_vfs *v, const char *name, int flags, int *found) { return *found = 0; }
static int same_name(sqlite3_vfs *v, const char *name, int size, char *out) { strncpy(out, name, size); return SQLITE_OK; }
static int no_chance(sqlite3_vfs *v, int size, char *out) { memset(out, 7, size); return size; }
static int no_sleep(sqlite3_vfs *v, int microseconds) { return microseconds; }
static int no_time(sqlite3_vfs *v, double *now) { *now = 2451545.0; return SQLITE_OK; }

static sqlite3_vfs no_files = {
    1, 0, 64, 0, "none", 0, no_open, no_delete, no_access, same_name, 0, 0, 0, 0, no_chance, no_sleep, no_time, 0,
};

int sqlite3_os_init(void) { return sqlite3_vfs_register(&no_files, 1); }
int sqlite3_os_end(void) { return SQLITE_OK; }

static char heap[1 << 20];

static int query(void) {
    sqlite3 *db;
    sqlite3_config(SQLITE_CONFIG_HEAP, heap, sizeof heap, 64);
    if (sqlite3_open(":memory:", &db) != SQLITE_OK)
        return 1;
    return sqlite3_exec(db, "create table t(a, b); insert into t values (1, 'x'), (2, 'y'); select sum(a), group_concat(b) from t;", row, 0, 0);
}

void _start(void) {
    call(93, query(), 0, 0);
    for (;;)
        ;
}
