/* refuse FOLDER [STEP]: refuses each allocation of SQLite, of the tokenizer and of the library in turn, alone and with all that come behind it; with STEP
 * only each of so many. FOLDER has dictionaries. There must be an error or the right answer, no row lost, no index that is wrong, and no block left.
 *
 * Compile it with -DSQLITE_CORE, so that the tokenizer is a part of it, and link it with -Wl,--wrap=NAME for malloc, calloc, realloc, aligned_alloc,
 * posix_memalign and free. */
#include "yengatomu_fts5.c"
#include "../c/check.h"

void *__real_malloc(size_t size);
void *__real_calloc(size_t count, size_t size);
void *__real_realloc(void *at, size_t size);
void *__real_aligned_alloc(size_t alignment, size_t size);
int __real_posix_memalign(void **at, size_t alignment, size_t size);
void __real_free(void *at);
void *__wrap_malloc(size_t size);
void *__wrap_calloc(size_t count, size_t size);
void *__wrap_realloc(void *at, size_t size);
void *__wrap_aligned_alloc(size_t alignment, size_t size);
int __wrap_posix_memalign(void **at, size_t alignment, size_t size);
void __wrap_free(void *at);

static sqlite3_mem_methods real;

/* How many allocations go well from now on, -1 for all; whether only the next one is refused then, or all; how many were refused; and how many blocks of the
 * tokenizer and the library there are. */
static long left = -1, refused, live;
static bool once;

static bool is_refused(void) {
    if (left > 0) left--;
    else if (left == 0) {
        if (once) left = -1;
        refused++;
        return true;
    }
    return false;
}

static void *held(void *at) {
    live += at != NULL;
    return at;
}

void *__wrap_malloc(size_t size) { return is_refused() ? NULL : held(__real_malloc(size)); }
void *__wrap_calloc(size_t count, size_t size) { return is_refused() ? NULL : held(__real_calloc(count, size)); }
void *__wrap_aligned_alloc(size_t alignment, size_t size) { return is_refused() ? NULL : held(__real_aligned_alloc(alignment, size)); }

void *__wrap_realloc(void *at, size_t size) {
    if (is_refused()) return NULL;
    return at ? __real_realloc(at, size) : held(__real_realloc(at, size));
}

int __wrap_posix_memalign(void **at, size_t alignment, size_t size) {
    const int status = is_refused() ? 12 : __real_posix_memalign(at, alignment, size);
    live += !status;
    return status;
}

void __wrap_free(void *at) {
    live -= at != NULL;
    __real_free(at);
}

static void *sqlite_malloc(int size) { return is_refused() ? NULL : real.xMalloc(size); }
static void *sqlite_realloc(void *at, int size) { return is_refused() ? NULL : real.xRealloc(at, size); }

static const char create[] = "CREATE VIRTUAL TABLE pages USING fts5(body, tokenize = \"yengatomu dictionaries '%q' unicode61 remove_diacritics 2\")";
static const char insert[] = "INSERT INTO pages VALUES('na\xc3\xafve \xe0\xb8\xa0\xe0\xb8\xb2\xe0\xb8\xa9\xe0\xb8\xb2\xe0\xb9\x84\xe0\xb8\x97\xe0\xb8\xa2 "
                             "can''t ' || hex(zeroblob(2000)))";
static const char find[] = "SELECT highlight(pages, 0, '[', ']') LIKE '[na%' AND bm25(pages) < 0 FROM pages('naive OR \"can''t\" OR x*') ORDER BY rank LIMIT 1";
static const char check[] = "INSERT INTO pages(pages) VALUES('integrity-check')";

static int run(sqlite3 *db, const char *sql) { return sqlite3_exec(db, sql, NULL, NULL, NULL); }

/* A tokenizer that gives each part between apostrophes, and its first byte as a synonym of it. */
static int tokenize_initials(Fts5Tokenizer *given, void *context, int flags, const char *text, int len,
                             int (*give)(void *context, int flags, const char *token, int len, int start, int end)) {
    int status = SQLITE_OK, start = 0;
    (void)given;
    (void)flags;
    for (int at = 0; status == SQLITE_OK && at <= len; at++) {
        if (at < len && text[at] != '\'') continue;
        if (at > start) status = give(context, 0, text + start, at - start, start, at);
        if (at > start && status == SQLITE_OK) status = give(context, FTS5_TOKEN_COLOCATED, text + start, 1, start, at);
        start = at + 1;
    }
    return status;
}

static int create_initials(void *given, const char **words, int count, Fts5Tokenizer **made) {
    (void)words;
    (void)count;
    *made = given;
    return SQLITE_OK;
}

static void delete_initials(Fts5Tokenizer *given) { (void)given; }

/* Makes a table by that tokenizer. */
static int open_initials(sqlite3 *db) {
    static fts5_tokenizer calls = {create_initials, delete_initials, tokenize_initials};
    fts5_api *const api = api_of(db);
    const int status = api ? api->xCreateTokenizer(api, "initials", &calls, &calls, NULL) : SQLITE_NOMEM;
    return status == SQLITE_OK ? run(db, "CREATE VIRTUAL TABLE others USING fts5(body, tokenize = \"yengatomu initials\");"
                                         "INSERT INTO others VALUES('word can''t other')")
                               : status;
}

/* The number that a statement returns, or -1. */
static int number(sqlite3 *db, const char *sql, int *status) {
    sqlite3_stmt *it;
    int found = -1;
    *status = sqlite3_prepare_v2(db, sql, -1, &it, NULL);
    if (*status != SQLITE_OK) return -1;
    if (sqlite3_step(it) == SQLITE_ROW) found = sqlite3_column_int(it, 0);
    *status = sqlite3_finalize(it);
    return found;
}

/* Opens a database with a table. */
static int open_pages(sqlite3 **db, const char *folder) {
    char *error = NULL, *sql;
    int status = sqlite3_open(":memory:", db);
    if (status == SQLITE_OK) status = sqlite3_yengatomufts_init(*db, &error, NULL);
    sqlite3_free(error);
    if (status != SQLITE_OK) return status;
    sql = sqlite3_mprintf(create, folder);
    status = sql ? run(*db, sql) : SQLITE_NOMEM;
    sqlite3_free(sql);
    return status;
}

/* Does all from the opening on, and returns whether an allocation was refused. */
static bool refuse_open(const char *folder, long count) {
    sqlite3 *db = NULL;
    int status;
    refused = 0;
    left = count;
    status = open_pages(&db, folder);
    if (status == SQLITE_OK) status = run(db, insert);
    if (status == SQLITE_OK) status = open_initials(db);
    left = -1;
    CHECK(status == SQLITE_OK || refused);
    if (status == SQLITE_OK) {
        CHECK(number(db, find, &status) == 1 && status == SQLITE_OK);
        CHECK(number(db, "SELECT count(*) FROM others('w + cant + o') WHERE others MATCH 'word + cant + other'", &status) == 1 && status == SQLITE_OK);
        CHECK(number(db, "SELECT count(*) FROM others('c OR t OR can')", &status) == 0 && status == SQLITE_OK);
    }
    CHECK(sqlite3_close(db) == SQLITE_OK);
    CHECK(live == 0 && sqlite3_memory_used() == 0);
    return refused;
}

/* Writes and asks in an open database. */
static bool refuse_use(sqlite3 *db, long count) {
    int status, found;
    bool was_refused;
    CHECK(run(db, "BEGIN") == SQLITE_OK);
    refused = 0;
    left = count;
    status = run(db, insert);
    left = -1;
    was_refused = refused;
    /* (out of memory, SQLite may roll back by itself) */
    CHECK(sqlite3_get_autocommit(db) || run(db, status == SQLITE_OK ? "COMMIT" : "ROLLBACK") == SQLITE_OK);
    CHECK(status == SQLITE_OK || (status == SQLITE_NOMEM && refused));
    /* (once after SQLite rolled back by itself, FTS5 compares with a count from before: so it does by unicode61) */
    CHECK(run(db, check) == SQLITE_OK || run(db, check) == SQLITE_OK);
    CHECK(number(db, "SELECT count(*) FROM pages", &found) == (status == SQLITE_OK ? 3 : 2));
    if (status == SQLITE_OK) CHECK(run(db, "DELETE FROM pages WHERE rowid = (SELECT max(rowid) FROM pages)") == SQLITE_OK);
    refused = 0;
    left = count;
    found = number(db, find, &status);
    left = -1;
    CHECK(status == SQLITE_OK ? found == 1 : status == SQLITE_NOMEM && refused);
    return refused || was_refused;
}

static void refuse_all(const char *folder, long step) {
    sqlite3 *db = NULL;
    long count = 0;
    for (once = false; refuse_open(folder, count); once = !once) count += once ? step : 0;
    printf("open: %ld allocations\n", count);
    once = false;
    CHECK(open_pages(&db, folder) == SQLITE_OK && run(db, insert) == SQLITE_OK && run(db, insert) == SQLITE_OK);
    for (count = 0; refuse_use(db, count); once = !once) count += once ? step : 0;
    CHECK(sqlite3_close(db) == SQLITE_OK && live == 0 && sqlite3_memory_used() == 0);
    printf("use: %ld allocations\n", count);
}

int main(int count, char **words) {
    sqlite3_mem_methods refusing;
    if (count < 2) return 2;
    /* (so that standard output has its buffer, which isn't counted) */
    puts("refusing");
    fflush(stdout);
    CHECK(sqlite3_config(SQLITE_CONFIG_GETMALLOC, &real) == SQLITE_OK);
    refusing = real;
    refusing.xMalloc = sqlite_malloc;
    refusing.xRealloc = sqlite_realloc;
    CHECK(sqlite3_config(SQLITE_CONFIG_MALLOC, &refusing) == SQLITE_OK && sqlite3_initialize() == SQLITE_OK);
    live = 0;
    refuse_all(words[1], count > 2 ? atol(words[2]) : 1);
    CHECK(sqlite3_shutdown() == SQLITE_OK);
    return failed ? 1 : 0;
}
