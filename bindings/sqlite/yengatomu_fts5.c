/* yengatomu_fts5: a tokenizer for SQLite's FTS5, whose tokens are the words of UAX #29. README.md beside it says how it is used.
 *
 *     tokenize = "yengatomu [dictionaries FOLDER] [TOKENIZER ARGUMENT..]"
 *
 * Each word goes to TOKENIZER, which folds case and diacritics; what it gives of a word is one token. */
#include <sqlite3ext.h>
SQLITE_EXTENSION_INIT1
#include <walk.h>
#include <yengatomu_folder.h>

/* By these unicode61 keeps marks as parts of words. Where it is named with others, those count. */
static const char *const FOLDS = "unicode61", *const MARKS_TOO[] = {"categories", "L* N* Co M*"};

/* A segmenter of words by the dictionaries of a folder, or, where that is "", by none. */
typedef struct segmenter {
    struct segmenter *next;
    yengatomu_slot slot;
    char folder[];
} segmenter;

/* What a connection has until it is closed. One call at a time uses it, since SQLite's connections serve one at a time. */
typedef struct connection {
    fts5_api *api;
    segmenter *segmenters;
} connection;

/* What a table has: the segmenter, and the tokenizer behind it. */
typedef struct tokenizer {
    segmenter *words;
    fts5_tokenizer calls;
    Fts5Tokenizer *behind;
} tokenizer;

typedef struct buffer {
    char *bytes;
    size_t len, room;
} buffer;

/* What becomes of a text: the caller's call for each token, and what the tokenizer behind gave of a word: its parts joined, how many there were,
 * and its synonyms, each behind its length. */
typedef struct task {
    const tokenizer *by;
    int flags;
    void *context;
    int (*give)(void *context, int flags, const char *token, int len, int start, int end);
    buffer joined, synonyms;
    int parts;
} task;

/* Segmenters. */

static int told(int status, const char *folder, const char *why) {
    sqlite3_log(status, "yengatomu: dictionaries of '%s': %s", folder, why);
    return status;
}

static int load(segmenter *it) {
    errno = 0;
    switch (yengatomu_load_folder(&it->slot, it->folder)) {
    case YENGATOMU_OK:
        return SQLITE_OK;
    case YENGATOMU_NO_MEMORY:
        return SQLITE_NOMEM;
    case YENGATOMU_UNREAD:
        return told(SQLITE_ERROR, it->folder, strerror(errno));
    case YENGATOMU_NO_WORDS:
        return told(SQLITE_ERROR, it->folder, "a list has no words");
    default:
        return told(SQLITE_ERROR, it->folder, "a list isn't UTF-8");
    }
}

/* Finds the segmenter of a folder among those of a connection, or makes it. */
static int find_segmenter(connection *in, const char *folder, segmenter **found) {
    const size_t len = strlen(folder) + 1;
    segmenter *it = in->segmenters;
    int status = SQLITE_OK;
    while (it && strcmp(it->folder, folder) != 0) it = it->next;
    *found = it;
    if (it) return SQLITE_OK;
    it = sqlite3_malloc64(sizeof *it + len);
    if (!it) return SQLITE_NOMEM;
    memset(it, 0, sizeof *it);
    memcpy(it->folder, folder, len);
    if (yengatomu_open(&it->slot, YENGATOMU_WORDS, 0, 0, false) != YENGATOMU_OK) status = SQLITE_NOMEM;
    else if (*folder) status = load(it);
    if (status != SQLITE_OK) {
        yengatomu_close(&it->slot);
        sqlite3_free(it);
        return status;
    }
    it->next = in->segmenters;
    *found = in->segmenters = it;
    return SQLITE_OK;
}

static void close_connection(void *given) {
    connection *it = given;
    while (it->segmenters) {
        segmenter *const first = it->segmenters;
        it->segmenters = first->next;
        yengatomu_close(&first->slot);
        sqlite3_free(first);
    }
    sqlite3_free(it);
}

/* Tokenizers. */

static void delete_tokenizer(Fts5Tokenizer *given) {
    tokenizer *it = (tokenizer *)given;
    if (it->behind) it->calls.xDelete(it->behind);
    sqlite3_free(it);
}

/* Makes the tokenizer behind: that which is named, or unicode61. */
static int create_behind(const connection *in, const char **words, int count, tokenizer *it) {
    const char **const names = (const char **)sqlite3_malloc64(sizeof *names * (3 * (size_t)count + 3));
    int used = 0, status;
    void *context;
    if (!names) return SQLITE_NOMEM;
    for (int i = 0; i < count || !used; i++) {
        names[used++] = count ? words[i] : FOLDS;
        if (!sqlite3_stricmp(names[used - 1], FOLDS)) {
            names[used++] = MARKS_TOO[0];
            names[used++] = MARKS_TOO[1];
        }
    }
    status = in->api->xFindTokenizer(in->api, names[0], &context, &it->calls);
    if (status == SQLITE_OK) status = it->calls.xCreate(context, names + 1, used - 1, &it->behind);
    if (status != SQLITE_OK) it->behind = NULL;
    sqlite3_free((void *)names);
    return status;
}

static int create_tokenizer(void *given, const char **words, int count, Fts5Tokenizer **made) {
    const char *folder = "";
    tokenizer *it;
    int status;
    if (count && !sqlite3_stricmp(words[0], "dictionaries")) {
        if (count < 2 || !*words[1]) return told(SQLITE_ERROR, "", "no folder is named");
        folder = words[1];
        words += 2;
        count -= 2;
    }
    it = sqlite3_malloc(sizeof *it);
    if (!it) return SQLITE_NOMEM;
    memset(it, 0, sizeof *it);
    status = find_segmenter(given, folder, &it->words);
    if (status == SQLITE_OK) status = create_behind(given, words, count, it);
    if (status != SQLITE_OK) delete_tokenizer((Fts5Tokenizer *)it);
    else *made = (Fts5Tokenizer *)it;
    return status;
}

/* Tokens. */

static int append(buffer *to, const void *bytes, size_t len) {
    if (to->room - to->len < len) {
        const size_t room = 2 * (to->len + len);
        char *const larger = sqlite3_realloc64(to->bytes, room);
        if (!larger) return SQLITE_NOMEM;
        to->bytes = larger;
        to->room = room;
    }
    if (len) memcpy(to->bytes + to->len, bytes, len);
    to->len += len;
    return SQLITE_OK;
}

/* Takes what the tokenizer behind gives of a word. */
static int take(void *given, int flags, const char *token, int len, int start, int end) {
    task *it = given;
    (void)start;
    (void)end;
    if (flags & FTS5_TOKEN_COLOCATED) {
        const int status = append(&it->synonyms, &len, sizeof len);
        return status == SQLITE_OK ? append(&it->synonyms, token, (size_t)len) : status;
    }
    it->parts++;
    return append(&it->joined, token, (size_t)len);
}

static int give_synonyms(const task *it, const piece *word) {
    int status = SQLITE_OK, len;
    for (size_t at = 0; status == SQLITE_OK && at < it->synonyms.len; at += sizeof len + (size_t)len) {
        memcpy(&len, it->synonyms.bytes + at, sizeof len);
        status = it->give(it->context, FTS5_TOKEN_COLOCATED, it->synonyms.bytes + at + sizeof len, len, (int)word->start, (int)word->end);
    }
    return status;
}

/* Gives a word as one token, and its synonyms if it has one part. What the tokenizer behind gives nothing of is a token as it stands, so that words are
 * found whose letters are symbols to it. */
static int give_word(task *it, const char *text, const piece *word) {
    const int len = (int)(word->end - word->start);
    int status;
    it->joined.len = it->synonyms.len = 0;
    it->parts = 0;
    status = it->by->calls.xTokenize(it->by->behind, it, it->flags, text + word->start, len, take);
    if (status != SQLITE_OK) return status;
    if (!it->joined.len) return it->give(it->context, 0, text + word->start, len, (int)word->start, (int)word->end);
    status = it->give(it->context, 0, it->joined.bytes, (int)it->joined.len, (int)word->start, (int)word->end);
    return status == SQLITE_OK && it->parts == 1 ? give_synonyms(it, word) : status;
}

/* Gives the words of a stretch. */
static int give_words(task *it, walk *over) {
    int status = SQLITE_OK;
    piece found;
    walk_fill(over);
    while (status == SQLITE_OK && walk_next(over, &found)) {
        if (found.mark != YENGATOMU_NO_WORD) status = give_word(it, (const char *)over->text, &found);
    }
    return status;
}

/* Gives a walk room for so many ends, with their marks behind them. */
static int widen(walk *it, size_t room, void **block) {
    sqlite3_free(*block);
    *block = sqlite3_malloc64(room * (sizeof *it->ends + sizeof *it->marks));
    if (!*block) return SQLITE_NOMEM;
    it->ends = *block;
    it->marks = (uint8_t *)(it->ends + room);
    it->room = room;
    return SQLITE_OK;
}

static int tokenize(Fts5Tokenizer *given, void *context, int flags, const char *text, int len,
                    int (*give)(void *context, int flags, const char *token, int len, int start, int end)) {
    const tokenizer *by = (const tokenizer *)given;
    task it = {.by = by, .flags = flags, .context = context, .give = give};
    size_t ends[WALK_ROOM], needs;
    uint8_t marks[WALK_ROOM];
    void *block = NULL;
    int status = SQLITE_OK;
    walk over = {.slot = &by->words->slot, .text = (const uint8_t *)(text ? text : ""), .len = text ? (size_t)len : 0, .by_line = *by->words->folder};
    over.ends = ends;
    over.marks = marks;
    over.room = WALK_ROOM;
    while (status == SQLITE_OK && (needs = walk_needs(&over))) {
        if (needs > over.room) status = widen(&over, needs, &block);
        if (status == SQLITE_OK) status = give_words(&it, &over);
    }
    sqlite3_free(it.joined.bytes);
    sqlite3_free(it.synonyms.bytes);
    sqlite3_free(block);
    /* (the caller wants no more tokens) */
    return status == SQLITE_DONE ? SQLITE_OK : status;
}

/* The extension. */

static fts5_api *api_of(sqlite3 *db) {
    fts5_api *found = NULL;
    sqlite3_stmt *ask;
    if (sqlite3_prepare_v2(db, "SELECT fts5(?1)", -1, &ask, NULL) != SQLITE_OK) return NULL;
    sqlite3_bind_pointer(ask, 1, &found, "fts5_api_ptr", NULL);
    sqlite3_step(ask);
    sqlite3_finalize(ask);
    return found;
}

/* What SQLite calls when it loads the extension. */
__attribute__((visibility("default"))) int sqlite3_yengatomufts_init(sqlite3 *db, char **error, const sqlite3_api_routines *routines) {
    static fts5_tokenizer calls = {create_tokenizer, delete_tokenizer, tokenize};
    fts5_api *api;
    connection *it;
    int status;
    SQLITE_EXTENSION_INIT2(routines);
    api = api_of(db);
    if (!api || api->iVersion < 2) {
        *error = sqlite3_mprintf("this SQLite has no FTS5");
        return SQLITE_ERROR;
    }
    it = sqlite3_malloc(sizeof *it);
    if (!it) return SQLITE_NOMEM;
    it->api = api;
    it->segmenters = NULL;
    status = api->xCreateTokenizer(api, "yengatomu", it, &calls, close_connection);
    if (status != SQLITE_OK) close_connection(it);
    return status;
}
