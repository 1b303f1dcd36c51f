/* yengatomu: text search by the words of UAX #29, and functions that split texts, for PostgreSQL. README.md beside it says how it is used. */
#include <postgres.h>
#include <fmgr.h>
#include <funcapi.h>
#include <mb/pg_wchar.h>
#include <miscadmin.h>
#include <tsearch/ts_public.h>
#include <utils/builtins.h>
#include <utils/guc.h>
#include <utils/memutils.h>
#include <walk.h>
#include <yengatomu_folder.h>

PG_MODULE_MAGIC;

/* The types of tokens. ts_headline knows types by the numbers that the default parser gives them. */
enum { WORD = 2, BLANK = 12, NUMBER = 22 };

/* The setting yengatomu.dictionaries; and the folder that this session has read, "" for none, or NULL as long as it has read none. */
static char *setting = NULL;
static char *folder = NULL;

/* The segmenters of this session by their kinds. Each is opened when it is first needed, and stays. */
static yengatomu_slot slots[YENGATOMU_LINES + 1];

/* Pieces of a text that are given one after another, and the memory that lives as long. */
typedef struct pieces {
    walk over;
    MemoryContext memory;
    void *block;
} pieces;

/* Settings and segmenters. */

/* Refuses to set what this session has read already: texts would be cut in two ways. */
static bool may_set(char **value, void **extra, GucSource source) {
    (void)extra;
    if (!folder || source == PGC_S_TEST || !strcmp(*value, folder)) return true;
    GUC_check_errdetail("This session has read the dictionaries already. Set it at the start of a session.");
    return false;
}

PGDLLEXPORT void _PG_init(void);

void _PG_init(void) {
    DefineCustomStringVariable("yengatomu.dictionaries", "Folder with lists of words for scripts that are written without spaces.",
                               "A session reads it once. Empty for none.", &setting, "", PGC_SUSET, 0, may_set, NULL, NULL);
    MarkGUCPrefixReserved("yengatomu");
}

static void must_be_utf8(void) {
    if (GetDatabaseEncoding() != PG_UTF8)
        ereport(ERROR, errcode(ERRCODE_FEATURE_NOT_SUPPORTED), errmsg("yengatomu splits texts of databases in UTF8 only"),
                errdetail("The encoding of this database is %s.", GetDatabaseEncodingName()));
}

static bool takes_words(uint32_t kind) { return kind == YENGATOMU_WORDS || kind == YENGATOMU_LINES; }

/* Ends with what is wrong with a folder of dictionaries. */
static void refuse(const char *from, uint32_t status, int why) {
    if (status == YENGATOMU_NO_MEMORY) ereport(ERROR, errcode(ERRCODE_OUT_OF_MEMORY), errmsg("out of memory"), errdetail("yengatomu can't open a segmenter."));
    ereport(ERROR, errcode(ERRCODE_CONFIG_FILE_ERROR), errmsg("yengatomu can't read the dictionaries of \"%s\"", from),
            errdetail("%s.", status == YENGATOMU_UNREAD     ? strerror(why)
                             : status == YENGATOMU_NO_WORDS ? "A list has no words"
                                                            : "A list isn't UTF-8"));
}

/* Opens a segmenter of a kind, by the dictionaries of a folder unless that is "". At a fault it is empty. */
static uint32_t open_by(yengatomu_slot *made, uint32_t kind, const char *from) {
    uint32_t status = yengatomu_open(made, kind, YENGATOMU_STRICT, YENGATOMU_BREAK_NORMAL, false);
    errno = 0;
    if (status == YENGATOMU_OK && *from) status = yengatomu_load_folder(made, from);
    if (status != YENGATOMU_OK) {
        const int why = errno;
        yengatomu_close(made);
        errno = why;
    }
    return status;
}

/* The segmenter of a kind. That of words or lines has the dictionaries of the folder which the session has read, or else of the setting, which it then
 * has read. */
static yengatomu_slot *slot_of(uint32_t kind) {
    const char *const from = !takes_words(kind) ? "" : folder ? folder : setting ? setting : "";
    yengatomu_slot made = {0};
    char *kept = folder;
    uint32_t status;
    must_be_utf8();
    if (slots[kind].full) return &slots[kind];
    if (takes_words(kind) && !folder) kept = MemoryContextStrdup(TopMemoryContext, from);
    status = open_by(&made, kind, from);
    if (status != YENGATOMU_OK) {
        const int why = errno;
        if (kept != folder) pfree(kept);
        refuse(from, status, why);
    }
    folder = kept;
    slots[kind] = made;
    return &slots[kind];
}

/* Pieces. */

static void widen(pieces *it, size_t room) {
    if (it->block) pfree(it->block);
    it->block = NULL;
    it->block = MemoryContextAllocHuge(it->memory, room * (sizeof *it->over.ends + sizeof *it->over.marks));
    it->over.ends = it->block;
    it->over.marks = (uint8_t *)(it->over.ends + room);
    it->over.room = room;
}

/* Begins to split a text that stays in memory. */
static pieces *begin(uint32_t kind, const char *text, size_t len, size_t columns) {
    pieces *const it = palloc0(sizeof *it);
    it->memory = CurrentMemoryContext;
    it->over.slot = slot_of(kind);
    it->over.text = (const uint8_t *)text;
    it->over.len = len;
    it->over.by_line = takes_words(kind) && *folder;
    it->over.columns = columns;
    widen(it, WALK_ROOM);
    return it;
}

static bool next(pieces *it, piece *found) {
    while (!walk_next(&it->over, found)) {
        const size_t needs = walk_needs(&it->over);
        if (!needs) return false;
        CHECK_FOR_INTERRUPTS();
        if (needs > it->over.room) widen(it, needs);
        walk_fill(&it->over);
    }
    return true;
}

/* The parser. */

PG_FUNCTION_INFO_V1(yengatomu_parser_start);
PG_FUNCTION_INFO_V1(yengatomu_parser_token);
PG_FUNCTION_INFO_V1(yengatomu_parser_end);
PG_FUNCTION_INFO_V1(yengatomu_parser_types);

Datum yengatomu_parser_start(PG_FUNCTION_ARGS) { PG_RETURN_POINTER(begin(YENGATOMU_WORDS, (const char *)PG_GETARG_POINTER(0), (size_t)PG_GETARG_INT32(1), 0)); }

Datum yengatomu_parser_token(PG_FUNCTION_ARGS) {
    static const int types[] = {BLANK, NUMBER, WORD};
    pieces *const it = (pieces *)PG_GETARG_POINTER(0);
    const char **const token = (const char **)PG_GETARG_POINTER(1);
    int *const len = (int *)PG_GETARG_POINTER(2);
    piece found;
    if (!next(it, &found)) {
        *token = NULL;
        *len = 0;
        PG_RETURN_INT32(0);
    }
    *token = (const char *)it->over.text + found.start;
    *len = (int)(found.end - found.start);
    PG_RETURN_INT32(types[found.mark]);
}

Datum yengatomu_parser_end(PG_FUNCTION_ARGS) {
    pieces *const it = (pieces *)PG_GETARG_POINTER(0);
    pfree(it->block);
    pfree(it);
    PG_RETURN_VOID();
}

Datum yengatomu_parser_types(PG_FUNCTION_ARGS) {
    static const LexDescr types[] = {{WORD, "word", "Word whose last letter or digit is a letter"},
                                     {NUMBER, "number", "Number, or word whose last letter or digit is a digit"},
                                     {BLANK, "blank", "What is no word: spaces, punctuation, symbols"}};
    LexDescr *const found = palloc0((lengthof(types) + 1) * sizeof *found);
    (void)fcinfo;
    for (int i = 0; i < (int)lengthof(types); i++) {
        found[i].lexid = types[i].lexid;
        found[i].alias = pstrdup(types[i].alias);
        found[i].descr = pstrdup(types[i].descr);
    }
    PG_RETURN_POINTER(found);
}

/* Functions that return the pieces of a text. */

PG_FUNCTION_INFO_V1(yengatomu_split_graphemes);
PG_FUNCTION_INFO_V1(yengatomu_split_words);
PG_FUNCTION_INFO_V1(yengatomu_split_sentences);
PG_FUNCTION_INFO_V1(yengatomu_split_lines);

static void begin_call(FunctionCallInfo fcinfo, uint32_t kind, size_t columns) {
    FuncCallContext *const call = SRF_FIRSTCALL_INIT();
    const MemoryContext before = MemoryContextSwitchTo(call->multi_call_memory_ctx);
    text *const given = PG_GETARG_TEXT_P_COPY(0);
    call->user_fctx = begin(kind, VARDATA(given), VARSIZE(given) - VARHDRSZ, columns);
    MemoryContextSwitchTo(before);
}

/* The text of a piece; of a wrapped line without the spaces, line feeds and carriage returns at its end. */
static text *text_of(const walk *over, const piece *found) {
    const char *const start = (const char *)over->text + found->start;
    size_t len = found->end - found->start;
    if (over->columns)
        while (len && (start[len - 1] == ' ' || start[len - 1] == '\n' || start[len - 1] == '\r')) len--;
    return cstring_to_text_with_len(start, (int)len);
}

/* Returns the next piece: of words only those that are words. */
static Datum split(FunctionCallInfo fcinfo, uint32_t kind, size_t columns) {
    FuncCallContext *call;
    pieces *it;
    piece found;
    if (SRF_IS_FIRSTCALL()) begin_call(fcinfo, kind, columns);
    call = SRF_PERCALL_SETUP();
    it = call->user_fctx;
    while (next(it, &found))
        if (kind != YENGATOMU_WORDS || found.mark != YENGATOMU_NO_WORD) SRF_RETURN_NEXT(call, PointerGetDatum(text_of(&it->over, &found)));
    SRF_RETURN_DONE(call);
}

Datum yengatomu_split_graphemes(PG_FUNCTION_ARGS) { return split(fcinfo, YENGATOMU_CLUSTERS, 0); }

Datum yengatomu_split_words(PG_FUNCTION_ARGS) { return split(fcinfo, YENGATOMU_WORDS, 0); }

Datum yengatomu_split_sentences(PG_FUNCTION_ARGS) { return split(fcinfo, YENGATOMU_SENTENCES, 0); }

Datum yengatomu_split_lines(PG_FUNCTION_ARGS) {
    const int32 columns = PG_GETARG_INT32(1);
    if (columns < 1) ereport(ERROR, errcode(ERRCODE_INVALID_PARAMETER_VALUE), errmsg("a line has at least one column, and not %d", columns));
    return split(fcinfo, YENGATOMU_LINES, (size_t)columns);
}
