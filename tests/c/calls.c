/*
 * Each call of include/locale_objects.h: what it gives, each code once, each field and each constant by a
 * value of its own, buffers of each size that is too small, each allocation that fails, and two, 16 and 64
 * threads and the child of a fork on one library, which get the texts that one thread gets, with 100000 calls in
 * all threads together or as many as the first word says. Ends with status 0 where all is as wanted.
 * To be linked with -Wl,--wrap=malloc,--wrap=realloc.
 */
#define _POSIX_C_SOURCE 200809L
#include "check.h"
#include "locale_objects.h"
#include <pthread.h>
#include <stdio.h>
#include <stdlib.h>
#include <string.h>
#include <sys/wait.h>
#include <unistd.h>

/* A text and its NUL do not fit: the size that they need is told. */
static bool is_small(lobj_answer answer, size_t size) {
    return answer.code == LOBJ_TOO_SMALL && answer.n == size;
}

static bool is(lobj_answer answer, uint32_t code, size_t n) {
    if (answer.code == code && answer.n == n) return true;
    printf("code %u, n %zu: ", (unsigned)answer.code, answer.n);
    return false;
}

static const char sources[] =
    ".charmap small\nCHARMAP\n<e'> \\xe9\nEND CHARMAP\n.end\n"
    ".locale us UTF-8\n"
    "LC_CTYPE\ncharclass vowel\nvowel a;e;i;o;u\nEND LC_CTYPE\n"
    "LC_NUMERIC\ndecimal_point \".\"\nthousands_sep \",\"\ngrouping 3\nEND LC_NUMERIC\n"
    "LC_MONETARY\nint_curr_symbol \"USD \"\ncurrency_symbol \"$\"\nmon_decimal_point \".\"\n"
    "mon_thousands_sep \",\"\nmon_grouping 3\nnegative_sign \"-\"\nfrac_digits 2\nint_frac_digits 2\n"
    "p_cs_precedes 1\np_sep_by_space 0\nn_cs_precedes 1\nn_sep_by_space 0\np_sign_posn 1\nn_sign_posn 1\n"
    "END LC_MONETARY\n.end\n"
    ".locale half UTF-8\nLC_NUMERIC\ndecimal_point \",\"\nEND LC_NUMERIC\n.end\n"
    ".locale eras UTF-8\nLC_TIME\nera \"+:1:2000/01/01:+*:E:%EC\"\nera_d_fmt \"era d\"\nera_d_t_fmt \"era d t\"\n"
    "era_t_fmt \"era t\"\nalt_digits \"zero\"\nEND LC_TIME\n.end\n"
    ".locale cased UTF-8\nLC_CTYPE\nupper <U00C9>;<U2C6F>\nlower <U00E9>;<U0250>;<U0131>\n"
    "toupper (<U00E9>,<U00C9>);(<U0131>,I);(<U0250>,<U2C6F>);(q,Q)\ntolower (<U00C9>,<U00E9>);(Q,q)\nEND LC_CTYPE\n.end\n"
    ".catalog words C\n1 one\n$set 2\n7 seven of two\n.end\n"
    ".catalog words half\n1 eins\n.end\n"
    ".native half\n";

/* How many blocks of memory are given before none is; below 0 as many as are asked for. */
static long blocks_left = -1;

static bool is_given(void) {
    if (blocks_left < 0) return true;
    if (blocks_left == 0) return false;
    blocks_left--;
    return true;
}

void *__real_malloc(size_t size);
void *__real_realloc(void *block, size_t size);
void *__wrap_malloc(size_t size);
void *__wrap_realloc(void *block, size_t size);

void *__wrap_malloc(size_t size) {
    return is_given() ? __real_malloc(size) : NULL;
}

void *__wrap_realloc(void *block, size_t size) {
    return is_given() ? __real_realloc(block, size) : NULL;
}

static const lobj_tm sunday = { 2021, 1, 3, 14, 5, 6, 0, 2, true, 60 };

static const lobj_fault untouched_fault = { 7, 7, 7, 7, 7, 7 };

static bool is_fault(const lobj_fault *fault, size_t part, uint32_t line, uint32_t column, uint32_t reason, size_t start,
                     size_t length) {
    return fault->part == part && fault->line == line && fault->column == column && fault->reason == reason &&
           fault->start == start && fault->length == length;
}

static bool is_untouched_fault(const lobj_fault *fault) {
    return is_fault(fault, 7, 7, 7, 7, 7, 7);
}

static void read_library(lobj_library **library) {
    lobj_fault fault = untouched_fault;
    char line[64];
    memset(line, 'x', sizeof line);
    CHECK(is(lobj_read(sources, strlen(sources), library, &fault, line, sizeof line), LOBJ_OK, 0));
    CHECK(line[0] == 'x' && is_untouched_fault(&fault) && *library != NULL);
}

/* The message of a fault: its reason, and the rule that lobj_rule gives of the number. */
static bool is_message(const char *message, size_t length, const char *reason, uint32_t number) {
    char rule[512], wanted[600];
    if (lobj_rule(rule, sizeof rule, number).code != LOBJ_OK) return false;
    return snprintf(wanted, sizeof wanted, "%s: %s", reason, rule) == (int)length && strcmp(wanted, message) == 0;
}

static void refuse_texts(void) {
    static const char broken[] = "# a comment\n.locale\n";
    lobj_library *nothing = NULL;
    lobj_fault fault = untouched_fault;
    char line[512];
    lobj_answer answer = lobj_read(broken, strlen(broken), &nothing, &fault, line, sizeof line);
    CHECK(answer.code == LOBJ_BAD_TEXT && is_message(line, answer.n, "BadLine directive", 0) && nothing == NULL);
    CHECK(is_fault(&fault, 0, 2, 1, 0, 12, 7) && memcmp(broken + fault.start, ".locale", fault.length) == 0);
    const size_t size = answer.n + 1;
    for (size_t small = 0; small < size; small++) {
        memset(line, 'x', sizeof line);
        fault = untouched_fault;
        CHECK(is(lobj_read(broken, strlen(broken), &nothing, &fault, line, small), LOBJ_BAD_TEXT, size));
        CHECK(line[0] == 'x' && is_fault(&fault, 0, 2, 1, 0, 12, 7));
    }
    CHECK(is(lobj_read(broken, strlen(broken), &nothing, &fault, line, size), LOBJ_BAD_TEXT, size - 1));
    fault = untouched_fault;
    char *long_text = malloc((size_t)1 << 31);
    if (long_text != NULL) {
        CHECK(is(lobj_read(long_text, (size_t)1 << 31, &nothing, &fault, line, sizeof line), LOBJ_TOO_LONG, 0));
        CHECK(is_untouched_fault(&fault));
        free(long_text);
    }
}

/* A null is freed, also by a call's address. */
static void free_nulls(void) {
    void (*const free_library)(lobj_library *) = lobj_library_free;
    void (*const free_builder)(lobj_builder *) = lobj_builder_free;
    lobj_library_free(NULL);
    lobj_builder_free(NULL);
    free_library(NULL);
    free_builder(NULL);
}

/* Each reason has a name and a rule, and no number above the last has one. */
static void ask_reasons(void) {
    char name[64], other[64], rule[512];
    for (uint32_t i = 0; i < LOBJ_REASONS; i++) {
        lobj_answer answer = lobj_reason_name(name, sizeof name, i);
        CHECK(answer.code == LOBJ_OK && answer.n > 0 && strlen(name) == answer.n);
        CHECK(is_small(lobj_reason_name(other, answer.n, i), answer.n + 1));
        answer = lobj_rule(rule, sizeof rule, i);
        CHECK(answer.code == LOBJ_OK && answer.n > 0 && strlen(rule) == answer.n);
        CHECK(is_small(lobj_rule(NULL, 0, i), answer.n + 1));
        for (uint32_t k = 0; k < i; k++) CHECK(lobj_reason_name(other, sizeof other, k).code == LOBJ_OK && strcmp(name, other) != 0);
    }
    CHECK(is(lobj_reason_name(name, sizeof name, 4), LOBJ_OK, 5) && strcmp(name, "NoEnd") == 0);
    CHECK(is(lobj_reason_name(name, sizeof name, LOBJ_REASONS), LOBJ_NO_ITEM, 0) && strcmp(name, "NoEnd") == 0);
    CHECK(is(lobj_rule(rule, sizeof rule, LOBJ_REASONS), LOBJ_NO_ITEM, 0) && is(lobj_rule(rule, 0, UINT32_MAX), LOBJ_NO_ITEM, 0));
}

static lobj_answer add(lobj_builder **builder, uint32_t kind, const char *name, const char *label, const char *text) {
    return lobj_add(builder, kind, name, strlen(name), label, strlen(label), text, strlen(text));
}

/* A builder with a charmap, a source of its charset, one of UTF-8 that copies, and a catalog for each. */
static lobj_builder *filled_builder(void) {
    lobj_builder *builder = NULL;
    CHECK(is(lobj_builder_new(&builder), LOBJ_OK, 0) && builder != NULL);
    CHECK(is(add(&builder, LOBJ_SOURCE, "one", "small", "LC_NUMERIC\ndecimal_point \";\"\nEND LC_NUMERIC\n"), LOBJ_OK, 0));
    CHECK(is(add(&builder, LOBJ_CHARMAP, "small", "", "CHARMAP\n<e'> \\xe9\nEND CHARMAP\n"), LOBJ_OK, 0));
    CHECK(is(add(&builder, LOBJ_CATALOG, "words", "one", "1 first"), LOBJ_OK, 0));
    CHECK(is(add(&builder, LOBJ_SOURCE, "two", "UTF-8", "LC_NUMERIC\ncopy \"one\"\nEND LC_NUMERIC"), LOBJ_OK, 0));
    CHECK(is(add(&builder, LOBJ_CATALOG, "words", "two", "1 second\n"), LOBJ_OK, 0));
    return builder;
}

/* A part that is added to others is refused, and tells its number; without it the others are built. */
static void refuse_parts(void) {
    static const struct {
        uint32_t kind;
        const char *name, *label, *text;
        uint32_t code;
        lobj_fault fault;
        const char *reason;
    } rows[] = {
        { LOBJ_SOURCE, "C", "UTF-8", "", LOBJ_BAD_NAME, { 5, 0, 0, 0, 0, 0 }, NULL },
        { LOBJ_CHARMAP, "UTF-8", "", "", LOBJ_BAD_NAME, { 5, 0, 0, 0, 0, 0 }, NULL },
        { LOBJ_CHARMAP, "more", "label", "", LOBJ_BAD_NAME, { 5, 0, 0, 0, 0, 0 }, NULL },
        { LOBJ_SOURCE, "one", "UTF-8", "", LOBJ_NAME_TWICE, { 5, 0, 0, 0, 0, 0 }, NULL },
        { LOBJ_CATALOG, "words", "two", "", LOBJ_NAME_TWICE, { 5, 0, 0, 0, 0, 0 }, NULL },
        { LOBJ_SOURCE, "three", "large", "", LOBJ_NO_CHARMAP, { 5, 0, 0, 0, 0, 0 }, NULL },
        { LOBJ_CATALOG, "others", "two", "1 a\nb c", LOBJ_BAD_TEXT, { 5, 2, 1, 55, 4, 3 }, "BadMessage" },
        { LOBJ_SOURCE, "three", "UTF-8", "LC_TIME\n  abdays 1\nEND LC_TIME\n", LOBJ_BAD_TEXT, { 5, 2, 3, 37, 8, 10 }, "UnknownKeyword" },
        { LOBJ_SOURCE, "three", "UTF-8", "LC_TIME\n  abdays 1", LOBJ_BAD_TEXT, { 5, 1, 1, 4, 0, 7 }, "NoEnd" }
    };
    char message[512];
    for (size_t i = 0; i < sizeof rows / sizeof *rows; i++) {
        lobj_builder *builder = filled_builder();
        lobj_library *library = NULL;
        lobj_fault fault = untouched_fault;
        const lobj_fault *wanted = &rows[i].fault;
        CHECK(is(lobj_build(builder, &library, &fault, NULL, 0), LOBJ_OK, 0) && library != NULL && is_untouched_fault(&fault));
        lobj_library_free(library);
        library = NULL;
        memset(message, 'x', sizeof message);
        CHECK(is(add(&builder, 3, "n", "l", "t"), LOBJ_NO_ITEM, 0) && is(add(&builder, UINT32_MAX, "n", "l", "t"), LOBJ_NO_ITEM, 0));
        CHECK(is(add(&builder, rows[i].kind, rows[i].name, rows[i].label, rows[i].text), LOBJ_OK, 0));
        const lobj_answer answer = lobj_build(builder, &library, &fault, message, sizeof message);
        CHECK(answer.code == rows[i].code && library == NULL);
        CHECK(is_fault(&fault, wanted->part, wanted->line, wanted->column, wanted->reason, wanted->start, wanted->length));
        if (rows[i].reason != NULL) CHECK(is_message(message, answer.n, rows[i].reason, wanted->reason));
        else CHECK(answer.n == 0 && message[0] == 'x');
        lobj_builder_free(builder);
    }
}

/* More than 4096 parts of a kind, and more than 4096 locales together. */
static void refuse_many(void) {
    lobj_builder *builder = NULL;
    lobj_library *library = NULL, *nothing = NULL;
    lobj_fault fault = untouched_fault;
    char name[16];
    CHECK(is(lobj_builder_new(&builder), LOBJ_OK, 0));
    for (int i = 0; i < 4096; i++) {
        snprintf(name, sizeof name, "l%d", i);
        CHECK(is(add(&builder, LOBJ_SOURCE, name, "UTF-8", ""), LOBJ_OK, 0));
    }
    CHECK(is(lobj_build(builder, &library, &fault, NULL, 0), LOBJ_OK, 0));
    CHECK(is(lobj_join(library, library, &nothing), LOBJ_TOO_MANY, 0) && nothing == NULL);
    CHECK(is(add(&builder, LOBJ_SOURCE, "more", "UTF-8", ""), LOBJ_OK, 0));
    CHECK(is(lobj_build(builder, &nothing, &fault, NULL, 0), LOBJ_TOO_MANY, 0) && is_fault(&fault, 4096, 0, 0, 0, 0, 0));
    lobj_library_free(library);
    lobj_builder_free(builder);
}

static bool is_point(const lobj_library *library, lobj_locale locale, const char *point) {
    char text[8];
    return lobj_nl_langinfo(text, sizeof text, library, locale, LOBJ_RADIXCHAR).code == LOBJ_OK && strcmp(text, point) == 0;
}

/* What was built is read, also once it was joined with others and these are freed. */
static void join_libraries(const lobj_library *library) {
    lobj_builder *builder = filled_builder();
    lobj_library *built = NULL, *joined = NULL, *again = NULL;
    lobj_locale posix, one, half;
    lobj_fault fault = untouched_fault;
    char text[64];
    CHECK(is(lobj_build(builder, &built, &fault, NULL, 0), LOBJ_OK, 0));
    lobj_posix_locale(built, &posix);
    CHECK(is(lobj_newlocale(built, LOBJ_NUMERIC_MASK, "one", 3, posix, &one), LOBJ_OK, 0) && one.numeric == 1 && is_point(built, one, ";"));
    CHECK(is(lobj_newlocale(built, LOBJ_NUMERIC_MASK, "two", 3, posix, &one), LOBJ_OK, 0) && one.numeric == 2 && is_point(built, one, ";"));
    /* the library of more parts has another mark */
    CHECK(is(add(&builder, LOBJ_SOURCE, "half", "UTF-8", "LC_NUMERIC\ndecimal_point \"'\"\nEND LC_NUMERIC\n"), LOBJ_OK, 0));
    lobj_library_free(built);
    CHECK(is(lobj_build(builder, &built, &fault, NULL, 0), LOBJ_OK, 0));
    CHECK(is(lobj_towupper(built, one, 'q'), LOBJ_NO_LOCALE, 0));
    lobj_builder_free(builder);
    CHECK(is(lobj_join(library, built, &joined), LOBJ_OK, 0) && is(lobj_join(joined, built, &again), LOBJ_OK, 0));
    lobj_posix_locale(library, &posix);
    CHECK(is(lobj_newlocale(library, LOBJ_NUMERIC_MASK, "half", 4, posix, &half), LOBJ_OK, 0) && is_point(library, half, ","));
    CHECK(is(lobj_towupper(joined, half, 'q'), LOBJ_NO_LOCALE, 0) && is(lobj_towupper(built, half, 'q'), LOBJ_NO_LOCALE, 0));
    lobj_library_free(built);
    CHECK(is_point(joined, lobj_locale_in(joined, half), ",") && is_point(again, lobj_locale_in(again, half), ","));
    /* its name is now that of another one, which hides it */
    CHECK(is(lobj_locale_name(text, sizeof text, joined, lobj_locale_in(joined, half), LOBJ_NUMERIC_MASK), LOBJ_OK, 4) && strcmp(text, "half") == 0);
    lobj_posix_locale(joined, &posix);
    CHECK(is(lobj_newlocale(joined, LOBJ_NUMERIC_MASK, "half", 4, posix, &half), LOBJ_OK, 0) && half.numeric == 7 && is_point(joined, half, "'"));
    CHECK(is(lobj_newlocale(joined, LOBJ_NUMERIC_MASK, "us", 2, posix, &half), LOBJ_OK, 0) && half.numeric == 1);
    CHECK(is(lobj_library_name(text, sizeof text, joined, 5), LOBJ_OK, 3) && strcmp(text, "one") == 0);
    CHECK(is(lobj_library_name(text, sizeof text, joined, 8), LOBJ_NO_ITEM, 0));
    lobj_library_free(joined);
    CHECK(is(lobj_library_name(text, sizeof text, again, 10), LOBJ_OK, 4) && strcmp(text, "half") == 0);
    lobj_library_free(again);
}

/* Whether the first text joined with the second has this radix character in its native locale. */
static bool is_native_point(const char *first, const char *second, const char *point) {
    lobj_library *one = NULL, *other = NULL, *joined = NULL;
    lobj_locale posix, native;
    lobj_fault fault;
    CHECK(is(lobj_read(first, strlen(first), &one, &fault, NULL, 0), LOBJ_OK, 0));
    CHECK(is(lobj_read(second, strlen(second), &other, &fault, NULL, 0), LOBJ_OK, 0));
    CHECK(is(lobj_join(one, other, &joined), LOBJ_OK, 0));
    lobj_library_free(one);
    lobj_library_free(other);
    lobj_posix_locale(joined, &posix);
    CHECK(is(lobj_newlocale(joined, LOBJ_NUMERIC_MASK, NULL, 0, posix, &native), LOBJ_OK, 0));
    const bool is_right = is_point(joined, native, point);
    lobj_library_free(joined);
    return is_right;
}

/* The native locale of a join is the second's, if it names one, be it the POSIX locale. */
static void join_native_locales(void) {
    static const char de[] = ".locale de UTF-8\nLC_NUMERIC\ndecimal_point \",\"\nEND LC_NUMERIC\n.end\n.native de\n";
    static const char fa[] = ".locale fa UTF-8\nLC_NUMERIC\ndecimal_point \"/\"\nEND LC_NUMERIC\n.end\n.native fa\n";
    static const char unnamed[] = ".locale fa UTF-8\n.end\n", posix[] = ".native C\n", also_posix[] = ".native POSIX\n";
    CHECK(is_native_point(de, fa, "/") && is_native_point(fa, de, ","));
    CHECK(is_native_point(de, unnamed, ",") && is_native_point(unnamed, de, ",") && is_native_point(unnamed, unnamed, "."));
    CHECK(is_native_point(de, posix, ".") && is_native_point(de, also_posix, ".") && is_native_point(posix, de, ","));
}

/* The library that joins two, each of one message catalog with such a text. */
static lobj_library *joined_catalogs(const char *const texts[2]) {
    lobj_library *parts[2] = { NULL, NULL }, *joined = NULL;
    for (int i = 0; i < 2; i++) {
        lobj_builder *builder = NULL;
        lobj_fault fault = untouched_fault;
        CHECK(is(lobj_builder_new(&builder), LOBJ_OK, 0));
        CHECK(is(add(&builder, LOBJ_CATALOG, "words", "C", texts[i]), LOBJ_OK, 0));
        CHECK(is(lobj_build(builder, &parts[i], &fault, NULL, 0), LOBJ_OK, 0));
        lobj_builder_free(builder);
    }
    CHECK(is(lobj_join(parts[0], parts[1], &joined), LOBJ_OK, 0));
    for (int i = 0; i < 2; i++) lobj_library_free(parts[i]);
    return joined;
}

/*
 * Libraries that join the same parts in the same order take each other's locales and catalogs. Those of other parts
 * refuse them, also where one byte of the first is one more and one of the second one less, and of another order.
 */
static void mark_joined(void) {
    static const char *const texts[][2] = { { "1 x", "1 xy" }, { "1 x", "1 xy" }, { "1 y", "1 wy" }, { "1 xy", "1 x" } };
    lobj_library *const first = joined_catalogs(texts[0]);
    lobj_locale posix;
    lobj_catalog catalog;
    char text[8];
    lobj_posix_locale(first, &posix);
    CHECK(is(lobj_catopen(first, posix, "words", 5, &catalog), LOBJ_OK, 0) && catalog.number == 1);
    for (int i = 0; i < 4; i++) {
        lobj_library *const other = joined_catalogs(texts[i]);
        const bool same = i < 2;
        CHECK(is(lobj_towupper(other, posix, 'q'), same ? LOBJ_OK : LOBJ_NO_LOCALE, same ? 'Q' : 0));
        CHECK(is(lobj_catgets(text, sizeof text, other, catalog, 1, 1), same ? LOBJ_OK : LOBJ_NO_CATALOG, same ? 2 : 0));
        lobj_library_free(other);
    }
    lobj_library_free(first);
}

/* Messages by their catalog, set and number; what is no catalog of the library, or no message, leaves the buffer. */
static void read_messages(const lobj_library *library) {
    lobj_locale posix, half, nothing;
    lobj_catalog catalog = { 5, 5 }, own, other;
    char text[64];
    lobj_posix_locale(library, &posix);
    nothing = half = posix;
    nothing.mark++;
    half.messages = 2;
    CHECK(is(lobj_catopen(library, nothing, "words", 5, &catalog), LOBJ_NO_LOCALE, 0));
    CHECK(is(lobj_catopen(library, posix, "word", 4, &catalog), LOBJ_NO_CATALOG, 0));
    CHECK(is(lobj_catopen(library, posix, NULL, 0, &catalog), LOBJ_NO_CATALOG, 0) && catalog.mark == 5 && catalog.number == 5);
    CHECK(is(lobj_catopen(library, posix, "words", 5, &own), LOBJ_OK, 0) && own.mark == posix.mark && own.number == 0);
    CHECK(is(lobj_catopen(library, half, "words", 5, &other), LOBJ_OK, 0) && other.mark == posix.mark && other.number == 1);
    CHECK(is(lobj_catgets(text, sizeof text, library, own, 1, 1), LOBJ_OK, 3) && strcmp(text, "one") == 0);
    CHECK(is(lobj_catgets(text, sizeof text, library, other, 1, 1), LOBJ_OK, 4) && strcmp(text, "eins") == 0);
    CHECK(is(lobj_catgets(text, sizeof text, library, own, 2, 7), LOBJ_OK, 12) && strcmp(text, "seven of two") == 0);
    CHECK(is(lobj_catgets(text, sizeof text, library, own, 7, 2), LOBJ_NO_MESSAGE, 0) && is(lobj_catgets(text, 0, library, other, 2, 7), LOBJ_NO_MESSAGE, 0));
    CHECK(is_small(lobj_catgets(text, 12, library, own, 2, 7), 13) && is_small(lobj_catgets(NULL, 0, library, own, 1, 1), 4));
    CHECK(is(lobj_catgets(text, sizeof text, library, catalog, 1, 1), LOBJ_NO_CATALOG, 0) && strcmp(text, "seven of two") == 0);
    other.number = 2;
    CHECK(is(lobj_catgets(text, sizeof text, library, other, 1, 1), LOBJ_NO_CATALOG, 0));
    CHECK(strcmp(lobj_catgets_or(text, sizeof text, library, own, 1, 1, "else"), "one") == 0);
    CHECK(strcmp(lobj_catgets_or(text, sizeof text, library, own, 1, 2, "else"), "else") == 0);
}

static bool is_same(lobj_locale a, lobj_locale b) {
    return a.mark == b.mark && a.ctype == b.ctype && a.numeric == b.numeric && a.monetary == b.monetary &&
           a.time == b.time && a.messages == b.messages;
}

/* A locale has each category by its own field, and each field is checked. */
static void make_locales(const lobj_library *library) {
    static const char other_text[] = ".locale us UTF-8\n.end\n";
    lobj_locale posix, us, again, wrong_one;
    lobj_library *other = NULL, *twin = NULL;
    lobj_fault fault;
    char text[64];
    lobj_posix_locale(library, &posix);
    us = posix;
    CHECK(is(lobj_newlocale(library, 32, "us", 2, posix, &us), LOBJ_BAD_MASK, 0));
    CHECK(is(lobj_newlocale(library, LOBJ_ALL_MASK, "de", 2, posix, &us), LOBJ_NO_DATA, LOBJ_CTYPE_MASK));
    CHECK(is(lobj_newlocale(library, LOBJ_TIME_MASK | LOBJ_NUMERIC_MASK, "half", 4, posix, &us), LOBJ_NO_DATA, LOBJ_TIME_MASK));
    CHECK(is_same(us, posix));
    CHECK(is(lobj_newlocale(library, LOBJ_CTYPE_MASK | LOBJ_MONETARY_MASK, "us", 2, posix, &us), LOBJ_OK, 0));
    CHECK(us.ctype == 1 && us.numeric == 0 && us.monetary == 1 && us.time == 0 && us.messages == 0);
    CHECK(is(lobj_newlocale(library, LOBJ_NUMERIC_MASK, "", 0, us, &again), LOBJ_OK, 0));
    CHECK(again.ctype == 1 && again.numeric == 2 && again.monetary == 1 && again.time == 0 && again.messages == 0);
    CHECK(is(lobj_nl_langinfo(text, sizeof text, library, again, LOBJ_RADIXCHAR), LOBJ_OK, 1) && strcmp(text, ",") == 0);
    CHECK(is(lobj_nl_langinfo(text, sizeof text, library, again, LOBJ_CRNCYSTR), LOBJ_OK, 2) && strcmp(text, "-$") == 0);
    CHECK(is(lobj_nl_langinfo(text, sizeof text, library, us, LOBJ_RADIXCHAR), LOBJ_OK, 1) && strcmp(text, ".") == 0);
    uint32_t *const fields[] = { &wrong_one.ctype, &wrong_one.numeric, &wrong_one.monetary, &wrong_one.time, &wrong_one.messages };
    for (int i = 0; i < 5; i++) {
        wrong_one = posix;
        *fields[i] = 2;
        CHECK(is(lobj_towupper(library, wrong_one, 'q'), LOBJ_OK, 'Q'));
        *fields[i] = 5;
        CHECK(is(lobj_towupper(library, wrong_one, 'q'), LOBJ_NO_LOCALE, 0));
        CHECK(is(lobj_newlocale(library, LOBJ_NUMERIC_MASK, "us", 2, wrong_one, &us), LOBJ_NO_LOCALE, 0));
    }
    CHECK(is(lobj_read(other_text, strlen(other_text), &other, &fault, text, sizeof text), LOBJ_OK, 0));
    CHECK(is(lobj_towupper(other, posix, 'q'), LOBJ_NO_LOCALE, 0));
    lobj_library_free(other);
    CHECK(is(lobj_read(sources, strlen(sources), &twin, &fault, text, sizeof text), LOBJ_OK, 0));
    CHECK(is(lobj_towupper(twin, posix, 'q'), LOBJ_OK, 'Q'));
    lobj_library_free(twin);
}

static bool is_name(const lobj_library *library, lobj_locale locale, uint32_t mask, const char *name) {
    char text[128];
    return is(lobj_locale_name(text, sizeof text, library, locale, mask), LOBJ_OK, strlen(name)) && strcmp(text, name) == 0;
}

/* The name of each category by its own mask, and of all: the common one or the mixed one, which newlocale reads again. */
static void name_locales(const lobj_library *library, lobj_locale us) {
    static const char mixed[] = "LC_CTYPE=us;LC_NUMERIC=half;LC_MONETARY=us;LC_TIME=eras;LC_MESSAGES=C";
    static const char *const names[] = { "C", "us", "half", "eras", "cased" };
    lobj_locale posix, several, again, nothing = us;
    char text[128];
    nothing.mark++;
    lobj_posix_locale(library, &posix);
    several = us;
    several.numeric = 2;
    several.time = 3;
    CHECK(is_name(library, several, LOBJ_CTYPE_MASK, "us") && is_name(library, several, LOBJ_NUMERIC_MASK, "half"));
    CHECK(is_name(library, several, LOBJ_MONETARY_MASK, "us") && is_name(library, several, LOBJ_TIME_MASK, "eras"));
    CHECK(is_name(library, several, LOBJ_MESSAGES_MASK, "C"));
    CHECK(is_name(library, posix, LOBJ_ALL_MASK, "C") && is_name(library, several, LOBJ_ALL_MASK, mixed));
    CHECK(is(lobj_newlocale(library, LOBJ_ALL_MASK, mixed, strlen(mixed), posix, &again), LOBJ_OK, 0) && is_same(again, several));
    for (uint32_t mask = 0; mask < 64; mask++) {
        if (mask == 1 || mask == 2 || mask == 4 || mask == 8 || mask == 16 || mask == 31) continue;
        CHECK(is(lobj_locale_name(text, sizeof text, library, us, mask), LOBJ_BAD_MASK, 0));
    }
    CHECK(is(lobj_locale_name(text, sizeof text, library, nothing, LOBJ_ALL_MASK), LOBJ_NO_LOCALE, 0));
    memset(text, 'x', sizeof text);
    for (size_t size = 0; size < sizeof mixed; size++) {
        CHECK(is_small(lobj_locale_name(text, size, library, several, LOBJ_ALL_MASK), sizeof mixed));
    }
    CHECK(text[0] == 'x');
    CHECK(is(lobj_locale_name(text, sizeof mixed, library, several, LOBJ_ALL_MASK), LOBJ_OK, strlen(mixed)));
    CHECK(text[sizeof mixed] == 'x');
    for (uint32_t i = 0; i < sizeof names / sizeof *names; i++) {
        CHECK(is(lobj_library_name(text, sizeof text, library, i), LOBJ_OK, strlen(names[i])) && strcmp(text, names[i]) == 0);
    }
    CHECK(is(lobj_library_name(text, sizeof text, library, 5), LOBJ_NO_ITEM, 0));
    CHECK(is(lobj_library_name(text, sizeof text, library, UINT32_MAX), LOBJ_NO_ITEM, 0));
    CHECK(is_small(lobj_library_name(text, 2, library, 1), 3));
}

/* Numbers that were printed are read back, and what is no number of an int64_t leaves the place for it. */
static void read_numbers(const lobj_library *library, lobj_locale us) {
    static const int64_t numbers[] = { 0, 7, -7, 999, 1000, 1234567, -1234567, INT64_MAX, INT64_MIN };
    static const char *const others[] = { "", "-", "-0", "1000", "1,00", "01", "+1", " 1", "1 ", "9,223,372,036,854,775,808",
                                          "-9,223,372,036,854,775,809", "18,446,744,073,709,551,615", "1.5", "x" };
    lobj_locale nothing = us;
    char text[64];
    int64_t number = 5;
    nothing.mark++;
    for (size_t i = 0; i < sizeof others / sizeof *others; i++) {
        CHECK(is(lobj_int_read(library, us, others[i], strlen(others[i]), &number), LOBJ_MISMATCH, 0) && number == 5);
    }
    CHECK(is(lobj_int_read(library, nothing, "1", 1, &number), LOBJ_NO_LOCALE, 0) && number == 5);
    for (size_t i = 0; i < sizeof numbers / sizeof *numbers; i++) {
        lobj_answer printed = lobj_int_format(text, sizeof text, library, us, "%'d", 3, &numbers[i], 1);
        CHECK(is(lobj_int_read(library, us, text, printed.n, &number), LOBJ_OK, 0) && number == numbers[i]);
    }
}

static bool is_cased(lobj_answer answer, const char *text, const char *wanted) {
    return is(answer, LOBJ_OK, strlen(wanted)) && strcmp(text, wanted) == 0;
}

/* Characters that get shorter and longer, that stay, and texts that are not UTF-8. */
static void map_texts(const lobj_library *library, lobj_locale us) {
    static const char lower[] = "q\xc3\xa9\xc4\xb1\xc9\x90" "a-\xe2\x82\xac\xf0\x9f\x99\x82";
    static const char upper[] = "Q\xc3\x89I\xe2\xb1\xaf" "a-\xe2\x82\xac\xf0\x9f\x99\x82";
    static const struct {
        const char *text;
        size_t good;
    } wrong[] = { { "ab\x80", 2 }, { "\xc3", 0 }, { "q\xed\xa0\x80", 1 }, { "\xc3\xa9\xff", 2 }, { "\xf4\x90\x80\x80", 0 } };
    lobj_locale cased = us, posix, nothing = us;
    char text[64];
    cased.ctype = 4;
    nothing.mark++;
    lobj_posix_locale(library, &posix);
    CHECK(is_cased(lobj_upper_text(text, sizeof text, library, cased, lower, strlen(lower)), text, upper));
    CHECK(is_cased(lobj_lower_text(text, sizeof text, library, cased, "Q\xc3\x89QA", 5), text, "q\xc3\xa9qA"));
    CHECK(is_cased(lobj_upper_text(text, sizeof text, library, us, "straw!", 6), text, "STRAW!"));
    CHECK(is_cased(lobj_upper_text(text, 1, library, us, "", 0), text, ""));
    CHECK(is_small(lobj_upper_text(text, 0, library, us, "", 0), 1));
    memset(text, 'x', sizeof text);
    for (size_t size = 0; size < sizeof upper; size++) {
        CHECK(is_small(lobj_upper_text(text, size, library, cased, lower, strlen(lower)), sizeof upper));
    }
    CHECK(text[0] == 'x');
    for (size_t i = 0; i < sizeof wrong / sizeof *wrong; i++) {
        CHECK(is(lobj_upper_text(text, sizeof text, library, us, wrong[i].text, strlen(wrong[i].text)), LOBJ_BAD_CHARACTER, wrong[i].good));
        CHECK(is(lobj_lower_text(text, 0, library, us, wrong[i].text, strlen(wrong[i].text)), LOBJ_BAD_CHARACTER, wrong[i].good));
    }
    CHECK(text[0] == 'x');
    CHECK(is(lobj_upper_text(text, sizeof text, library, posix, "q", 1), LOBJ_NOT_UTF8, 0));
    CHECK(is(lobj_lower_text(text, sizeof text, library, nothing, "q", 1), LOBJ_NO_LOCALE, 0));
}

/* A null stands for a text, a buffer or a list of size 0. */
static void hand_nulls(const lobj_library *library, lobj_locale us) {
    lobj_library *empty = NULL;
    lobj_fault fault;
    lobj_locale made;
    lobj_parsed fields;
    int64_t number = 5;
    CHECK(is(lobj_read(NULL, 0, &empty, &fault, NULL, 0), LOBJ_OK, 0) && empty != NULL);
    lobj_library_free(empty);
    CHECK(is(lobj_newlocale(library, LOBJ_NUMERIC_MASK, NULL, 0, us, &made), LOBJ_OK, 0) && made.numeric == 2);
    CHECK(is_small(lobj_locale_name(NULL, 0, library, us, LOBJ_CTYPE_MASK), 3));
    CHECK(is_small(lobj_library_name(NULL, 0, library, 0), 2));
    CHECK(is_small(lobj_strfmon(NULL, 0, library, us, NULL, 0, NULL, 0), 1));
    CHECK(is_small(lobj_strftime(NULL, 0, library, us, NULL, 0, &sunday, NULL, 0), 1));
    CHECK(is_small(lobj_int_format(NULL, 0, library, us, NULL, 0, NULL, 0), 1));
    CHECK(is(lobj_int_read(library, us, NULL, 0, &number), LOBJ_MISMATCH, 0));
    CHECK(is_small(lobj_nl_langinfo(NULL, 0, library, us, LOBJ_CODESET), 6));
    CHECK(is_small(lobj_conv_text(NULL, 0, library, us, LOBJ_GROUPING), 2));
    CHECK(is(lobj_iswctype(library, us, 'e', NULL, 0), LOBJ_NO_CLASS, 0));
    CHECK(is(lobj_wctype(library, us, NULL, 0), LOBJ_NO_CLASS, 0));
    CHECK(is_small(lobj_upper_text(NULL, 0, library, us, NULL, 0), 1));
    CHECK(is_small(lobj_lower_text(NULL, 0, library, us, NULL, 0), 1));
    CHECK(is(lobj_strptime(library, us, NULL, 0, NULL, 0, &fields), LOBJ_OK, 0));
}

static void format_amounts(const lobj_library *library, lobj_locale us) {
    const lobj_amount amounts[] = { { 123456789, 2 }, { -5, 1 } };
    const lobj_amount wrong_scale = { 1, 19 };
    lobj_locale nothing = us;
    nothing.mark++;
    char text[64];
    CHECK(is(lobj_strfmon(text, sizeof text, library, us, "%n;%n", 5, amounts, 2), LOBJ_OK, 20));
    CHECK(strcmp(text, "$1,234,567.89;-$0.50") == 0);
    memset(text, 'x', sizeof text);
    CHECK(is_small(lobj_strfmon(text, 20, library, us, "%n;%n", 5, amounts, 2), 21));
    CHECK(is_small(lobj_strfmon(text, 19, library, us, "%n;%n", 5, amounts, 2), 21));
    CHECK(text[0] == 'x' && text[19] == 'x');
    CHECK(is(lobj_strfmon(text, 21, library, us, "%n;%n", 5, amounts, 2), LOBJ_OK, 20));
    CHECK(text[20] == 0 && text[21] == 'x');
    CHECK(is(lobj_strfmon(text, sizeof text, library, us, "%n%q", 4, amounts, 2), LOBJ_BAD_FORMAT, 2));
    CHECK(is(lobj_strfmon(text, sizeof text, library, us, "%n%n", 4, amounts, 1), LOBJ_MISSING, 2));
    CHECK(is(lobj_strfmon(text, sizeof text, library, us, "%n", 2, &wrong_scale, 1), LOBJ_BAD_AMOUNT, 0));
    CHECK(is(lobj_strfmon(text, sizeof text, library, nothing, "%n", 2, amounts, 1), LOBJ_NO_LOCALE, 0));
}

static void format_times(const lobj_library *library, lobj_locale us) {
    lobj_tm off = sunday;
    lobj_locale nothing = us;
    nothing.mark++;
    char text[64];
    CHECK(is(lobj_strftime(text, sizeof text, library, us, "%A %d %B %z %Z", 14, &sunday, "CET", 3), LOBJ_OK, 27));
    CHECK(strcmp(text, "Sunday 03 January +0100 CET") == 0);
    memset(text, 'x', sizeof text);
    CHECK(is_small(lobj_strftime(text, 6, library, us, "%A", 2, &sunday, "", 0), 7));
    CHECK(text[0] == 'x');
    CHECK(is(lobj_strftime(text, 7, library, us, "%A", 2, &sunday, "", 0), LOBJ_OK, 6));
    CHECK(is(lobj_strftime(text, 1, library, us, "", 0, &sunday, "", 0), LOBJ_OK, 0));
    CHECK(is_small(lobj_strftime(text, 0, library, us, "", 0, &sunday, "", 0), 1));
    CHECK(is(lobj_strftime(text, sizeof text, library, us, "%A%", 3, &sunday, "", 0), LOBJ_BAD_FORMAT, 2));
    int32_t *const fields[] = { &off.year, &off.mon, &off.mday, &off.hour, &off.min, &off.sec, &off.wday, &off.yday, &off.offset };
    for (size_t i = 0; i < sizeof fields / sizeof *fields; i++) {
        off = sunday;
        *fields[i] = 10000;
        CHECK(is(lobj_strftime(text, sizeof text, library, us, "%A", 2, &off, "", 0), LOBJ_TM_RANGE, i + 1));
    }
    off.has_offset = false;
    CHECK(is(lobj_strftime(text, sizeof text, library, us, "%z", 2, &off, "", 0), LOBJ_OK, 0));
    CHECK(is(lobj_strftime(text, sizeof text, library, nothing, "%A", 2, &sunday, "", 0), LOBJ_NO_LOCALE, 0));
}

static void format_numbers(const lobj_library *library, lobj_locale us) {
    const int64_t numbers[] = { 1234567, INT64_MIN };
    lobj_locale nothing = us;
    nothing.mark++;
    char text[64];
    CHECK(is(lobj_int_format(text, sizeof text, library, us, "%'d %d", 6, numbers, 2), LOBJ_OK, 30));
    CHECK(strcmp(text, "1,234,567 -9223372036854775808") == 0);
    CHECK(is_small(lobj_int_format(text, 30, library, us, "%'d %d", 6, numbers, 2), 31));
    CHECK(is(lobj_int_format(text, sizeof text, library, us, "%x", 2, numbers, 2), LOBJ_BAD_FORMAT, 0));
    CHECK(is(lobj_int_format(text, sizeof text, library, us, "%d", 2, numbers, 0), LOBJ_MISSING, 0));
    CHECK(is(lobj_int_format(text, sizeof text, library, nothing, "%d", 2, numbers, 2), LOBJ_NO_LOCALE, 0));
}

static void ask_class_numbers(const lobj_library *library, lobj_locale us) {
    static const char *const names[] = { "upper", "lower", "alpha", "digit", "alnum", "space", "cntrl",
                                         "punct", "graph", "print", "xdigit", "blank", "vowel" };
    enum { COUNT = sizeof names / sizeof *names };
    lobj_locale nothing = us;
    nothing.mark++;
    for (int i = 0; i < COUNT; i++) {
        lobj_answer number = lobj_wctype(library, us, names[i], strlen(names[i]));
        CHECK(is(number, LOBJ_OK, number.n) && number.n < COUNT);
        for (uint32_t value = 0; value < 0x180; value++) {
            lobj_answer named = lobj_iswctype(library, us, value, names[i], strlen(names[i]));
            CHECK(is(lobj_isclass(library, us, value, number.n), LOBJ_OK, named.n));
        }
    }
    for (uint32_t value = 0; value < 0x180; value++) {
        size_t bits = 0;
        for (size_t number = 0; number < COUNT; number++) bits |= lobj_isclass(library, us, value, number).n << number;
        CHECK(is(lobj_classes_of(library, us, value), LOBJ_OK, bits));
    }
    CHECK(is(lobj_classes_of(library, nothing, 'e'), LOBJ_NO_LOCALE, 0));
    size_t vowel = lobj_wctype(library, us, "vowel", 5).n;
    CHECK(is(lobj_isclass(library, us, 'e', vowel), LOBJ_OK, 1));
    CHECK(is(lobj_isclass(library, us, 'f', vowel), LOBJ_OK, 0));
    CHECK(is(lobj_isclass(library, us, 'e', COUNT), LOBJ_NO_CLASS, 0));
    CHECK(is(lobj_isclass(library, us, 'e', SIZE_MAX), LOBJ_NO_CLASS, 0));
    CHECK(is(lobj_isclass(library, nothing, 'e', vowel), LOBJ_NO_LOCALE, 0));
    CHECK(is(lobj_wctype(library, us, "consonant", 9), LOBJ_NO_CLASS, 0));
    CHECK(is(lobj_wctype(library, nothing, "vowel", 5), LOBJ_NO_LOCALE, 0));
}

static void ask_items_and_classes(const lobj_library *library, lobj_locale us) {
    lobj_locale nothing = us;
    nothing.mark++;
    char text[64];
    CHECK(is(lobj_nl_langinfo(text, sizeof text, library, us, LOBJ_CODESET), LOBJ_OK, 5) && strcmp(text, "UTF-8") == 0);
    CHECK(is(lobj_nl_langinfo(text, sizeof text, library, us, LOBJ_MON_12), LOBJ_OK, 8) && strcmp(text, "December") == 0);
    CHECK(is(lobj_nl_langinfo(text, 5, library, us, LOBJ_CODESET), LOBJ_TOO_SMALL, 6));
    CHECK(is(lobj_nl_langinfo(text, sizeof text, library, us, LOBJ_CRNCYSTR + 1), LOBJ_NO_ITEM, 0));
    CHECK(is(lobj_nl_langinfo(text, sizeof text, library, nothing, LOBJ_CODESET), LOBJ_NO_LOCALE, 0));
    CHECK(is(lobj_iswctype(library, us, 'e', "vowel", 5), LOBJ_OK, 1));
    CHECK(is(lobj_iswctype(library, us, 'f', "vowel", 5), LOBJ_OK, 0));
    CHECK(is(lobj_iswctype(library, us, 'f', "consonant", 9), LOBJ_NO_CLASS, 0));
    CHECK(is(lobj_iswctype(library, nothing, 'f', "vowel", 5), LOBJ_NO_LOCALE, 0));
    ask_class_numbers(library, us);
    CHECK(is(lobj_towupper(library, us, 'q'), LOBJ_OK, 'Q'));
    CHECK(is(lobj_towlower(library, us, 'Q'), LOBJ_OK, 'q'));
    CHECK(is(lobj_towupper(library, nothing, 'q'), LOBJ_NO_LOCALE, 0));
    CHECK(is(lobj_towlower(library, nothing, 'q'), LOBJ_NO_LOCALE, 0));
}

/* The numbers of localeconv by the names of their keywords. */
static void ask_numbers_of_money(void) {
    static const struct {
        const char *keyword;
        size_t at;
    } rows[] = {
#define ROW(field) { #field, offsetof(lobj_lconv, field) }
        ROW(int_frac_digits), ROW(frac_digits), ROW(p_cs_precedes), ROW(p_sep_by_space), ROW(n_cs_precedes),
        ROW(n_sep_by_space), ROW(p_sign_posn), ROW(n_sign_posn), ROW(int_p_cs_precedes), ROW(int_n_cs_precedes),
        ROW(int_p_sep_by_space), ROW(int_n_sep_by_space), ROW(int_p_sign_posn), ROW(int_n_sign_posn)
#undef ROW
    };
    for (size_t i = 0; i < sizeof rows / sizeof *rows; i++) {
        char source[128], line[64];
        lobj_library *library = NULL;
        lobj_locale money;
        lobj_lconv fields;
        lobj_fault fault;
        int length = snprintf(source, sizeof source, ".locale m UTF-8\nLC_MONETARY\n%s 1\nEND LC_MONETARY\n.end\n", rows[i].keyword);
        CHECK(is(lobj_read(source, (size_t)length, &library, &fault, line, sizeof line), LOBJ_OK, 0));
        if (library == NULL) continue;
        lobj_posix_locale(library, &money);
        CHECK(is(lobj_newlocale(library, LOBJ_MONETARY_MASK, "m", 1, money, &money), LOBJ_OK, 0));
        CHECK(is(lobj_localeconv(library, money, &fields), LOBJ_OK, 0));
        for (size_t k = 0; k < sizeof rows / sizeof *rows; k++) {
            CHECK(((const uint8_t *)&fields)[rows[k].at] == (k == i ? 1 : 127));
        }
        lobj_library_free(library);
    }
}

static void ask_conventions(const lobj_library *library, lobj_locale us) {
    static const char *const texts[] = { ".", ",", "\3", "USD ", "$", ".", ",", "\3", "", "-" };
    static const uint32_t numbers[] = { LOBJ_DECIMAL_POINT, LOBJ_THOUSANDS_SEP, LOBJ_GROUPING, LOBJ_INT_CURR_SYMBOL,
                                        LOBJ_CURRENCY_SYMBOL, LOBJ_MON_DECIMAL_POINT, LOBJ_MON_THOUSANDS_SEP,
                                        LOBJ_MON_GROUPING, LOBJ_POSITIVE_SIGN, LOBJ_NEGATIVE_SIGN };
    lobj_lconv fields;
    lobj_locale nothing = us, half = us;
    char text[64];
    nothing.mark++;
    memset(&fields, 1, sizeof fields);
    CHECK(is(lobj_localeconv(library, nothing, &fields), LOBJ_NO_LOCALE, 0) && fields.frac_digits == 1);
    CHECK(is(lobj_localeconv(library, us, &fields), LOBJ_OK, 0));
    CHECK(fields.frac_digits == 2 && fields.n_sign_posn == 1);
    for (size_t i = 0; i < sizeof texts / sizeof *texts; i++) {
        size_t length = strlen(texts[i]);
        CHECK(is(lobj_conv_text(text, sizeof text, library, us, numbers[i]), LOBJ_OK, length));
        CHECK(strcmp(text, texts[i]) == 0);
        CHECK(is(lobj_conv_text(text, length, library, us, numbers[i]), LOBJ_TOO_SMALL, length + 1));
    }
    half.numeric = 2;
    CHECK(is(lobj_conv_text(text, sizeof text, library, half, LOBJ_DECIMAL_POINT), LOBJ_OK, 1) && text[0] == ',');
    CHECK(is(lobj_conv_text(text, sizeof text, library, half, LOBJ_MON_DECIMAL_POINT), LOBJ_OK, 1) && text[0] == '.');
    CHECK(is(lobj_conv_text(text, sizeof text, library, us, 10), LOBJ_NO_ITEM, 0));
    CHECK(is(lobj_conv_text(text, sizeof text, library, nothing, 0), LOBJ_NO_LOCALE, 0));
    ask_numbers_of_money();
}

/* Each item of the POSIX locale, but with the eras of another. */
static void ask_items(const lobj_library *library) {
    static const struct {
        uint32_t item;
        const char *text;
    } rows[] = {
        { LOBJ_D_T_FMT, "%a %b %e %H:%M:%S %Y" }, { LOBJ_D_FMT, "%m/%d/%y" }, { LOBJ_T_FMT, "%H:%M:%S" },
        { LOBJ_T_FMT_AMPM, "%I:%M:%S %p" }, { LOBJ_AM_STR, "AM" }, { LOBJ_PM_STR, "PM" },
        { LOBJ_DAY_1, "Sunday" }, { LOBJ_DAY_2, "Monday" }, { LOBJ_DAY_3, "Tuesday" }, { LOBJ_DAY_4, "Wednesday" },
        { LOBJ_DAY_5, "Thursday" }, { LOBJ_DAY_6, "Friday" }, { LOBJ_DAY_7, "Saturday" },
        { LOBJ_ABDAY_1, "Sun" }, { LOBJ_ABDAY_2, "Mon" }, { LOBJ_ABDAY_3, "Tue" }, { LOBJ_ABDAY_4, "Wed" },
        { LOBJ_ABDAY_5, "Thu" }, { LOBJ_ABDAY_6, "Fri" }, { LOBJ_ABDAY_7, "Sat" },
        { LOBJ_MON_1, "January" }, { LOBJ_MON_2, "February" }, { LOBJ_MON_3, "March" }, { LOBJ_MON_4, "April" },
        { LOBJ_MON_5, "May" }, { LOBJ_MON_6, "June" }, { LOBJ_MON_7, "July" }, { LOBJ_MON_8, "August" },
        { LOBJ_MON_9, "September" }, { LOBJ_MON_10, "October" }, { LOBJ_MON_11, "November" },
        { LOBJ_MON_12, "December" },
        { LOBJ_ABMON_1, "Jan" }, { LOBJ_ABMON_2, "Feb" }, { LOBJ_ABMON_3, "Mar" }, { LOBJ_ABMON_4, "Apr" },
        { LOBJ_ABMON_5, "May" }, { LOBJ_ABMON_6, "Jun" }, { LOBJ_ABMON_7, "Jul" }, { LOBJ_ABMON_8, "Aug" },
        { LOBJ_ABMON_9, "Sep" }, { LOBJ_ABMON_10, "Oct" }, { LOBJ_ABMON_11, "Nov" }, { LOBJ_ABMON_12, "Dec" },
        { LOBJ_RADIXCHAR, "." }, { LOBJ_THOUSEP, "" }, { LOBJ_YESEXPR, "^[yY]" }, { LOBJ_NOEXPR, "^[nN]" }
    };
    static const struct {
        uint32_t item;
        const char *text;
    } eras[] = { { LOBJ_ERA, "+:1:2000/01/01:+*:E:%EC" }, { LOBJ_ERA_D_FMT, "era d" }, { LOBJ_ERA_D_T_FMT, "era d t" },
                 { LOBJ_ERA_T_FMT, "era t" }, { LOBJ_ALT_DIGITS, "zero" } };
    lobj_locale posix, era;
    char text[64];
    lobj_posix_locale(library, &posix);
    for (size_t i = 0; i < sizeof rows / sizeof *rows; i++) {
        CHECK(is(lobj_nl_langinfo(text, sizeof text, library, posix, rows[i].item), LOBJ_OK, strlen(rows[i].text)));
        CHECK(strcmp(text, rows[i].text) == 0);
    }
    CHECK(is(lobj_newlocale(library, LOBJ_TIME_MASK, "eras", 4, posix, &era), LOBJ_OK, 0));
    for (size_t i = 0; i < sizeof eras / sizeof *eras; i++) {
        CHECK(is(lobj_nl_langinfo(text, sizeof text, library, era, eras[i].item), LOBJ_OK, strlen(eras[i].text)));
        CHECK(strcmp(text, eras[i].text) == 0);
    }
}

/* All texts at once are those that are given one by one, and a buffer that is too small and the table stay. */
static void make_tables(const lobj_library *library, lobj_locale us) {
    static char buffer[4096], untouched[4096];
    lobj_table table, before;
    lobj_locale nothing = us, several = us;
    char text[64];
    nothing.mark++;
    several.time = 3;
    several.numeric = 2;
    memset(buffer, 'x', sizeof buffer);
    memset(untouched, 'x', sizeof untouched);
    memset(&table, 7, sizeof table);
    before = table;
    CHECK(is(lobj_texts(buffer, sizeof buffer, library, nothing, &table), LOBJ_NO_LOCALE, 0));
    const size_t size = lobj_texts(NULL, 0, library, several, &table).n;
    CHECK(size > LOBJ_TEXTS && size < sizeof buffer);
    CHECK(is_small(lobj_texts(buffer, size - 1, library, several, &table), size));
    CHECK(memcmp(buffer, untouched, sizeof buffer) == 0 && memcmp(&table, &before, sizeof table) == 0);
    CHECK(is(lobj_texts(buffer, size, library, several, &table), LOBJ_OK, size));
    CHECK(memcmp(buffer + size, untouched, sizeof buffer - size) == 0 && table.starts[LOBJ_TEXTS] == size);
    for (uint32_t i = 0; i < LOBJ_ITEMS; i++) {
        const lobj_answer one = lobj_nl_langinfo(text, sizeof text, library, several, i);
        CHECK(one.code == LOBJ_OK && memcmp(lobj_item_in(buffer, &table, i), text, one.n + 1) == 0);
        CHECK(table.starts[i + 1] - table.starts[i] == one.n + 1);
    }
    for (uint32_t i = 0; i < LOBJ_CONV_TEXTS; i++) {
        const lobj_answer one = lobj_conv_text(text, sizeof text, library, several, i);
        CHECK(one.code == LOBJ_OK && memcmp(lobj_conv_text_in(buffer, &table, i), text, one.n + 1) == 0);
    }
    CHECK(lobj_item_in(buffer, &table, LOBJ_ITEMS) == NULL && lobj_conv_text_in(buffer, &table, LOBJ_CONV_TEXTS) == NULL);
}

static void scan_times(const lobj_library *library, lobj_locale us) {
    lobj_parsed fields = { 5, 5, 5, 5, 5, 5, 5, 5 };
    lobj_locale nothing = us;
    nothing.mark++;
    CHECK(is(lobj_strptime(library, us, "x", 1, "%d", 2, &fields), LOBJ_MISMATCH, 0));
    CHECK(is(lobj_strptime(library, us, "7", 1, "%d%q", 4, &fields), LOBJ_BAD_FORMAT, 2));
    CHECK(is(lobj_strptime(library, nothing, "7", 1, "%d", 2, &fields), LOBJ_NO_LOCALE, 0));
    CHECK(fields.mday == 5 && fields.year == 5);
    CHECK(is(lobj_strptime(library, us, "3 January 2021.", 15, "%d %B %Y", 8, &fields), LOBJ_OK, 14));
    CHECK(fields.year == 2021 && fields.mon == 1 && fields.mday == 3 && fields.hour == -1 && fields.yday == -1);
    CHECK(is(lobj_strptime(library, us, "14:15:16 4 099", 14, "%H:%M:%S %w %j", 14, &fields), LOBJ_OK, 14));
    CHECK(fields.hour == 14 && fields.min == 15 && fields.sec == 16 && fields.wday == 4 && fields.yday == 98);
    CHECK(fields.year == -1 && fields.mon == -1 && fields.mday == -1);
}

/* The calls that give a text, each for a number. */
typedef lobj_answer text_call(char *buffer, size_t size, const lobj_library *library, lobj_locale locale, int number);

static lobj_answer money_text(char *buffer, size_t size, const lobj_library *library, lobj_locale locale, int number) {
    const lobj_amount amount = { (int64_t)number * 7919 - 300000000, (uint8_t)(number % 4) };
    return lobj_strfmon(buffer, size, library, locale, "%n", 2, &amount, 1);
}

static lobj_answer time_text(char *buffer, size_t size, const lobj_library *library, lobj_locale locale, int number) {
    lobj_tm time = sunday;
    time.sec = number % 60;
    time.wday = number % 7;
    return lobj_strftime(buffer, size, library, locale, "%A %X %z", 8, &time, "", 0);
}

static lobj_answer item_text(char *buffer, size_t size, const lobj_library *library, lobj_locale locale, int number) {
    return lobj_nl_langinfo(buffer, size, library, locale, (uint32_t)number % (LOBJ_CRNCYSTR + 1));
}

static lobj_answer number_text(char *buffer, size_t size, const lobj_library *library, lobj_locale locale, int number) {
    const int64_t value = (int64_t)number * 104729;
    return lobj_int_format(buffer, size, library, locale, "%'d", 3, &value, 1);
}

static lobj_answer conventions_text(char *buffer, size_t size, const lobj_library *library, lobj_locale locale, int number) {
    return lobj_conv_text(buffer, size, library, locale, (uint32_t)number % 10);
}

static lobj_answer name_text(char *buffer, size_t size, const lobj_library *library, lobj_locale locale, int number) {
    return lobj_locale_name(buffer, size, library, locale, 1u << number % 5);
}

static lobj_answer upper_text(char *buffer, size_t size, const lobj_library *library, lobj_locale locale, int number) {
    static const char text[] = "the quick brown fox jumps over the lazy dog";
    return lobj_upper_text(buffer, size, library, locale, text, (size_t)number % sizeof text);
}

static lobj_answer message_text(char *buffer, size_t size, const lobj_library *library, lobj_locale locale, int number) {
    lobj_catalog catalog;
    const lobj_answer opened = lobj_catopen(library, locale, "words", 5, &catalog);
    return opened.code == LOBJ_OK ? lobj_catgets(buffer, size, library, catalog, number % 2 == 0 ? 1 : 2, number % 2 == 0 ? 1 : 7) : opened;
}

static text_call *const text_calls[] = { money_text, time_text, item_text, number_text, conventions_text, name_text, upper_text, message_text };
enum { TEXT_CALLS = sizeof text_calls / sizeof *text_calls };

static bool is_untouched(const char *buffer, const char *end) {
    while (buffer < end && *buffer == 'x') buffer++;
    return buffer == end;
}

/* A buffer that is too small stays as it is, and one that just has room is written no further. */
static void try_each_size(text_call *call, const lobj_library *library, lobj_locale us) {
    char text[64], buffer[64];
    size_t length = call(text, sizeof text, library, us, 99).n;
    memset(buffer, 'x', sizeof buffer);
    for (size_t size = 0; size <= length; size++) {
        CHECK(is_small(call(buffer, size, library, us, 99), length + 1));
    }
    CHECK(is_untouched(buffer, buffer + sizeof buffer));
    CHECK(is(call(buffer, length + 1, library, us, 99), LOBJ_OK, length));
    CHECK(memcmp(buffer, text, length + 1) == 0);
    CHECK(is_untouched(buffer + length + 1, buffer + sizeof buffer));
}

/* Each of the allocations of a library fails in turn: the call says so, and leaves all as it was. */
static void run_out_of_memory(void) {
    static const char broken[] = "# a comment\n.locale\n";
    const char *const texts[] = { sources, broken };
    for (int i = 0; i < 2; i++) {
        lobj_library *out = NULL;
        lobj_fault fault = untouched_fault;
        char buffer[512];
        lobj_answer answer = { LOBJ_NO_MEMORY, 0 };
        long given = 0;
        memset(buffer, 'x', sizeof buffer);
        for (; answer.code == LOBJ_NO_MEMORY; given++) {
            CHECK(answer.n == 0 && out == NULL && is_untouched_fault(&fault));
            CHECK(is_untouched(buffer, buffer + sizeof buffer));
            blocks_left = given;
            answer = lobj_read(texts[i], strlen(texts[i]), &out, &fault, buffer, sizeof buffer);
            blocks_left = -1;
        }
        CHECK(answer.code == (i == 0 ? LOBJ_OK : LOBJ_BAD_TEXT));
        CHECK(given > 1);
        lobj_library_free(out);
    }
}

/* What building answers once it has the memory that it asks for. Until then all is as it was. */
static lobj_answer build_at_last(const lobj_builder *builder, lobj_library **out, lobj_fault *fault, char *buffer,
                                 size_t size) {
    lobj_answer answer = { LOBJ_NO_MEMORY, 0 };
    for (long given = 0; answer.code == LOBJ_NO_MEMORY; given++) {
        CHECK(*out == NULL && is_untouched_fault(fault) && is_untouched(buffer, buffer + size));
        blocks_left = given;
        answer = lobj_build(builder, out, fault, buffer, size);
        blocks_left = -1;
    }
    return answer;
}

/* So does each of a builder, of what it builds, and of libraries that are joined. */
static void run_out_in_parts(const lobj_library *library) {
    lobj_builder *builder = NULL;
    lobj_answer answer = { LOBJ_NO_MEMORY, 0 };
    lobj_fault fault = untouched_fault;
    lobj_library *built = NULL, *joined = NULL;
    char buffer[512];
    memset(buffer, 'x', sizeof buffer);
    for (long given = 0; answer.code == LOBJ_NO_MEMORY; given++) {
        CHECK(builder == NULL);
        blocks_left = given;
        answer = lobj_builder_new(&builder);
        blocks_left = -1;
    }
    answer.code = LOBJ_NO_MEMORY;
    for (long given = 0; answer.code == LOBJ_NO_MEMORY; given++) {
        blocks_left = given;
        answer = add(&builder, LOBJ_SOURCE, "one", "UTF-8", "LC_NUMERIC\ndecimal_point \";\"\nEND LC_NUMERIC\n");
        blocks_left = -1;
    }
    CHECK(answer.code == LOBJ_OK);
    answer = build_at_last(builder, &built, &fault, buffer, sizeof buffer);
    /* (the source was added once, so none has its name twice) */
    CHECK(answer.code == LOBJ_OK);
    answer.code = LOBJ_NO_MEMORY;
    for (long given = 0; answer.code == LOBJ_NO_MEMORY; given++) {
        CHECK(joined == NULL);
        blocks_left = given;
        answer = lobj_join(library, built, &joined);
        blocks_left = -1;
    }
    CHECK(answer.code == LOBJ_OK);
    lobj_library_free(joined);
    lobj_library_free(built);
    CHECK(is(add(&builder, LOBJ_SOURCE, "one", "UTF-8", ""), LOBJ_OK, 0));
    built = NULL;
    answer = build_at_last(builder, &built, &fault, buffer, sizeof buffer);
    CHECK(is(answer, LOBJ_NAME_TWICE, 0) && is_fault(&fault, 1, 0, 0, 0, 0, 0));
    lobj_builder_free(builder);
}

/* No text asks for memory: each is given where none is left. */
static void run_out_in_texts(const lobj_library *library, lobj_locale us) {
    for (int i = 0; i < TEXT_CALLS; i++) {
        char buffer[64];
        memset(buffer, 'x', sizeof buffer);
        blocks_left = 0;
        const lobj_answer answer = text_calls[i](buffer, sizeof buffer, library, us, 99);
        blocks_left = -1;
        CHECK(answer.code == LOBJ_OK);
    }
}

enum { MOST_THREADS = 64 };

static int calls = 100000;

typedef struct task {
    const lobj_library *library;
    lobj_locale locale;
    int calls;
    uint64_t sum;
} task;

/* Makes all calls, and sums up (FNV-1a) all bytes that they give. */
static void *sum_of_texts(void *given) {
    task *t = given;
    char text[64];
    t->sum = 14695981039346656037u;
    for (int i = 0; i < t->calls; i++) {
        lobj_answer answer = text_calls[i % TEXT_CALLS](text, sizeof text, t->library, t->locale, i);
        answer.code |= lobj_isclass(t->library, t->locale, (uint32_t)i % 0x180, 2).code;
        if (answer.code != LOBJ_OK) return NULL;
        for (size_t k = 0; k <= answer.n; k++) t->sum = (t->sum ^ (unsigned char)text[k]) * 1099511628211u;
    }
    return t;
}

/* So many threads read one library through one pointer, and so does the child of a fork while they do. */
static void run_threads(const lobj_library *library, lobj_locale us, int count) {
    task one = { library, us, calls / count, 0 }, tasks[MOST_THREADS];
    pthread_t threads[MOST_THREADS];
    CHECK(sum_of_texts(&one) != NULL);
    for (int i = 0; i < count; i++) {
        tasks[i] = (task){ library, us, calls / count, 0 };
        CHECK(pthread_create(&threads[i], NULL, sum_of_texts, &tasks[i]) == 0);
    }
    /* (what is joined meanwhile shares with the library that is read, and is freed before it) */
    for (int i = 0; i < 8; i++) {
        lobj_library *joined = NULL;
        CHECK(is(lobj_join(library, library, &joined), LOBJ_OK, 0));
        lobj_library_free(joined);
    }
    pid_t child = fork();
    if (child == 0) {
        task own = { library, us, TEXT_CALLS, 0 };
        lobj_answer answer = lobj_towupper(library, us, 'q');
        char text[64];
        bool holds = is(answer, LOBJ_OK, 'Q') && item_text(text, sizeof text, own.library, own.locale, 1).code == LOBJ_OK;
        _exit(holds ? 0 : 1);
    }
    int status = 1;
    CHECK(child > 0 && waitpid(child, &status, 0) == child && status == 0);
    for (int i = 0; i < count; i++) {
        void *all = NULL;
        pthread_join(threads[i], &all);
        CHECK(all != NULL && tasks[i].sum == one.sum);
    }
}

/* Reads a library, makes each kind of call on it, and frees it. */
static void *use_small_stack(void *done) {
    lobj_library *own = NULL;
    lobj_locale posix, us;
    lobj_parsed fields;
    lobj_table table;
    lobj_lconv numbers;
    char text[4096];
    int64_t number;
    read_library(&own);
    lobj_posix_locale(own, &posix);
    CHECK(is(lobj_newlocale(own, LOBJ_CTYPE_MASK | LOBJ_NUMERIC_MASK | LOBJ_MONETARY_MASK, "us", 2, posix, &us), LOBJ_OK, 0));
    for (int i = 0; i < TEXT_CALLS; i++) CHECK(text_calls[i](text, sizeof text, own, us, 99).code == LOBJ_OK);
    CHECK(lobj_strptime(own, us, "7", 1, "%d", 2, &fields).code == LOBJ_OK);
    CHECK(lobj_int_read(own, us, "7", 1, &number).code == LOBJ_OK && lobj_texts(text, sizeof text, own, us, &table).code == LOBJ_OK);
    CHECK(lobj_localeconv(own, us, &numbers).code == LOBJ_OK && lobj_classes_of(own, us, 'q').code == LOBJ_OK);
    CHECK(lobj_iswctype(own, us, 'q', "alpha", 5).n == 1 && lobj_towlower(own, us, 'Q').n == 'q');
    lobj_library_free(own);
    *(bool *)done = true;
    return NULL;
}

/* Each call is content with 64 KiB of stack, of which this test itself takes 5. (A sanitizer needs more.) */
static void use_64_kib(void) {
    pthread_attr_t attributes;
    pthread_t thread;
    bool done = false;
    CHECK(pthread_attr_init(&attributes) == 0);
#if !defined __SANITIZE_ADDRESS__ && !defined __SANITIZE_THREAD__
    CHECK(pthread_attr_setstacksize(&attributes, 1 << 16) == 0);
#endif
    CHECK(pthread_create(&thread, &attributes, use_small_stack, &done) == 0 && pthread_join(thread, NULL) == 0 && done);
    pthread_attr_destroy(&attributes);
}

int main(int count, char **words) {
    if (count > 1) calls = atoi(words[1]);
    lobj_library *own = NULL;
    lobj_locale posix, us;
    read_library(&own);
    if (own == NULL) return 1;
    const lobj_library *library = own;
    refuse_texts();
    free_nulls();
    make_locales(library);
    lobj_posix_locale(library, &posix);
    CHECK(is(lobj_newlocale(library, LOBJ_CTYPE_MASK | LOBJ_NUMERIC_MASK | LOBJ_MONETARY_MASK, "us", 2, posix, &us), LOBJ_OK, 0));
    CHECK(lobj_version() == LOBJ_VERSION_NUMBER);
    name_locales(library, us);
    hand_nulls(library, us);
    read_numbers(library, us);
    map_texts(library, us);
    format_amounts(library, us);
    format_times(library, us);
    format_numbers(library, us);
    ask_items_and_classes(library, us);
    ask_items(library);
    ask_conventions(library, us);
    make_tables(library, us);
    scan_times(library, us);
    for (int i = 0; i < TEXT_CALLS; i++) try_each_size(text_calls[i], library, us);
    ask_reasons();
    refuse_parts();
    refuse_many();
    join_libraries(library);
    join_native_locales();
    mark_joined();
    read_messages(library);
    run_out_of_memory();
    run_out_in_parts(library);
    run_out_in_texts(library, us);
    use_64_kib();
    run_threads(library, us, 2);
    run_threads(library, us, 16);
    run_threads(library, us, MOST_THREADS);
    lobj_library_free(own);
    puts(wrong ? "calls: not as wanted" : "calls: as wanted");
    return wrong;
}
