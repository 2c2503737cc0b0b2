/*
 * Times calls of this library and the same calls of the C library in one process, on 1, 2 and 4 threads,
 * under a locale that localedef compiled from the same source: bench/c/run makes it and runs this. First
 * looks whether both give the same bytes. Times this library and the C library by turns, on each number of
 * threads, in ROUNDS rounds, so that all see the same machine. Prints nanoseconds a call and thread, each
 * the middle of the rounds, the ratio, and by how much all threads do more than half as many did, of this
 * library and of the C library. With a second word only makes each call so many times, on one thread, for a
 * tool that counts.
 */
#define _GNU_SOURCE
#include "locale_objects.h"
#include <langinfo.h>
#include <locale.h>
#include <monetary.h>
#include <pthread.h>
#include <stdio.h>
#include <stdlib.h>
#include <string.h>
#include <time.h>
#include <wchar.h>
#include <wctype.h>

#define LONG_FORMAT "%A %d %B %c"
#define DATE_FORMAT "%A, %d %B %Y"
#define STAMP_FORMAT "%Y-%m-%dT%H:%M:%S"

enum { MOST_THREADS = 4, COUNTS = 3, ROUNDS = 15 };

/* What a thread has; the library is that of all. */
typedef struct side {
    const lobj_library *library;
    lobj_locale own;
    locale_t locale;
    size_t our_alpha;
    lobj_table table;
    char texts[8192];
    wctype_t alpha;
} side;

/* Makes a call some times, and leaves its text in a buffer of 128 bytes: its length, or what it says. */
typedef size_t work(side *s, char *text, int times);

static const lobj_amount amount = { 123456789, 2 };
static const lobj_tm our_time = { 2026, 7, 15, 9, 5, 0, 3, 195, false, 0 };
static const struct tm their_time = { .tm_year = 126, .tm_mon = 6, .tm_mday = 15, .tm_hour = 9, .tm_min = 5,
                                      .tm_wday = 3, .tm_yday = 195 };

static size_t our_strfmon(side *s, char *text, int times) {
    size_t n = 0;
    while (times-- > 0) n = lobj_strfmon(text, 128, s->library, s->own, "%n", 2, &amount, 1).n;
    return n;
}

static size_t their_strfmon(side *s, char *text, int times) {
    size_t n = 0;
    while (times-- > 0) n = (size_t)strfmon_l(text, 128, s->locale, "%n", 1234567.89);
    return n;
}

/* The two functions that give the text of a time by a format. */
#define TIME_ROW(name, format)                                                                                \
    static size_t our_##name(side *s, char *text, int times) {                                                \
        size_t n = 0;                                                                                         \
        while (times-- > 0) {                                                                                 \
            n = lobj_strftime(text, 128, s->library, s->own, format, strlen(format), &our_time, "", 0).n;     \
        }                                                                                                     \
        return n;                                                                                             \
    }                                                                                                         \
    static size_t their_##name(side *s, char *text, int times) {                                              \
        size_t n = 0;                                                                                         \
        while (times-- > 0) n = strftime_l(text, 128, format, &their_time, s->locale);                        \
        return n;                                                                                             \
    }

TIME_ROW(strftime, LONG_FORMAT)
TIME_ROW(date, DATE_FORMAT)
TIME_ROW(stamp, STAMP_FORMAT)

static size_t our_number(side *s, char *text, int times) {
    const int64_t number = 1234567;
    size_t n = 0;
    while (times-- > 0) n = lobj_int_format(text, 128, s->library, s->own, "%'d", 3, &number, 1).n;
    return n;
}

static size_t their_number(side *s, char *text, int times) {
    const locale_t before = uselocale(s->locale);
    size_t n = 0;
    while (times-- > 0) n = (size_t)snprintf(text, 128, "%'d", 1234567);
    uselocale(before);
    return n;
}

/* The numbers of localeconv, and its first text. */
static size_t our_conv(side *s, char *text, int times) {
    lobj_lconv fields;
    size_t n = 0;
    while (times-- > 0) {
        n = lobj_localeconv(s->library, s->own, &fields).code + lobj_conv_text(text, 128, s->library, s->own, LOBJ_DECIMAL_POINT).code;
    }
    return n == LOBJ_OK ? fields.frac_digits : n;
}

static size_t their_conv(side *s, char *text, int times) {
    const locale_t before = uselocale(s->locale);
    size_t n = 0;
    while (times-- > 0) {
        const struct lconv *fields = localeconv();
        strcpy(text, fields->decimal_point);
        n = (size_t)fields->frac_digits;
    }
    uselocale(before);
    return n;
}

static size_t our_upper(side *s, char *text, int times) {
    size_t n = 0;
    *text = 0;
    while (times-- > 0) n = lobj_towupper(s->library, s->own, 'q').n;
    return n;
}

static size_t their_upper(side *s, char *text, int times) {
    size_t n = 0;
    *text = 0;
    while (times-- > 0) n = towupper_l(L'q', s->locale);
    return n;
}

static size_t our_langinfo(side *s, char *text, int times) {
    size_t n = 0;
    while (times-- > 0) n = lobj_nl_langinfo(text, 128, s->library, s->own, LOBJ_D_T_FMT).n;
    return n;
}

static size_t their_langinfo(side *s, char *text, int times) {
    while (times-- > 0) strcpy(text, nl_langinfo_l(D_T_FMT, s->locale));
    return strlen(text);
}

/* The same item of a table that was made of the locale once, and what is called beside it. */
static size_t our_table(side *s, char *text, int times) {
    while (times-- > 0) strcpy(text, lobj_item_in(s->texts, &s->table, LOBJ_D_T_FMT));
    return strlen(text);
}

static size_t their_table(side *s, char *text, int times) {
    return their_langinfo(s, text, times);
}

static size_t our_class(side *s, char *text, int times) {
    size_t n = 0;
    *text = 0;
    while (times-- > 0) n = lobj_isclass(s->library, s->own, 'q', s->our_alpha).n;
    return n;
}

static size_t our_named_class(side *s, char *text, int times) {
    size_t n = 0;
    *text = 0;
    while (times-- > 0) n = lobj_iswctype(s->library, s->own, 'q', "alpha", 5).n;
    return n;
}

static size_t their_class(side *s, char *text, int times) {
    size_t n = 0;
    *text = 0;
    while (times-- > 0) n = iswctype_l(L'q', s->alpha, s->locale) != 0;
    return n;
}

static size_t their_named_class(side *s, char *text, int times) {
    size_t n = 0;
    *text = 0;
    while (times-- > 0) n = iswctype_l(L'q', wctype_l("alpha", s->locale), s->locale) != 0;
    return n;
}

static size_t our_new(side *s, char *text, int times) {
    size_t n = 0;
    *text = 0;
    while (times-- > 0) {
        lobj_locale made;
        n += lobj_newlocale(s->library, LOBJ_ALL_MASK, "us", 2, s->own, &made).code;
    }
    return n;
}

static size_t their_new(side *s, char *text, int times) {
    (void)s;
    *text = 0;
    while (times-- > 0) freelocale(newlocale(LC_ALL_MASK, "us", (locale_t)0));
    return 0;
}

static const struct row {
    const char *name;
    work *ours;
    work *theirs;
    int times;
} rows[] = {
    { "strfmon %n", our_strfmon, their_strfmon, 50000 },
    { "strftime " LONG_FORMAT, our_strftime, their_strftime, 50000 },
    { "strftime " DATE_FORMAT, our_date, their_date, 50000 },
    { "strftime " STAMP_FORMAT, our_stamp, their_stamp, 50000 },
    { "printf %'d", our_number, their_number, 50000 },
    { "nl_langinfo D_T_FMT", our_langinfo, their_langinfo, 200000 },
    { "the same, by a table", our_table, their_table, 200000 },
    { "localeconv", our_conv, their_conv, 100000 },
    { "iswctype alpha", our_class, their_class, 200000 },
    { "iswctype, wctype alpha", our_named_class, their_named_class, 200000 },
    { "towupper", our_upper, their_upper, 200000 },
    { "newlocale (and freelocale)", our_new, their_new, 5000 },
};

typedef struct task {
    work *work;
    int times;
    side *side;
} task;

static void *run_task(void *given) {
    task *t = given;
    char text[128];
    t->work(t->side, text, t->times);
    return NULL;
}

/* Nanoseconds a call, with so many threads that each make the calls. */
static double measured(work *made, int times, side *sides, int threads) {
    pthread_t ids[MOST_THREADS];
    task tasks[MOST_THREADS];
    struct timespec begin, end;
    clock_gettime(CLOCK_MONOTONIC, &begin);
    for (int i = 0; i < threads; i++) {
        tasks[i] = (task){ made, times, &sides[i] };
        if (pthread_create(&ids[i], NULL, run_task, &tasks[i]) != 0) exit(1);
    }
    for (int i = 0; i < threads; i++) pthread_join(ids[i], NULL);
    clock_gettime(CLOCK_MONOTONIC, &end);
    return ((double)(end.tv_sec - begin.tv_sec) * 1e9 + (double)(end.tv_nsec - begin.tv_nsec)) / times;
}

static lobj_library *read_source(const char *path) {
    static char text[1 << 16] = ".locale us UTF-8\n";
    size_t length = strlen(text);
    lobj_library *library = NULL;
    lobj_fault fault = { 0, 0, 0, 0, 0, 0 };
    char line[128] = "";
    FILE *file = fopen(path, "rb");
    if (file == NULL) {
        perror(path);
        exit(1);
    }
    length += fread(text + length, 1, sizeof text - length - 8, file);
    fclose(file);
    memcpy(text + length, ".end\n", 5);
    if (lobj_read(text, length + 5, &library, &fault, line, sizeof line).code != LOBJ_OK) {
        fputs(line, stderr);
        exit(1);
    }
    return library;
}

static int by_size(const void *a, const void *b) {
    double x = *(const double *)a, y = *(const double *)b;
    return (x > y) - (x < y);
}

static double middle(double *found) {
    qsort(found, ROUNDS, sizeof *found, by_size);
    return found[ROUNDS / 2];
}

/* Prints a line of the table for each number of threads: 1, 2 and 4. */
static void measure_row(const struct row *row, side *sides) {
    static double ours[COUNTS][ROUNDS], theirs[COUNTS][ROUNDS];
    double us_before = 0, them_before = 0;
    for (int round = 0; round < ROUNDS; round++) {
        for (int i = 0; i < COUNTS; i++) {
            ours[i][round] = measured(row->ours, row->times, sides, 1 << i);
            theirs[i][round] = measured(row->theirs, row->times, sides, 1 << i);
        }
    }
    for (int i = 0; i < COUNTS; i++) {
        double us = middle(ours[i]), them = middle(theirs[i]);
        printf("%-30s %7d %10.1f %10.1f %8.2f", row->name, 1 << i, us, them, them / us);
        if (i > 0) printf(" %8.2f %8.2f", 2 * us_before / us, 2 * them_before / them);
        printf("\n");
        us_before = us;
        them_before = them;
    }
}

int main(int count, char **words) {
    side sides[MOST_THREADS];
    int counted = count > 2 ? atoi(words[2]) : 0;
    if (count < 2) return 2;
    lobj_library *library = read_source(words[1]);
    lobj_locale posix;
    lobj_posix_locale(library, &posix);
    for (int i = 0; i < MOST_THREADS; i++) {
        sides[i].library = library;
        sides[i].locale = newlocale(LC_ALL_MASK, "us", (locale_t)0);
        if (sides[i].locale == (locale_t)0 || lobj_newlocale(library, LOBJ_ALL_MASK, "us", 2, posix, &sides[i].own).code != LOBJ_OK) {
            fputs("no locale us: run this by bench/c/run\n", stderr);
            return 1;
        }
        if (lobj_texts(sides[i].texts, sizeof sides[i].texts, library, sides[i].own, &sides[i].table).code != LOBJ_OK) {
            return 1;
        }
        sides[i].our_alpha = lobj_wctype(library, sides[i].own, "alpha", 5).n;
        sides[i].alpha = wctype_l("alpha", sides[i].locale);
    }
    if (counted == 0) {
        printf("%-30s %7s %10s %10s %8s %8s %8s\n", "calls", "threads", "this, ns", "glibc, ns", "ratio", "growth", "glibc's");
    }
    for (size_t r = 0; r < sizeof rows / sizeof *rows; r++) {
        char ours[128], theirs[128];
        size_t n = rows[r].ours(&sides[0], ours, 1), m = rows[r].theirs(&sides[0], theirs, 1);
        if (n != m || strcmp(ours, theirs) != 0) {
            printf("%s: not the same: %s | %s\n", rows[r].name, ours, theirs);
            return 1;
        }
        if (counted == 0) {
            measure_row(&rows[r], sides);
        } else {
            rows[r].ours(&sides[0], ours, counted);
            rows[r].theirs(&sides[0], theirs, counted);
        }
    }
    for (int i = 0; i < MOST_THREADS; i++) {
        freelocale(sides[i].locale);
    }
    lobj_library_free(library);
    return 0;
}
