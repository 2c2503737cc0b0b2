/*
 * POSIX locale objects by proved formatters (POSIX.1-2017, XSH newlocale, strfmon_l, strftime_l and
 * others). docs/C.md says how to build a program with the library and what is proved of it.
 *
 * Libraries. lobj_read compiles a text into a library, lobj_build the parts of a builder, and lobj_join puts two
 * libraries together. A library is then never written: a program keeps its pointer, and frees it by
 * lobj_library_free. Each other call takes a `const lobj_library *`, and writes nothing but its answer and what the
 * caller gave it to write. So any number of threads may make any calls on one
 * library at once, without a lock, and so may the child of a fork. The thread that frees it must know that no
 * call on it runs: by the join of the others, by a lock, or by an atomic.
 *
 * Locales. A `lobj_locale` is a plain value, to be copied and compared by its fields: nothing is to be freed.
 * It has the mark of the library that made it. A call that is given what is no locale of its library answers
 * LOBJ_NO_LOCALE. The mark is a hash of the text that was read, of the parts in their order, or of the marks of the two
 * libraries that were joined. So libraries of the same text, or of the same parts in the same order, take each other's
 * locales, which mean the same in both; any others have other marks, unless two hashes of 64 bits are equal. A
 * `lobj_catalog`, a message catalog, is such a value as well.
 *
 * Texts are given by a pointer and a number of bytes, need no NUL, and may have any bytes. Buffers are
 * given with their size. A text that a call gives begins at the start of the buffer and is followed by a
 * NUL, and `n` is its length without the NUL. It is never cut: if text and NUL do not fit, the answer is
 * LOBJ_TOO_SMALL. Under any code but LOBJ_OK a buffer for a text is as it was; those of lobj_read and lobj_build are
 * for the message of a fault.
 *
 * A pointer to a text, to a buffer, or to amounts or numbers may be null where its size is 0, and
 * lobj_library_free and lobj_builder_free take a null. No other pointer may be null. No call checks this, but
 * LOBJ_NONNULL below lets compilers warn of a null constant (-Wall), and the sanitizer of undefined behavior stop at
 * any null. What a call writes through two pointers may not overlap, nor the other arguments; each points to as many
 * bytes or elements as its size says; a `bool` is true or false; no size is over PTRDIFF_MAX. Nothing checks these.
 *
 * The promise of nulls of a size is kept by macros at the end of this header, which have the names of the calls and
 * hand each such null on as a pointer to what is not looked at. What takes a call's address, or calls it without
 * this header, passes no such null.
 *
 * Each call is content with 64 KiB of stack.
 */
#ifndef LOCALE_OBJECTS_H
#define LOCALE_OBJECTS_H

#include <stdbool.h>
#include <stddef.h>
#include <stdint.h>
#include <stdio.h>
#include <time.h>

/* The version of the library, as a text and as a number: 100 of a major version and 1 of a minor one. */
#define LOBJ_VERSION "1.0"
#define LOBJ_VERSION_NUMBER 100

#ifdef __cplusplus
extern "C" {
#endif

/* Says of a call that none of its pointers is null. */
#if defined __GNUC__
#define LOBJ_NONNULL __attribute__((nonnull))
#define LOBJ_NONNULL_AT(...) __attribute__((nonnull(__VA_ARGS__)))
#else
#define LOBJ_NONNULL
#define LOBJ_NONNULL_AT(...)
#endif

/* Says of a call that its answer is to be looked at. */
#if defined __GNUC__
#define LOBJ_ANSWERS __attribute__((warn_unused_result))
#else
#define LOBJ_ANSWERS
#endif

/* A library of compiled locales. */
typedef struct lobj_library lobj_library;

/* Parts of a library that is yet to be made. */
typedef struct lobj_builder lobj_builder;

/* What a call answers, in `code` of a `lobj_answer`; `n` is 0 where nothing is said of it. */
enum {
    LOBJ_OK = 0,
    /* Out of memory: of the calls that make libraries and builders alone. */
    LOBJ_NO_MEMORY = 1,
    /* The text has 2^31 bytes or more. */
    LOBJ_TOO_LONG = 2,
    /* The text breaks a rule; `n` is the length of the message, or the size that it needs. */
    LOBJ_BAD_TEXT = 3,
    /* The locale is not one of the library. */
    LOBJ_NO_LOCALE = 4,
    /* The mask has a bit that no category has. */
    LOBJ_BAD_MASK = 5,
    /* No locale with the name has a category of the mask; `n` is the mask of that category. */
    LOBJ_NO_DATA = 6,
    /* The text and its NUL do not fit into the buffer; `n` is the size that they need, or SIZE_MAX if that is larger. */
    LOBJ_TOO_SMALL = 7,
    /* The `%` at byte `n` of the format, from 0, begins no conversion. */
    LOBJ_BAD_FORMAT = 8,
    /* No argument is left for the `%` at byte `n` of the format. */
    LOBJ_MISSING = 9,
    /* The scale of an amount is over 18. */
    LOBJ_BAD_AMOUNT = 10,
    /* A field of a time is out of its range: the `n`-th, from 1, with the offset as the ninth. */
    LOBJ_TM_RANGE = 11,
    /* There is no item, no text of localeconv, no kind of parts or no reason with the number. */
    LOBJ_NO_ITEM = 12,
    /* The locale has no class with the name or the number. */
    LOBJ_NO_CLASS = 13,
    /* The text does not meet the format at byte `n` of the text. */
    LOBJ_MISMATCH = 14,
    /* The charset of the locale's LC_CTYPE is not UTF-8. */
    LOBJ_NOT_UTF8 = 15,
    /* The text is not UTF-8: its first `n` bytes are, and no more. */
    LOBJ_BAD_CHARACTER = 16,
    /* There are more than 4096 parts of a kind; or more than 4096 locales, or catalogs, together. */
    LOBJ_TOO_MANY = 17,
    /* The name or the label of a part is not formed as one of its kind. */
    LOBJ_BAD_NAME = 18,
    /* A part of the kind has the name already, and of a catalog also the locale. */
    LOBJ_NAME_TWICE = 19,
    /* The charset of a source is neither UTF-8 nor POSIX, nor a charmap among the parts. */
    LOBJ_NO_CHARMAP = 20,
    /* No catalog has the name for the locale, or the catalog is not one of the library. */
    LOBJ_NO_CATALOG = 21,
    /* The catalog has no such message. */
    LOBJ_NO_MESSAGE = 22
};

typedef struct lobj_answer {
    uint32_t code;
    size_t n;
} lobj_answer;

/* The masks of the categories (XSH newlocale). There is no LC_COLLATE. */
enum {
    LOBJ_CTYPE_MASK = 1,
    LOBJ_NUMERIC_MASK = 2,
    LOBJ_MONETARY_MASK = 4,
    LOBJ_TIME_MASK = 8,
    LOBJ_MESSAGES_MASK = 16,
    LOBJ_ALL_MASK = 31
};

/*
 * A locale: the mark of its library, and the numbers of what has its categories. Two locales are the same if
 * all fields are.
 */
typedef struct lobj_locale {
    uint64_t mark;
    uint32_t ctype;
    uint32_t numeric;
    uint32_t monetary;
    uint32_t time;
    uint32_t messages;
} lobj_locale;

/*
 * Where and why a library is not made. The part is 0 for a text that lobj_read reads. Line and column are 0 where the
 * text is not at fault, as are reason, start and length then.
 */
typedef struct lobj_fault {
    size_t part;     /* the number of the part, from 0 */
    uint32_t line;   /* the line in its text, from 1 */
    uint32_t column; /* the byte in the line, from 1 */
    uint32_t reason; /* the number of the reason, for lobj_rule and lobj_reason_name */
    size_t start;    /* where the line begins in the text, from 0 */
    size_t length;   /* how many bytes it has, without its newline */
} lobj_fault;

/* The number of reasons: they have the numbers below it, and keep them. */
enum { LOBJ_REASONS = 77 };

/* What a part is. */
enum {
    /* A charmap. Its label is empty. */
    LOBJ_CHARMAP = 0,
    /* A locale's source. Its label is the name of its charset: `UTF-8`, `POSIX` or that of a charmap. */
    LOBJ_SOURCE = 1,
    /* The source of a message catalog. Its label is the name of the locale that opens it by its LC_MESSAGES. */
    LOBJ_CATALOG = 2
};

/* A message catalog: the mark of its library, and its number. Two catalogs are the same if both fields are. */
typedef struct lobj_catalog {
    uint64_t mark;
    uint32_t number;
} lobj_catalog;

/* An amount of units / 10^scale; scale is at most 18. */
typedef struct lobj_amount {
    int64_t units;
    uint8_t scale;
} lobj_amount;

/* A broken-down time. Day of the week and of the year are as given, whatever the date is. */
typedef struct lobj_tm {
    int32_t year;    /* 1 to 9999 */
    int32_t mon;     /* 1 to 12 */
    int32_t mday;    /* 1 to 31 */
    int32_t hour;    /* 0 to 23 */
    int32_t min;     /* 0 to 59 */
    int32_t sec;     /* 0 to 60 */
    int32_t wday;    /* 0, which is Sunday, to 6 */
    int32_t yday;    /* 0 to 365 */
    bool has_offset; /* whether the offset is known */
    int32_t offset;  /* minutes east of UTC, -1439 to 1439 */
} lobj_tm;

/* The fields of a time that a text has; -1 where it does not tell one. */
typedef struct lobj_parsed {
    int32_t year; /* 0 to 9999 */
    int32_t mon;  /* and the others as in lobj_tm */
    int32_t mday;
    int32_t hour;
    int32_t min;
    int32_t sec;
    int32_t wday;
    int32_t yday;
} lobj_parsed;

/*
 * The numbers of localeconv (XSH localeconv). 127 says that the locale does not tell a number.
 */
typedef struct lobj_lconv {
    uint8_t int_frac_digits;
    uint8_t frac_digits;
    uint8_t p_cs_precedes;
    uint8_t p_sep_by_space;
    uint8_t n_cs_precedes;
    uint8_t n_sep_by_space;
    uint8_t p_sign_posn;
    uint8_t n_sign_posn;
    uint8_t int_p_cs_precedes;
    uint8_t int_n_cs_precedes;
    uint8_t int_p_sep_by_space;
    uint8_t int_n_sep_by_space;
    uint8_t int_p_sign_posn;
    uint8_t int_n_sign_posn;
} lobj_lconv;

/* The items of nl_langinfo, in the order of XBD <langinfo.h>. */
enum {
    LOBJ_CODESET,
    LOBJ_D_T_FMT, LOBJ_D_FMT, LOBJ_T_FMT, LOBJ_T_FMT_AMPM, LOBJ_AM_STR, LOBJ_PM_STR,
    LOBJ_DAY_1, LOBJ_DAY_2, LOBJ_DAY_3, LOBJ_DAY_4, LOBJ_DAY_5, LOBJ_DAY_6, LOBJ_DAY_7,
    LOBJ_ABDAY_1, LOBJ_ABDAY_2, LOBJ_ABDAY_3, LOBJ_ABDAY_4, LOBJ_ABDAY_5, LOBJ_ABDAY_6, LOBJ_ABDAY_7,
    LOBJ_MON_1, LOBJ_MON_2, LOBJ_MON_3, LOBJ_MON_4, LOBJ_MON_5, LOBJ_MON_6,
    LOBJ_MON_7, LOBJ_MON_8, LOBJ_MON_9, LOBJ_MON_10, LOBJ_MON_11, LOBJ_MON_12,
    LOBJ_ABMON_1, LOBJ_ABMON_2, LOBJ_ABMON_3, LOBJ_ABMON_4, LOBJ_ABMON_5, LOBJ_ABMON_6,
    LOBJ_ABMON_7, LOBJ_ABMON_8, LOBJ_ABMON_9, LOBJ_ABMON_10, LOBJ_ABMON_11, LOBJ_ABMON_12,
    LOBJ_ERA, LOBJ_ERA_D_FMT, LOBJ_ERA_D_T_FMT, LOBJ_ERA_T_FMT, LOBJ_ALT_DIGITS,
    LOBJ_RADIXCHAR, LOBJ_THOUSEP, LOBJ_YESEXPR, LOBJ_NOEXPR, LOBJ_CRNCYSTR
};

/* The texts of localeconv. The bytes of a grouping are the sizes of groups. */
enum {
    LOBJ_DECIMAL_POINT,
    LOBJ_THOUSANDS_SEP,
    LOBJ_GROUPING,
    LOBJ_INT_CURR_SYMBOL,
    LOBJ_CURRENCY_SYMBOL,
    LOBJ_MON_DECIMAL_POINT,
    LOBJ_MON_THOUSANDS_SEP,
    LOBJ_MON_GROUPING,
    LOBJ_POSITIVE_SIGN,
    LOBJ_NEGATIVE_SIGN
};

/* The number of items and of texts of localeconv. */
enum {
    LOBJ_ITEMS = LOBJ_CRNCYSTR + 1,
    LOBJ_CONV_TEXTS = LOBJ_NEGATIVE_SIGN + 1,
    LOBJ_TEXTS = LOBJ_ITEMS + LOBJ_CONV_TEXTS
};

/*
 * Where the texts of lobj_texts begin in their buffer: first each item by its number, then each text of
 * localeconv by its number; and last where the last one ends, with its NUL.
 */
typedef struct lobj_table {
    size_t starts[LOBJ_TEXTS + 1];
} lobj_table;

/*
 * Reads charmaps, locale sources and message catalogs, in the form of a bundle (docs/BUNDLE.md), and gives the library
 * that they make. Commands in the text are read, too, and ignored: a wrong one is a fault of the text. What `*out` was
 * before is not looked at.
 *
 * LOBJ_BAD_TEXT: the text breaks a rule; `fault` tells where, and the buffer has the message `REASON: RULE`
 * (docs/REFUSALS.md), of which `n` is the length. If the buffer is too small for it with its NUL, the buffer is as it
 * was, and `n` is the size that is needed: so the message is there if `n` is less than the size. LOBJ_TOO_LONG, LOBJ_NO_MEMORY. Only
 * LOBJ_OK writes `*out`, which is then the caller's to free, and only LOBJ_BAD_TEXT writes `fault` and the buffer. Once
 * the call has returned, nothing refers to the text.
 */
lobj_answer lobj_read(const char *text, size_t length, lobj_library **out, lobj_fault *fault, char *buffer,
                      size_t size) LOBJ_NONNULL LOBJ_ANSWERS;

/*
 * Gives a builder without parts, which is the caller's to free by lobj_builder_free. One thread at a time may use it.
 * LOBJ_NO_MEMORY: `*out` is as it was.
 */
lobj_answer lobj_builder_new(lobj_builder **out) LOBJ_NONNULL LOBJ_ANSWERS;

/*
 * Adds a part to the builder that `*builder` points to. The bytes are copied. LOBJ_NO_ITEM: there is no such kind;
 * LOBJ_NO_MEMORY. Under both the builder has the parts that it had. Whether the part is well-formed is found by
 * lobj_build.
 */
lobj_answer lobj_add(lobj_builder **builder, uint32_t kind, const char *name, size_t name_length, const char *label,
                     size_t label_length, const char *text, size_t length) LOBJ_NONNULL LOBJ_ANSWERS;

/*
 * Builds a library of the parts of a builder. The builder stays as it is: it may get more parts, and be built again.
 * The number of a locale of the library is that of its source among the sources, from 1.
 *
 * A fault is the first one: of the parts, in order, LOBJ_TOO_LONG (a text of 2^31 bytes or more, or so many lines in
 * all parts so far), LOBJ_BAD_NAME, LOBJ_NAME_TWICE, LOBJ_TOO_MANY; then LOBJ_NO_CHARMAP; then LOBJ_BAD_TEXT, of the
 * charmaps, the sources and the catalogs, in this order: the buffer is used as by lobj_read. Each of them writes `fault`
 * with the number of the part, in the order in which they were added, from 0. LOBJ_NO_MEMORY: all is as it was. Only
 * LOBJ_OK writes `*out`, which is then the caller's to free. The library does not refer to the builder.
 */
lobj_answer lobj_build(const lobj_builder *builder, lobj_library **out, lobj_fault *fault, char *buffer,
                       size_t size) LOBJ_NONNULL LOBJ_ANSWERS;

/* Frees a builder, or does nothing with a null. */
void lobj_builder_free(lobj_builder *builder);

/*
 * Gives a library that has the locales and catalogs of both. Nothing is compiled again: they share what was compiled,
 * and each of the three is freed by itself, in any order. The locales of the first keep their numbers, and those of the
 * second follow them. A name that both have is that of the second from then on, and so is the native locale, if the
 * second names one, be it "C" or "POSIX". The mark is another: lobj_locale_in gives a locale of the first as one of the new library.
 * LOBJ_TOO_MANY: together they have more than 4096 locales, or catalogs. LOBJ_NO_MEMORY. Only LOBJ_OK writes `*out`,
 * which is then the caller's to free.
 */
lobj_answer lobj_join(const lobj_library *first, const lobj_library *second, lobj_library **out)
                      LOBJ_NONNULL LOBJ_ANSWERS;

/* The rule that a reason says is broken, one sentence without a full stop. LOBJ_NO_ITEM, LOBJ_TOO_SMALL. */
lobj_answer lobj_rule(char *buffer, size_t size, uint32_t reason) LOBJ_NONNULL LOBJ_ANSWERS;

/* The name of a reason, as docs/REFUSALS.md has it. LOBJ_NO_ITEM, LOBJ_TOO_SMALL. */
lobj_answer lobj_reason_name(char *buffer, size_t size, uint32_t reason) LOBJ_NONNULL LOBJ_ANSWERS;

/* The version of the library that is linked: LOBJ_VERSION_NUMBER of the header that belongs to it. */
uint32_t lobj_version(void);

/* Frees a library, or does nothing with a null. Its locales and catalogs are then those of no library. */
void lobj_library_free(lobj_library *library);

/* Gives the POSIX locale, which each library has. */
void lobj_posix_locale(const lobj_library *library, lobj_locale *out) LOBJ_NONNULL;

/*
 * Gives the locale that has the named one in the categories of the mask, and what the base has in the others
 * (XSH newlocale). The name may be empty, for the native locale of the text, or have a part for each category.
 * LOBJ_NO_LOCALE (the base), LOBJ_BAD_MASK, LOBJ_NO_DATA: `out` is as it was.
 */
lobj_answer lobj_newlocale(const lobj_library *library, uint32_t mask, const char *name, size_t length,
                           lobj_locale base, lobj_locale *out) LOBJ_NONNULL LOBJ_ANSWERS;

/*
 * The name of the locale that has the category of a mask with one bit: the one that was named, also where its source
 * copies the category of another (getlocalename_l of later versions of POSIX). With LOBJ_ALL_MASK the name that all
 * five categories have, or where they have several, the mixed name with the part of each. That of the POSIX locale is
 * `C`. What lobj_newlocale gave it gives again by this name, unless another locale of the library has the name and hides
 * it, as one of the second of two libraries that were joined hides one of the first: then it gives that one.
 * LOBJ_NO_LOCALE, LOBJ_BAD_MASK (any other mask), LOBJ_TOO_SMALL.
 */
lobj_answer lobj_locale_name(char *buffer, size_t size, const lobj_library *library, lobj_locale locale,
                             uint32_t mask) LOBJ_NONNULL LOBJ_ANSWERS;

/*
 * The name of the compiled locale with a number: `C` of 0, and of i that of the i-th `.locale` or `.later` block of
 * the text by place, or of the i-th source of the parts. LOBJ_NO_ITEM: there is none with the number, nor with a larger one. So the names of a library
 * are those from 1 up to there; a name with later versions comes once with each. LOBJ_TOO_SMALL.
 */
lobj_answer lobj_library_name(char *buffer, size_t size, const lobj_library *library, uint32_t number)
                              LOBJ_NONNULL LOBJ_ANSWERS;

/*
 * The text of amounts by a format (XSH strfmon_l), each of units / 10^scale in the currency of the locale's
 * LC_MONETARY. Extra amounts are ignored, and so are those beyond the 64th, but that a scale over 18 of any of
 * them is LOBJ_BAD_AMOUNT.
 * LOBJ_NO_LOCALE, LOBJ_BAD_AMOUNT, LOBJ_BAD_FORMAT, LOBJ_MISSING, LOBJ_TOO_SMALL.
 */
lobj_answer lobj_strfmon(char *buffer, size_t size, const lobj_library *library, lobj_locale locale,
                         const char *format, size_t length, const lobj_amount *amounts, size_t count)
                         LOBJ_NONNULL LOBJ_ANSWERS;

/*
 * The text of a time by a format, with the name of its time zone (XSH strftime_l).
 * LOBJ_NO_LOCALE, LOBJ_TM_RANGE, LOBJ_BAD_FORMAT, LOBJ_TOO_SMALL.
 */
lobj_answer lobj_strftime(char *buffer, size_t size, const lobj_library *library, lobj_locale locale,
                          const char *format, size_t length, const lobj_tm *tm, const char *zone, size_t zone_length)
                          LOBJ_NONNULL LOBJ_ANSWERS;

/*
 * The text of whole numbers by a format with `d`, `i` and `u` (XSH fprintf). Extra numbers are ignored, and so
 * are those beyond the 64th.
 * LOBJ_NO_LOCALE, LOBJ_BAD_FORMAT, LOBJ_MISSING, LOBJ_TOO_SMALL.
 */
lobj_answer lobj_int_format(char *buffer, size_t size, const lobj_library *library, lobj_locale locale,
                            const char *format, size_t length, const int64_t *numbers, size_t count)
                            LOBJ_NONNULL LOBJ_ANSWERS;

/*
 * The whole number that a text spells as `%'d` prints it in this locale, with its groups and `-`. What `%'d` prints
 * of any int64_t is read back. Under another code `out` is as it was. LOBJ_NO_LOCALE; LOBJ_MISMATCH: the text spells
 * no number of an int64_t so.
 */
lobj_answer lobj_int_read(const lobj_library *library, lobj_locale locale, const char *text, size_t length,
                          int64_t *out) LOBJ_NONNULL LOBJ_ANSWERS;

/* The text of an item (XSH nl_langinfo_l). LOBJ_NO_LOCALE, LOBJ_NO_ITEM, LOBJ_TOO_SMALL. */
lobj_answer lobj_nl_langinfo(char *buffer, size_t size, const lobj_library *library, lobj_locale locale,
                             uint32_t item) LOBJ_NONNULL LOBJ_ANSWERS;

/*
 * All items and all texts of localeconv at once, each followed by a NUL, in one buffer, with their places; `n`
 * is the size of all. A program that makes such a table of a locale reads each text from then on without a call, by
 * lobj_item_in and lobj_conv_text_in, for as long as it keeps the buffer. LOBJ_TOO_SMALL: `n` is the size that all
 * need; buffer and table are as they were, as under LOBJ_NO_LOCALE.
 */
lobj_answer lobj_texts(char *buffer, size_t size, const lobj_library *library, lobj_locale locale, lobj_table *table)
                       LOBJ_NONNULL LOBJ_ANSWERS;

/* A text of localeconv by its number (XSH localeconv). LOBJ_NO_LOCALE, LOBJ_NO_ITEM, LOBJ_TOO_SMALL. */
lobj_answer lobj_conv_text(char *buffer, size_t size, const lobj_library *library, lobj_locale locale,
                           uint32_t number) LOBJ_NONNULL LOBJ_ANSWERS;

/* The numbers of localeconv (XSH localeconv). LOBJ_NO_LOCALE, where the fields are as they were. */
lobj_answer lobj_localeconv(const lobj_library *library, lobj_locale locale, lobj_lconv *fields)
                            LOBJ_NONNULL LOBJ_ANSWERS;

/*
 * Whether a wide character is of the class with a name (XSH iswctype_l): `n` is 1 or 0.
 * LOBJ_NO_LOCALE, LOBJ_NO_CLASS.
 */
lobj_answer lobj_iswctype(const lobj_library *library, lobj_locale locale, uint32_t value, const char *class_name,
                          size_t length) LOBJ_NONNULL LOBJ_ANSWERS;

/*
 * The number of the class with a name (XSH wctype_l) as `n`, for lobj_isclass, which need not look for the
 * name. It is of the locale's LC_CTYPE. LOBJ_NO_LOCALE, LOBJ_NO_CLASS.
 */
lobj_answer lobj_wctype(const lobj_library *library, lobj_locale locale, const char *class_name, size_t length)
                        LOBJ_NONNULL LOBJ_ANSWERS;

/*
 * Whether a wide character is of the class with a number: as lobj_iswctype answers by the name. A number
 * that another locale gave is one of this locale: that of a class that may have another name, or of none,
 * which is LOBJ_NO_CLASS. LOBJ_NO_LOCALE, LOBJ_NO_CLASS.
 */
lobj_answer lobj_isclass(const lobj_library *library, lobj_locale locale, uint32_t value, size_t class_number)
                         LOBJ_NONNULL LOBJ_ANSWERS;

/*
 * The first 64 classes of the locale that have a wide character, as the bits of `n`: bit i of the class with number i.
 * A class has no bit if its number is over 63. LOBJ_NO_LOCALE.
 */
lobj_answer lobj_classes_of(const lobj_library *library, lobj_locale locale, uint32_t value)
                            LOBJ_NONNULL LOBJ_ANSWERS;

/* The upper and the lower case of a wide character as `n` (XSH towupper_l, towlower_l). LOBJ_NO_LOCALE. */
lobj_answer lobj_towupper(const lobj_library *library, lobj_locale locale, uint32_t value) LOBJ_NONNULL LOBJ_ANSWERS;
lobj_answer lobj_towlower(const lobj_library *library, lobj_locale locale, uint32_t value) LOBJ_NONNULL LOBJ_ANSWERS;

/*
 * A text in UTF-8 with each character in upper or in lower case, as lobj_towupper and lobj_towlower map it, one by
 * one; a character whose image is none of Unicode stays. The buffer may not overlap the text.
 * LOBJ_NO_LOCALE, LOBJ_NOT_UTF8, LOBJ_BAD_CHARACTER, LOBJ_TOO_SMALL.
 */
lobj_answer lobj_upper_text(char *buffer, size_t size, const lobj_library *library, lobj_locale locale,
                            const char *text, size_t length) LOBJ_NONNULL LOBJ_ANSWERS;
lobj_answer lobj_lower_text(char *buffer, size_t size, const lobj_library *library, lobj_locale locale,
                            const char *text, size_t length) LOBJ_NONNULL LOBJ_ANSWERS;

/*
 * The fields of a time that a text has by a format (XSH strptime); `n` is the first byte that is not read.
 * Under another code the fields are as they were. LOBJ_NO_LOCALE, LOBJ_BAD_FORMAT, LOBJ_MISMATCH.
 */
lobj_answer lobj_strptime(const lobj_library *library, lobj_locale locale, const char *text, size_t length,
                          const char *format, size_t format_length, lobj_parsed *fields) LOBJ_NONNULL LOBJ_ANSWERS;

/*
 * The message catalog that a name opens for a locale: that for the name of its LC_MESSAGES (XSH catopen). Nothing is to
 * be closed. LOBJ_NO_LOCALE, LOBJ_NO_CATALOG: `out` is as it was.
 */
lobj_answer lobj_catopen(const lobj_library *library, lobj_locale locale, const char *name, size_t length,
                         lobj_catalog *out) LOBJ_NONNULL LOBJ_ANSWERS;

/*
 * A message of a catalog by its set and its number (XSH catgets). lobj_catgets_or gives another text where there is
 * none. LOBJ_NO_CATALOG, LOBJ_NO_MESSAGE, LOBJ_TOO_SMALL.
 */
lobj_answer lobj_catgets(char *buffer, size_t size, const lobj_library *library, lobj_catalog catalog, uint32_t set,
                         uint32_t number) LOBJ_NONNULL LOBJ_ANSWERS;

/*
 * The functions below are no calls of the library: a compiler takes them from here.
 */

/* What a code of an answer means, without a newline; "unknown code" for any other number. */
static inline const char *lobj_strerror(uint32_t code) {
    switch (code) {
    case LOBJ_OK: return "success";
    case LOBJ_NO_MEMORY: return "out of memory";
    case LOBJ_TOO_LONG: return "the text has 2^31 bytes or more";
    case LOBJ_BAD_TEXT: return "the text breaks a rule";
    case LOBJ_NO_LOCALE: return "the locale is not one of the library";
    case LOBJ_BAD_MASK: return "the mask has a bit that no category has";
    case LOBJ_NO_DATA: return "no locale with the name has data for a category";
    case LOBJ_TOO_SMALL: return "the text does not fit into the buffer";
    case LOBJ_BAD_FORMAT: return "a % of the format begins no conversion";
    case LOBJ_MISSING: return "a conversion has no argument";
    case LOBJ_BAD_AMOUNT: return "the scale of an amount is over 18";
    case LOBJ_TM_RANGE: return "a field of the time is out of its range";
    case LOBJ_NO_ITEM: return "there is no such item";
    case LOBJ_NO_CLASS: return "there is no such class";
    case LOBJ_MISMATCH: return "the text does not meet the format";
    case LOBJ_NOT_UTF8: return "the charset of the locale is not UTF-8";
    case LOBJ_BAD_CHARACTER: return "the text is not UTF-8";
    case LOBJ_TOO_MANY: return "there are too many parts, locales or catalogs";
    case LOBJ_BAD_NAME: return "the name or the label of a part is not formed as one";
    case LOBJ_NAME_TWICE: return "another part has the name already";
    case LOBJ_NO_CHARMAP: return "the charset is neither built in nor a charmap";
    case LOBJ_NO_CATALOG: return "there is no such message catalog";
    case LOBJ_NO_MESSAGE: return "the catalog has no such message";
    default: return "unknown code";
    }
}

/* A locale of the first of two libraries that were joined, as one of the library that lobj_join gave. */
static inline lobj_locale lobj_locale_in(const lobj_library *joined, lobj_locale locale) {
    lobj_locale posix;
    lobj_posix_locale(joined, &posix);
    locale.mark = posix.mark;
    return locale;
}

/*
 * The text of an item, or of localeconv, in the buffer and by the table that lobj_texts wrote; it ends with a NUL. Null
 * where there is none with the number.
 */
static inline const char *lobj_item_in(const char *buffer, const lobj_table *table, uint32_t item) {
    return item < LOBJ_ITEMS ? buffer + table->starts[item] : NULL;
}

static inline const char *lobj_conv_text_in(const char *buffer, const lobj_table *table, uint32_t number) {
    return number < LOBJ_CONV_TEXTS ? buffer + table->starts[LOBJ_ITEMS + number] : NULL;
}

/*
 * The time of a `struct tm`, without an offset from UTC: set `has_offset` and `offset` where they are known, as
 * from `tm_gmtoff` / 60. A year that does not fit is one out of its range.
 */
static inline lobj_tm lobj_tm_of(const struct tm *given) {
    lobj_tm time = { 0, 0, 0, 0, 0, 0, 0, 0, false, 0 };
    time.year = given->tm_year < 10000 ? given->tm_year + 1900 : 10000;
    time.mon = given->tm_mon < 12 ? given->tm_mon + 1 : 13;
    time.mday = given->tm_mday;
    time.hour = given->tm_hour;
    time.min = given->tm_min;
    time.sec = given->tm_sec;
    time.wday = given->tm_wday;
    time.yday = given->tm_yday;
    return time;
}

/* Writes the fields that a text told to those of a `struct tm`, and leaves the others as they are. */
static inline void lobj_parsed_to_tm(const lobj_parsed *fields, struct tm *out) {
    if (fields->year >= 0) out->tm_year = fields->year - 1900;
    if (fields->mon >= 0) out->tm_mon = fields->mon - 1;
    if (fields->mday >= 0) out->tm_mday = fields->mday;
    if (fields->hour >= 0) out->tm_hour = fields->hour;
    if (fields->min >= 0) out->tm_min = fields->min;
    if (fields->sec >= 0) out->tm_sec = fields->sec;
    if (fields->wday >= 0) out->tm_wday = fields->wday;
    if (fields->yday >= 0) out->tm_yday = fields->yday;
}

/*
 * The amount of a decimal text: an optional `-`, digits, and optionally a `.` followed by at most 18 digits.
 * Says whether the text is one and its units are those of an int64_t above INT64_MIN; else the amount is as it was.
 */
static inline bool lobj_amount_of_text(const char *text, size_t length, lobj_amount *out) {
    uint64_t units = 0;
    uint8_t scale = 0;
    size_t at = length > 0 && text[0] == '-' ? 1 : 0, digits = 0;
    bool is_below = at == 1, is_behind = false;
    for (; at < length; at++) {
        if (text[at] == '.' && !is_behind && digits > 0) {
            is_behind = true;
            continue;
        }
        if (text[at] < '0' || text[at] > '9' || (is_behind && scale == 18)) return false;
        const uint64_t digit = (uint64_t)(text[at] - '0');
        if (units > ((uint64_t)INT64_MAX - digit) / 10) return false;
        units = units * 10 + digit;
        digits++;
        if (is_behind) scale = (uint8_t)(scale + 1);
    }
    if (digits == 0 || (is_behind && scale == 0)) return false;
    out->units = is_below ? -(int64_t)units : (int64_t)units;
    out->scale = scale;
    return true;
}

/*
 * The amount of a `double` with a number of digits behind the point, at most 18, rounded as printf rounds.
 * Says whether it is finite and its units are those of an int64_t above INT64_MIN; else the amount is as it was.
 */
static inline bool lobj_amount_of_double(double value, int digits, lobj_amount *out) {
    char text[64], plain[64];
    size_t count = 0;
    int length;
    lobj_amount amount = { 0, 0 };
    if (digits < 0 || digits > 18) return false;
    length = snprintf(text, sizeof text, "%.*f", digits, value);
    if (length <= 0 || (size_t)length >= sizeof text) return false;
    /* (the point of the C library's locale may have any bytes, so it is passed over) */
    for (int i = 0; i < length; i++) {
        if ((text[i] >= '0' && text[i] <= '9') || (i == 0 && text[i] == '-')) plain[count++] = text[i];
    }
    if (!lobj_amount_of_text(plain, count, &amount)) return false;
    out->units = amount.units;
    out->scale = (uint8_t)digits;
    return true;
}

/* What stands for a null text, buffer, or list, of which nothing is looked at. */
static inline const char *lobj_text_or_none(const char *text) {
    return text != NULL ? text : "";
}

static inline char *lobj_buffer_or_none(char *buffer) {
    static char none[1];
    return buffer != NULL ? buffer : none;
}

static inline const lobj_amount *lobj_amounts_or_none(const lobj_amount *amounts) {
    static const lobj_amount none = { 0, 0 };
    return amounts != NULL ? amounts : &none;
}

static inline const int64_t *lobj_numbers_or_none(const int64_t *numbers) {
    static const int64_t none = 0;
    return numbers != NULL ? numbers : &none;
}

/* The calls with a null handed on where a size is 0. */
static inline LOBJ_ANSWERS LOBJ_NONNULL_AT(3, 4) lobj_answer lobj_read_given(
    const char *text, size_t length, lobj_library **out, lobj_fault *fault, char *buffer, size_t size) {
    return lobj_read(lobj_text_or_none(text), length, out, fault, lobj_buffer_or_none(buffer), size);
}

static inline LOBJ_ANSWERS LOBJ_NONNULL_AT(1) lobj_answer lobj_add_given(
    lobj_builder **builder, uint32_t kind, const char *name, size_t name_length, const char *label,
    size_t label_length, const char *text, size_t length) {
    return lobj_add(builder, kind, lobj_text_or_none(name), name_length, lobj_text_or_none(label), label_length,
        lobj_text_or_none(text), length);
}

static inline LOBJ_ANSWERS LOBJ_NONNULL_AT(1, 2, 3) lobj_answer lobj_build_given(
    const lobj_builder *builder, lobj_library **out, lobj_fault *fault, char *buffer, size_t size) {
    return lobj_build(builder, out, fault, lobj_buffer_or_none(buffer), size);
}

static inline LOBJ_ANSWERS lobj_answer lobj_rule_given(char *buffer, size_t size, uint32_t reason) {
    return lobj_rule(lobj_buffer_or_none(buffer), size, reason);
}

static inline LOBJ_ANSWERS lobj_answer lobj_reason_name_given(char *buffer, size_t size, uint32_t reason) {
    return lobj_reason_name(lobj_buffer_or_none(buffer), size, reason);
}

static inline LOBJ_ANSWERS LOBJ_NONNULL_AT(1, 6) lobj_answer lobj_newlocale_given(
    const lobj_library *library, uint32_t mask, const char *name, size_t length, lobj_locale base,
    lobj_locale *out) {
    return lobj_newlocale(library, mask, lobj_text_or_none(name), length, base, out);
}

static inline LOBJ_ANSWERS LOBJ_NONNULL_AT(3) lobj_answer lobj_locale_name_given(
    char *buffer, size_t size, const lobj_library *library, lobj_locale locale, uint32_t mask) {
    return lobj_locale_name(lobj_buffer_or_none(buffer), size, library, locale, mask);
}

static inline LOBJ_ANSWERS LOBJ_NONNULL_AT(3) lobj_answer lobj_library_name_given(
    char *buffer, size_t size, const lobj_library *library, uint32_t number) {
    return lobj_library_name(lobj_buffer_or_none(buffer), size, library, number);
}

static inline LOBJ_ANSWERS LOBJ_NONNULL_AT(3) lobj_answer lobj_strfmon_given(
    char *buffer, size_t size, const lobj_library *library, lobj_locale locale, const char *format, size_t length,
    const lobj_amount *amounts, size_t count) {
    return lobj_strfmon(lobj_buffer_or_none(buffer), size, library, locale, lobj_text_or_none(format), length,
        lobj_amounts_or_none(amounts), count);
}

static inline LOBJ_ANSWERS LOBJ_NONNULL_AT(3, 7) lobj_answer lobj_strftime_given(
    char *buffer, size_t size, const lobj_library *library, lobj_locale locale, const char *format, size_t length,
    const lobj_tm *tm, const char *zone, size_t zone_length) {
    return lobj_strftime(lobj_buffer_or_none(buffer), size, library, locale, lobj_text_or_none(format), length, tm,
        lobj_text_or_none(zone), zone_length);
}

static inline LOBJ_ANSWERS LOBJ_NONNULL_AT(3) lobj_answer lobj_int_format_given(
    char *buffer, size_t size, const lobj_library *library, lobj_locale locale, const char *format, size_t length,
    const int64_t *numbers, size_t count) {
    return lobj_int_format(lobj_buffer_or_none(buffer), size, library, locale, lobj_text_or_none(format), length,
        lobj_numbers_or_none(numbers), count);
}

static inline LOBJ_ANSWERS LOBJ_NONNULL_AT(1, 5) lobj_answer lobj_int_read_given(
    const lobj_library *library, lobj_locale locale, const char *text, size_t length, int64_t *out) {
    return lobj_int_read(library, locale, lobj_text_or_none(text), length, out);
}

static inline LOBJ_ANSWERS LOBJ_NONNULL_AT(3) lobj_answer lobj_nl_langinfo_given(
    char *buffer, size_t size, const lobj_library *library, lobj_locale locale, uint32_t item) {
    return lobj_nl_langinfo(lobj_buffer_or_none(buffer), size, library, locale, item);
}

static inline LOBJ_ANSWERS LOBJ_NONNULL_AT(3, 5) lobj_answer lobj_texts_given(
    char *buffer, size_t size, const lobj_library *library, lobj_locale locale, lobj_table *table) {
    return lobj_texts(lobj_buffer_or_none(buffer), size, library, locale, table);
}

static inline LOBJ_ANSWERS LOBJ_NONNULL_AT(3) lobj_answer lobj_conv_text_given(
    char *buffer, size_t size, const lobj_library *library, lobj_locale locale, uint32_t number) {
    return lobj_conv_text(lobj_buffer_or_none(buffer), size, library, locale, number);
}

static inline LOBJ_ANSWERS LOBJ_NONNULL_AT(1) lobj_answer lobj_iswctype_given(
    const lobj_library *library, lobj_locale locale, uint32_t value, const char *class_name, size_t length) {
    return lobj_iswctype(library, locale, value, lobj_text_or_none(class_name), length);
}

static inline LOBJ_ANSWERS LOBJ_NONNULL_AT(1) lobj_answer lobj_wctype_given(
    const lobj_library *library, lobj_locale locale, const char *class_name, size_t length) {
    return lobj_wctype(library, locale, lobj_text_or_none(class_name), length);
}

static inline LOBJ_ANSWERS LOBJ_NONNULL_AT(3) lobj_answer lobj_upper_text_given(
    char *buffer, size_t size, const lobj_library *library, lobj_locale locale, const char *text, size_t length) {
    return lobj_upper_text(lobj_buffer_or_none(buffer), size, library, locale, lobj_text_or_none(text), length);
}

static inline LOBJ_ANSWERS LOBJ_NONNULL_AT(3) lobj_answer lobj_lower_text_given(
    char *buffer, size_t size, const lobj_library *library, lobj_locale locale, const char *text, size_t length) {
    return lobj_lower_text(lobj_buffer_or_none(buffer), size, library, locale, lobj_text_or_none(text), length);
}

static inline LOBJ_ANSWERS LOBJ_NONNULL_AT(1, 7) lobj_answer lobj_strptime_given(
    const lobj_library *library, lobj_locale locale, const char *text, size_t length, const char *format,
    size_t format_length, lobj_parsed *fields) {
    return lobj_strptime(library, locale, lobj_text_or_none(text), length, lobj_text_or_none(format),
        format_length, fields);
}

static inline LOBJ_ANSWERS LOBJ_NONNULL_AT(1, 5) lobj_answer lobj_catopen_given(
    const lobj_library *library, lobj_locale locale, const char *name, size_t length, lobj_catalog *out) {
    return lobj_catopen(library, locale, lobj_text_or_none(name), length, out);
}

static inline LOBJ_ANSWERS LOBJ_NONNULL_AT(3) lobj_answer lobj_catgets_given(
    char *buffer, size_t size, const lobj_library *library, lobj_catalog catalog, uint32_t set, uint32_t number) {
    return lobj_catgets(lobj_buffer_or_none(buffer), size, library, catalog, set, number);
}

/* A message in the buffer, or another text where the catalog lacks it or the buffer has no room for it. */
static inline const char *lobj_catgets_or(char *buffer, size_t size, const lobj_library *library, lobj_catalog catalog,
                                          uint32_t set, uint32_t number, const char *otherwise) {
    const lobj_answer answer = lobj_catgets_given(buffer, size, library, catalog, set, number);
    return answer.code == LOBJ_OK ? buffer : otherwise;
}

#ifdef __cplusplus
}
#endif

#define lobj_read(...) lobj_read_given(__VA_ARGS__)
#define lobj_add(...) lobj_add_given(__VA_ARGS__)
#define lobj_build(...) lobj_build_given(__VA_ARGS__)
#define lobj_rule(...) lobj_rule_given(__VA_ARGS__)
#define lobj_reason_name(...) lobj_reason_name_given(__VA_ARGS__)
#define lobj_newlocale(...) lobj_newlocale_given(__VA_ARGS__)
#define lobj_locale_name(...) lobj_locale_name_given(__VA_ARGS__)
#define lobj_library_name(...) lobj_library_name_given(__VA_ARGS__)
#define lobj_strfmon(...) lobj_strfmon_given(__VA_ARGS__)
#define lobj_strftime(...) lobj_strftime_given(__VA_ARGS__)
#define lobj_int_format(...) lobj_int_format_given(__VA_ARGS__)
#define lobj_int_read(...) lobj_int_read_given(__VA_ARGS__)
#define lobj_nl_langinfo(...) lobj_nl_langinfo_given(__VA_ARGS__)
#define lobj_texts(...) lobj_texts_given(__VA_ARGS__)
#define lobj_conv_text(...) lobj_conv_text_given(__VA_ARGS__)
#define lobj_iswctype(...) lobj_iswctype_given(__VA_ARGS__)
#define lobj_wctype(...) lobj_wctype_given(__VA_ARGS__)
#define lobj_upper_text(...) lobj_upper_text_given(__VA_ARGS__)
#define lobj_lower_text(...) lobj_lower_text_given(__VA_ARGS__)
#define lobj_strptime(...) lobj_strptime_given(__VA_ARGS__)
#define lobj_catopen(...) lobj_catopen_given(__VA_ARGS__)
#define lobj_catgets(...) lobj_catgets_given(__VA_ARGS__)

#endif
