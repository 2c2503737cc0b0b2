/*
 * Two users at the same time: each formats an amount and a date in a locale of its own, on a thread of
 * its own, of one library. Takes the file of the locale sources, examples/two_users.bundle.
 */
#include "locale_objects.h"
#include <pthread.h>
#include <stdio.h>
#include <stdlib.h>
#include <string.h>

typedef struct user {
    const char *name, *format;
    const lobj_library *library;
    lobj_locale locale;
    char amount[64], date[64];
} user;

static void require(lobj_answer answer, const char *call) {
    if (answer.code == LOBJ_OK) return;
    fprintf(stderr, "%s: code %u, %zu\n", call, (unsigned)answer.code, answer.n);
    exit(1);
}

static void *format_both(void *given) {
    user *u = given;
    const lobj_amount amount = { 123456789, 2 };
    const lobj_tm time = { 2021, 1, 3, 14, 5, 6, 0, 2, false, 0 };
    require(lobj_strfmon(u->amount, sizeof u->amount, u->library, u->locale, "%n", 2, &amount, 1), "strfmon");
    require(lobj_strftime(u->date, sizeof u->date, u->library, u->locale, u->format, strlen(u->format), &time,
                          "", 0), "strftime");
    return NULL;
}

int main(int count, char **arguments) {
    static const char broken[] = ".locale de UTF-8\nLC_NUMERIC\ndecimal_point \"\"\nEND LC_NUMERIC\n.end\n";
    static const char *const names[] = { "en_US", "fr_FR" };
    static char text[1 << 20];
    user users[] = { { .name = "Ann", .format = "%x" }, { .name = "Bob", .format = "%A %d %B" } };
    lobj_library *library = NULL;
    lobj_locale posix;
    lobj_fault fault = { 0, 0, 0, 0, 0, 0 };
    pthread_t threads[2];
    char line[256];
    FILE *file = count == 2 ? fopen(arguments[1], "rb") : NULL;
    if (file == NULL) {
        fprintf(stderr, "usage: two_users FILE\n");
        return 2;
    }
    require(lobj_read(text, fread(text, 1, sizeof text, file), &library, &fault, line, sizeof line), "read");
    fclose(file);
    lobj_posix_locale(library, &posix);
    for (int i = 0; i < 2; i++) {
        users[i].library = library;
        require(lobj_newlocale(library, LOBJ_ALL_MASK, names[i], 5, posix, &users[i].locale), names[i]);
        if (pthread_create(&threads[i], NULL, format_both, &users[i]) != 0) return 1;
    }
    for (int i = 0; i < 2; i++) {
        pthread_join(threads[i], NULL);
        printf("%s: %s, %s\n", users[i].name, users[i].amount, users[i].date);
    }
    lobj_library_free(library);
    if (lobj_read(broken, strlen(broken), &library, &fault, line, sizeof line).code == LOBJ_BAD_TEXT) {
        printf("%u:%u: %s\n%.*s\n", (unsigned)fault.line, (unsigned)fault.column, line, (int)fault.length, broken + fault.start);
    }
    return 0;
}
