/*
 * The header and the library beside PostgreSQL's, which has a function lo_read of its own: both in one file and in one
 * program. Ends with status 0 where each is called.
 */
#include <libpq-fe.h>
#include <libpq/libpq-fs.h>

#include "locale_objects.h"

int main(void) {
    static const char text[] = ".locale us UTF-8\n.end\n";
    lobj_library *library = NULL;
    lobj_fault fault;
    lobj_locale posix;
    char line[64];
    if (lobj_read(text, sizeof text - 1, &library, &fault, line, sizeof line).code != LOBJ_OK) return 1;
    lobj_posix_locale(library, &posix);
    const bool is_ours = lobj_towupper(library, posix, 'q').n == 'Q';
    lobj_library_free(library);
    /* (with no connection libpq's answers -1) */
    return is_ours && lo_read(NULL, 0, line, sizeof line) == -1 ? 0 : 1;
}
