#include "locale_objects.h"
#include <stdio.h>

int main(void) {
    static char text[1 << 20], out[64];
    lobj_library *library;
    lobj_locale us;
    lobj_fault fault;
    size_t length = fread(text, 1, sizeof text, stdin);
    if (lobj_read(text, length, &library, &fault, out, sizeof out).code != LOBJ_OK) return 1;
    lobj_posix_locale(library, &us);
    if (lobj_newlocale(library, LOBJ_ALL_MASK, "en_US", 5, us, &us).code != LOBJ_OK) return 1;
    lobj_answer answer = lobj_strfmon(out, sizeof out, library, us, "%n", 2, &(lobj_amount){ 123456789, 2 }, 1);
    if (answer.code == LOBJ_OK) printf("%.*s\n", (int)answer.n, out);
    lobj_library_free(library);
}
