/* A fact that a test looks at: where it does not hold, its line is printed, and the test fails. */
#include <stdbool.h>
#include <stdio.h>

static int wrong = 0;

static void check(bool holds, const char *what, int line) {
    if (!holds) {
        printf("line %d: not so: %s\n", line, what);
        wrong = 1;
    }
}

#define CHECK(fact) check((fact), #fact, __LINE__)
