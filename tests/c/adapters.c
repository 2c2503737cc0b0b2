/*
 * The functions that include/locale_objects.h defines itself: codes by name, times, amounts. Needs no library.
 * Ends with status 0 where all is as wanted.
 */
#include "check.h"
#include "locale_objects.h"
#include <locale.h>
#include <math.h>
#include <stdlib.h>
#include <string.h>

static void name_codes(void) {
    for (uint32_t code = 0; code <= LOBJ_NO_MESSAGE; code++) {
        for (uint32_t other = 0; other < code; other++) CHECK(strcmp(lobj_strerror(code), lobj_strerror(other)) != 0);
        CHECK(strcmp(lobj_strerror(code), "unknown code") != 0);
    }
    CHECK(strcmp(lobj_strerror(LOBJ_NO_MESSAGE + 1), "unknown code") == 0);
}

static void convert_times(void) {
    struct tm given = { .tm_year = 121, .tm_mon = 0, .tm_mday = 3, .tm_hour = 14, .tm_min = 5, .tm_sec = 6,
                        .tm_wday = 7, .tm_yday = 8 };
    lobj_tm time = lobj_tm_of(&given);
    CHECK(time.year == 2021 && time.mon == 1 && time.mday == 3 && time.hour == 14 && time.min == 5);
    CHECK(time.sec == 6 && time.wday == 7 && time.yday == 8 && !time.has_offset && time.offset == 0);
    given.tm_year = INT32_MAX;
    given.tm_mon = INT32_MAX;
    time = lobj_tm_of(&given);
    CHECK(time.year > 9999 && time.mon > 12);
    given.tm_year = INT32_MIN;
    given.tm_mon = INT32_MIN;
    time = lobj_tm_of(&given);
    CHECK(time.year < 1 && time.mon < 1);
    lobj_parsed fields = { 2021, 1, 3, 14, 15, 16, 4, 98 };
    lobj_parsed_to_tm(&fields, &given);
    CHECK(given.tm_year == 121 && given.tm_mon == 0 && given.tm_mday == 3 && given.tm_hour == 14);
    CHECK(given.tm_min == 15 && given.tm_sec == 16 && given.tm_wday == 4 && given.tm_yday == 98);
    fields = (lobj_parsed){ -1, -1, -1, -1, -1, -1, -1, -1 };
    lobj_parsed_to_tm(&fields, &given);
    CHECK(given.tm_year == 121 && given.tm_mon == 0 && given.tm_mday == 3 && given.tm_hour == 14);
    CHECK(given.tm_min == 15 && given.tm_sec == 16 && given.tm_wday == 4 && given.tm_yday == 98);
}

static bool is_amount(const char *text, int64_t units, uint8_t scale) {
    lobj_amount amount = { 5, 5 };
    return lobj_amount_of_text(text, strlen(text), &amount) && amount.units == units && amount.scale == scale;
}

static bool is_none(const char *text) {
    lobj_amount amount = { 5, 5 };
    return !lobj_amount_of_text(text, strlen(text), &amount) && amount.units == 5 && amount.scale == 5;
}

static bool is_rounded(double value, int digits, int64_t units) {
    lobj_amount amount = { 5, 5 };
    return lobj_amount_of_double(value, digits, &amount) && amount.units == units && amount.scale == digits;
}

static bool is_out(double value, int digits) {
    lobj_amount amount = { 5, 5 };
    return !lobj_amount_of_double(value, digits, &amount) && amount.units == 5 && amount.scale == 5;
}

static void convert_amounts(void) {
    CHECK(is_amount("1234.50", 123450, 2) && is_amount("-0.05", -5, 2) && is_amount("7", 7, 0));
    CHECK(is_amount("9223372036854775807", INT64_MAX, 0) && is_amount("0.000000000000000001", 1, 18));
    CHECK(is_amount("-9223372036854775.807", -INT64_MAX, 3));
    CHECK(is_none("") && is_none("-") && is_none(".5") && is_none("5.") && is_none("1.2.3") && is_none("1,5") && is_none("+1"));
    CHECK(is_none("9223372036854775808") && is_none("0.0000000000000000001") && is_none("99999999999999999999"));
    CHECK(is_rounded(1234.565, 2, 123457) && is_rounded(0.125, 2, 12) && is_rounded(0.375, 2, 38));
    CHECK(is_rounded(-2.5, 0, -2) && is_rounded(-0.001, 2, 0) && is_rounded(9e15, 2, 900000000000000000));
    CHECK(is_out(NAN, 2) && is_out(INFINITY, 2) && is_out(-INFINITY, 0) && is_out(1e300, 2) && is_out(1e18, 2));
    CHECK(is_out(1, -1) && is_out(1, 19));
}

int main(void) {
    name_codes();
    convert_times();
    convert_amounts();
    if (setlocale(LC_NUMERIC, "de_DE.UTF-8") != NULL) convert_amounts();
    puts(wrong ? "adapters: not as wanted" : "adapters: as wanted");
    return wrong;
}
