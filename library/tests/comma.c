/* Tries the sentences under locales with other decimal points: describe.c with calls that write and read one. As C. */
#include <stdarg.h>
#include <stdio.h>
#include <stdlib.h>
#include <string.h>

static const char *point; /* between whole and part */

/* snprintf of "%.*g" under the locale. */
static int write_number(char *text, size_t room, const char *format, int digits, double number) {
    char plain[40], *at;
    snprintf(plain, sizeof plain, "%.*g", digits, number);
    at = strchr(plain, '.');
    if (strcmp(format, "%.*g")) abort();
    if (at) *at = 0;
    return snprintf(text, room, "%s%s%s", plain, at ? point : "", at ? at + 1 : "");
}

/* strtod under the locale. */
static double read_number(const char *text, char **end) {
    const char *at = strstr(text, point);
    char plain[80];
    snprintf(plain, sizeof plain, "%.*s%s%s", at ? (int)(at - text) : 40, text, at ? "." : "",
             at ? at + strlen(point) : "");
    return strtod(plain, end);
}

#define snprintf write_number
#define strtod read_number
#include "../describe.c"

int main(void) {
    static const char *points[] = {".", ",", "\xd9\xab"};
    static const struct {
        double decibels;
        const char *told;
    } of[] = {{24.5, "24.5"},
              {-120.00000000000001, "-120.00000000000001"},
              {-1.7976931348623157e308, "-1.7976931348623157e+308"},
              {25, "25"},
              {1e300, "1e+300"}};
    unsigned tried = 0, wrong = 0;
    for (size_t p = 0; p < 3; p++)
        for (size_t k = 0; k < sizeof of / sizeof *of; k++) {
            puigneht_refusal r;
            char text[PUIGNEHT_DESCRIPTION_ROOM];
            memset(&r, 0, sizeof r), point = points[p];
            r.number = PUIGNEHT_REFUSED_GAIN, r.decibels = of[k].decibels;
            puigneht_describe(&r, text, sizeof text);
            tried++;
            if (!strcmp(strrchr(text, ' ') + 1, of[k].told)) continue;
            wrong++;
            printf("under '%s': %s\n", point, text);
        }
    printf("%u tried, %u wrong\n", tried, wrong);
    return wrong != 0;
}
