/*
 * The text that bafirolen.h has of each refusal is the meaning that README's table gives it. Writes `compared N cases`; a
 * difference is written to standard error, and the exit status is 1.
 *
 *     gcc -std=c99 -O2 -Wall -Wextra -Iinclude hosts/c/texts.c target/staticlib/libbafirolen_c.a -o target/texts
 *     target/texts
 */
#include "compare.h"

#include <stdlib.h>

#define REFUSALS 40

static void text_is(uint64_t number, const char *want)
{
    const char *got = bafirolen_refusal_text(number);
    same("a refusal's text", (uint64_t)(strcmp(got, want) == 0), 1);
    if (strcmp(got, want) != 0) {
        fprintf(stderr, "%llu: '%s', not '%s'\n", (unsigned long long)number, got, want);
    }
}

/* a row begins with the number and the meaning: `| 29 | no pair has the key | ..` */
static unsigned long row(char *line)
{
    char *meaning, *end;
    const unsigned long number = strncmp(line, "| ", 2) == 0 ? strtoul(line + 2, &meaning, 10) : 0;
    if (number == 0 || strncmp(meaning, " | ", 3) != 0 || (end = strstr(meaning + 3, " |")) == NULL) {
        return 0;
    }
    *end = 0;
    text_is(number, meaning + 3);
    return number;
}

int main(void)
{
    static char line[4096];
    unsigned long rows = 0, number;
    FILE *readme = fopen("README.md", "r");
    if (readme == NULL) {
        fputs("texts runs in the folder that has README.md\n", stderr);
        return 2;
    }
    while (fgets(line, sizeof line, readme) != NULL) {
        number = row(line);
        if (number != 0) {
            same("the rows in order", number, ++rows);
        }
    }
    fclose(readme);
    same("the rows", rows, REFUSALS);
    text_is(0, "no refusal");
    text_is(REFUSALS + 1, "unknown refusal");
    text_is(256 + REFUSALS, "unknown refusal");
    text_is(4294967296u + REFUSALS, "unknown refusal");
    text_is(UINT64_MAX, "unknown refusal");
    return compared();
}
