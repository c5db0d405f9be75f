/* Selects for each line of a forest, as `sel select GRAMMAR FOREST` does: select GRAMMAR FOREST. */
#include "sel.h"
#include <stdio.h>
#include <stdlib.h>
#include <string.h>

static uint8_t *whole(const char *name, size_t *len) {
    FILE *file = fopen(name, "rb");
    if (!file || fseek(file, 0, SEEK_END)) exit(2);
    *len = (size_t)ftell(file);
    rewind(file);
    uint8_t *bytes = malloc(*len + 1);
    if (!bytes || fread(bytes, 1, *len, file) != *len) exit(2);
    fclose(file);
    return bytes;
}

int main(int argc, char **argv) {
    if (argc != 3) return 1;
    size_t grammar_len, forest_len, trees = 0;
    uint8_t *grammar = whole(argv[1], &grammar_len), *forest = whole(argv[2], &forest_len);
    struct sel sel = SEL_NONE;
    struct sel_answer told = sel_open(&sel, grammar, grammar_len);
    free(grammar);
    if (told.code != SEL_OK) return fprintf(stderr, "%u: grammar fault %u\n", told.line, told.kind), 4;
    size_t room = 0;
    uint8_t *out = NULL;
    for (uint8_t *line = forest, *end = forest + forest_len; line < end;) {
        uint8_t *feed = memchr(line, '\n', (size_t)(end - line)), *stop = feed ? feed : end;
        while ((told = sel_line_text(&sel, line, (size_t)(stop - line), out, room)).code == SEL_SHORT)
            if (!(out = realloc(out, room = told.needs))) return 7;
        line = stop + 1;
        if (told.code == SEL_NOT_ONE) continue; /* a line of blanks */
        printf("; tree %zu ", ++trees);
        if (told.code == SEL_OK) printf("cost %llu\n%.*s", (unsigned long long)told.cost, (int)told.needs, (char *)out);
        else if (told.code == SEL_NO_COVER) puts("no cover");
        else return printf("code %u at %u, kind %u\n", told.code, told.column, told.kind), 5;
    }
    sel_close(&sel);
    free(out);
    free(forest);
}
