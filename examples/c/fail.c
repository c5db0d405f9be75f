/* Each allocation of an opening and of an answer fails in turn: fail GRAMMAR TREE. Link with -Wl,--wrap=malloc,--wrap=realloc. */
#include "sel.h"
#include <stdio.h>
#include <stdlib.h>
#include <string.h>

static long left = -1, calls;
void *__real_malloc(size_t n);
void *__real_realloc(void *p, size_t n);
static int fails(void) { calls++; return left >= 0 && left-- == 0; }
void *__wrap_malloc(size_t n) { return fails() ? NULL : __real_malloc(n); }
void *__wrap_realloc(void *p, size_t n) { return fails() ? NULL : __real_realloc(p, n); }

int main(int argc, char **argv) {
    static uint8_t grammar[1 << 20], want[4096], out[4096];
    FILE *file = argc == 3 ? fopen(argv[1], "rb") : NULL;
    if (!file) return 1;
    size_t len = fread(grammar, 1, sizeof grammar, file);
    fclose(file);
    const uint8_t *tree = (const uint8_t *)argv[2];
    size_t tree_len = strlen(argv[2]);
    struct sel sel = SEL_NONE;
    calls = 0;
    if (sel_open(&sel, grammar, len).code != SEL_OK) return 2;
    long opens = calls, told = 0, went_on = 0, bad = 0;
    calls = 0;
    struct sel_answer first = sel_line_text(&sel, tree, tree_len, want, sizeof want);
    long answers = calls;
    if (first.code != SEL_OK) return 3;
    calls = 0;
    sel_line_text(&sel, tree, tree_len, out, sizeof out);
    printf("allocations: %ld to open, %ld for the first answer, %ld for the same again\n", opens, answers, calls);
    for (long n = 0; n < opens + answers; n++) {
        struct sel other = SEL_NONE;
        left = n;
        struct sel_answer a = sel_open(&other, grammar, len);
        if (a.code == SEL_OK) a = sel_line_text(&other, tree, tree_len, memset(out, 7, sizeof out), sizeof out);
        left = -1;
        if (a.code == SEL_NO_MEMORY) told++;
        else if (a.code == SEL_OK && a.needs == first.needs && !memcmp(out, want, a.needs)) went_on++;
        else bad++, printf("allocation %ld: code %u\n", n, a.code);
        if (other.full) { /* the handle may be asked again */
            a = sel_line_text(&other, tree, tree_len, out, sizeof out);
            if (a.code != SEL_OK || memcmp(out, want, first.needs)) bad++, printf("behind allocation %ld: code %u\n", n, a.code);
        }
        sel_close(&other);
    }
    sel_close(&sel);
    printf("%ld told that there is no memory, %ld went on, %ld were wrong\n", told, went_on, bad);
    return bad != 0;
}
