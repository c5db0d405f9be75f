/* Writes for each line of a forest the rules of its cover, as `sel cover GRAMMAR FOREST` does, each by its own number
 * behind `=`, where the grammar gives it one: rules GRAMMAR FOREST. */
#include "sel.h"
#include <stdio.h>
#include <string.h>

static uint8_t grammar[1 << 20], line[1 << 16];
static uint16_t rules[1 << 16];

int main(int argc, char **argv) {
    FILE *text = argc == 3 ? fopen(argv[1], "rb") : NULL, *forest = argc == 3 ? fopen(argv[2], "rb") : NULL;
    if (!text || !forest) return 1;
    struct sel sel = SEL_NONE;
    if (sel_open(&sel, grammar, fread(grammar, 1, sizeof grammar, text)).code != SEL_OK) return 4;
    fclose(text);
    /* The grammars beside this file declare CNST first, and no operator's name has a blank. */
    if (sel_operator(&sel, (const uint8_t *)"CNST", 4) != 0 || sel_operator(&sel, (const uint8_t *)"CN ST", 5) != UINT32_MAX) return 3;
    for (size_t trees = 0; fgets((char *)line, sizeof line, forest);) {
        struct sel_answer told = sel_line_rules(&sel, line, strcspn((char *)line, "\n"), rules, sizeof rules / sizeof *rules);
        if (told.code == SEL_NOT_ONE) continue; /* a line of blanks */
        if (told.code != SEL_OK) return 5;
        printf("; tree %zu cost %llu\n", ++trees, (unsigned long long)told.cost);
        for (size_t at = 0; at < told.needs; at++) {
            struct sel_rule rule;
            if (!sel_rule_of(&sel, rules[at], &rule)) return 3;
            printf("%s%u", at ? " " : "", rule.external == UINT32_MAX ? rules[at] : rule.external);
        }
        putchar('\n');
    }
    fclose(forest);
    sel_close(&sel);
    struct sel_rule none;
    return sel_rule_of(&sel, 1, &none) ? 3 : 0;
}
