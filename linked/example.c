/* Calls the planning sheet from C: worked sheets, a short one, refused ones, and a page of text. */
#include <stdio.h>
#include <string.h>

#include "planning_sheet.h"

#define ROOM 4

/* One call, and what the places lent to it hold afterwards. Each place begins as 77. Where more than
   one set may be written the set is not shown. */
static void show_plan(const char *name, uint32_t kind, uint32_t packages, uint32_t translators,
                      const uint32_t *codes, size_t codes_length, int one_set)
{
    uint16_t plan[ROOM] = {77, 77, 77, 77};
    uint8_t set[ROOM] = {77, 77, 77, 77};
    uint32_t lowest = 77;
    uint32_t answer = planning_sheet_plan(kind, packages, translators, codes, codes_length,
                                          plan, ROOM, set, ROOM, &lowest);
    printf("%s: %u, lowest %u, plan", name, (unsigned)answer, (unsigned)lowest);
    for (size_t k = 0; k < ROOM; k++) {
        printf(" %u", (unsigned)plan[k]);
    }
    if (one_set) {
        printf(", set");
        for (size_t k = 0; k < ROOM; k++) {
            printf(" %u", (unsigned)set[k]);
        }
    }
    printf("\n");
}

static void show_page(const char *text)
{
    uint8_t output[256];
    size_t length = 0;
    const uint8_t *input = (const uint8_t *)text;
    memset(output, '#', sizeof output);
    uint32_t answer = planning_sheet_page(input, strlen(text), output, 4, &length);
    printf("page, room for 4: %u, length %zu, %.4s\n", (unsigned)answer, length, (const char *)output);
    answer = planning_sheet_page(input, strlen(text), output, sizeof output, &length);
    printf("page, room for 256: %u, length %zu, then %c\n", (unsigned)answer, length, output[length]);
    fwrite(output, 1, length, stdout);
}

int main(void)
{
    const uint32_t rising[] = {1, 3, 2, 4};
    const uint32_t ratings[] = {1, 2562, 2306, 5120002};
    const uint32_t crowded[] = {1000, 1000, 1000, 1000, 1000, 1000};
    const uint32_t none[] = {0};
    const uint32_t above[] = {1, 3, 2, 1001};
    show_plan("points, 2 by 2", 1, 2, 2, rising, 4, 1);
    show_plan("ratings, 2 by 2", 2, 2, 2, ratings, 4, 0);
    show_plan("points, 3 by 2", 1, 3, 2, crowded, 6, 1);
    show_plan("points, 1 by 1, no grade", 1, 1, 1, none, 1, 1);
    show_plan("points, 49 by 2", 1, 49, 2, rising, 4, 1);
    show_plan("points, a code of 1001", 1, 2, 2, above, 4, 1);
    show_plan("kind 3", 3, 2, 2, rising, 4, 1);
    show_plan("points, 3 codes of 4", 1, 2, 2, rising, 3, 1);
    show_plan("points, 5 packages, room for 4", 1, 5, 1, crowded, 6, 1);
    show_page("open 2 2\ngrade 2 1 1 700\ngrade 2 1 2 400\ndraw 2\ngrade 2 2 1 650\n"
              "draw 2\npublish 2\npublish 3\nshow 1\n");
    return 0;
}
