/* The planning sheet for C: link crates/exports/out/libexports.a and the kit's c/liblibc_c.a.
   README.md says what a caller must respect. Nothing checks these declarations against the source. */
#ifndef PLANNING_SHEET_H
#define PLANNING_SHEET_H

#include <stddef.h>
#include <stdint.h>

#define PLANNING_SHEET_DONE 0
#define PLANNING_SHEET_SIZE 1
#define PLANNING_SHEET_GRADE 7
#define PLANNING_SHEET_SPACE 9
#define PLANNING_SHEET_SHORT 100
#define PLANNING_SHEET_NO_MEMORY 200

/* The best plan by a table of codes.

   kind: 1 for points, 2 for ratings. packages: 1 to 48. translators: 1 to 64.
   codes: row by row, the code of package k with translator j at place
   (k - 1) * translators + (j - 1), and 0 for no grade.

   0    there is a plan: the first packages places of plan are its translators, numbered from 1, the
        first packages bytes of set are 1 for the members of a tight set and 0 for all others, and
        lowest is the lowest code of the plan
   100  there is none: the first packages bytes of set are those of a short set
   1    the sizes are outside the limits
   7    the kind is another, or one of the first packages * translators codes, as far as they are
        there, is neither 0 nor valid in the kind
   9    there are fewer codes than that, or plan or set has fewer than packages places

   Of 1, 7 and 9 the first that holds is answered. All that is not named above stays as it was. */
uint32_t planning_sheet_plan(uint32_t kind, uint32_t packages, uint32_t translators,
                             const uint32_t *codes, size_t codes_length,
                             uint16_t *plan, size_t plan_length,
                             uint8_t *set, size_t set_length,
                             uint32_t *lowest);

/* What the page program prints for an input, byte for byte.

   0    the first *length bytes of output are the text
   9    output is too short: *length is the length that is needed, and no byte is written
   200  there is not enough memory: output and *length stay as they were

   Bytes of output after the text stay as they were. The memory that the call takes is given back
   before it returns. */
uint32_t planning_sheet_page(const uint8_t *input, size_t input_length,
                             uint8_t *output, size_t output_length,
                             size_t *length);

#endif
