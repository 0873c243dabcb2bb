/* report FILE: prints the report of a book. Status 0, 1 for a refused book, 2 where the file cannot be read. */
#include "melivanoup.h"
#include <stdio.h>

static uint8_t book[MELIVANOUP_BOOK + 1]; /* one byte more, so that a longer book is seen to be too long */
static uint8_t names[MELIVANOUP_NAMES];
static uint16_t cells[MELIVANOUP_CELLS];
static int64_t values[MELIVANOUP_VALUES];
static uint16_t plan[MELIVANOUP_PLAN];
static uint64_t work[MELIVANOUP_WORK];
static uint16_t lists[MELIVANOUP_LISTS];
static uint16_t lengths[MELIVANOUP_LENGTHS];
static uint8_t page[MELIVANOUP_PAGE];

static uint32_t print_part(size_t part) {
  size_t bytes;
  uint32_t refused =
      melivanoup_report(names, MELIVANOUP_NAMES, cells, MELIVANOUP_CELLS, values, MELIVANOUP_VALUES, lists,
                        MELIVANOUP_LISTS, lengths, MELIVANOUP_LENGTHS, part, page, MELIVANOUP_PAGE, &bytes);
  fwrite(page, 1, bytes, stdout);
  return refused;
}

static int print_refusal(uint32_t number, size_t line) {
  printf("(refused %u %zu)\n", (unsigned)number, line);
  return 1;
}

int main(int argc, char **argv) {
  if (argc != 2) {
    fprintf(stderr, "usage: report FILE\n");
    return 2;
  }
  FILE *file = fopen(argv[1], "rb");
  if (!file) {
    perror(argv[1]);
    return 2;
  }
  size_t length = fread(book, 1, sizeof book, file);
  int failed = ferror(file);
  fclose(file);
  if (failed) {
    perror(argv[1]);
    return 2;
  }

  size_t line, steps;
  uint32_t refused = melivanoup_validate(book, length, names, MELIVANOUP_NAMES, cells, MELIVANOUP_CELLS, values,
                                         MELIVANOUP_VALUES, plan, MELIVANOUP_PLAN, work, MELIVANOUP_WORK, lists,
                                         MELIVANOUP_LISTS, lengths, MELIVANOUP_LENGTHS, &line, &steps);
  if (refused)
    return print_refusal(refused, line);
  size_t parts = (size_t)cells[MELIVANOUP_CELL_RULES] + 2;
  for (size_t part = 0; part < parts; part++) {
    refused = print_part(part);
    if (refused)
      return print_refusal(refused, 0);
  }
  return 0;
}
