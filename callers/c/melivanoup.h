/* Melivanoup: the check of rig books, proved. Link libmelivanoup.a (rt lib in crates/melivanoup); it needs no other library.
 *
 * How things are lent
 *   A slice is a pointer and a length in elements. The pointer is never NULL and is aligned, even where the length is 0.
 *   A slice that is shorter than its size below is refused (8). A longer one counts up to its size: past it nothing is read
 *   or written. What is written overlaps nothing else that is lent in the call. No content is wrong: buffers need no
 *   clearing, tables and plans may hold anything, and every call ends; but tables from elsewhere may use one path entry in two
 *   others, and each that is so shared can double the time that following the path takes. No book's tables do.
 *   A number behind a pointer is written on every call, a refusal included; the pointer is never NULL.
 *
 * What comes back
 *   0, or the number of a refusal. Order: 8, then 1, 9, 10, 11; in a book the leftmost fault of the first faulty line.
 *   A refused book (1 to 7) leaves its three tables filled with zeros and changes nothing else; every other refusal changes
 *   nothing that is lent as a slice.
 *
 * The functions keep no state and use no heap. Each wants at most MELIVANOUP_STACK bytes of stack; so lend from the heap or
 * from static memory, and mind it where you make threads.
 */
#ifndef MELIVANOUP_H
#define MELIVANOUP_H

#include <stddef.h>
#include <stdint.h>

#ifdef __cplusplus
extern "C" {
#endif

/* The sizes to lend, in elements. */
#define MELIVANOUP_NAMES 45056   /* uint8_t:  a book's names                                  */
#define MELIVANOUP_CELLS 16602   /* uint16_t: its counts, nodes, facts, entries, rules        */
#define MELIVANOUP_VALUES 1136   /* int64_t:  its numbers                                     */
#define MELIVANOUP_PLAN 2593     /* uint16_t: a plan                                          */
#define MELIVANOUP_WORK 8192     /* uint64_t: the sets of a run, sixteen words for each step  */
#define MELIVANOUP_ROW 1024      /* uint16_t: the list of one rule                            */
#define MELIVANOUP_LISTS 32768   /* uint16_t: the lists of all rules, a row for each          */
#define MELIVANOUP_LENGTHS 32    /* uint16_t: how many nodes each rule lists                  */
#define MELIVANOUP_PAGE 45056    /* uint8_t:  a part of the report                            */
#define MELIVANOUP_TALLIES 8     /* uint32_t: the answers given to each console               */

/* The longest book, in bytes: one byte more is refused (1). */
#define MELIVANOUP_BOOK 65536

/* Measured, not proved: books need at most 4.5 MB, tables from elsewhere 17.2: 128 KB for each seq, star and plus that stands
 * inside another, of which a book has at most 30 and tables 127. Where there is less, the program ends at the guard page. */
#define MELIVANOUP_STACK 17825792

/* The first cells are counts; docs/LAYOUT.md has the other columns. */
#define MELIVANOUP_CELL_NODES 0
#define MELIVANOUP_CELL_SHAPES 4
#define MELIVANOUP_CELL_FACTS 5 /* fact lines, repeats included */
#define MELIVANOUP_CELL_PATHS 6 /* path entries: each path and each part of one, in the order in which they end */
#define MELIVANOUP_CELL_RULES 9

/* The number of the shape of rule r stands at cells[MELIVANOUP_RULE_SHAPES + r], that of a plan's steps at
 * plan[MELIVANOUP_PLAN_STEPS]. */
#define MELIVANOUP_RULE_SHAPES 16506
#define MELIVANOUP_PLAN_STEPS 0

/* The name of node n stands at names + MELIVANOUP_NAME * n, that of shape s at names + MELIVANOUP_SHAPE_NAMES +
 * MELIVANOUP_NAME * s: at most MELIVANOUP_NAME - 1 bytes, then zeros. */
#define MELIVANOUP_NAME 32
#define MELIVANOUP_SHAPE_NAMES 43008

/* What the verdict writes of a node that meets the shape; 0 of one that does not. */
#define MELIVANOUP_CONFORMS 1

/* What nearest writes where there is a spare; 0 where there is none. */
#define MELIVANOUP_FOUND 1

/* Why a call was refused. 1 to 7 are the book writer's: 2 to 7 come with a line, counted from 1. 8 to 11 are the caller's. */
enum melivanoup_refusal {
  MELIVANOUP_NONE = 0,
  MELIVANOUP_TOO_LONG = 1,  /* the book has more than 65,536 bytes */
  MELIVANOUP_GRAMMAR = 2,   /* not the grammar; also a last line without its line feed */
  MELIVANOUP_RANGE = 3,     /* a number out of its range */
  MELIVANOUP_NESTING = 4,   /* more than 32 brackets open together */
  MELIVANOUP_UNDEFINED = 5, /* a name that is not defined on a line above */
  MELIVANOUP_TAKEN = 6,     /* a new name that is in its pool already */
  MELIVANOUP_LIMIT = 7,     /* another limit is passed */
  MELIVANOUP_SHORT = 8,     /* a lent slice is shorter than its size */
  MELIVANOUP_MALFORMED = 9, /* tables, plan or lists that are not well formed; those of an accepted book always are */
  MELIVANOUP_ABSENT = 10,   /* a node, shape, path entry, rule or part of the report that the book does not have */
  MELIVANOUP_CONSOLE = 11   /* a console number above 7 */
};

/* The tables of a book. Accepted exactly when the bytes are a book of document 01; the tables then hold what it says, in its
 * order, and zeros elsewhere. *line: where it was refused, else 0. *nodes, *facts (fact lines), *rules: 0 on a refusal. */
uint32_t melivanoup_read(const uint8_t *book, size_t book_len, uint8_t *names, size_t names_len, uint16_t *cells,
                         size_t cells_len, int64_t *values, size_t values_len, size_t *line, size_t *nodes, size_t *facts,
                         size_t *rules);

/* Whether a node meets a shape, by Table 1 of "Compiling SHACL Into SQL": a question of one of the consoles 0 to 7. *conforms:
 * 1 yes, 0 no or refused. tallies[console] counts the verdicts given to the console: one more on an answer, at most
 * 4,294,967,295; the others stay, and on a refusal (8, 9, 10, 11) all do. Begin with eight zeros and hand on what was left: then
 * a console's answers and its tally depend on the tables and on its own questions only. */
uint32_t melivanoup_verdict(const uint8_t *names, size_t names_len, const uint16_t *cells, size_t cells_len,
                            const int64_t *values, size_t values_len, size_t console, size_t node, size_t shape,
                            uint32_t *tallies, size_t tallies_len, uint32_t *conforms);

/* How far a search along a path entry goes from a node: the rounds of the path's star. *rounds: the least k such that the nodes
 * within k repetitions of the path are those within k + 1, and so all that any number of them leads to; within 0 is the node
 * itself. It is below the number of nodes reached, so at most 1,023; 0 on a refusal (8, 9, 10). */
uint32_t melivanoup_rounds(const uint8_t *names, size_t names_len, const uint16_t *cells, size_t cells_len,
                           const int64_t *values, size_t values_len, size_t node, size_t path, size_t *rounds);

/* The nearest spare: which node that meets a shape is fewest hops from a node, a hop being one repetition of a path entry.
 * *found: 1 where some number of repetitions leads to such a node, else 0. *hops: the fewest that do, so at most 1,023; 0 where
 * the node itself meets the shape. *spare: the lowest number among those that so many lead to and that meet it. *hops and *spare
 * are 0 where *found is; all three on a refusal (8, 9, 10). */
uint32_t melivanoup_nearest(const uint8_t *names, size_t names_len, const uint16_t *cells, size_t cells_len,
                            const int64_t *values, size_t values_len, size_t node, size_t path, size_t shape,
                            uint32_t *found, size_t *hops, size_t *spare);

/* The plan of the tables, by document 01's table of steps. *steps: how many it has, at most four for each form entry and two
 * for each rule; 0 on a refusal (8, 9). */
uint32_t melivanoup_compile(const uint8_t *names, size_t names_len, const uint16_t *cells, size_t cells_len,
                            const int64_t *values, size_t values_len, uint16_t *plan, size_t plan_len, size_t *steps);

/* The set of each step, node n at bit n mod 64 of word 16 * step + n div 64; words past the last step stay. Which classes lie
 * under which goes by the link named `under`; where several links have that name, by the lowest. Refused: 8, 9. */
uint32_t melivanoup_run(const uint8_t *names, size_t names_len, const uint16_t *cells, size_t cells_len,
                        const int64_t *values, size_t values_len, const uint16_t *plan, size_t plan_len, uint64_t *work,
                        size_t work_len);

/* The nodes in the set of a rule's step, lowest first, at the front of the row; the rest of the row stays. After read, compile
 * and run of the same book these are the nodes that break the rule. *nodes: how many; 0 on a refusal (8, 9, 10). */
uint32_t melivanoup_list(const uint8_t *names, size_t names_len, const uint16_t *cells, size_t cells_len,
                         const int64_t *values, size_t values_len, const uint16_t *plan, size_t plan_len,
                         const uint64_t *work, size_t work_len, size_t rule, uint16_t *row, size_t row_len, size_t *nodes);

/* All of it at once, from the bytes to the lists of all rules. Row r of lists, from MELIVANOUP_ROW * r on, begins with the
 * lengths[r] nodes that break rule r: a node stands there exactly when the rule selects it and it does not meet the rule's
 * shape, once, in book order. What lies past them stays. *line as for read, *steps as for compile. Refused: 8, 1 to 7. */
uint32_t melivanoup_validate(const uint8_t *book, size_t book_len, uint8_t *names, size_t names_len, uint16_t *cells,
                             size_t cells_len, int64_t *values, size_t values_len, uint16_t *plan, size_t plan_len,
                             uint64_t *work, size_t work_len, uint16_t *lists, size_t lists_len, uint16_t *lengths,
                             size_t lengths_len, size_t *line, size_t *steps);

/* A part of the report at the front of the page: part 0 is its first line, parts 1 to the number of rules the lines of each
 * rule, the part after these the last line. One after the other they are document 01's report. *bytes: how many were written;
 * the rest of the page stays; 0 on a refusal (8, 9, 10). */
uint32_t melivanoup_report(const uint8_t *names, size_t names_len, const uint16_t *cells, size_t cells_len,
                           const int64_t *values, size_t values_len, const uint16_t *lists, size_t lists_len,
                           const uint16_t *lengths, size_t lengths_len, size_t part, uint8_t *page, size_t page_len,
                           size_t *bytes);

#ifdef __cplusplus
}
#endif

#endif
