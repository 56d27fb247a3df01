/* Volefleece: the most processor cycles a door lock can stay awake for one opening. */
#ifndef VOLEFLEECE_H
#define VOLEFLEECE_H

#include <stddef.h>
#include <stdint.h>

/* Each pointer lends as many elements as the length after it says, and what is lent to be written overlaps nothing else that is
   lent. A call wants less than 192 KiB of stack, as measured. */

/* What each call answers is proved of these structs' numbers: its contract is in crates/volefleece/src/lib.rt. What
   holds of the calls together, so that a simplified table gives the figure of the original, is the contract of vf_both_desks there,
   which is not exported. It is about the numbers of four calls: vf_check and vf_simplify of a table, vf_figure lent that table, and
   vf_figure lent what vf_simplify wrote, in the length that it answered, both unchanged since. It relates their figures and not their
   branches: a simplified table may have another one. */

#ifdef __cplusplus
extern "C" {
#endif

/* What checking answers. */
typedef struct {
    uint64_t refused; /* 0 if the table is accepted, else the number of the first question that says no, 1 to 7 */
    uint64_t records; /* how many records the accepted table has, 0 if it is refused */
} vf_checked;

/* Puts questions 1 to 7 to a tree table of any length. Reads table[0] to table[table_len - 1] and writes nothing. */
vf_checked vf_check(const uint8_t *table, size_t table_len);

/* What the figure call answers. */
typedef struct {
    uint64_t refused; /* 0 if there is a figure, else the number of the first question that says no */
    uint64_t figure;  /* the most cycles that one opening can take, 0 if it is refused */
    uint64_t branch;  /* the child of the root choice that sets the figure, the earliest of equal ones, counted from 0; 255 if the root is
                         no choice, 0 if it is refused */
} vf_figure_answer;

/* Puts questions 1 to 7, 9, 13, 14 and 10 and quotes a table's tree under 40 values: the figure and the branch that sets it. Values 0
   to 31 are the symbols'; of symbols 24 to 31 they are what a block costs at its first pass in a run, and values 32 to 39, none above
   its first, what it costs at each later one. Writes nothing. */
vf_figure_answer vf_figure(const uint8_t *table, size_t table_len, const uint64_t *values, size_t values_len);

/* What the list call answers. */
typedef struct {
    uint64_t refused; /* 0 if the list was written, else the number of the first question that says no */
    uint64_t pairs;   /* how many pairs were written, 0 if it is refused */
} vf_list_answer;

/* Puts questions 1 to 9, 13, 14 and 10 and writes the list of a table's tree over the front of out, which holds at least 512
   numbers: a value and how often it comes, pair by pair from the largest value down, where 0 says for ever and stands in the
   last pair alone. Nothing of out past them changes, and nothing at all on a refusal. */
vf_list_answer vf_list(const uint8_t *table, size_t table_len, const uint64_t *values, size_t values_len, uint64_t *out,
                       size_t out_len);

/* What simplifying answers. */
typedef struct {
    uint64_t refused;  /* 0 if a table was written, else the number of the first question that says no */
    uint64_t length;   /* how many bytes were written, 0 if it is refused */
    uint64_t steps;    /* how many steps were taken, 0 if it is refused */
    uint64_t finished; /* 1 if no rule fits the written tree, 0 if the allowance is used and a rule fits, or if it is refused */
} vf_simplified;

/* Puts questions 1 to 8, then 10 with every value 0, and writes the table over the front of out after as many steps of
   simplification as the allowance has, or until no rule fits. out is at least as long as the table. Nothing of out past the
   written bytes changes, and nothing at all on a refusal. */
vf_simplified vf_simplify(const uint8_t *table, size_t table_len, uint64_t allowance, uint8_t *out, size_t out_len);

/* What grafting answers. */
typedef struct {
    uint64_t refused; /* 0 if a table was written, else the number of the first question that says no */
    uint64_t length;  /* how many bytes were written, 0 if it is refused */
} vf_grafted;

/* Writes the host's table over the front of out with the sent table in place of every block whose time is that symbol: a loop of
   bound 1 with the block's limit and address, the sent table as its body and a block of time 0 and address 0 as its exit. The sent
   table's whole-run limits then name that loop. Puts questions 1 to 7 to the host, then to the sent table (a refusal 1 to 7 is the
   sent table's where vf_check accepts the host); then 11, the symbol is 16 to 23 and the sent table uses neither it nor one of 24 to
   31; 12, the result is at most 12,288 bytes and passes questions 5 and 7; and 8, out is at least as long as the result. Nothing of
   out past the written bytes changes, and nothing at all on a refusal. */
vf_grafted vf_graft(const uint8_t *host, size_t host_len, const uint8_t *sent, size_t sent_len, uint64_t symbol, uint8_t *out,
                    size_t out_len);

/* What filling answers. */
typedef struct {
    uint64_t refused; /* 0 if a table was written, else the number of the first question that says no */
    uint64_t length;  /* how many bytes were written to out, 0 if it is refused */
} vf_filled;

/* Writes the table over the front of out with the plain number in every field that has the symbol, and 128 bytes that mark these
   fields over the front of marks. Record i, counted from 0, has two bits of byte i / 4: bit 2 * (i % 4) for its value and the next
   for its limit; those past the last record are 0. Puts questions 1 to 7; then 8, out is at least as long as the table and marks at
   least 128 bytes; and 15, the symbol is 0 to 23 and not used under flag 4 in this table, and the number at most 1,000,000 for
   symbols 0 to 15, else 1,000,000,000,000. Nothing past the written bytes changes, and nothing at all on a refusal. */
vf_filled vf_fill(const uint8_t *table, size_t table_len, uint64_t symbol, uint64_t number, uint8_t *out, size_t out_len,
                  uint8_t *marks, size_t marks_len);

/* What opening answers. */
typedef struct {
    uint64_t refused; /* 0 if a table was written, else the number of the first question that says no */
    uint64_t length;  /* how many bytes were written, 0 if it is refused */
} vf_opened;

/* Writes the table over the front of out with the symbol in each marked field: of what vf_fill wrote, with its marks, symbol and
   number, that is the exact table that it was lent. Puts questions 1 to 7; then 8, out is at least as long as the table; 15 as
   vf_fill does; and 16, the marks are exactly 128 bytes, and each stands on a plain field of that number in which the symbol is
   allowed: one of 16 to 23 in a block's time, another in a loop's bound or in a limit. Nothing of out past the written bytes
   changes, and nothing at all on a refusal. */
vf_opened vf_open(const uint8_t *table, size_t table_len, const uint8_t *marks, size_t marks_len, uint64_t symbol, uint64_t number,
                  uint8_t *out, size_t out_len);

/* What previewing a new time answers. */
typedef struct {
    uint64_t refused;       /* 0 if there are figures, else the number of the first question that says no */
    uint64_t before;        /* the figure of the table, 0 if it is refused */
    uint64_t branch_before; /* its branch, as vf_figure answers it, 0 if it is refused */
    uint64_t after;         /* the figure of the table that vf_commit would leave, 0 if it is refused */
    uint64_t branch_after;  /* its branch, 0 if it is refused */
} vf_previewed;

/* Quotes a table's tree before and after a block's time is changed: the block at that record, counted from 0, has the old time and
   would have the new one. Puts questions 1 to 7; then 17, there is a block there whose time is that plain number, and the new time is at
   most 1,000,000,000,000; then 9, 13, 14 and 10 for the table, and for the table with the new time. Writes nothing. */
vf_previewed vf_preview(const uint8_t *table, size_t table_len, uint64_t record, uint64_t old_time, uint64_t new_time,
                        const uint64_t *values, size_t values_len);

/* What committing a new time answers. */
typedef struct {
    uint64_t refused; /* 0 if the time was written, else the number of the first question that says no */
    uint64_t length;  /* the table's length in bytes, 0 if it is refused */
} vf_committed;

/* Puts questions 1 to 7 and 17, and writes the eight bytes of the new time into the table itself, where the block at that record still
   has the old one. No other byte changes, and none at all on a refusal. Committing back restores the table. */
vf_committed vf_commit(uint8_t *table, size_t table_len, uint64_t record, uint64_t old_time, uint64_t new_time);

/* What converting a former table answers. */
typedef struct {
    uint64_t refused; /* 0 if a table was written, else the number of the question that says no, 1 or 8 */
    uint64_t length;  /* how many bytes were written, 0 if it is refused */
} vf_converted;

/* Former tables had records of 16 bytes, without an address, and no symbol had two values. Writes the table of a former one over the
   front of out: each record with address 0 and the four bytes of 255 behind it, so that the table is half as long again. Puts
   question 1 as it was, the length is a multiple of 16 from 16 to 8,192; and 8, out is at least as long as the result. Nothing else
   is asked: every byte of the former records is kept. Where question 7, which counts symbols 24 to 31 now, passes the written table,
   checking, the figure and the list answer for it what they did for the former one, each later value being equal to its first.
   Nothing of out past the written bytes changes, and nothing at all on a refusal. */
vf_converted vf_convert(const uint8_t *old_table, size_t old_len, uint8_t *out, size_t out_len);

#ifdef __cplusplus
}
#endif

#endif
