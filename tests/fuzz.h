/* What the files of the fuzzer share: the memory that both sides are lent, chance, comparing, and the calls. */
#ifndef FUZZ_H
#define FUZZ_H

#include "model.h"

int printf(const char *, ...);
void *memcpy(void *, const void *, size_t);
void *memset(void *, int, size_t);
int memcmp(const void *, const void *, size_t);

/* ---- fuzz_chance.c */

extern uint64_t seed, state; /* where chance began and where it is */
extern uint32_t turn;        /* which namespace a call is about */

uint64_t next(void);
uint32_t below(uint64_t n);
int one_in(uint32_t n);
void rubbish(uint8_t *a, uint8_t *b, size_t n); /* the same bytes for both */
struct model_space *ours(void);                 /* the namespace whose turn it is */
void take_turn(void);                           /* gives the turn to one that the history leaves */
uint32_t stranger(void);                        /* an id that none of these has, every other time 0 or FFFFFFFFh */
uint32_t written_id(void);                      /* what stands in one half of the head or the other */

/* ---- fuzz_edge.c */

uint8_t *edge(size_t room); /* behind `room` bytes, the first of 262,144 that can be neither read nor written */

/* ---- fuzz_calls.c */

enum { SPARE = 64, DATA = 24 * 1024 }; /* the longest page, 1024 keys of 16 bytes, has 20,484 bytes */

/* What the calls can write. Both sides are lent the same bytes; all of it is compared after each of the device's calls, and after
 * the host's what they were lent. */
struct side {
    uint8_t directory[64 + 32 * 2048 + SPARE], values[65536 + SPARE], data[DATA], completion[16 + SPARE], entry[64 + SPARE];
};

extern struct side real, model;
extern struct model_store *held, *seen; /* `held` is what the history leaves, `seen` what the memory holds */
extern int intact;                      /* the memory is the image of `held` */
extern size_t directory_len, values_len;
extern uint64_t calls;                  /* so far */
extern const char *doing;               /* the call that is made */

_Noreturn void differ(const char *what, uint64_t got, uint64_t expected);
void number(const char *what, uint64_t got, uint64_t expected);
void bytes(const char *what, const uint8_t *got, const uint8_t *expected, size_t n);
uint32_t numbered(uint32_t got, uint32_t expected); /* the number of a call, counted */
uint32_t called(uint32_t got, uint32_t expected);   /* that, and all of both sides */
uint8_t *lent(const uint8_t *p, size_t n);          /* a slice to lend: of no bytes every other time a null pointer */
uint32_t get16(const uint8_t *p);

/* Each makes a call on both sides and ends the program where they differ. `command` returns the status, or 100h where a number was
 * given. The formattings and `command` now and then ask a question behind it, of an id by chance. */
struct asked {
    uint32_t index, id;
    uint64_t size;
};
uint32_t format(const struct asked *a, uint32_t n, size_t dlen, size_t vlen); /* one namespace, now and then by fields, or two */
uint32_t command(size_t entry_len, size_t completion_len, size_t room, size_t dlen, size_t vlen);
struct kv_room poll(uint32_t id, size_t dlen, size_t vlen);
void any_poll(size_t dlen, size_t vlen);
uint32_t build(size_t entry_len, uint8_t opcode, uint32_t nsid, const uint8_t *key, size_t key_len, uint32_t dword10,
               uint8_t options);
struct kv_completion read_completion(const uint8_t *completion, size_t len);
struct kv_page_key read_page(const uint8_t *page, size_t len, uint32_t ordinal);

int report_calls(void); /* prints the counters; returns how many of them say that something did not occur */

/* ---- fuzz_commands.c */

extern uint64_t salt;                 /* what a history's keys are drawn from */
extern uint32_t pool, letters;        /* how many keys there are to draw, and of how many different bytes */
extern uint32_t spite, storing, full; /* faults in 1000, Stores in 100, and whether to fill the namespaces to their last slot */
extern int walking, quiet;            /* within a walk the slices are lent whole; in a quiet one no command changes its namespace */

uint32_t some_key(uint8_t key[16]);
uint32_t some_amount(uint8_t opcode, uint32_t len);
uint32_t any_command(void); /* to the namespace whose turn it is; returns what `command` does */
int report_commands(void);  /* as `report_calls` */

/* ---- fuzz_formats.c */

void first_format(uint64_t ordinal); /* a history's: of each index in its turn, one namespace or two */
void any_format(void);               /* over what the memory holds, into the same slices; refused where they are too short */
void bad_format(void);               /* one that is refused */
int report_formats(void);            /* as `report_calls` */

/* ---- fuzz_identify.c */

/* what `format` of one namespace does, by fields with rubbish in every bit that is not read; the module is lent `d` and `v` */
uint32_t format_fields(const struct asked *a, uint8_t *d, size_t dlen, uint8_t *v, size_t vlen);
void any_identify(size_t dlen, size_t vlen); /* an Identify page of an id by chance, read again; then another device's */
int report_identify(void);                   /* as `report_calls` */
int told(const char *what, const uint64_t *n, uint32_t many); /* prints counters; returns how many of them are 0 */
size_t off(size_t right); /* not the right length: next to it, or none at all, or any up to SPARE above it */

/* ---- fuzz_known.c */

struct wanted {
    uint8_t key[16];
    size_t len; /* of any number of bytes; above 16 none of them is lent */
    uint32_t id;
};
/* the look for a key on `d`, in which `memory` stands; the value slice cannot be read where `v` is a null pointer */
struct kv_look look(const struct wanted *w, const uint8_t *d, const uint8_t *memory, size_t dlen, const uint8_t *v, size_t vlen);
uint32_t near_key(uint8_t key[16], uint32_t len); /* makes another key of it; returns its length */
size_t bad_length(uint32_t len);                  /* one that is refused, now and then `len` but for its upper bits */
void any_known(size_t dlen, size_t vlen);         /* any key, of an id by chance */
void any_question(size_t dlen, size_t vlen);      /* that, or the used room */
void any_exist(void);                             /* the same key for Exist and for the look */
int report_known(void);                           /* as `report_calls` */

/* ---- fuzz_heads.c */

void any_heads(void);   /* a memory of its own, searched and refused */
int report_heads(void); /* as `report_calls` */

/* ---- fuzz_ranges.c, fuzz_memory.c */

void any_memory(void);   /* a working memory of its own, read, written and filled, and refused */
int report_memory(void); /* as `report_calls` */

/* ---- fuzz_pages.c */

void pages(uint32_t amount); /* reads a List page as it came, then damaged in one way or several */

/* ---- fuzz_damage.c */

void damaged(void);      /* damages the memory and gives commands on it */
int report_damage(void); /* as `report_calls` */

/* ---- fuzz_again.c */

void any_again(void);   /* fills a namespace to its last byte and stores held keys again */
int report_again(void); /* as `report_calls` */

/* ---- fuzz_farms.c */

void any_farms(void);   /* one namespace's commands twice, among others of the other; formats anew */
int report_farms(void); /* as `report_calls` */

/* ---- fuzz_orders.c */

void any_orders(void);   /* pairs of commands in both orders, on copies of the memory, which is the image of `held` */
int report_orders(void); /* as `report_calls` */

/* ---- fuzz_walks.c */

void any_walk(void);
int report_walks(void); /* as `report_calls` */

#endif
