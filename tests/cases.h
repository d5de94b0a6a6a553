/* What the files of the cases share: the memory, counting, one call with every byte past the needed part compared after it. */
#ifndef CASES_H
#define CASES_H

#include "kv.h"

int printf(const char *, ...);
void *memcpy(void *, const void *, size_t);
void *memset(void *, int, size_t);
int memcmp(const void *, const void *, size_t);

enum { SPARE = 8, DIRECTORY = 64 + 32 * 2048 + SPARE, VALUES = 65536 + SPARE };

extern uint8_t directory[DIRECTORY], values[VALUES], data[4096], completion[16], entry[64];
extern size_t needed_directory, needed_values;
extern uint32_t nsid; /* the namespace that commands and polls name; a formatting of one namespace sets it to 1 */
extern int failed, passed;

void expect(const char *what, int ok);
void untouched(void); /* the bytes past the needed parts */
void format(uint32_t index, uint32_t size);
void format_two(uint32_t index1, uint32_t id1, uint32_t size1, uint32_t index2, uint32_t id2, uint32_t size2);

/* an entry with `len` key bytes and `amount` in Dword 10; what is not looked at is not zero */
void prepare(int opcode, int options, const void *key, int len, uint32_t amount);
int give(uint8_t *buffer, size_t room); /* that command with a data buffer of `room` bytes; its status */
int command_on(uint8_t *buffer, int opcode, int options, const void *key, int len, uint32_t amount, size_t room);
int command(int opcode, int options, const void *key, int len, uint32_t amount, size_t room); /* with `data` as its data buffer */
uint32_t dword0(void);
int store(int options, const char *key, int len, uint32_t amount);
int list(const char *key, int len, uint32_t size); /* into a data buffer of bytes FFh */
int room_is(uint32_t number, uint32_t used, uint32_t keys);

void two_farms(void); /* cases_two.c */
void identity(void);  /* cases_identify.c */
void looks(void);     /* cases_known.c */
void memories(void);  /* cases_memory.c */

#endif
