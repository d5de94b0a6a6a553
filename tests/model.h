/* A model of module and host, written from documents 01 and 02 and the arrangement in docs/ARCHITECTURE.md alone. It shares
 * no code with the libraries, with speed/hand.c or with the other tests, so that an error has to be made twice to pass. */
#ifndef MODEL_H
#define MODEL_H

#include "kv.h"

struct model_pair {
    uint8_t key[16];
    uint32_t key_len, value_len;
};

/* A map and its formatting; the pairs rise by key. Max keys times value max is 65,536 in each of the sixteen formats, so each
 * pair has a cell of value max bytes. */
struct model_space {
    uint32_t index, id, size, count;
    struct model_pair pairs[1024];
    uint8_t cells[65536];
};

/* What a memory holds: one namespace or two. */
struct model_store {
    uint32_t count;
    struct model_space spaces[2];
};

uint32_t model_key_max(uint32_t index);
uint32_t model_value_max(uint32_t index);
uint32_t model_max_keys(uint32_t index);
const uint8_t *model_value(const struct model_space *s, uint32_t i);
uint32_t model_used(const struct model_space *s);
int model_same(const struct model_store *a, const struct model_store *b);
struct model_space *model_named(struct model_store *m, uint32_t id); /* a null pointer where no namespace has that id */

/* where pairs stand: the first whose key is not below the given one; a pair put there, new or over the old one; a pair taken out */
uint32_t model_from(const struct model_space *s, const uint8_t *key, uint32_t len);
void model_set(struct model_space *s, uint32_t at, int present, const uint8_t *key, uint32_t len, const uint8_t *value, uint32_t n);
void model_drop(struct model_space *s, uint32_t at);

/* The needed parts, for the first `n` of the namespaces: where the part of the one behind them begins. */
size_t model_directory(const struct model_store *m, uint32_t n);
size_t model_values(const struct model_store *m, uint32_t n);

/* The image; and whether memory is legal, and if so, what it is the image of. */
void model_lay(const struct model_store *m, uint8_t *directory, uint8_t *values);
int model_read(struct model_store *m, const uint8_t *directory, size_t directory_len, const uint8_t *values, size_t values_len);

/* The calls of kv.h. The command acts on what the memory holds, a null pointer where that is not legal, and lays its image into the
 * memory. */
uint32_t model_format(uint32_t index, uint32_t id, uint64_t size, uint8_t *directory, size_t directory_len, uint8_t *values,
                      size_t values_len);
uint32_t model_format_two(uint32_t index1, uint32_t id1, uint64_t size1, uint32_t index2, uint32_t id2, uint64_t size2,
                          uint8_t *directory, size_t directory_len, uint8_t *values, size_t values_len);
uint32_t model_format_fields(const uint8_t *fields, size_t fields_len, uint32_t id, uint8_t *directory, size_t directory_len,
                             uint8_t *values, size_t values_len);
uint32_t model_command(struct model_store *m, const uint8_t *entry, size_t entry_len, uint8_t *completion, size_t completion_len,
                       uint8_t *data, size_t data_len, uint8_t *directory, uint8_t *values, uint16_t head, uint16_t queue,
                       uint16_t phase);
uint32_t model_build(uint8_t *entry, size_t entry_len, uint8_t opcode, uint16_t cid, uint32_t nsid, const uint8_t *key,
                     size_t key_len, uint32_t dword10, uint8_t options);
struct kv_room model_room(uint32_t id, const uint8_t *directory, size_t directory_len, const uint8_t *values, size_t values_len);
uint32_t model_identify(uint8_t *page, size_t page_len, uint32_t id, const uint8_t *directory, size_t directory_len,
                        const uint8_t *values, size_t values_len);
/* the look for a key: on any memory, with the places of the records looked at; and on legal memory, by what it holds */
struct kv_look model_known(const uint8_t *key, size_t key_len, uint32_t id, const uint8_t *directory, size_t directory_len,
                           size_t values_len, size_t places[11]);
struct kv_look model_known_held(struct model_store *m, const uint8_t *key, size_t key_len, uint32_t id);
/* the calls on working memory */
uint32_t model_memory_read(const uint8_t *entry, size_t entry_len, uint8_t *completion, size_t completion_len, uint8_t *data, size_t data_len,
                           const uint8_t *memory, size_t memory_len, uint32_t id, uint16_t head, uint16_t queue, uint16_t phase);
uint32_t model_memory_write(const uint8_t *entry, size_t entry_len, uint8_t *completion, size_t completion_len, const uint8_t *data,
                            size_t data_len, uint8_t *memory, size_t memory_len, uint32_t id, uint16_t head, uint16_t queue, uint16_t phase);
uint32_t model_memory_fill(const uint8_t *entry, size_t entry_len, uint8_t *completion, size_t completion_len, uint32_t fill,
                           uint8_t *memory, size_t memory_len, uint32_t id, uint16_t head, uint16_t queue, uint16_t phase);
struct kv_completion model_read_completion(const uint8_t *completion, size_t completion_len);
struct kv_page_key model_read_page(const uint8_t *page, size_t page_len, uint32_t ordinal);
struct kv_identity model_read_identify(const uint8_t *page, size_t page_len, uint32_t ordinal);

#endif
