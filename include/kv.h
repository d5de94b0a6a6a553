/* The record module's C interface: the device's side, in libmodule.a (`bash tools/archives`).
 *
 * A slice passes as a pointer and a length; where the length is 0 the pointer is not followed and may be null, in every call. The
 * slices lent to one call must not overlap, and none is kept after the call.
 *
 * The store lives in two lent slices, `directory` and `values`; every call is to be lent the same two, whole, and nothing else
 * writes them in between. They hold one namespace or two. Of `directory` 64 bytes are needed and 32 for each key that the formats allow,
 * of `values` as many as the sizes come to; bytes past the needed part change no outcome and are never written.
 *
 * Each call gives a number. 0 is "done". Any other number is a refusal that has written nothing at all, and every other field that the
 * call gives is 0 then. */
#ifndef KV_H
#define KV_H

#include <stddef.h>
#include <stdint.h>

#ifdef __cplusplus
extern "C" {
#endif

/* Numbers. */
enum {
    KV_DONE = 0,
    KV_ENTRY_LENGTH = 1,      /* entry not 64 bytes */
    KV_COMPLETION_LENGTH = 2, /* completion not 16 bytes */
    KV_FORMAT_INDEX = 3,      /* format index above 15 */
    KV_NAMESPACE_ID = 4,      /* namespace id 0 or FFFFFFFFh */
    KV_SIZE = 5,              /* size outside 1 to 65,536, or two that come to more */
    KV_SLICE_LENGTH = 6,      /* directory or value slice shorter than formats and sizes need; kv_known: or a head that says no such need */
    KV_BYTES_LENGTH = 14,     /* Identify page not 4,096 bytes, or fields not 512 */
    KV_KEY_LENGTH = 15,       /* key to look for of 0 bytes or above 16 */
    KV_ILLEGAL = 18,          /* store memory not legal */
    KV_EQUAL_IDS = 19,        /* one id for both namespaces */
    KV_MEMORY_LENGTH = 20,    /* memory of a memory call above 65,536 bytes or not a multiple of 4 */
    KV_NOT_HELD = 23          /* no namespace of the memory has this id */
};

/* Statuses, carried by the completion of a call that returned 0. All but KV_SUCCESS leave store, memory and data buffer unchanged. */
enum {
    KV_SUCCESS = 0x00,
    KV_INVALID_OPCODE = 0x01,
    KV_INVALID_FIELD = 0x02,  /* fused bits, key length above 16, a byte behind the key, List into fewer than 4 bytes; memory calls: start or
                                 length not a multiple of 4 */
    KV_DATA_TRANSFER = 0x04,  /* data buffer shorter than Dword 10; memory calls: than the length */
    KV_INTERNAL = 0x06,       /* store memory not legal */
    KV_INVALID_NAMESPACE = 0x0b, /* no namespace of the memory has the entry's id; memory calls: the memory has another */
    KV_OUT_OF_RANGE = 0x80,   /* memory calls: the range ends behind the memory's last byte */
    KV_CAPACITY = 0x81,       /* Store: the most keys held, or no room even with the key's old pair taken off */
    KV_VALUE_SIZE = 0x85,
    KV_KEY_SIZE = 0x86,
    KV_KEY_ABSENT = 0x87,
    KV_KEY_EXISTS = 0x89
};

/* Opcodes. */
enum { KV_STORE = 0x01, KV_RETRIEVE = 0x02, KV_LIST = 0x06, KV_DELETE = 0x10, KV_EXIST = 0x14 };

/* Formats the two slices for one namespace: format `index` (0 to 15), namespace `id`, `size` bytes of room. Numbers 3, 4, 5, 6, tried in
 * that order. */
uint32_t kv_format(uint32_t index, uint32_t id, uint64_t size, uint8_t *directory, size_t directory_len, uint8_t *values,
                   size_t values_len);

/* Formats the two slices for two namespaces, each with its own id, format and room; together they may have 65,536 bytes of it. Neither
 * sees or hinders the other. Numbers 3, 4, 5 of the first, 3, 4, 5 of the second, 19, 5 of the sum, 6, tried in that order. */
uint32_t kv_format_two(uint32_t index1, uint32_t id1, uint64_t size1, uint32_t index2, uint32_t id2, uint64_t size2,
                       uint8_t *directory, size_t directory_len, uint8_t *values, size_t values_len);

/* Formats the two slices for one namespace from the 512 bytes of fields by which a host has one created: bytes 0-7 are the size, bits 3:0 of
 * byte 31 the format's index, and no other byte is read. Number 14, then 4, 5, 6 as of kv_format, tried in that order. */
uint32_t kv_format_fields(const uint8_t *fields, size_t fields_len, uint32_t id, uint8_t *directory, size_t directory_len,
                          uint8_t *values, size_t values_len);

/* One command: reads the 64-byte entry, acts on the namespace that it names, writes the 16-byte completion. `data` is the command's data
 * buffer: Store reads its first bytes, Retrieve and List write them. In the entry the key bytes behind the key length must be zero.
 * Numbers 1, 2, tried in that order. Of `phase` the lowest bit counts. */
uint32_t kv_command(const uint8_t *entry, size_t entry_len, uint8_t *completion, size_t completion_len, uint8_t *data,
                    size_t data_len, uint8_t *directory, size_t directory_len, uint8_t *values, size_t values_len, uint16_t head,
                    uint16_t queue, uint16_t phase);

/* How full a namespace is: `used` is the sum of the key lengths and value lengths of the pairs held, out of the size that was formatted,
 * and `keys` their number. */
struct kv_room {
    uint32_t number, used, keys;
};

/* Used room and the number of keys of namespace `id`, for a host that draws a bar. Reads the store as a command does and writes nothing.
 * Numbers 18, 23, tried in that order. */
struct kv_room kv_used(uint32_t id, const uint8_t *directory, size_t directory_len, const uint8_t *values, size_t values_len);

/* Writes the 4,096-byte Identify page of namespace `id` (CNS 05h, CSI 01h): its size and used room, its format index, and the limits of the
 * sixteen formats. Reads the store as a command does. Numbers 14, 18, 23, tried in that order. */
uint32_t kv_identify(uint8_t *page, size_t page_len, uint32_t id, const uint8_t *directory, size_t directory_len,
                     const uint8_t *values, size_t values_len);

/* Whether a key is stored: `known` is 1 for yes and 0 for no; `looked` is how many directory records were looked at, at most 11. */
struct kv_look {
    uint32_t number, known, looked;
};

/* Whether namespace `id` has the key, by halving among its records: for a gate that wants an answer in some hundreds of instructions. Unlike
 * every other call it does not ask whether memory is legal: it reads the head and the records that it looks at, and of the value slice its
 * length. In legal memory the answer is whether the key is stored; in other memory it is what those bytes say. It never reads past the slices.
 * Numbers, tried in this order: 15; 6 where the directory has fewer than 64 bytes, or where a half of the head with an id other than 0 has a
 * format index above 15, a size outside 1 to 65,536 or more keys than its format allows, or where a slice is shorter than such halves need
 * together; 23. */
struct kv_look kv_known(const uint8_t *key, size_t key_len, uint32_t id, const uint8_t *directory, size_t directory_len,
                        const uint8_t *values, size_t values_len);

/* ---- Working memory: one slice, 0 to 65,536 bytes and a multiple of 4, under the id that you pass with it. It has nothing to do with the store
 * and is not formatted. The function is the command, and of the 64-byte entry these bytes alone are read: 2-3 the command identifier, 4-7 the
 * id, 40-47 the start of the range (Dwords 10 and 11), 48-51 its length in bytes (Dword 12). In all three calls: numbers 1, 2, 20, tried in
 * that order; then in the completion, whose Dword 0 is 0, statuses 0Bh, 02h, 80h, 04h, tried in that order. A range of no bytes may start at
 * the memory's end. Of `phase` the lowest bit counts. */

/* Copies the range into the first bytes of `data`; those behind them are unchanged. */
uint32_t kv_memory_read(const uint8_t *entry, size_t entry_len, uint8_t *completion, size_t completion_len, uint8_t *data, size_t data_len,
                        const uint8_t *memory, size_t memory_len, uint32_t id, uint16_t head, uint16_t queue, uint16_t phase);

/* Copies the first bytes of `data` into the range. */
uint32_t kv_memory_write(const uint8_t *entry, size_t entry_len, uint8_t *completion, size_t completion_len, const uint8_t *data,
                         size_t data_len, uint8_t *memory, size_t memory_len, uint32_t id, uint16_t head, uint16_t queue, uint16_t phase);

/* Fills the range with the four bytes of `fill` over and over, the lowest first. There is no data buffer, and so no 04h. */
uint32_t kv_memory_fill(const uint8_t *entry, size_t entry_len, uint8_t *completion, size_t completion_len, uint32_t fill,
                        uint8_t *memory, size_t memory_len, uint32_t id, uint16_t head, uint16_t queue, uint16_t phase);

/* ---- The host's side, in libhost.a (`bash tools/archives`). It needs no store: an entry is built, a completion, a List page and an Identify
 * page are read. Each call gives a number as above. */

/* Numbers of the host's side, with 1, 2 and 14. */
enum {
    KV_PAGE_LENGTH = 7,     /* page shorter than 4 bytes */
    KV_PAGE_ENTRY = 8,      /* page entry runs past the end */
    KV_PAGE_KEY_LENGTH = 9, /* page key length 0 or above 16 */
    KV_PAGE_PADDING = 10,   /* page padding not zero */
    KV_PAGE_ORDER = 11,     /* page key not above the one before */
    KV_BUILD_KEY = 12,      /* key to build longer than 16 */
    KV_BUILD_OPCODE = 13    /* the builder knows five opcodes */
};

/* Builds a 64-byte entry. Dword 10 of Delete and Exist and the options of all but Store are not taken: the entry has 0 there.
 * Numbers 1, 12, 13, tried in that order. */
uint32_t kv_build(uint8_t *entry, size_t entry_len, uint8_t opcode, uint16_t cid, uint32_t nsid, const uint8_t *key, size_t key_len,
                  uint32_t dword10, uint8_t options);

/* The fields of a completion; `head` and `queue` are those of the submission queue, `type` is the status code type. */
struct kv_completion {
    uint32_t number, dword0;
    uint16_t head, queue, cid;
    uint8_t phase, status, type;
};

/* Reads a 16-byte completion. Number 2. */
struct kv_completion kv_read_completion(const uint8_t *completion, size_t completion_len);

/* How many keys a page has, and one of them; the bytes of `key` past `len` are 0. */
struct kv_page_key {
    uint32_t number, count, len;
    uint8_t key[16];
};

/* Reads a List page: checks all of it, then gives the key of `ordinal`, counted from 0; `len` is 0 where the page has no such key.
 * Bytes after the last entry are ignored. Number 7 first; then the first entry that is wrong decides: 8 if its length is cut off, 9,
 * 8 if its key or padding is, 10, 11. */
struct kv_page_key kv_read_page(const uint8_t *page, size_t page_len, uint32_t ordinal);

/* What an Identify page says: how many formats it has, the index, size and used room of its namespace, and the limits of one format. */
struct kv_identity {
    uint32_t number, formats, index, keymax, valuemax, maxkeys;
    uint64_t size, used;
};

/* Reads a 4,096-byte Identify page, ours or another device's: nothing but its length is checked. The limits are those of format `ordinal`,
 * counted from 0; all three are 0 where the page says fewer formats, or where the page ends before that descriptor does. Number 14. */
struct kv_identity kv_read_identify(const uint8_t *page, size_t page_len, uint32_t ordinal);

#ifdef __cplusplus
}
#endif

#endif
