// kv.h from C++: it compiles, all fourteen names link as C has them, and the structs come back as in C.
#include "kv.h"

extern "C" int printf(const char *, ...);

static_assert(sizeof(kv_room) == 12 && sizeof(kv_look) == 12 && sizeof(kv_completion) == 20 && sizeof(kv_page_key) == 28 && sizeof(kv_identity) == 40,
              "the structs have one layout in both languages");

static uint8_t directory[64 + 32 * 32], values[8], entry[64], completion[16], data[24], identity[4096], fields[512];

extern "C" int main() { // freestanding, where `main` is a name like any other
    const uint8_t key[1] = {0x41}, opcodes[2] = {KV_STORE, KV_LIST};
    uint32_t number = kv_format(15, 1, sizeof values, directory, sizeof directory, values, sizeof values);
    kv_room alone = kv_used(2, directory, sizeof directory, values, sizeof values);
    fields[0] = sizeof values, fields[31] = 14;
    number |= kv_format_fields(fields, sizeof fields, 2, directory, sizeof directory, values, sizeof values);
    number |= kv_identify(identity, sizeof identity, 2, directory, sizeof directory, values, sizeof values);
    kv_identity said = kv_read_identify(identity, sizeof identity, 14);
    number |= kv_format_two(15, 1, 4, 15, 2, 4, directory, sizeof directory, values, sizeof values);
    for (uint8_t opcode : opcodes) {
        number |= kv_build(entry, sizeof entry, opcode, 1, 1, key, sizeof key, opcode == KV_LIST ? sizeof data : 0, 0);
        number |= kv_command(entry, sizeof entry, completion, sizeof completion, data, sizeof data, directory, sizeof directory,
                             values, sizeof values, 1, 1, 1);
    }
    kv_room room = kv_used(1, directory, sizeof directory, values, sizeof values), other = kv_used(2, directory, sizeof directory, values, sizeof values);
    kv_look here = kv_known(key, sizeof key, 1, directory, sizeof directory, values, sizeof values);
    kv_look there = kv_known(key, sizeof key, 2, directory, sizeof directory, values, sizeof values);
    kv_completion reply = kv_read_completion(completion, sizeof completion);
    kv_page_key page = kv_read_page(data, sizeof data, 0);
    const uint8_t range[12] = {4, 0, 0, 0, 0, 0, 0, 0, 8}, word[4] = {1, 2, 3, 4}; // bytes 4 to 11; the entry names 1, as it did in the List
    uint8_t memory[12] = {0}, read[8] = {0};
    for (int i = 0; i < 12; i++) entry[40 + i] = range[i];
    number |= kv_memory_fill(entry, sizeof entry, completion, sizeof completion, 0x11223344, memory, sizeof memory, 1, 1, 1, 1);
    entry[48] = 4;
    number |= kv_memory_write(entry, sizeof entry, completion, sizeof completion, word, sizeof word, memory, sizeof memory, 1, 1, 1, 1);
    entry[48] = 8;
    number |= kv_memory_read(entry, sizeof entry, completion, sizeof completion, read, sizeof read, memory, sizeof memory, 1, 1, 1, 1);
    kv_completion moved = kv_read_completion(completion, sizeof completion);
    bool ok = number == KV_DONE && reply.number == KV_DONE && reply.status == KV_SUCCESS && reply.cid == 1 && page.number == KV_DONE
        && page.count == 1 && page.len == 1 && page.key[0] == 0x41 && room.number == KV_DONE && room.used == 1 && room.keys == 1
        && alone.number == KV_NOT_HELD && other.number == KV_DONE && other.keys == 0
        && here.number == KV_DONE && here.known == 1 && here.looked == 1 && there.number == KV_DONE && there.known == 0 && there.looked == 0
        && kv_known(key, 0, 1, directory, sizeof directory, values, sizeof values).number == KV_KEY_LENGTH
        && said.number == KV_DONE && said.formats == 16 && said.index == 14 && said.size == sizeof values && said.used == 0
        && said.keymax == 12 && said.valuemax == 4096 && said.maxkeys == 16
        && kv_read_identify(data, sizeof data, 0).number == KV_BYTES_LENGTH
        && moved.number == KV_DONE && moved.status == KV_SUCCESS && read[0] == 1 && read[3] == 4 && read[4] == 0x44 && read[7] == 0x11
        && kv_memory_read(entry, sizeof entry, completion, sizeof completion, read, 8, memory, 10, 1, 1, 1, 1) == KV_MEMORY_LENGTH;
    printf("kv.h from C++: %s\n", ok ? "passed" : "FAILED");
    return ok ? 0 : 1;
}
