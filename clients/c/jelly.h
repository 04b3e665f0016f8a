/* The proved verifier of jellystore, for C. docs/CLIENTS.md says what each call promises, and how to build.

   Every pointer is valid for as much as its length says and is not null, also for length 0. Lengths and rooms count bytes; sibling_count
   and entry_count count elements, of 32 and 64 bytes. value_length is aligned as a size_t; nothing else has to be aligned. What a call
   writes overlaps nothing else that it is given. The processor has what x86-64-v2 needs, which no call tests. That is all that a caller
   owes: any bytes may stand there. No call allocates, blocks or keeps anything, and calls may be made from several threads at once. A
   call takes at most JELLY_STACK bytes of the stack. */
#ifndef JELLY_H
#define JELLY_H

#include <stddef.h>
#include <stdint.h>

#ifdef __cplusplus
extern "C" {
#endif

enum {
    JELLY_HASH = 32,          /* bytes of a root, a key or a hash */
    JELLY_MAX_NAME = 128,     /* the most bytes of a name */
    JELLY_MAX_VALUE = 4096,   /* the most bytes of a value */
    JELLY_MAX_SIBLINGS = 256, /* the most siblings of a proof */
    JELLY_STACK = 80 << 10    /* the most bytes of the stack that a call takes, as the tests find */
};

/* What jelly_ask returns. */
enum {
    JELLY_VALUE = 0,    /* the name has a value: the first *value_length bytes of value */
    JELLY_ABSENT = 1,   /* the name has no value */
    JELLY_ROOM = 2,     /* the name has a value, of *value_length bytes, and value_room is less */
    JELLY_REFUSED = 16  /* and one of the numbers below: nothing is shown */
};

/* Why nothing is shown, or a claim is refused (docs/FORMATS.md, "Proof blocks"). */
enum {
    JELLY_TOO_DEEP = 1,     /* there are more than 256 siblings (jelly_judge alone) */
    JELLY_WRONG_LEAF = 2,   /* the leaf isn't that of the value, or it is the name's own and absence is claimed */
    JELLY_WRONG_PREFIX = 3, /* the leaf that shows absence isn't on the name's way */
    JELLY_WRONG_ROOT = 4,   /* the way up doesn't come to the root */
    JELLY_OTHER_NAME = 5,   /* the block is on another name (jelly_ask alone) */
    JELLY_NO_BLOCK = 6      /* the reply isn't one block of at most 256 siblings, with nothing after it (jelly_ask alone) */
};

/* An entry of a map: its key, and the hash of its value. */
struct jelly_entry {
    uint8_t key[JELLY_HASH];
    uint8_t value_hash[JELLY_HASH];
};

/* What a version says of a name, from a store's reply to `prove` and the root of the version, which the caller has from elsewhere.
   Unless it returns JELLY_VALUE, value is unchanged; unless JELLY_VALUE or JELLY_ROOM, *value_length is. */
uint32_t jelly_ask(const uint8_t root[JELLY_HASH], const uint8_t *name, size_t name_length, const uint8_t *reply, size_t reply_length,
                   uint8_t *value, size_t value_room, size_t *value_length);

/* Judges a claim on a name under a root, in parts: a value, or its absence if has_value is 0; the leaf on the way of its key, or none
   if has_leaf is 0; the siblings beside the way, the lowest first. 0 if it is accepted, otherwise JELLY_TOO_DEEP to
   JELLY_WRONG_ROOT. */
uint32_t jelly_judge(const uint8_t root[JELLY_HASH], const uint8_t *name, size_t name_length, uint32_t has_value, const uint8_t *value,
                     size_t value_length, uint32_t has_leaf, const uint8_t leaf_key[JELLY_HASH], const uint8_t leaf_hash[JELLY_HASH],
                     const uint8_t (*siblings)[JELLY_HASH], size_t sibling_count);

/* The root of the map with these entries, whose keys ascend strictly as bytes. 0 if they do; otherwise 1, and root is unchanged. */
uint32_t jelly_root(const struct jelly_entry *entries, size_t entry_count, uint8_t root[JELLY_HASH]);

/* The hashes of docs/FORMATS.md, "Keys and roots": the key of a name, the hash of a value, of a leaf and of a pair.
   The result may not overlap an argument: to hash upwards, use two buffers in turn. */
void jelly_key(const uint8_t *name, size_t name_length, uint8_t key[JELLY_HASH]);
void jelly_value(const uint8_t *value, size_t value_length, uint8_t hash[JELLY_HASH]);
void jelly_leaf(const uint8_t key[JELLY_HASH], const uint8_t value_hash[JELLY_HASH], uint8_t hash[JELLY_HASH]);
void jelly_pair(const uint8_t left[JELLY_HASH], const uint8_t right[JELLY_HASH], uint8_t hash[JELLY_HASH]);

#ifdef __cplusplus
}
#endif

#endif
