/* Reads the vectors of clients/vectors (docs/CLIENTS.md). A file that isn't written so ends the program. */
#ifndef CASES_H
#define CASES_H

#include "jelly.h"

#include <stdbool.h>
#include <stdio.h>

/* A file of a folder, to be read. */
FILE *opened(const char *folder, const char *name);

/* Bytes, as many as there is room for: none is behind them. */
struct bytes {
    uint8_t *at;
    size_t length;
};

/* A line without its line feed, or NULL at the end. It stays until the next call. */
char *next_line(FILE *file);

/* What stands after a word and a space in the next line. */
char *after(FILE *file, const char *word);

/* The bytes of hexadecimal digits, of which `length` come first. */
struct bytes unhex(const char *digits, size_t length);

/* The bytes of all digits of a line after a word. */
struct bytes hex_after(FILE *file, const char *word);

/* The 32 bytes of a line after a word. */
void hash_after(FILE *file, const char *word, uint8_t hash[JELLY_HASH]);

/* The bytes after a line `bytes N`, or those of a line `hex`. */
struct bytes text_of(FILE *file);

/* A case of proofs.txt: a reply, and what it shows of a name under a root. */
struct lookup {
    char *title;
    uint8_t root[JELLY_HASH];
    struct bytes name, reply;
    char *shows;
};

/* A case of claims.txt: a claim in parts, and its verdict. A value that isn't there has no bytes, and a leaf that isn't there has zeros. */
struct claim {
    char *title;
    uint8_t root[JELLY_HASH], leaf_key[JELLY_HASH], leaf_hash[JELLY_HASH];
    struct bytes name, value, siblings;
    bool has_value, has_leaf;
    uint32_t judged;
};

/* A case of roots.txt: entries, and their root, unless their keys aren't sorted. */
struct leaves {
    char *title;
    struct bytes entries;
    bool are_sorted;
    uint8_t root[JELLY_HASH];
};

/* The next case of a file, or false at its end. */
bool next_lookup(FILE *file, struct lookup *it);
bool next_claim(FILE *file, struct claim *it);
bool next_leaves(FILE *file, struct leaves *it);

/* Gives back what a case holds. */
void drop_lookup(struct lookup *it);
void drop_claim(struct claim *it);
void drop_leaves(struct leaves *it);

/* What jelly_ask returns of a case, if there is room for the value. */
uint32_t answer_shown(const struct lookup *it);

/* The calls on the parts of a case. */
uint32_t ask(const struct lookup *it, struct bytes value, size_t *length);
uint32_t judge(const struct claim *it);
uint32_t root_of(const struct leaves *it, uint8_t root[JELLY_HASH]);

/* Room for this many bytes. It is never null, and for none it is the end of some byte, so that nothing may be read or written there. */
struct bytes room_for(size_t length);

/* Gives room back. */
void give_back(struct bytes room);

/* Ends the program. */
_Noreturn void fail(const char *what, const char *why);

#endif
