#include "cases.h"

#include <stdlib.h>
#include <string.h>

void fail(const char *what, const char *why)
{
    fprintf(stderr, "%s: %s\n", what, why);
    exit(1);
}

FILE *opened(const char *folder, const char *name)
{
    char path[4096];
    if (snprintf(path, sizeof path, "%s/%s", folder, name) >= (int)sizeof path)
        fail(folder, "is too long");
    FILE *file = fopen(path, "rb");
    if (!file)
        fail(path, "can't be opened");
    return file;
}

struct bytes room_for(size_t length)
{
    static uint8_t byte[1];
    struct bytes room = {length ? malloc(length) : byte + 1, length};
    if (!room.at)
        fail("memory", "none left");
    return room;
}

void give_back(struct bytes room)
{
    if (room.length)
        free(room.at);
}

char *next_line(FILE *file)
{
    static char *line;
    static size_t room;
    ssize_t length = getline(&line, &room, file);
    if (length < 0)
        return NULL;
    if (length && line[length - 1] == '\n')
        line[length - 1] = 0;
    return line;
}

char *after(FILE *file, const char *word)
{
    char *line = next_line(file);
    size_t length = strlen(word);
    if (!line || strncmp(line, word, length) || (line[length] && line[length] != ' '))
        fail(line ? line : "the end", word);
    return line[length] ? line + length + 1 : line + length;
}

static unsigned digit(char byte)
{
    if (byte >= '0' && byte <= '9')
        return (unsigned)(byte - '0');
    if (byte >= 'a' && byte <= 'f')
        return (unsigned)(byte - 'a') + 10;
    fail("a digit", "is none");
}

struct bytes unhex(const char *digits, size_t length)
{
    struct bytes bytes = room_for(length / 2);
    for (size_t i = 0; i < bytes.length; i++)
        bytes.at[i] = (uint8_t)(digit(digits[2 * i]) << 4 | digit(digits[2 * i + 1]));
    return bytes;
}

struct bytes hex_after(FILE *file, const char *word)
{
    char *digits = after(file, word);
    return unhex(digits, strlen(digits));
}

void hash_after(FILE *file, const char *word, uint8_t hash[JELLY_HASH])
{
    struct bytes bytes = hex_after(file, word);
    if (bytes.length != JELLY_HASH)
        fail(word, "is no hash");
    memcpy(hash, bytes.at, JELLY_HASH);
    give_back(bytes);
}

struct bytes text_of(FILE *file)
{
    char *line = next_line(file);
    if (line && !strncmp(line, "hex ", 4))
        return unhex(line + 4, strlen(line + 4));
    if (line && !strcmp(line, "hex"))
        return room_for(0);
    if (!line || strncmp(line, "bytes ", 6))
        fail(line ? line : "the end", "bytes");
    struct bytes text = room_for(strtoul(line + 6, NULL, 10));
    if (fread(text.at, 1, text.length, file) != text.length || getc(file) != '\n')
        fail("a text", "is cut");
    return text;
}

/* Some text, to be freed. */
static char *copy_of(const char *text)
{
    char *copy = strdup(text);
    if (!copy)
        fail("memory", "none left");
    return copy;
}

/* A key and a hash, in digits with a space between them. */
static void read_pair(const char *digits, uint8_t key[JELLY_HASH], uint8_t hash[JELLY_HASH])
{
    if (strlen(digits) != 4 * JELLY_HASH + 1)
        fail(digits, "is no pair of hashes");
    struct bytes pair[] = {unhex(digits, 2 * JELLY_HASH), unhex(digits + 2 * JELLY_HASH + 1, 2 * JELLY_HASH)};
    memcpy(key, pair[0].at, JELLY_HASH);
    memcpy(hash, pair[1].at, JELLY_HASH);
    give_back(pair[0]);
    give_back(pair[1]);
}

bool next_lookup(FILE *file, struct lookup *it)
{
    char *line = next_line(file);
    if (!line)
        return false;
    it->title = copy_of(line);
    hash_after(file, "root", it->root);
    it->name = hex_after(file, "name");
    it->reply = text_of(file);
    it->shows = copy_of(after(file, "shows"));
    return true;
}

bool next_claim(FILE *file, struct claim *it)
{
    char *line = next_line(file);
    if (!line)
        return false;
    it->title = copy_of(line);
    hash_after(file, "root", it->root);
    it->siblings = room_for(strtoul(after(file, "proof"), NULL, 10) * JELLY_HASH);
    it->name = hex_after(file, "name");
    char *claim = after(file, "claim");
    it->has_value = strcmp(claim, "none");
    it->value = it->has_value ? unhex(claim + 1, strlen(claim + 1)) : room_for(0);
    char *leaf = after(file, "leaf");
    it->has_leaf = strcmp(leaf, "none");
    memset(it->leaf_key, 0, JELLY_HASH);
    memset(it->leaf_hash, 0, JELLY_HASH);
    if (it->has_leaf)
        read_pair(leaf, it->leaf_key, it->leaf_hash);
    for (size_t i = 0; i < it->siblings.length; i += JELLY_HASH)
        hash_after(file, "side", it->siblings.at + i);
    it->judged = (uint32_t)strtoul(after(file, "judged"), NULL, 10);
    return true;
}

bool next_leaves(FILE *file, struct leaves *it)
{
    char *line = next_line(file);
    if (!line)
        return false;
    it->title = copy_of(line);
    it->entries = room_for(strtoul(after(file, "entries"), NULL, 10) * sizeof(struct jelly_entry));
    for (size_t i = 0; i < it->entries.length; i += sizeof(struct jelly_entry))
        read_pair(next_line(file), it->entries.at + i, it->entries.at + i + JELLY_HASH);
    char *root = after(file, "root");
    it->are_sorted = strcmp(root, "unsorted");
    if (it->are_sorted) {
        struct bytes hash = unhex(root, strlen(root));
        if (hash.length != JELLY_HASH)
            fail(root, "is no hash");
        memcpy(it->root, hash.at, JELLY_HASH);
        give_back(hash);
    }
    return true;
}

void drop_lookup(struct lookup *it)
{
    free(it->title);
    free(it->shows);
    give_back(it->name);
    give_back(it->reply);
}

void drop_claim(struct claim *it)
{
    free(it->title);
    give_back(it->name);
    give_back(it->value);
    give_back(it->siblings);
}

void drop_leaves(struct leaves *it)
{
    free(it->title);
    give_back(it->entries);
}

uint32_t answer_shown(const struct lookup *it)
{
    if (!strncmp(it->shows, "value =", 7))
        return JELLY_VALUE;
    if (!strcmp(it->shows, "none"))
        return JELLY_ABSENT;
    if (strncmp(it->shows, "refused ", 8))
        fail(it->shows, "shows");
    return JELLY_REFUSED + (uint32_t)strtoul(it->shows + 8, NULL, 10);
}

uint32_t ask(const struct lookup *it, struct bytes value, size_t *length)
{
    return jelly_ask(it->root, it->name.at, it->name.length, it->reply.at, it->reply.length, value.at, value.length, length);
}

uint32_t judge(const struct claim *it)
{
    return jelly_judge(it->root, it->name.at, it->name.length, it->has_value, it->value.at, it->value.length, it->has_leaf, it->leaf_key,
                       it->leaf_hash, (const uint8_t(*)[JELLY_HASH])it->siblings.at, it->siblings.length / JELLY_HASH);
}

uint32_t root_of(const struct leaves *it, uint8_t root[JELLY_HASH])
{
    return jelly_root((const struct jelly_entry *)it->entries.at, it->entries.length / sizeof(struct jelly_entry), root);
}
