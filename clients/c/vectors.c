/* Makes each call of the library on the vectors of a folder, and compares what it comes to. Then it tells how long a call takes, unless
   a second word says that it shall not.
     vectors FOLDER [untimed] */
#include "cases.h"

#include <stdlib.h>
#include <string.h>
#include <time.h>

enum { MAX_CASES = 10000, ROUNDS = 400, CALLS = 500 };

static struct lookup lookups[MAX_CASES];
static size_t wrong;

static void compare(bool is_right, const char *title, const char *what)
{
    if (!is_right) {
        fprintf(stderr, "%s: %s\n", title, what);
        wrong++;
    }
}

/* Whether room is as it was made. */
static bool is_untouched(struct bytes room, size_t from)
{
    for (size_t i = from; i < room.length; i++)
        if (room.at[i] != 0xee)
            return false;
    return true;
}

static struct bytes marked_room(size_t length)
{
    struct bytes room = room_for(length);
    memset(room.at, 0xee, room.length);
    return room;
}

/* A value is given with room to spare, with just enough, and not with a byte less. */
static void check_value(const struct lookup *it, struct bytes wanted)
{
    size_t rooms[] = {wanted.length + 7, wanted.length, wanted.length ? wanted.length - 1 : 0};
    for (size_t i = 0; i < sizeof rooms / sizeof *rooms; i++) {
        struct bytes room = marked_room(rooms[i]);
        size_t length = 99;
        uint32_t answer = ask(it, room, &length);
        bool fits = room.length >= wanted.length;
        compare(answer == (fits ? JELLY_VALUE : JELLY_ROOM), it->title, "another answer than a value");
        compare(length == wanted.length, it->title, "another length");
        compare(!fits || !memcmp(room.at, wanted.at, wanted.length), it->title, "another value");
        compare(is_untouched(room, fits ? wanted.length : 0), it->title, "room was written that is not the value's");
        give_back(room);
    }
}

static void check_answer(const struct lookup *it, uint32_t wanted)
{
    struct bytes room = marked_room(64);
    size_t length = 99;
    compare(ask(it, room, &length) == wanted, it->title, "another answer");
    compare(length == 99 && is_untouched(room, 0), it->title, "something was written");
    give_back(room);
}

static void check_lookup(const struct lookup *it)
{
    uint32_t wanted = answer_shown(it);
    if (wanted == JELLY_VALUE) {
        struct bytes value = unhex(it->shows + 7, strlen(it->shows + 7));
        check_value(it, value);
        give_back(value);
    } else {
        check_answer(it, wanted);
    }
}

/* How many cases of lookups there are. They stay, to be timed. */
static size_t check_lookups(FILE *file)
{
    size_t count = 0;
    for (; next_lookup(file, &lookups[count]); count++) {
        check_lookup(&lookups[count]);
        if (count + 1 == MAX_CASES)
            fail("proofs.txt", "has too many cases");
    }
    fclose(file);
    return count;
}

static size_t check_claims(FILE *file)
{
    size_t count = 0;
    for (struct claim it; next_claim(file, &it); count++) {
        compare(judge(&it) == it.judged, it.title, "another verdict");
        drop_claim(&it);
    }
    fclose(file);
    return count;
}

static void check_leaves(const struct leaves *it)
{
    struct bytes root = marked_room(JELLY_HASH);
    uint32_t answer = root_of(it, root.at);
    if (it->are_sorted)
        compare(answer == 0 && !memcmp(root.at, it->root, JELLY_HASH), it->title, "another root");
    else
        compare(answer == 1 && is_untouched(root, 0), it->title, "unsorted entries have a root");
    give_back(root);
}

static size_t check_roots(FILE *file)
{
    size_t count = 0;
    for (struct leaves it; next_leaves(file, &it); count++) {
        check_leaves(&it);
        drop_leaves(&it);
    }
    fclose(file);
    return count;
}

static void compare_hash(const uint8_t hash[JELLY_HASH], const char *wanted)
{
    struct bytes bytes = unhex(wanted, 2 * JELLY_HASH);
    compare(!memcmp(hash, bytes.at, JELLY_HASH), wanted, "another hash");
    give_back(bytes);
}

/* The hashes of the worked examples of docs/FORMATS.md: of a map of the names 61 and 62 with the values 31 and 32. */
static void check_hashes(void)
{
    uint8_t key[JELLY_HASH], value[JELLY_HASH], first[JELLY_HASH], second[JELLY_HASH], both[JELLY_HASH], root[JELLY_HASH];
    struct bytes none = unhex("6e340b9cffb37a989ca544e6bb780a2c78901d3fb33738768511a30617afa01d", 2 * JELLY_HASH);
    jelly_key((const uint8_t *)"b", 1, key);
    jelly_value((const uint8_t *)"2", 1, value);
    jelly_leaf(key, value, second);
    jelly_key((const uint8_t *)"a", 1, key);
    jelly_value((const uint8_t *)"1", 1, value);
    jelly_leaf(key, value, first);
    jelly_pair(first, second, both);
    jelly_pair(both, none.at, root);
    compare_hash(key, "19d5f57c8e8b3cd760f853bb8d7900d68e10ef02674383de65a9b4d65e419b26");
    compare_hash(value, "f254fd9353abb55f60a0942b46382c2428aa019d102cd9985275c0fb42a8dbb3");
    compare_hash(first, "9bb72c39f13d2b512ea34eae99a28f6d807a134ab125e89172310c6f6ea72f8f");
    compare_hash(second, "523314ab33c912d434792b42083d03c32d7e90b536b35c355a01ad0bb7925da2");
    compare_hash(root, "3e92b77a6f4a7dcc426f134b3415f3af7eb39e5c8ac7599c94f5a3c83fe07425");
    give_back(none);
}

static double seconds(void)
{
    struct timespec now;
    clock_gettime(CLOCK_PROCESS_CPUTIME_ID, &now);
    return (double)now.tv_sec + (double)now.tv_nsec * 1e-9;
}

/* The microseconds of a lookup of these: the mean of the round that took least, as other work on the machine makes most take longer. */
static double time_of(const struct lookup *const chosen[], size_t count)
{
    struct bytes room = room_for(JELLY_MAX_VALUE);
    size_t length, calls = count ? (CALLS / count + 1) * count : 0;
    double least = 0;
    for (size_t round = 0; round < ROUNDS && count; round++) {
        double began = seconds();
        for (size_t i = 0; i < calls; i++)
            ask(chosen[i % count], room, &length);
        double took = (seconds() - began) / (double)calls * 1e6;
        least = round && least < took ? least : took;
    }
    give_back(room);
    return least;
}

/* The microseconds of a lookup that shows a value, and whose reply begins with this line. */
static double time_after(const char *line, size_t count)
{
    static const struct lookup *chosen[MAX_CASES];
    size_t found = 0, length = strlen(line);
    for (size_t i = 0; i < count; i++) {
        const struct lookup *it = &lookups[i];
        if (it->reply.length >= length && !memcmp(it->reply.at, line, length) && !strncmp(it->shows, "value", 5))
            chosen[found++] = it;
    }
    return time_of(chosen, found);
}

static void tell_times(size_t count)
{
    static const struct lookup *all[MAX_CASES];
    for (size_t i = 0; i < count; i++)
        all[i] = &lookups[i];
    double mean = time_of(all, count);
    printf("a lookup takes %.2f us (%.0f a second), a value with no sibling %.2f us, with 17 siblings %.2f us\n", mean, 1e6 / mean,
           time_after("1 ok proof 0\n", count), time_after("1 ok proof 17\n", count));
}

int main(int count, char **words)
{
    if (count != 2 && (count != 3 || strcmp(words[2], "untimed")))
        fail("usage", "vectors FOLDER [untimed]");
    size_t asked = check_lookups(opened(words[1], "proofs.txt"));
    size_t judged = check_claims(opened(words[1], "claims.txt"));
    size_t rooted = check_roots(opened(words[1], "roots.txt"));
    check_hashes();
    printf("%zu lookups, %zu claims, %zu roots: %zu wrong\n", asked, judged, rooted, wrong);
    if (count == 2)
        tell_times(asked);
    for (size_t i = 0; i < asked; i++)
        drop_lookup(&lookups[i]);
    return wrong ? 1 : 0;
}
