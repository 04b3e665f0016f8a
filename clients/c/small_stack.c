/* Makes the calls that take most of the stack in threads that have little of it: lookups and claims with 256 siblings, and roots of keys
   that agree in 255 bits, from the vectors of a folder. Below each stack lies a mebibyte that nobody may touch, so a call that went further
   would end the program. Then it tells how many bytes of the stack each sort of call took, which must be at most JELLY_STACK.
     small_stack FOLDER */
#include "cases.h"

#include <pthread.h>
#include <stdlib.h>
#include <string.h>
#include <sys/mman.h>

/* The stack of each thread: JELLY_STACK, and what the C library keeps on it for the thread. */
enum { STACK = JELLY_STACK + (16 << 10), BELOW = 1 << 20, MARK = 0xee };

/* What a thread does to one case, and whether it came to what it has to. */
struct job {
    void (*make)(struct job *job);
    const void *of;
    bool is_right;
};

static uint8_t value[JELLY_MAX_VALUE];
static size_t wrong;

static void make_nothing(struct job *job)
{
    job->is_right = true;
}

static void make_lookup(struct job *job)
{
    const struct lookup *it = job->of;
    struct bytes room = {value, sizeof value};
    size_t length;
    job->is_right = ask(it, room, &length) == answer_shown(it);
}

static void make_claim(struct job *job)
{
    const struct claim *it = job->of;
    job->is_right = judge(it) == it->judged;
}

static void make_root(struct job *job)
{
    const struct leaves *it = job->of;
    uint8_t root[JELLY_HASH];
    job->is_right = root_of(it, root) == 0 && !memcmp(root, it->root, JELLY_HASH);
}

static void make_hashes(struct job *job)
{
    uint8_t key[JELLY_HASH], hash[JELLY_HASH], leaf[JELLY_HASH], pair[JELLY_HASH];
    jelly_key(value, JELLY_MAX_NAME, key);
    jelly_value(value, sizeof value, hash);
    jelly_leaf(key, hash, leaf);
    jelly_pair(leaf, leaf, pair);
    job->is_right = memcmp(pair, leaf, JELLY_HASH);
}

static void *made(void *job)
{
    ((struct job *)job)->make(job);
    return NULL;
}

/* How many bytes a thread's stack was used that does a job, with those of the C library. */
static size_t used_by(struct job *job)
{
    uint8_t *room = mmap(NULL, BELOW + STACK, PROT_READ | PROT_WRITE, MAP_PRIVATE | MAP_ANONYMOUS, -1, 0), *stack = room + BELOW;
    pthread_attr_t attributes;
    pthread_t thread;
    if (room == MAP_FAILED || mprotect(room, BELOW, PROT_NONE))
        fail("a stack", "can't be made");
    memset(stack, MARK, STACK);
    if (pthread_attr_init(&attributes) || pthread_attr_setstack(&attributes, stack, STACK) || pthread_create(&thread, &attributes, made, job) ||
        pthread_join(thread, NULL))
        fail("a thread", "can't be made");
    pthread_attr_destroy(&attributes);
    size_t unused = 0;
    while (unused < STACK && stack[unused] == MARK)
        unused++;
    munmap(room, BELOW + STACK);
    return STACK - unused;
}

/* How many bytes of the stack a job takes beyond those of a thread that does nothing. */
static size_t taken_by(void (*make)(struct job *job), const void *of, const char *title)
{
    struct job nothing = {make_nothing, NULL, false}, job = {make, of, false};
    /* (the first call of a function of the C library looks it up, which takes stack too) */
    make(&job);
    job.is_right = false;
    size_t idle = used_by(&nothing), used = used_by(&job), taken = used > idle ? used - idle : 0;
    if (!job.is_right || taken > JELLY_STACK) {
        fprintf(stderr, "%s: %s\n", title, job.is_right ? "took too much of the stack" : "came to something else");
        wrong++;
    }
    return taken;
}

static size_t larger(size_t one, size_t other)
{
    return one < other ? other : one;
}

static bool begins_with(struct bytes text, const char *front)
{
    return text.length >= strlen(front) && !memcmp(text.at, front, strlen(front));
}

/* The most that lookups with 256 siblings take. */
static size_t taken_by_lookups(FILE *file)
{
    size_t most = 0;
    for (struct lookup it; next_lookup(file, &it); drop_lookup(&it))
        if (begins_with(it.reply, "1 ok proof 256\n"))
            most = larger(most, taken_by(make_lookup, &it, it.title));
    fclose(file);
    return most;
}

/* The most that claims with 256 siblings take. */
static size_t taken_by_claims(FILE *file)
{
    size_t most = 0;
    for (struct claim it; next_claim(file, &it); drop_claim(&it))
        if (it.siblings.length == JELLY_MAX_SIBLINGS * JELLY_HASH)
            most = larger(most, taken_by(make_claim, &it, it.title));
    fclose(file);
    return most;
}

/* The most that roots take. Two keys that differ in their last bit are among the cases. */
static size_t taken_by_roots(FILE *file)
{
    size_t most = 0;
    for (struct leaves it; next_leaves(file, &it); drop_leaves(&it))
        if (it.are_sorted)
            most = larger(most, taken_by(make_root, &it, it.title));
    fclose(file);
    return most;
}

int main(int count, char **words)
{
    if (count != 2)
        fail("usage", "small_stack FOLDER");
    size_t lookups = taken_by_lookups(opened(words[1], "proofs.txt"));
    size_t claims = taken_by_claims(opened(words[1], "claims.txt"));
    size_t roots = taken_by_roots(opened(words[1], "roots.txt"));
    size_t hashes = taken_by(make_hashes, NULL, "the hashes");
    if (!lookups || !claims || !roots)
        fail(words[1], "lacks a case");
    printf("of a stack of %d bytes jelly_ask takes %zu, jelly_root %zu, jelly_judge %zu, the hashes %zu: %zu wrong\n", STACK, lookups, roots, claims, hashes, wrong);
    return wrong ? 1 : 0;
}
