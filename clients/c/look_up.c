/* Tells what a version says of a name, from a store's reply to `prove` on standard input:
     look_up ROOT NAME < reply
   ROOT and NAME are hexadecimal. It prints `value =VALUE`, `none` or `refused N`, and ends with 0, or with 1 after a refusal. */
#include "jelly.h"

#include <stdio.h>
#include <string.h>

enum { MAX_REPLY = 1 << 20 };

/* The value of a hexadecimal digit, or -1. */
static int digit(char byte)
{
    const char *digits = "0123456789abcdef", *found = byte ? strchr(digits, byte) : NULL;
    return found ? (int)(found - digits) : -1;
}

/* Writes the bytes of a word, and returns how many they are, or -1 if it isn't hexadecimal or they are more than fit. */
static long unhex(const char *word, uint8_t *bytes, size_t room)
{
    size_t length = strlen(word);
    if (length % 2 || length / 2 > room)
        return -1;
    for (size_t i = 0; i < length / 2; i++) {
        int high = digit(word[2 * i]), low = digit(word[2 * i + 1]);
        if (high < 0 || low < 0)
            return -1;
        bytes[i] = (uint8_t)(high * 16 + low);
    }
    return (long)(length / 2);
}

int main(int count, char **words)
{
    static uint8_t reply[MAX_REPLY], value[JELLY_MAX_VALUE];
    uint8_t root[JELLY_HASH], name[JELLY_MAX_NAME];
    long name_length = count == 3 ? unhex(words[2], name, sizeof name) : -1;
    if (name_length < 0 || unhex(words[1], root, sizeof root) != JELLY_HASH) {
        fputs("usage: look_up ROOT NAME < reply\n", stderr);
        return 2;
    }
    size_t reply_length = fread(reply, 1, sizeof reply, stdin), value_length = 0;
    uint32_t answer = jelly_ask(root, name, (size_t)name_length, reply, reply_length, value, sizeof value, &value_length);
    if (answer >= JELLY_REFUSED) {
        printf("refused %u\n", answer - JELLY_REFUSED);
        return 1;
    }
    if (answer == JELLY_ABSENT) {
        puts("none");
        return 0;
    }
    fputs("value =", stdout);
    for (size_t i = 0; i < value_length; i++)
        printf("%02x", value[i]);
    putchar('\n');
    return 0;
}
