/* The options of a live host, each a word and the word after it, anywhere among the arguments. */
#ifndef OPTIONS_H
#define OPTIONS_H

#include <inttypes.h>
#include <stdio.h>
#include <stdlib.h>
#include <string.h>

/* Takes an option out of the arguments. Returns the word after it, or NULL. */
static inline const char *take_option(int *argc, char **argv, const char *name)
{
    for (int k = 1; k + 1 < *argc; k++)
        if (strcmp(argv[k], name) == 0) {
            const char *value = argv[k + 1];
            for (int j = k; j + 2 <= *argc; j++)
                argv[j] = argv[j + 2];
            *argc -= 2;
            return value;
        }
    return NULL;
}

/* Takes a number out of the arguments, from `least` to `most`. Returns `most` if there is none. */
static inline uint64_t take_number(int *argc, char **argv, const char *name, uint64_t least, uint64_t most)
{
    const char *word = take_option(argc, argv, name);
    uint64_t number = most;
    char rest;
    if (word == NULL)
        return most;
    if (word[0] < '0' || word[0] > '9' || sscanf(word, "%19" SCNu64 "%c", &number, &rest) != 1 || number < least || number > most) {
        fprintf(stderr, "%s %s: it has to be a number from %" PRIu64 " to %" PRIu64 "\n", name, word, least, most);
        exit(2);
    }
    return number;
}

#endif
