/* The options of a test program: a name and a number each. */
#ifndef OPTIONS_H
#define OPTIONS_H

#include <stdint.h>
#include <stdio.h>
#include <stdlib.h>
#include <string.h>

struct option {
    const char *name;
    uint64_t number; /* as given, or as it stood */
    int given;
};

/* Reads the words of a command. Any but these options and a number behind each end the program, which says so. */
static inline void read_options(int count, char **words, struct option *options, int most)
{
    for (int i = 1; i < count; i += 2) {
        const char *value = i + 1 < count ? words[i + 1] : "";
        char *end = NULL;
        int which = 0;
        while (which < most && strcmp(words[i], options[which].name) != 0)
            which++;
        if (which < most && *value >= '0' && *value <= '9')
            options[which].number = strtoull(value, &end, 10);
        if (end == NULL || *end != '\0') {
            fprintf(stderr, "usage: %s", words[0]);
            for (int known = 0; known < most; known++)
                fprintf(stderr, " [%s NUMBER]", options[known].name);
            fprintf(stderr, "\n");
            exit(2);
        }
        options[which].given = 1;
    }
}

#endif
