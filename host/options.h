/* What the command line asks for. */
#ifndef HOST_OPTIONS_H
#define HOST_OPTIONS_H

#include "trouble.h"

#include <stdint.h>

enum { MOST_SETTINGS = 100 };

typedef struct options {
    int help;
    const char *demo;  /* the folder of the demonstration, or NULL */
    const char *in;    /* NULL for the phrase */
    const char *out;
    const char *chain;
    const char *settings[MOST_SETTINGS];
    unsigned setting_count;
    double tail; /* seconds */
    unsigned bytes; /* of a written sample */
    uint32_t rate;  /* of the phrase; 0 while not set */
} options;

int options_read(options *o, int count, char **words, trouble *why);

/* How the host is called, and every effect's controls. */
void options_help(void);

#endif
