/* Why something was not done, in words for whoever started the host. */
#ifndef HOST_TROUBLE_H
#define HOST_TROUBLE_H

typedef struct trouble {
    char text[600];
} trouble;

/* Keeps the words and returns 0: the host's functions return 1 for done and 0 for not done, and can end with this call. */
int trouble_say(trouble *why, const char *format, ...);

#endif
