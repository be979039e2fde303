/* What `make demo` shows: the phrase through each effect, and that nothing of a song is left after a reset. */
#ifndef HOST_DEMO_H
#define HOST_DEMO_H

#include "trouble.h"

/* Writes into the folder, which is there already, and prints what it saw. Returns 0 if a sample was left, too. */
int demo(const char *folder, trouble *why);

#endif
