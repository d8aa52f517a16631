/* Checks, counted by group. */
#ifndef CHECK_H
#define CHECK_H

#include <stdbool.h>

/* One check of the running group; the first few that fail are told. */
void check(bool holds, const char *what, const char *file, int line);
#define CHECK(holds) check((holds), #holds, __FILE__, __LINE__)

/* Runs a group and prints its line: it passes if it has checks and all of them hold. */
void run_group(const char *name, void (*group)(void));

/* Prints how many groups passed and failed; the exit status. */
int report(void);

#endif
