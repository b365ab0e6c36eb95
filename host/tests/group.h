/* Counting for the test programs: groups of cases, what differs, and crashes. */
#ifndef GROUP_H
#define GROUP_H

#include <stddef.h>
#include <stdint.h>

#define ANSWERS 64 /* 0 for accepted, and every refusal by its number, with room for more */

/* The group of cases that runs. */
extern struct group {
    const char *name;
    uint64_t cases, differ;
    uint64_t answers[ANSWERS]; /* how often each was due */
} group;

/* The program's name for its messages, and crashes reported with the case that they happen in. */
void set_up_groups(const char *program);

void begin(const char *name);

/* Prints the group's line. A group without a case has failed. */
void end(void);

/* As end, where every answer of the list (which -1 ends) has to be due at least `least` times. */
void end_of_random(uint64_t least, const int *answers);

/* One more case. */
void next_case(void);

/* Counts a difference and prints the first few. `about` is a number that tells the case apart. */
void hold(const char *what, size_t about, int64_t got, int64_t want);

/* Something that is needed is missing: these say so, with errno's reason or another, and end the program. */
void stop(const char *what);
void stop_because(const char *what, const char *reason);

/* Prints the last line, and answers the exit status. */
int finish(void);

#endif
