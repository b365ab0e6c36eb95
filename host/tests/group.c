#define _POSIX_C_SOURCE 200809L

#include "group.h"

#include <errno.h>
#include <inttypes.h>
#include <signal.h>
#include <stdbool.h>
#include <stdio.h>
#include <stdlib.h>
#include <string.h>
#include <unistd.h>

struct group group;

static const char *program;
static int passed, failed;

void stop_because(const char *what, const char *reason)
{
    fprintf(stderr, "%s: %s: %s\n", program, what, reason);
    exit(2);
}

void stop(const char *what)
{
    stop_because(what, strerror(errno));
}

/*
 * Runs in place of a crash. A fault of these kinds is in a call of the library, which prints nothing and allocates
 * nothing; so printing is safe here. SIGABRT is not among them: the C library sends it out of its own functions.
 */
static void crashed(int signal_number)
{
    printf("%s: %s: case %" PRIu64 ": FAILED: signal %d: "
           "a byte outside what was lent was touched, or one that was lent to be read was written\n",
           program, group.name, group.cases, signal_number);
    fflush(stdout);
    _exit(1);
}

static void catch_crashes(void)
{
    static const int signals[] = {SIGSEGV, SIGBUS, SIGILL, SIGFPE};
    struct sigaction action;
    memset(&action, 0, sizeof action);
    action.sa_handler = crashed;
    for (size_t i = 0; i < sizeof signals / sizeof signals[0]; i++)
        if (sigaction(signals[i], &action, NULL) != 0)
            stop("sigaction");
}

void set_up_groups(const char *name)
{
    program = name;
    setvbuf(stdout, NULL, _IOLBF, 0); /* what was run is seen even if a later case never ends */
    catch_crashes();
}

void begin(const char *name)
{
    memset(&group, 0, sizeof group);
    group.name = name;
}

void end(void)
{
    bool fine = group.differ == 0 && group.cases > 0;
    printf("%s: %s: %s, %" PRIu64 " cases, %" PRIu64 " differ\n", program, group.name, fine ? "passed" : "FAILED", group.cases,
           group.differ);
    if (fine)
        passed++;
    else
        failed++;
}

/* Random cases are worth something only if they reach every answer. */
void end_of_random(uint64_t least, const int *answers)
{
    printf("%s: %s:", program, group.name);
    for (; *answers >= 0; answers++) {
        uint64_t due = group.answers[*answers];
        if (*answers == 0)
            printf(" %" PRIu64 " accepted, refused", due);
        else
            printf(" %d: %" PRIu64 "%s", *answers, due, answers[1] >= 0 ? "," : "");
        if (due < least)
            group.differ++;
        if (due < least)
            printf(" (fewer than %" PRIu64 ")", least);
    }
    printf("\n");
    end();
}

void next_case(void)
{
    group.cases++;
}

void hold(const char *what, size_t about, int64_t got, int64_t want)
{
    if (got == want)
        return;
    group.differ++;
    if (group.differ <= 5)
        printf("%s: %s: case %" PRIu64 " (%zu), %s: %" PRId64 " where %" PRId64 " is due\n", program, group.name, group.cases,
               about, what, got, want);
}

int finish(void)
{
    printf("%s: %d passed, %d failed, 0 skipped\n", program, passed, failed);
    return failed == 0 ? 0 : 1;
}
