/* The subcommands of `routine` and what they share. */
#ifndef ROUTINE_COMMANDS_H
#define ROUTINE_COMMANDS_H

#include <stdbool.h>
#include <stddef.h>
#include <stdint.h>
#include <stdio.h>

/* Exit statuses. Where several apply, the largest is given. */
enum status {
    ALL_ACCEPTED = 0,
    SOME_REFUSED = 1, /* of `same`: the two files hold two routines */
    TROUBLE = 2       /* not read, not written, or bad usage */
};

static inline enum status worse(enum status a, enum status b)
{
    return a > b ? a : b;
}

/* What a subcommand was asked: as many files as it takes, and its options. */
struct request {
    int count;
    char **files;       /* of `send` the second one is the folder */
    const char *out;    /* -o; NULL where it was not given */
    const char *script; /* -s; NULL where it was not given */
    const char *rates;  /* --rates; NULL where it was not given */
    bool json;          /* --json */
    bool verbose;       /* --verbose */
};

enum status check_command(const struct request *request);
enum status show_command(const struct request *request);
enum status normalize_command(const struct request *request);
enum status same_command(const struct request *request);
enum status edit_command(const struct request *request);
enum status charge_command(const struct request *request);
enum status send_command(const struct request *request);
enum status outside_command(const struct request *request);

/* Prints a file's name with control characters as \xNN, so that a line stays one line. */
void print_name(FILE *to, const char *name);

/* These say on standard error what is wrong with `name`, after all that was printed before it. */
void say_unread(const char *name, const char *problem);
void say_bad_line(const char *name, size_t number, const char *problem);
void say_unwritten(const char *name, const char *problem);
void say_unsafe(const char *name, const char *problem);
void say_refused(const char *name, uint64_t refusal);

/* The same of the rate at this place in the word that was given after --rates. */
void say_bad_rate(const char *rates, int place, const char *problem);

#endif
