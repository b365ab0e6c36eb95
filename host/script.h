/* The scripts of `routine edit`. */
#ifndef ROUTINE_SCRIPT_H
#define ROUTINE_SCRIPT_H

#include <stddef.h>
#include <stdint.h>

#include "commands.h"
#include "vtil.h"

struct line {
    size_t number; /* in the script, from 1 */
    enum vtil_call call;
    uint64_t vip;
    uint8_t *bytes; /* append: the instruction's bytes */
    size_t len;
};

struct script {
    struct line *lines;
    size_t count;
    uint8_t *bytes; /* room for every line's bytes */
};

/*
 * Reads the whole script `name` ("-": standard input). ALL_ACCEPTED when every line
 * is a call: then script_free is owed. Otherwise it was said what is wrong, and
 * nothing is owed.
 */
enum status script_read(const char *name, struct script *out);

void script_free(struct script *script);

#endif
