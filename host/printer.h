/* How a routine is printed: what is called for each part, in the order of the file. */
#ifndef ROUTINE_PRINTER_H
#define ROUTINE_PRINTER_H

#include <stdint.h>

#include "vtil.h"

enum list { VOLATILE, PARAM, RETVAL, INSTRUCTIONS, PREV, NEXT };

struct printer {
    void (*routine)(const vtil_routine_read *routine); /* in written form, so its end is how much is written */
    void (*convention)(uint64_t place, const vtil_convention_read *convention);
    void (*convention_end)(void);
    void (*blocks)(void); /* after the last convention */
    void (*block)(uint64_t place, const vtil_block_read *block);
    void (*block_end)(void);
    void (*list)(enum list list, uint64_t count);
    void (*list_end)(enum list list);
    void (*reg)(uint64_t place, const vtil_register_desc *reg);
    void (*instruction)(uint64_t place, const vtil_instruction_desc *instruction);
    void (*vip)(uint64_t place, uint64_t vip);
    void (*end)(void);
};

extern const struct printer text_printer, json_printer;

/* 0 Amd64, 1 Arm64, 2 Virtual */
const char *machine_name(uint64_t arch_id);

#endif
