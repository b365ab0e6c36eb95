/* Values that a call answers, held field by field to those that are due. `about` tells the case apart, as in hold. */
#ifndef VALUES_H
#define VALUES_H

#include <stddef.h>

#include "vtil.h"

void hold_register(size_t about, const vtil_register_desc *got, const vtil_register_desc *want);
void hold_instruction(size_t about, const vtil_instruction_desc *got, const vtil_instruction_desc *want);
void hold_instruction_read(size_t about, vtil_instruction_read got, vtil_instruction_read want);

#endif
