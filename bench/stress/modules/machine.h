/* How a module ends a call by a trap: on the machine by an instruction, natively by telling the end. A module that is
   compiled for this machine, with NATIVE, says what each of its calls must come to. */
#ifndef MACHINE_H
#define MACHINE_H

#include "../../../examples/services.h"

typedef unsigned long word;

#ifdef NATIVE
_Noreturn void ends(const char *how); /* ends the call so */
extern word under;                    /* the number of the mapping that the call ran under */
#define TRAP(how, instruction) ends(how)
#define NATIVELY(statement) statement
#define ON_THE_MACHINE(statement)
#else
#define TRAP(how, instruction) asm volatile(instruction ::: "t0", "memory")
#define NATIVELY(statement)
#define ON_THE_MACHINE(statement) statement
#endif

#endif
