/* The four scripts of the example controller, in words of Lua 5.4. */
#ifndef EXAMPLES_SCRIPTS_H
#define EXAMPLES_SCRIPTS_H

#include <stdint.h>

/* LOADI, ADDI, MMBINI, and a JMP back to the ADDI: it never ends. */
static const uint32_t axis[] = {2147483649u, 2147483669u, 109051951u, 2147483192u};

/* A numeric for with an empty body, whose FORLOOP goes to itself or on, and RETURN0. */
static const uint32_t focuser[] = {32841u, 71u};

/* CALL, MOVE, RETURN0: three words in a row. */
static const uint32_t dome[] = {68u, 0u, 71u};

/* A generic for with an empty body: TFORPREP, TFORCALL, a TFORLOOP back to it or on, RETURN0. */
static const uint32_t guider[] = {75u, 76u, 65613u, 71u};

#endif
