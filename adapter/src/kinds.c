// What is known of each kind of call, as kinds.def has it.
#include "call.h"

#define CALL(NAME, WORD, NUMBER, ARGUMENTS, CLASS, ANSWERS, WAIT, LETS, HOLD) \
    {WORD, NUMBER, ARGUMENTS_##ARGUMENTS, CLASS_##CLASS, ANSWERS, WAIT_##WAIT, WAIT_##LETS, HOLD_##HOLD},

const struct traits kinds[] = {
#include "kinds.def"
};
