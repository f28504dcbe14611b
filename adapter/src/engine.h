// What answers the calls of a team: see engine.c.
#ifndef DILLBEAM_ENGINE_H
#define DILLBEAM_ENGINE_H

#include "call.h"

struct engine;

struct engine *engine_start(void);
void engine_begin(struct engine *engine, int size);
void engine_ask(struct engine *engine, int member, const struct traits *traits, const struct call *call,
                struct reply *reply);
void engine_ask_again(struct engine *engine, int member, const struct call *call, struct reply *reply);
void engine_add_answer(const struct engine *engine, struct text *text);
void engines_finish(void);
void engines_forget(void);

#endif
