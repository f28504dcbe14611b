// The proved team in this process: see inside.c.
#ifndef DILLBEAM_INSIDE_H
#define DILLBEAM_INSIDE_H

#include "blocks.h"
#include "call.h"

// An answer as crates/gomp_engine gives it: the number of its kind, and what else it says.
struct numbers {
    uint64_t kind, count, words[8];
};

struct inside {
    void *team;             // that dillbeam_open gave
    struct blocks blocks;   // of its last team
    struct numbers unknown; // the answer that was no reply, for a message
};

void inside_start(struct inside *inside);
void inside_begin(struct inside *inside, int size);
void inside_ask(struct inside *inside, int member, const struct traits *traits, const struct call *call,
                struct reply *reply);
void inside_ask_again(struct inside *inside, int member, struct reply *reply);
void inside_finish(void);
void inside_forget(void);

#endif
