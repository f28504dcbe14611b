// Calls that are posted to the thread that has the team's lock: see post.c.
#ifndef DILLBEAM_POST_H
#define DILLBEAM_POST_H

#include "team.h"

void post_tell_locked(struct member *member, const struct reply *reply);
void post_make_all_locked(struct team *team);
void post_call(struct team *team, int number, bool asks_again, const struct call *call, struct reply *reply);
void post_wait_and_unlock(struct team *team, int number, struct reply *reply);

#endif
