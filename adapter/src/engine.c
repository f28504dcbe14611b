// An engine: the proved team, which answers the calls of one team after another. It stands in this process (inside.c),
// or is a process of its own (process.c), if the word DILLBEAM_ENGINE names its program: that one is slower, and the
// program cannot write over it. Whoever asks holds the team's lock.
#include "engine.h"

#include "inside.h"
#include "line.h"
#include "message.h"
#include "process.h"

#include <stdio.h>
#include <stdlib.h>
#include <string.h>

struct engine {
    struct process *process; // NULL if the team stands in this process
    struct inside inside;    // else
    const char *line;        // that the process answered last
};

struct engine *engine_start(void)
{
    struct engine *engine = calloc(1, sizeof *engine);
    const char *program = getenv("DILLBEAM_ENGINE");
    if (engine == NULL)
        end_by_fault("no memory for an engine");
    if (program != NULL && *program != 0)
        engine->process = process_start();
    else
        inside_start(&engine->inside);
    return engine;
}

static void begin_in_process(struct engine *engine, int size)
{
    char line[LINE_SIZE];
    size_t length = (size_t)snprintf(line, sizeof line, "team %d\n", size);
    const char *answer = process_begin(engine->process, line, length);
    if (strcmp(answer, "ok") != 0)
        end_by_fault("the engine answered '%.80s' to 'team %d'", answer, size);
}

// Begins a team in the place of the one before, with the locks that were made.
void engine_begin(struct engine *engine, int size)
{
    if (engine->process != NULL)
        begin_in_process(engine, size);
    else
        inside_begin(&engine->inside, size);
}

// The reply that a process has answered to a call, which may be any line: one that the call may not have is
// REPLY_UNKNOWN.
static void read_line(const struct engine *engine, const struct call *call, struct reply *reply)
{
    *reply = line_reply(engine->line);
    bool is_any_call = reply->kind == REPLY_WAIT || reply->kind == REPLY_REFUSED;
    if (!is_any_call && !call_may_be_answered(call, reply))
        reply->kind = REPLY_UNKNOWN;
}

SELDOM static void ask_process(struct engine *engine, int member, const struct call *call, struct reply *reply)
{
    char line[LINE_SIZE];
    engine->line = process_ask(engine->process, line, line_of_call(call, member, line));
    read_line(engine, call, reply);
}

SELDOM static void ask_process_again(struct engine *engine, int member, const struct call *call,
                                     struct reply *reply)
{
    char line[LINE_SIZE];
    engine->line = process_ask(engine->process, line, line_of_resume(member, line));
    read_line(engine, call, reply);
}

// Asks a call of a member, of whose kind this is known. The reply of the team in this process is proved to be one that
// the call may have.
void engine_ask(struct engine *engine, int member, const struct traits *traits, const struct call *call,
                struct reply *reply)
{
    if (engine->process == NULL)
        inside_ask(&engine->inside, member, traits, call, reply);
    else
        ask_process(engine, member, call, reply);
}

// Asks again for a member whose call was answered `wait`, or that has ended the task which it was given there.
void engine_ask_again(struct engine *engine, int member, const struct call *call, struct reply *reply)
{
    if (engine->process == NULL)
        inside_ask_again(&engine->inside, member, reply);
    else
        ask_process_again(engine, member, call, reply);
}

// Adds the last answer, which was no reply to its call, for a message.
void engine_add_answer(const struct engine *engine, struct text *text)
{
    if (engine->process != NULL)
        text_add(text, "'%.80s'", engine->line);
    else
        text_add(text, "%lu %lu %lu", engine->inside.unknown.kind, engine->inside.unknown.words[0],
                 engine->inside.unknown.words[1]);
}

// At the program's end.
void engines_finish(void)
{
    processes_finish();
    inside_finish();
}

// In a child that the program forked: the engines are its parent's.
void engines_forget(void)
{
    processes_forget();
    inside_forget();
}
