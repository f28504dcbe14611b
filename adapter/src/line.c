// A call as the line that an engine reads and a record keeps (docs/FORMATS.md), and the line that it answers.
#include "line.h"

#include "refusal.h"
#include "tasks_made.h"

#include <stdio.h>
#include <stdlib.h>
#include <string.h>

static const char *const schedule_names[] = {"runtime", "static", "dynamic", "guided", "static"};

static int loop_line(const struct loop *loop, int member, const char *word, char line[LINE_SIZE])
{
    return snprintf(line, LINE_SIZE, "%d %s %s %ld %ld %ld %ld nowait%s\n", member, word,
                    schedule_names[loop->schedule], loop_chunk(loop), loop->start, loop->end, loop->increment,
                    loop->ordered ? " ordered" : "");
}

static int critical_line(const struct call *call, int member, const char *word, char line[LINE_SIZE])
{
    return snprintf(line, LINE_SIZE, "%d %s%s%s\n", member, word, *call->name != 0 ? " " : "", call->name);
}

static const char *cancel_word(enum cancel_kind kind)
{
    switch (kind) {
    case CANCEL_PARALLEL: break;
    case CANCEL_LOOP: return "loop";
    case CANCEL_SECTIONS: return "sections";
    case CANCEL_TASKGROUP: return "taskgroup";
    }
    return "parallel";
}

static int cancel_line(const struct call *call, int member, const char *word, char line[LINE_SIZE])
{
    const char *what = cancel_word(call->cancel.kind);
    if (call->kind == CALL_POINT)
        return snprintf(line, LINE_SIZE, "%d %s %s\n", member, word, what);
    return snprintf(line, LINE_SIZE, "%d %s %s %d\n", member, word, what, call->cancel.clause);
}

// The line of a call that may have a depend clause.
static int task_line(const struct call *call, int member, const char *word, char line[LINE_SIZE])
{
    char items[LINE_SIZE / 4 * 3] = "";
    const struct task *task = call->task;
    if (call->items != NULL)
        items_words(call->items, items, sizeof items);
    if (call->kind == CALL_TASKWAIT)
        return snprintf(line, LINE_SIZE, "%d %s%s\n", member, word, items);
    return snprintf(line, LINE_SIZE, "%d %s %lu %lu%s%s%s\n", member, word, task->code, task->number,
                    task->has_false_if ? " if0" : "", task->has_final ? " final" : "", items);
}

static int write_line(const struct call *call, int member, const char *word, char line[LINE_SIZE])
{
    switch (call_traits(call->kind)->arguments) {
    case ARGUMENTS_NONE: return snprintf(line, LINE_SIZE, "%d %s\n", member, word);
    case ARGUMENTS_LOOP: return loop_line(&call->loop, member, word, line);
    case ARGUMENTS_SECTIONS:
        return snprintf(line, LINE_SIZE, "%d %s %u nowait\n", member, word, call->sections);
    case ARGUMENTS_ITERATION: return snprintf(line, LINE_SIZE, "%d %s %ld\n", member, word, call->iteration);
    case ARGUMENTS_WORD: return snprintf(line, LINE_SIZE, "%d %s %lu\n", member, word, call->word);
    case ARGUMENTS_TASK:
    case ARGUMENTS_ITEMS: return task_line(call, member, word, line);
    case ARGUMENTS_CANCEL:
    case ARGUMENTS_POINT: return cancel_line(call, member, word, line);
    case ARGUMENTS_NAME: return critical_line(call, member, word, line);
    case ARGUMENTS_LOCK: return snprintf(line, LINE_SIZE, "%d %s %u\n", member, word, call->lock.number);
    }
    abort();
}

// Writes the line of a member's call, with its line feed, and answers its length.
size_t line_of_call(const struct call *call, int member, char line[LINE_SIZE])
{
    return (size_t)write_line(call, member, call_traits(call->kind)->word, line);
}

// The line by which a member asks again.
size_t line_of_resume(int member, char line[LINE_SIZE])
{
    return (size_t)snprintf(line, LINE_SIZE, "%d resume\n", member);
}

// Whether a line is this word and number, as they are printed: a number that its type does not hold is none.
static bool is_numbered(const char *line, const char *word, unsigned long number)
{
    char printed[64];
    snprintf(printed, sizeof printed, "%s %lu", word, number);
    return strcmp(line, printed) == 0;
}

static bool is_chunk(const char *line, const struct reply *reply)
{
    char printed[64];
    snprintf(printed, sizeof printed, "chunk %ld %lu", reply->first, reply->count);
    return strcmp(line, printed) == 0;
}

// Reads `run T CODE ARG`, which may have `own` behind it, and `task_done T`, with `waiting` or `free`.
static bool read_task(const char *line, struct reply *reply)
{
    char printed[96] = "";
    enum reply_kind kind = REPLY_RUN;
    const char *last = strrchr(line, ' ');
    reply->is_own = last != NULL && strcmp(last, " own") == 0;
    reply->is_waiting = last != NULL && strcmp(last, " waiting") == 0;
    if (sscanf(line, "run %lu %lu %lu", &reply->count, &reply->code, &reply->argument) == 3) {
        snprintf(printed, sizeof printed, "run %lu %lu %lu%s", reply->count, reply->code, reply->argument,
                 reply->is_own ? " own" : "");
    } else if (sscanf(line, "task_done %lu", &reply->count) == 1) {
        snprintf(printed, sizeof printed, "task_done %lu %s", reply->count,
                 reply->is_waiting ? "waiting" : "free");
        kind = REPLY_TASK_DONE;
    }
    if (*printed == 0 || strcmp(line, printed) != 0)
        return false;
    reply->kind = kind;
    return true;
}

// Reads `refused EN NAME`, which has behind it, of a broken team, the member and the place where it differs.
static bool read_refusal(const char *line, struct reply *reply)
{
    char printed[REFUSED_SIZE + 8], kind[16] = "";
    if (sscanf(line, "refused E%lu", &reply->count) != 1)
        return false;
    sscanf(line, "refused E3 Broken %lu %15s %lu", &reply->code, kind, &reply->argument);
    reply->clash = strcmp(kind, "share") == 0     ? CLASH_SHARE
                   : strcmp(kind, "barrier") == 0 ? CLASH_BARRIER
                                                  : CLASH_STOPPED;
    char name[REFUSED_SIZE];
    refusal_name(reply, name);
    snprintf(printed, sizeof printed, "refused %s", name);
    if (strcmp(line, printed) != 0)
        return false;
    reply->kind = REPLY_REFUSED;
    return true;
}

// Reads the line that an engine answers; one that is no reply is REPLY_UNKNOWN.
struct reply line_reply(const char *line)
{
    static const struct {
        const char *line;
        enum reply_kind kind;
        unsigned long count;
    } plain[] = {
        {"executor yes", REPLY_EXECUTOR, 1},
        {"executor no", REPLY_EXECUTOR, 0},
        {"none", REPLY_NONE, 0},
        {"ok", REPLY_OK, 0},
        {"passed", REPLY_PASSED, 0},
        {"wait", REPLY_WAIT, 0},
        {"got yes", REPLY_GOT, 1},
        {"got no", REPLY_GOT, 0},
        {"cancel yes", REPLY_CANCELLING, 1},
        {"cancel no", REPLY_CANCELLING, 0},
        {"cancelled", REPLY_CANCELLED, 0},
        {"dropped", REPLY_DROPPED, 0},
    };
    static const struct {
        const char *word;
        enum reply_kind kind;
    } numbered[] = {{"section", REPLY_SECTION},
                    {"copied", REPLY_COPIED},
                    {"lock", REPLY_LOCK},
                    {"count", REPLY_COUNT},
                    {"created", REPLY_CREATED}};
    struct reply reply = {.kind = REPLY_UNKNOWN};
    if (read_task(line, &reply) || read_refusal(line, &reply))
        return reply;
    if (sscanf(line, "chunk %ld %lu", &reply.first, &reply.count) == 2 && is_chunk(line, &reply))
        reply.kind = REPLY_CHUNK;
    unsigned long number;
    bool has_number = sscanf(line, "%*s %lu", &number) == 1;
    for (size_t i = 0; has_number && i < sizeof numbered / sizeof *numbered; i++)
        if (is_numbered(line, numbered[i].word, number)) {
            reply.kind = numbered[i].kind;
            reply.count = number;
        }
    for (size_t i = 0; i < sizeof plain / sizeof *plain; i++)
        if (strcmp(line, plain[i].line) == 0) {
            reply.kind = plain[i].kind;
            reply.count = plain[i].count;
        }
    return reply;
}
