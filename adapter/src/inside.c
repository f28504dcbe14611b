// The proved team in this process: the static library crates/gomp_engine, two functions on numbers. A call is a few
// words, and its answer ten; no text is made. Each engine is asked by one thread at a time, since its caller holds the
// team's lock: that is what the library's proof leaves to C, beside the pointer, which is never changed, and that no
// call comes from a signal handler or a forked child.
#define _GNU_SOURCE
#include "inside.h"

#include "message.h"
#include "mutex.h"
#include "tasks_made.h"
#include "variables.h"

#include <inttypes.h>
#include <stdio.h>
#include <stdlib.h>
#include <string.h>
#include <unistd.h>

// Without the library in it the adapter asks processes alone (adapter/build).
extern uint64_t dillbeam_open(const uint8_t *settings, size_t length, void **team) __attribute__((weak));
extern struct numbers dillbeam_step(void *team, const uint64_t *words, size_t count) __attribute__((weak));

// Numbers of gomp_words and gomp_engine: of what is asked and is no call, and of answers.
enum { WORDS_NEW_TEAM = 0, WORDS_RESUME = 36, WORDS_NAME = 38 };
enum { NEW_TEAM = 4, NAME_BYTE = 5, NAME_END = 6 };
enum { NOWAIT = 1 }; // how each share ends: the barrier is a call of its own

// A call's number, the member and the most arguments: those of a task with items, and the bytes of a name, of which
// the team keeps so many (a longer one is refused).
enum { NAME_BYTES = 33, CALL_WORDS = 2 + NAME_BYTES + 2 * ITEMS_TOLD };

static struct mutex notes_lock = MUTEX(RANK_ENGINES); // of the notes
static char *notes; // a line for each word that was ignored, once they are read

static struct numbers step(const struct inside *inside, const uint64_t *words, size_t count)
{
    return dillbeam_step(inside->team, words, count);
}

// The words of the environment as the team reads them, a line each. A line feed in a word, which no good value has,
// is another byte that none has.
static char *settings(size_t *length)
{
    char *text = NULL;
    FILE *lines = open_memstream(&text, length);
    for (size_t i = 0; lines != NULL && i < handed_words.count; i++) {
        for (const char *byte = handed_words.words[i]; *byte != 0; byte++)
            fputc(*byte != '\n' ? *byte : '?', lines);
        fputc('\n', lines);
    }
    if (lines == NULL || fclose(lines) != 0)
        end_by_fault("no memory for an engine");
    return text;
}

// Adds the name of a word that was ignored. Answers whether there is one of this number.
static bool add_ignored(const struct inside *inside, uint64_t word, FILE *lines)
{
    uint64_t words[] = {WORDS_NAME, word, 0};
    struct numbers answer = step(inside, words, 3);
    if (answer.kind != NAME_BYTE && answer.kind != NAME_END)
        return false;
    fputs("ignored ", lines);
    for (; answer.kind == NAME_BYTE; answer = step(inside, words, 3)) {
        fputc((int)answer.words[0], lines);
        words[2]++;
    }
    fputc('\n', lines);
    return true;
}

// Keeps the notes that an engine which is a process writes at its end: the team may not be asked then.
static void keep_notes_locked(const struct inside *inside)
{
    size_t length = 0;
    mutex_expect_held(&notes_lock);
    if (notes != NULL)
        return;
    FILE *lines = open_memstream(&notes, &length);
    for (uint64_t word = 0; lines != NULL && add_ignored(inside, word, lines); word++)
        ;
    if (lines == NULL || fclose(lines) != 0)
        end_by_fault("no memory for an engine");
}

void inside_start(struct inside *inside)
{
    size_t length = 0;
    if (dillbeam_open == NULL)
        end_by_fault("the library was built without the team; run the program by ./dillbeam");
    char *text = settings(&length);
    uint64_t fault = dillbeam_open((const uint8_t *)text, length, &inside->team);
    if (fault != 0)
        end_by_fault(fault == 1 ? "a word of the environment is not UTF-8" : "no memory for an engine");
    free(text);
    mutex_lock(&notes_lock);
    keep_notes_locked(inside);
    mutex_unlock(&notes_lock);
}

void inside_begin(struct inside *inside, int size)
{
    const uint64_t words[] = {WORDS_NEW_TEAM, (uint64_t)size};
    blocks_keep(&inside->blocks);
    uint64_t answer = step(inside, words, 2).kind;
    blocks_keep(NULL);
    if (answer != NEW_TEAM)
        end_by_fault("no memory for a team of %d", size);
}

static size_t loop_words(const struct loop *loop, uint64_t *words)
{
    static const uint64_t schedules[] = {[SCHEDULE_RUNTIME] = 0,
                                         [SCHEDULE_STATIC] = 1,
                                         [SCHEDULE_DYNAMIC] = 2,
                                         [SCHEDULE_GUIDED] = 3,
                                         [SCHEDULE_AUTO] = 1};
    words[0] = (uint64_t)loop->start;
    words[1] = (uint64_t)loop->end;
    words[2] = (uint64_t)loop->increment;
    words[3] = (uint64_t)loop_chunk(loop);
    words[4] = schedules[loop->schedule];
    words[5] = loop->ordered;
    words[6] = NOWAIT;
    return 7;
}

static size_t name_words(const char *name, uint64_t *words)
{
    size_t count = 0;
    for (; name[count] != 0 && count < NAME_BYTES; count++)
        words[count] = (unsigned char)name[count];
    return count;
}

static size_t item_words(const struct items *items, uint64_t *words)
{
    static const uint64_t kinds_of_items[] = {[DEPEND_IN] = 0,
                                              [DEPEND_OUT] = 1,
                                              [DEPEND_INOUT] = 2,
                                              [DEPEND_INOUTSET] = 3,
                                              [DEPEND_MUTEXINOUTSET] = 4};
    size_t count = 0;
    for (size_t i = 0; items != NULL && i < items->count; i++) {
        words[count++] = kinds_of_items[items->of[i].kind];
        words[count++] = items->of[i].number;
    }
    return count;
}

static size_t task_words(const struct call *call, uint64_t *words)
{
    words[0] = call->task->code;
    words[1] = call->task->number;
    words[2] = call->task->has_false_if;
    words[3] = call->task->has_final;
    return 4 + item_words(call->items, words + 4);
}

// Writes the arguments of a call, and answers how many they are.
static size_t argument_words(const struct traits *traits, const struct call *call, uint64_t *words)
{
    if (traits->arguments == ARGUMENTS_NONE) // as most have, and no table is looked at
        return 0;
    switch (traits->arguments) {
    case ARGUMENTS_NONE: return 0;
    case ARGUMENTS_LOOP: return loop_words(&call->loop, words);
    case ARGUMENTS_SECTIONS:
        words[0] = call->sections;
        words[1] = NOWAIT;
        return 2;
    case ARGUMENTS_ITERATION: words[0] = (uint64_t)call->iteration; return 1;
    case ARGUMENTS_WORD: words[0] = call->word; return 1;
    case ARGUMENTS_TASK: return task_words(call, words);
    case ARGUMENTS_ITEMS: return item_words(call->items, words);
    case ARGUMENTS_CANCEL:
        words[0] = call->cancel.kind;
        words[1] = call->cancel.clause;
        return 2;
    case ARGUMENTS_POINT: words[0] = call->cancel.kind; return 1;
    case ARGUMENTS_NAME: return name_words(call->name, words);
    case ARGUMENTS_LOCK: words[0] = call->lock.number; return 1;
    }
    abort();
}

// The kinds of replies that say more than a number, or a chunk.
enum { LONG_REPLIES = ANSWER(RUN) | ANSWER(TASK_DONE) | ANSWER(REFUSED) };

static void read_long(const uint64_t *words, struct reply *reply)
{
    if (reply->kind == REPLY_RUN) {
        reply->code = words[1];
        reply->argument = words[2];
        reply->is_own = words[3] != 0;
    } else if (reply->kind == REPLY_TASK_DONE) {
        reply->is_waiting = words[1] != 0;
    } else if (reply->kind == REPLY_REFUSED) {
        reply->code = words[1];
        reply->clash = (enum clash)words[2];
        reply->argument = words[3];
    }
}

// What the numbers of a reply of this kind say: those of gomp_words, in their order. Those that it has not are 0.
static void read_numbers(const struct numbers *answer, struct reply *reply)
{
    const uint64_t *words = answer->words;
    reply->kind = (enum reply_kind)answer->kind;
    reply->first = (long)words[0];
    reply->count = words[reply->kind == REPLY_CHUNK ? 1 : 0];
    if (reply_is_of(reply, LONG_REPLIES))
        read_long(words, reply);
}

SELDOM static void keep_unknown(struct inside *inside, const struct numbers *answer, struct reply *reply)
{
    inside->unknown = *answer;
    reply->kind = REPLY_UNKNOWN;
}

static void ask(struct inside *inside, const uint64_t *words, size_t count, struct reply *reply)
{
    struct numbers answer = step(inside, words, count);
    if (answer.kind < REPLY_CHUNK || answer.kind > REPLY_REFUSED)
        keep_unknown(inside, &answer, reply);
    else
        read_numbers(&answer, reply);
}

void inside_ask(struct inside *inside, int member, const struct traits *traits, const struct call *call,
                struct reply *reply)
{
    uint64_t words[CALL_WORDS];
    words[0] = traits->number;
    words[1] = (uint64_t)member;
    ask(inside, words, 2 + argument_words(traits, call, words + 2), reply);
}

void inside_ask_again(struct inside *inside, int member, struct reply *reply)
{
    const uint64_t words[] = {WORDS_RESUME, (uint64_t)member};
    ask(inside, words, 2, reply);
}

// At the program's end: the notes, as an engine that is a process writes them.
void inside_finish(void)
{
    const char *text = notes;
    for (size_t left = text != NULL ? strlen(text) : 0; left > 0;) {
        ssize_t written = write(STDERR_FILENO, text, left);
        if (written <= 0)
            break;
        text += written;
        left -= (size_t)written;
    }
    notes = NULL;
}

// In a child that the program forked: the teams are its parent's.
void inside_forget(void)
{
    mutex_init(&notes_lock, RANK_ENGINES);
    notes = NULL;
}
