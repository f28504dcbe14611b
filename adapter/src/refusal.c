// The refusals of the engine in the words of a message. adapter/tests/refusals.rows has each beside what
// crates/gomp_types/src/refusal.rt says of it, and adapter/tests/run compares all three.
#include "refusal.h"

#include <stddef.h>
#include <stdio.h>

static const char *const names[] = {
    [REFUSAL_BAD_MEMBER] = "BadMember",
    [REFUSAL_ENDED] = "Ended",
    [REFUSAL_BROKEN] = "Broken",
    [REFUSAL_WAITING] = "Waiting",
    [REFUSAL_LEAVING] = "Leaving",
    [REFUSAL_INSIDE_TASK] = "InsideTask",
    [REFUSAL_NOT_IN_TASK] = "NotInTask",
    [REFUSAL_INSIDE_SHARE] = "InsideShare",
    [REFUSAL_OUTSIDE_SHARE] = "OutsideShare",
    [REFUSAL_IN_ORDERED] = "InOrdered",
    [REFUSAL_HOLDS_CRITICAL] = "HoldsCritical",
    [REFUSAL_ZERO_STEP] = "ZeroStep",
    [REFUSAL_BAD_CHUNK] = "BadChunk",
    [REFUSAL_LOOP_TOO_LONG] = "LoopTooLong",
    [REFUSAL_BAD_SECTIONS] = "BadSections",
    [REFUSAL_ORDERED_LOOP] = "OrderedLoop",
    [REFUSAL_END_DIFFERS] = "EndDiffers",
    [REFUSAL_NOT_DRAINED] = "NotDrained",
    [REFUSAL_DRAINED] = "Drained",
    [REFUSAL_NOT_ORDERED] = "NotOrdered",
    [REFUSAL_ORDERED_BACKWARDS] = "OrderedBackwards",
    [REFUSAL_NOT_INSIDE] = "NotInside",
    [REFUSAL_NOT_CANCELLABLE] = "NotCancellable",
    [REFUSAL_NO_GROUP] = "NoGroup",
    [REFUSAL_GROUP_OPEN] = "GroupOpen",
    [REFUSAL_TOO_DEEP] = "TooDeep",
    [REFUSAL_TOO_MANY_TASKS] = "TooManyTasks",
    [REFUSAL_TOO_MANY_DEPENDS] = "TooManyDepends",
    [REFUSAL_NAME_TOO_LONG] = "NameTooLong",
    [REFUSAL_ALREADY_HELD] = "AlreadyHeld",
    [REFUSAL_NOT_HOLDER] = "NotHolder",
    [REFUSAL_NO_LOCK] = "NoLock",
    [REFUSAL_COUNT_TOO_LARGE] = "CountTooLarge",
    [REFUSAL_TOO_MANY_SHARES] = "TooManyShares",
    [REFUSAL_MISMATCH] = "Mismatch",
    [REFUSAL_TRACE_FULL] = "TraceFull",
    [REFUSAL_NO_MEMORY] = "NoMemory",
    [REFUSAL_BAD_TEAM] = "BadTeam",
    [REFUSAL_TOO_MANY_LEVELS] = "TooManyLevels",
    [REFUSAL_BAD_ENV] = "BadEnv",
};

// Writes the number and name of a refusal, as `E35 Mismatch`; empty if there is none of this number.
void refusal_name(const struct reply *reply, char name[REFUSED_SIZE])
{
    static const char *const places[] = {
        [CLASH_SHARE] = "share", [CLASH_BARRIER] = "barrier", [CLASH_STOPPED] = "stopped"};
    name[0] = 0;
    if (reply->count >= sizeof names / sizeof *names || names[reply->count] == NULL)
        return;
    int length = snprintf(name, REFUSED_SIZE, "E%lu %s", reply->count, names[reply->count]);
    if (reply->count == REFUSAL_BROKEN)
        length += snprintf(name + length, REFUSED_SIZE - (size_t)length, " %lu %s", reply->code,
                           places[reply->clash]);
    if (reply->count == REFUSAL_BROKEN && reply->clash != CLASH_STOPPED)
        snprintf(name + length, REFUSED_SIZE - (size_t)length, " %lu", reply->argument);
}

static const struct row {
    enum refusal refusal;
    enum circumstance circumstance;
    bool is_limit;
    const char *text;
} rows[] = {
    {REFUSAL_ENDED, IN_GENERAL, false, "the member has passed the end of the parallel region"},
    {REFUSAL_BROKEN, IN_GENERAL, false, "the team is broken"},
    {REFUSAL_INSIDE_TASK, IN_GENERAL, false,
     "the member executes an explicit task, in which this may not be met"},
    {REFUSAL_NOT_IN_TASK, IN_GENERAL, false, "the member executes no explicit task"},
    {REFUSAL_INSIDE_SHARE, IN_GENERAL, false, "the member is in a work-share, in which this may not be met"},
    {REFUSAL_OUTSIDE_SHARE, IN_GENERAL, false, "the member is in no work-share of this kind"},
    {REFUSAL_IN_ORDERED, IN_GENERAL, false, "the member is in an ordered part"},
    {REFUSAL_HOLDS_CRITICAL, IN_GENERAL, false,
     "the member is in a critical region, in which this may not be met"},
    {REFUSAL_ZERO_STEP, IN_GENERAL, false, "the loop's step is 0"},
    {REFUSAL_BAD_CHUNK, IN_GENERAL, false, "the chunk is negative, or above 2^39"},
    {REFUSAL_LOOP_TOO_LONG, IN_GENERAL, true, "a loop has more than 2^39 iterations"},
    {REFUSAL_BAD_SECTIONS, IN_GENERAL, true, "a construct has more than 65,536 sections"},
    {REFUSAL_ORDERED_LOOP, IN_GENERAL, false, "the loop may be cancelled, and is ordered"},
    {REFUSAL_END_DIFFERS, IN_GENERAL, false, "the construct ends otherwise than it began"},
    {REFUSAL_NOT_DRAINED, IN_GENERAL, false, "the member left before nothing was left to do"},
    {REFUSAL_DRAINED, IN_GENERAL, false, "the member asked again though nothing was left"},
    {REFUSAL_NOT_ORDERED, IN_GENERAL, false, "the loop has no ordered clause"},
    {REFUSAL_ORDERED_BACKWARDS, IN_GENERAL, false,
     "an ordered part comes twice in an iteration, or not in the order of the iterations"},
    {REFUSAL_NOT_INSIDE, IN_GENERAL, false, "no such part is open"},
    {REFUSAL_NOT_CANCELLABLE, IN_GENERAL, false, "the work-share may not be cancelled"},
    {REFUSAL_NO_GROUP, IN_GENERAL, false, "the task has no taskgroup open"},
    {REFUSAL_NO_GROUP, AT_CANCELLATION, false, "the task is in no taskgroup"},
    {REFUSAL_GROUP_OPEN, IN_GENERAL, false, "the task has a taskgroup open"},
    {REFUSAL_TOO_DEEP, IN_GENERAL, true, "tasks are created inside of one another more than 64 deep"},
    {REFUSAL_TOO_MANY_TASKS, IN_GENERAL, true, "a parallel region may have 1,048,576 tasks"},
    {REFUSAL_TOO_MANY_DEPENDS, IN_GENERAL, true, "a depend clause may have 16 items"},
    {REFUSAL_NAME_TOO_LONG, IN_GENERAL, true, "the name of a critical region has more than 32 bytes"},
    {REFUSAL_ALREADY_HELD, IN_GENERAL, false, "the thread holds this lock already"},
    {REFUSAL_ALREADY_HELD, AT_REENTRY, false, "the thread is in a critical region of this name already"},
    {REFUSAL_ALREADY_HELD, AT_REENTRY_BY_TASK, false,
     "the thread is in a critical region of this name already, and executes this task while it waits there"},
    {REFUSAL_ALREADY_HELD, AT_DESTRUCTION, false, "a lock may not be destroyed while it is set"},
    {REFUSAL_NOT_HOLDER, IN_GENERAL, false, "the thread does not hold this lock"},
    {REFUSAL_NOT_HOLDER, AMONG_TASKS, false,
     "the task does not hold this lock: the task that sets a lock unsets it, and no other"},
    {REFUSAL_NO_LOCK, IN_GENERAL, false,
     "there is no such lock: it was never initialized, or it was destroyed"},
    {REFUSAL_COUNT_TOO_LARGE, IN_GENERAL, true,
     "a nestable lock is set 65,535 times, or 4,294,967,295 locks were made"},
    {REFUSAL_TOO_MANY_SHARES, IN_GENERAL, true,
     "a member may start 131,064 work-shares in one parallel region"},
    {REFUSAL_MISMATCH, IN_GENERAL, false,
     "the members of the team did not meet the same constructs in the same order"},
    {REFUSAL_TRACE_FULL, IN_GENERAL, true, "the room for stored events is used up"},
    {REFUSAL_NO_MEMORY, IN_GENERAL, true, "memory was refused"},
};

// What a message says of a refusal by its number; what no row has is refused without a reason.
struct meaning refusal_meaning(unsigned long number, enum circumstance circumstance)
{
    for (const struct row *row = rows; row < rows + sizeof rows / sizeof *rows; row++)
        if (row->refusal == number && row->circumstance == circumstance)
            return (struct meaning){row->is_limit, row->text};
    return (struct meaning){false, "the call was refused"};
}
