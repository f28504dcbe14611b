// The order of the adapter's locks, as its debug build checks it: the cases of this program by their numbers. `run` compiles it
// with adapter/src/mutex.c and has what each says.
#include "mutex.h"
#include "message.h"

#include <stdarg.h>
#include <stdio.h>
#include <stdlib.h>

static struct mutex team = MUTEX(RANK_TEAM), other_team = MUTEX(RANK_TEAM), engines = MUTEX(RANK_ENGINES), names = MUTEX(RANK_NAMES);

_Noreturn void end_by_fault(const char *format, ...) {
    va_list arguments;
    va_start(arguments, format);
    vprintf(format, arguments);
    va_end(arguments);
    puts("");
    exit(STATUS_FAULT);
}

static void in_order(void) {
    mutex_lock(&team);
    mutex_lock(&engines);
    mutex_lock(&names);
    mutex_unlock(&engines); // not the last one
    mutex_expect_held(&team);
    mutex_expect_held(&names);
    mutex_unlock(&names);
    mutex_lock(&engines);
    mutex_unlock(&engines);
    mutex_unlock(&team);
    mutex_lock(&team);
    mutex_unlock(&team);
}

// Who does not wait needs no order, but holds the lock.
static void by_trying(void) {
    mutex_lock(&engines);
    if (!mutex_try_lock(&team))
        puts("not taken");
    mutex_expect_held(&team);
    mutex_unlock(&team);
    mutex_lock(&names);
}

static void out_of_order(void) {
    mutex_lock(&names);
    mutex_lock(&engines);
}

static void behind_one_in_order(void) {
    mutex_lock(&engines);
    mutex_lock(&names);
    mutex_unlock(&names);
    mutex_lock(&team);
}

static void two_of_a_rank(void) {
    mutex_lock(&team);
    mutex_lock(&other_team);
}

static void not_held(void) {
    mutex_lock(&team);
    mutex_unlock(&team);
    mutex_expect_held(&team);
}

static void unlocked_twice(void) {
    mutex_lock(&other_team);
    mutex_unlock(&other_team);
    mutex_unlock(&other_team);
}

int main(int count, char **words) {
    static void (*const cases[])(void) = {in_order,      by_trying, out_of_order,  behind_one_in_order,
                                          two_of_a_rank, not_held,  unlocked_twice};
    cases[count > 1 ? atoi(words[1]) : 0]();
    return 0;
}
