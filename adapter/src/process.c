// An engine that is a process, `ompteam live [NAME=VALUE]..` over two pipes: a line goes in, its reply comes out.
// The OMP_ words of the environment are handed to it and are its own. It is started apart from the program:
// not as its child, so that the program's own wait() never meets it; in a process group of its own, so that
// an interrupt at the terminal reaches the program alone; without LD_PRELOAD. Only the first engine has the
// program's standard error, so each ignored word is noted once. An engine may be a script: what it has started
// and does not end with its input is ended by signals.
#define _GNU_SOURCE
#include "process.h"

#include "message.h"
#include "mutex.h"
#include "variables.h"

#include <errno.h>
#include <fcntl.h>
#include <poll.h>
#include <pthread.h>
#include <sched.h>
#include <signal.h>
#include <spawn.h>
#include <stdio.h>
#include <stdlib.h>
#include <string.h>
#include <sys/stat.h>
#include <sys/wait.h>
#include <time.h>
#include <unistd.h>

enum { STACK_SIZE = 65536 }; // bytes
// Milliseconds that a new team's first reply may take; that engines are given to end by themselves; and that
// they are given behind a first signal.
enum { PATIENCE = 20000, LAST_MOMENT = 2000, AFTER_SIGNAL = 1000 };

static struct mutex processes_lock = MUTEX(RANK_ENGINES); // of this list, and of starting one
static struct process *processes;                         // all of them, the newest first

struct start {
    const char *path;
    char **arguments, **environment;
    int input, output;
    bool first;
    pid_t process; // that was started
};

// Runs in a short-lived process that shares the program's memory, as vfork's does. Answers the fault, 0 for
// none.
static int start_process(void *argument)
{
    struct start *start = argument;
    posix_spawn_file_actions_t actions;
    posix_spawnattr_t attributes;
    sigset_t none, all;
    sigemptyset(&none);
    sigfillset(&all);
    posix_spawn_file_actions_init(&actions);
    posix_spawn_file_actions_adddup2(&actions, start->input, STDIN_FILENO);
    posix_spawn_file_actions_adddup2(&actions, start->output, STDOUT_FILENO);
    if (!start->first)
        posix_spawn_file_actions_addopen(&actions, STDERR_FILENO, "/dev/null", O_WRONLY, 0);
    posix_spawnattr_init(&attributes);
    posix_spawnattr_setflags(&attributes,
                             POSIX_SPAWN_SETPGROUP | POSIX_SPAWN_SETSIGMASK | POSIX_SPAWN_SETSIGDEF);
    posix_spawnattr_setsigmask(&attributes, &none);
    posix_spawnattr_setsigdefault(&attributes, &all);
    return posix_spawn(&start->process, start->path, &actions, &attributes, start->arguments,
                       start->environment);
}

// Starts the process as a grandchild. The child between has no exit signal, so no wait() of the program's
// sees it.
static int start_apart(struct start *start)
{
    char *stack = malloc(STACK_SIZE);
    if (stack == NULL)
        return ENOMEM;
    int status = 0, fault = 0;
    pid_t child = clone(start_process, stack + STACK_SIZE, CLONE_VM | CLONE_VFORK, start);
    if (child < 0)
        fault = errno;
    else
        while (waitpid(child, &status, __WCLONE) < 0 && errno == EINTR)
            ;
    free(stack);
    return fault != 0 ? fault : WEXITSTATUS(status);
}

static bool is_preload(const char *word) { return strncmp(word, "LD_PRELOAD=", 11) == 0; }

static char **environment_without_preload(void)
{
    size_t count = 0, kept = 0;
    while (environ[count] != NULL)
        count++;
    char **words = calloc(count + 1, sizeof *words);
    for (size_t i = 0; words != NULL && i < count; i++)
        if (!is_preload(environ[i]))
            words[kept++] = environ[i];
    return words;
}

struct ends {
    int in, out; // what is written to `in` is read from `out`
};

// Moves a file to a number that leaves the three standard ones free.
static int move_up(int low)
{
    int number = fcntl(low, F_DUPFD_CLOEXEC, 3);
    if (number < 0)
        end_by_fault("a pipe to the engine cannot be made: %s", strerror(errno));
    close(low);
    return number;
}

// A pipe whose ends are closed in what the program executes.
static struct ends open_pipe(void)
{
    int low[2];
    if (pipe2(low, O_CLOEXEC) != 0)
        end_by_fault("a pipe to the engine cannot be made: %s", strerror(errno));
    int out = move_up(low[0]);
    return (struct ends){.in = move_up(low[1]), .out = out};
}

static ino_t file_of(int number)
{
    struct stat file;
    return fstat(number, &file) == 0 ? file.st_ino : 0;
}

static void start_engine_locked(struct process *process, bool first)
{
    struct start start = {
        .path = getenv("DILLBEAM_ENGINE"), .first = first, .environment = environment_without_preload()};
    mutex_expect_held(&processes_lock);
    if (start.path == NULL || *start.path == 0)
        end_by_fault("the word DILLBEAM_ENGINE is not set; run the program by ./dillbeam");
    start.arguments = calloc(handed_words.count + 3, sizeof *start.arguments);
    if (start.arguments == NULL || start.environment == NULL)
        end_by_fault("no memory for an engine");
    start.arguments[0] = (char *)start.path;
    start.arguments[1] = "live";
    memcpy(start.arguments + 2, handed_words.words, handed_words.count * sizeof *handed_words.words);
    struct ends questions = open_pipe(), replies = open_pipe();
    start.input = questions.out;
    start.output = replies.in;
    int fault = start_apart(&start);
    if (fault != 0)
        end_by_fault("the engine %s cannot be started: %s", start.path, strerror(fault));
    close(replies.in);
    *process = (struct process){.to = questions.in,
                                .to_reader = questions.out,
                                .from = replies.out,
                                .pipe = file_of(replies.out),
                                .group = start.process,
                                .starter = getpid(),
                                .next = process->next};
    free(start.arguments);
    free(start.environment);
}

struct process *process_start(void)
{
    struct process *process = calloc(1, sizeof *process);
    if (process == NULL)
        end_by_fault("no memory for an engine");
    mutex_lock(&processes_lock);
    process->next = processes;
    start_engine_locked(process, processes == NULL);
    processes = process;
    mutex_unlock(&processes_lock);
    return process;
}

static void send(const struct process *process, const char *line, size_t length)
{
    while (length > 0) {
        ssize_t written = write(process->to, line, length);
        if (written < 0 && errno != EINTR)
            end_by_fault("the engine cannot be written to: %s", strerror(errno));
        if (written > 0) {
            line += written;
            length -= (size_t)written;
        }
    }
}

// Reads more of the replies, behind those that were not taken yet.
static void fill(struct process *process)
{
    memmove(process->replies, process->replies + process->taken, process->filled - process->taken);
    process->filled -= process->taken;
    process->taken = 0;
    if (process->filled == sizeof process->replies)
        end_by_fault("the engine's reply is no line");
    ssize_t count;
    do
        count =
            read(process->from, process->replies + process->filled, sizeof process->replies - process->filled);
    while (count < 0 && errno == EINTR);
    if (count <= 0)
        end_by_fault("the engine %s ended without an answer", getenv("DILLBEAM_ENGINE"));
    process->filled += (size_t)count;
}

static const char *receive(struct process *process)
{
    char *feed;
    while ((feed = memchr(process->replies + process->taken, '\n', process->filled - process->taken)) == NULL)
        fill(process);
    const char *line = process->replies + process->taken;
    *feed = 0;
    process->taken = (size_t)(feed + 1 - process->replies);
    return line;
}

// Sends a line. Answers the reply, without its line feed; it stands until the next question.
const char *process_ask(struct process *process, const char *line, size_t length)
{
    send(process, line, length);
    return receive(process);
}

// The same with the first line of a team: a process that says nothing is no engine.
const char *process_begin(struct process *process, const char *line, size_t length)
{
    send(process, line, length);
    struct pollfd reply = {.fd = process->from, .events = POLLIN};
    int ready;
    do
        ready = poll(&reply, 1, PATIENCE);
    while (ready < 0 && errno == EINTR);
    if (ready == 0)
        end_by_fault("the engine %s does not answer", getenv("DILLBEAM_ENGINE"));
    return receive(process);
}

// Ends an engine's input. Another thread may still write to it: its lines go nowhere then, and not into a file
// of the program's that was given the number of a closed one.
static void end_input(struct process *process, int nowhere)
{
    if (nowhere < 0 || dup3(nowhere, process->to, O_CLOEXEC) < 0)
        close(process->to);
}

static void await_notes(const struct process *first)
{
    char rest[256];
    struct pollfd end = {.fd = first->from, .events = POLLIN};
    for (int reads = 0; reads < 1000 && poll(&end, 1, LAST_MOMENT) > 0 && read(end.fd, rest, sizeof rest) > 0;
         reads++)
        ;
}

static long milliseconds(void)
{
    struct timespec time;
    clock_gettime(CLOCK_MONOTONIC, &time);
    return time.tv_sec * 1000 + time.tv_nsec / 1000000;
}

// Whether an engine still has processes at a time to come: one of them holds the pipe of its replies. Not if this
// process is a child of the one that has started it, or has given the pipe's number to another file.
static bool runs_until(const struct process *process, long time)
{
    struct pollfd end = {.fd = process->from}; // a hang-up is reported without being asked for
    if (process->starter != getpid() || process->pipe == 0 || file_of(process->from) != process->pipe)
        return false;
    int ends;
    do {
        long left = time - milliseconds();
        ends = poll(&end, 1, left > 0 ? (int)left : 0);
    } while (ends < 0 && errno == EINTR);
    return ends == 0;
}

// Signals to those engines that have not ended in so many milliseconds.
static void signal_engines(const struct process *all, int patience, int number)
{
    long time = milliseconds() + patience;
    for (const struct process *process = all; process != NULL; process = process->next)
        if (runs_until(process, time))
            kill(-process->group, number);
}

// At the program's end: ends the engines' inputs, waits a moment for the first one's notes, and ends what has not
// ended then. It takes no lock: a thread that holds one may never give it up.
void processes_finish(void)
{
    struct process *first = NULL, *all = processes;
    int nowhere = open("/dev/null", O_WRONLY | O_CLOEXEC);
    for (struct process *process = all; process != NULL; process = process->next) {
        end_input(process, nowhere);
        first = process;
    }
    processes = NULL;
    if (first == NULL)
        return;
    long begun = milliseconds();
    await_notes(first);
    long left = begun + LAST_MOMENT - milliseconds();
    signal_engines(all, left > 0 ? (int)left : 0, SIGTERM);
    signal_engines(all, AFTER_SIGNAL, SIGKILL);
}

// In a child that the program forked: the engines are its parent's.
void processes_forget(void)
{
    mutex_init(&processes_lock, RANK_ENGINES);
    for (struct process *process = processes; process != NULL; process = process->next) {
        close(process->to);
        close(process->to_reader);
        close(process->from);
    }
    processes = NULL;
}
