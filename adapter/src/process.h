// An engine that is a process: see process.c.
#ifndef DILLBEAM_PROCESS_H
#define DILLBEAM_PROCESS_H

#include <stddef.h>
#include <sys/types.h>

struct process {
    int to;               // the end of the pipe that it reads its input from
    int to_reader;        // the other one, held so that writing to a dead engine raises no SIGPIPE
    int from;             // the end of the pipe of its replies
    ino_t pipe;           // that of `from`
    pid_t group;          // the engine's processes
    pid_t starter;        // the process that has started it
    size_t taken, filled; // of `replies`, bytes
    struct process *next; // of all
    char replies[4096];   // that were read; those up to `taken` were answered
};

struct process *process_start(void);
const char *process_begin(struct process *process, const char *line, size_t length);
const char *process_ask(struct process *process, const char *line, size_t length);
void processes_finish(void);
void processes_forget(void);

#endif
