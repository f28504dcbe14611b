// The lines of an engine that is a process, and of a record: see line.c.
#ifndef DILLBEAM_LINE_H
#define DILLBEAM_LINE_H

#include "call.h"

// Room for a line: a call with items is the longest.
enum { LINE_SIZE = 1024 };

size_t line_of_call(const struct call *call, int member, char line[LINE_SIZE]);
size_t line_of_resume(int member, char line[LINE_SIZE]);
struct reply line_reply(const char *line);

#endif
