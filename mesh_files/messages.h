/* How the C programs begin, speak and end: one line to a message, names and numbers that cannot be mistaken, and the exit statuses. */
#ifndef MESSAGES_H
#define MESSAGES_H

#include <stdint.h>

/* Exit statuses. REFUSED is the library's refusal, EMPTY the program's own: a surface without a triangle is not written. */
enum { DONE = 0, REFUSED = 1, USAGE = 2, SYSTEM = 3, EMPTY = 4 };

/* The name that messages begin with, and what --help prints; each program defines its own. */
extern const char program[], help[];

/* Before anything else: the standard streams are made safe, and a write that goes too far or that nobody reads fails, so that it can be told. */
void begin(void);

/* After everything else: the exit status, SYSTEM where something said on standard output or standard error did not arrive. */
int finish(int status);

/* Reads the options; words[optind] is then the first operand. The answer is -1, or the status to finish with. Without a place for it,
 * --allow-empty is no option. */
int take_options(int count, char **words, int *allow_empty);

/* Each says one line on standard error and is its status. */
int tell(int status, const char *format, ...);
int misused(const char *format, ...);                                         /* USAGE, and where help is          */
int cannot(const char *verb, const char *name);                               /* SYSTEM, with the system's reason  */
int refused(uint32_t cause, uint64_t place, const char *format, ...);         /* REFUSED, with the library's words */

/* On a terminal, says how far work has come once the program has run for a second; where `done` is `whole`, the line is cleared again.
 * errno stays. */
void progress(const char *doing, uint64_t done, uint64_t whole);
enum { PROGRESS_STEP = 65536 };  /* how many elements a loop goes on before it says so */

/* A name for a message: control characters are shown as ?, so that a name is never more than a part of one line. Good until the next call. */
const char *shown(const char *name);

/* The digits of a number in threes, 135,187, for a message. */
enum { GROUPED = 27 };
const char *grouped(uint64_t number, char text[GROUPED]);

/* Capital letters in the name count as small ones. */
int ends_in(const char *name, const char *ending);

#endif
