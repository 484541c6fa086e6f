/* dump_primary.h - the primary process whose mempools are dumped: who it is, and how it is stopped. */
#ifndef DUMP_PRIMARY_H
#define DUMP_PRIMARY_H
#include <stddef.h>
#include <sys/types.h>

/* The process that has the configuration of this --file-prefix locked, as each primary does while it
 * runs; 0 where there is none, and -1 where it is in another container, say. */
pid_t primary_find(const char *prefix);

/* Why the primary's memory can't be shared, in words, or NULL. (EAL would make new memory in its
 * place) */
const char *primary_why_not(pid_t pid, const char *prefix);

/* Takes away what EAL leaves of a process that couldn't attach. */
void primary_forget_me(const char *prefix);

/* Writes the prefixes of which a primary runs, parted by commas, and answers how many there are. */
unsigned int primary_prefixes(char *text, size_t room);

/* Makes ready to stop a process. Whatever becomes of this one, another sends SIGCONT then: also where
 * it was killed, and five seconds after a stop. Called before EAL begins. Answers 0 or -errno. */
int primary_watch(pid_t pid);

/* Ends the other one. */
void primary_unwatch(void);

/* Stops the process, and waits until each of its threads stands: three seconds at most. If it was stopped
 * before, it stays so. Answers 0 or -errno; then it goes on. */
int primary_stop(void);

/* Lets it go on, and answers for how many microseconds it stood; 0 where others had stopped it, and -1
 * where it doesn't stand any more. */
long primary_go_on(void);
#endif
