/* jwjobs.h: which session holds the terminal of jwrun, and which group of it is in the foreground, by the rules of
   termios(3) and ioctl_tty(2). Sessions, groups and parents are those of the kernel. */
#ifndef JWJOBS_H
#define JWJOBS_H

#include <stdbool.h>
#include <stdint.h>
#include <sys/types.h>

enum jobs_act { JOBS_READS, JOBS_WRITES, JOBS_CHANGES };

/* What an act meets before it is tried: 0 where it may go on, -EIO, or a signal, which the group of the process has
   got then. `passes` says that the process ignores or blocks that signal. */
int jobs_judge(pid_t process, enum jobs_act act, bool tostop, bool passes);

/* TIOCSCTTY, TIOCNOTTY, TIOCGPGRP, TIOCGSID: 0 or a number, or a negated errno. */
int64_t jobs_take(pid_t process);
int64_t jobs_give_up(pid_t process);
int64_t jobs_foreground(pid_t process);
int64_t jobs_session(pid_t process);

/* TIOCSPGRP, which is a change: also a signal, as jobs_judge has it. */
int64_t jobs_set_foreground(pid_t process, pid_t group, bool passes);

/* The terminal is the controlling terminal of a process; the group of a process is in the foreground. */
bool jobs_controls(pid_t process);
bool jobs_is_in_front(pid_t process);

/* A signal has stopped it. */
bool jobs_is_stopped(pid_t process);

/* Sends a signal of the terminal to the group in the foreground. */
void jobs_signal(int number);

/* The terminal was hung up: the leader is told, and nobody holds it then. */
void jobs_hang_up(void);

/* Looks whether the leader has ended; HUP goes to the foreground then, nobody holds the terminal, and it is to be hung
   up. */
bool jobs_has_ended(void);

#endif
