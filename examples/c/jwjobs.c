/* jwjobs.c: job control of the terminal of jwrun. The rules are those of crates/job_control/specs/Control.antt, by
   hand; who is in which group and session is asked of the kernel each time. */
#define _GNU_SOURCE
#include "jwjobs.h"

#include <dirent.h>
#include <errno.h>
#include <signal.h>
#include <stdio.h>
#include <stdlib.h>
#include <string.h>
#include <unistd.h>

enum { MOST_GIVEN_UP = 64 };

static pid_t holder, foreground; /* 0 where nobody holds it */
static pid_t given_up[MOST_GIVEN_UP];

static bool is_gone(pid_t process) {
    return getsid(process) < 0;
}

/* Places of the list: of a process that gave the terminal up, or with 0 a free one. */
static int place_of(pid_t process) {
    for (int k = 0; k < MOST_GIVEN_UP; k++)
        if (given_up[k] == process)
            return k;
    return -1;
}

static void forget_ended(void) {
    for (int k = 0; k < MOST_GIVEN_UP; k++)
        if (given_up[k] != 0 && is_gone(given_up[k]))
            given_up[k] = 0;
}

bool jobs_controls(pid_t process) {
    return holder != 0 && getsid(process) == holder && place_of(process) < 0;
}

bool jobs_is_in_front(pid_t process) {
    return foreground != 0 && getpgid(process) == foreground;
}

/* ---- groups, as /proc shows them ---- */

/* The state of a process, and its parent; a blank where it is gone. */
static char state_of(pid_t process, pid_t *parent) {
    char name[64], text[512], state;
    snprintf(name, sizeof name, "/proc/%d/stat", (int)process);
    FILE *file = fopen(name, "re");
    if (file == NULL)
        return ' ';
    size_t len = fread(text, 1, sizeof text - 1, file);
    fclose(file);
    text[len] = '\0';
    const char *end = strrchr(text, ')'); /* the name before it may have anything in it */
    return end != NULL && sscanf(end + 1, " %c %d", &state, parent) == 2 ? state : ' ';
}

bool jobs_is_stopped(pid_t process) {
    pid_t parent;
    return state_of(process, &parent) == 'T';
}

/* A process that has not exited ties its group to its session by a parent in another group of it. */
static bool ties(pid_t process) {
    pid_t parent;
    return strchr(" ZX", state_of(process, &parent)) == NULL && getpgid(parent) != getpgid(process)
        && getsid(parent) == getsid(process);
}

static bool is_there(pid_t process) {
    return getsid(process) == holder;
}

/* Whether some process of a group is so. */
static bool has_one(pid_t group, bool (*is_so)(pid_t)) {
    DIR *all = opendir("/proc");
    bool has = false;
    if (all == NULL)
        return false;
    for (struct dirent *entry; !has && (entry = readdir(all)) != NULL;) {
        pid_t process = atoi(entry->d_name);
        has = process > 0 && getpgid(process) == group && is_so(process);
    }
    closedir(all);
    return has;
}

/* ---- acts ---- */

int jobs_judge(pid_t process, enum jobs_act act, bool tostop, bool passes) {
    if (!jobs_controls(process) || jobs_is_in_front(process) || (act == JOBS_WRITES && !tostop))
        return 0;
    if (passes)
        return act == JOBS_READS ? -EIO : 0;
    if (!has_one(getpgid(process), ties))
        return -EIO;
    int number = act == JOBS_READS ? SIGTTIN : SIGTTOU;
    kill(-getpgid(process), number);
    return number;
}

int64_t jobs_take(pid_t process) {
    if (getsid(process) != process || (holder != 0 && holder != process))
        return -EPERM;
    if (holder == 0) {
        holder = process;
        foreground = getpgid(process);
        memset(given_up, 0, sizeof given_up);
    }
    return 0;
}

static void let_go(void) {
    holder = foreground = 0;
}

int64_t jobs_give_up(pid_t process) {
    if (!jobs_controls(process))
        return -ENOTTY;
    if (process == holder) {
        jobs_signal(SIGHUP);
        jobs_signal(SIGCONT);
        let_go();
        return 0;
    }
    forget_ended();
    int place = place_of(0);
    if (place < 0)
        return -ENOMEM;
    given_up[place] = process;
    return 0;
}

int64_t jobs_foreground(pid_t process) {
    return jobs_controls(process) ? foreground : -ENOTTY;
}

int64_t jobs_session(pid_t process) {
    return jobs_controls(process) ? holder : -ENOTTY;
}

int64_t jobs_set_foreground(pid_t process, pid_t group, bool passes) {
    if (!jobs_controls(process))
        return -ENOTTY;
    int met = jobs_judge(process, JOBS_CHANGES, false, passes);
    if (met != 0)
        return met < 0 ? -ENOTTY : met;
    if (group <= 0)
        return -EINVAL;
    if (!(getpgid(group) == group && is_there(group)) && !has_one(group, is_there))
        return -EPERM;
    foreground = group;
    return 0;
}

/* ---- signals ---- */

void jobs_signal(int number) {
    if (foreground > 0)
        kill(-foreground, number);
}

void jobs_hang_up(void) {
    if (holder > 0) {
        kill(holder, SIGHUP);
        kill(holder, SIGCONT);
    }
    let_go();
}

bool jobs_has_ended(void) {
    if (holder == 0 || !is_gone(holder))
        return false;
    jobs_signal(SIGHUP);
    let_go();
    return true;
}
