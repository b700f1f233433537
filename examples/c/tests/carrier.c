/* carrier.c: a stand-in for the carrier of a serial line, for tests/serve. To be preloaded: the carrier that ioctl
   tells is there while the file that CARRIER names is there. */
#define _GNU_SOURCE
#include <dlfcn.h>
#include <stdarg.h>
#include <stdlib.h>
#include <sys/ioctl.h>
#include <unistd.h>

int ioctl(int fd, unsigned long name, ...) {
    va_list rest;
    va_start(rest, name);
    void *at = va_arg(rest, void *);
    va_end(rest);
    const char *carrier = getenv("CARRIER");
    if (name == TIOCMGET && carrier != NULL) {
        *(int *)at = access(carrier, F_OK) == 0 ? TIOCM_CAR : 0;
        return 0;
    }
    return ((int (*)(int, unsigned long, ...))dlsym(RTLD_NEXT, "ioctl"))(fd, name, at);
}
