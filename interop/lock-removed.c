/* Preloaded: the first lock that is asked for on a file of /run/cryptsetup is given only once the file's name is taken away, as by a cryptsetup
 * that lets go of it between another program's open and its flock. */
#define _GNU_SOURCE
#include <dlfcn.h>
#include <stdio.h>
#include <string.h>
#include <sys/file.h>
#include <unistd.h>

int flock(int fd, int operation)
{
    static int is_done;
    int (*theirs)(int, int) = (int (*)(int, int))dlsym(RTLD_NEXT, "flock");
    char link[64], name[256];
    snprintf(link, sizeof link, "/proc/self/fd/%d", fd);
    ssize_t bytes = readlink(link, name, sizeof name - 1);
    name[bytes > 0 ? bytes : 0] = 0;
    if (!is_done && strncmp(name, "/run/cryptsetup/L_", 18) == 0) {
        is_done = 1;
        unlink(name);
    }
    return theirs(fd, operation);
}
