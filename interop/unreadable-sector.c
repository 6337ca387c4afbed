/* Preloaded: of each file the 512 bytes from the place UNREADABLE on can't be read. A call that asks for one of them and for bytes before it gets
 * these, where PARTS is set, as of a disk; else it fails whole. */
#define _GNU_SOURCE
#include <dlfcn.h>
#include <errno.h>
#include <stdlib.h>
#include <unistd.h>

#define SECTOR 512

ssize_t pread64(int file, void *room, size_t length, off_t at)
{
    ssize_t (*theirs)(int, void *, size_t, off_t) = (ssize_t(*)(int, void *, size_t, off_t))dlsym(RTLD_NEXT, "pread64");
    const char *place = getenv("UNREADABLE");
    off_t bad = place ? (off_t)strtoull(place, NULL, 10) : 0;
    if (place && length > 0 && at < bad + SECTOR && at + (off_t)length > bad) {
        if (getenv("PARTS") && at < bad)
            return theirs(file, room, (size_t)(bad - at), at);
        errno = EIO;
        return -1;
    }
    return theirs(file, room, length, at);
}

ssize_t pread(int file, void *room, size_t length, off_t at)
{
    return pread64(file, room, length, at);
}
