/* A library to be preloaded: what a process reads of /dev/urandom and /dev/random, or asks of getrandom and getentropy, is in turn
   the bytes of one fixed stream. Each draw's place in the stream and length go to the file that FIXED_RANDOM_LOG names. For test data
   alone. */
#define _GNU_SOURCE
#include <dlfcn.h>
#include <fcntl.h>
#include <pthread.h>
#include <stdint.h>
#include <stdio.h>
#include <stdlib.h>
#include <sys/stat.h>
#include <sys/sysmacros.h>
#include <sys/types.h>
#include <unistd.h>

static pthread_mutex_t lock = PTHREAD_MUTEX_INITIALIZER;
static uint32_t given;

/* Byte i of the stream. */
static unsigned char stream(uint32_t i)
{
    uint32_t x = i * 0x9e3779b1u;

    return (unsigned char)(((x ^ x >> 15) * 0x85ebca77u) >> 24);
}

static ssize_t give(void *room, size_t length)
{
    unsigned char *out = room;
    char line[64];
    const char *log = getenv("FIXED_RANDOM_LOG");

    pthread_mutex_lock(&lock);
    for (size_t j = 0; j < length; j++)
        out[j] = stream(given + (uint32_t)j);
    if (log != NULL) {
        int file = open(log, O_WRONLY | O_APPEND | O_CREAT, 0600);
        int digits = snprintf(line, sizeof line, "%u %zu\n", given, length);
        if (file < 0 || write(file, line, digits) != digits)
            abort();
        close(file);
    }
    given += (uint32_t)length;
    pthread_mutex_unlock(&lock);
    return (ssize_t)length;
}

static int is_random(int file)
{
    struct stat found;

    /* The devices 1:8 and 1:9 are /dev/random and /dev/urandom. */
    return fstat(file, &found) == 0 && S_ISCHR(found.st_mode) && major(found.st_rdev) == 1
        && (minor(found.st_rdev) == 8 || minor(found.st_rdev) == 9);
}

ssize_t read(int file, void *room, size_t length)
{
    static ssize_t (*next)(int, void *, size_t);

    if (is_random(file))
        return give(room, length);
    if (next == NULL)
        next = (ssize_t (*)(int, void *, size_t))dlsym(RTLD_NEXT, "read");
    return next(file, room, length);
}

ssize_t __read_chk(int file, void *room, size_t length, size_t size)
{
    if (length > size)
        abort();
    return read(file, room, length);
}

ssize_t getrandom(void *room, size_t length, unsigned int flags)
{
    (void)flags;
    return give(room, length);
}

int getentropy(void *room, size_t length)
{
    give(room, length);
    return 0;
}
