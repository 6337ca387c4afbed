/* A library that tests preload into the program: it makes calls fail, records them, refuses memory and stands in for the clock and for devices.
   tests/suite/program.py compiles it and sets what it reads. The environment says what it does:

     SHIM_LOG      a file that gets a line for each call (see `note`)
     SHIM_BYTES    a file that gets the bytes of each write to a device, in their order
     SHIM_DEVICES  "volume:target:random": the files' names, as the command names them; `-` is none
     SHIM_FAIL     "volume|target|watch call|read|write|flush|truncate N LEFT [always]": the call of number N (counted from 0) fails, or the first read, write or
                   flush after N flushes, or each change of its length; LEFT is what a failing write leaves; with `always` all later calls fail too
     SHIM_READS    "volume|target MOST FROM TO FROM TO": so many bytes of these parts may be read, and nothing is written
     SHIM_DENY     "name:errno,name:errno": opening the file fails
     SHIM_BREAK    "name:errno": the file is read byte by byte, and reading fails at its end
     SHIM_ROOM     "OUT ERR": how many bytes standard output and standard error take; -1 is any number
     SHIM_MEMORY   so many allocations succeed, and all later ones fail
     SHIM_LARGEST  allocations of more bytes fail
     SHIM_CLOCK    each reading of the clock is a second later than the one before, and no pause is made
     SHIM_CUT      "name:other:length": when a file of this name is opened, the other one is cut to this length
     SHIM_BLOCK    "name:major:minor,name:major:minor": the files of these names look like these block devices
     SHIM_STAT     "name:inode:owner": the file of this name looks as if it had this inode (0: its own) and this owner (-1: its own)
     SHIM_LOCKS    "asked held taken unknown ..": what flock answers in turn, the last word all later times; `asked` asks the system
     SHIM_EXCHANGE "stat|lstat|fstat|flock N NAME OTHER": after the call of this kind and number (counted from 0) the file OTHER gets the name NAME
     SHIM_MEDDLE   "N AT": before the volume's read of number N (counted from 0), and before each later one, the byte at AT becomes 0x63
     SHIM_ROOT     a folder that stands in front of paths below /sys/ and /run/
     SHIM_OUT, SHIM_ERR   the server's files for standard output and standard error, which are appended to
     SHIM_SYSTEM   the log has statx, mkdir, flock, sync, sleep and each open too
     SHIM_OPENING  the flush that a command makes when it opens a device counts as one of its calls
     SHIM_SERVE    "FROM TO": the process is a server (see `serve`) */
#define _GNU_SOURCE
#include <dlfcn.h>
#include <errno.h>
#include <fcntl.h>
#include <link.h>
#include <stdarg.h>
#include <stdio.h>
#include <stdlib.h>
#include <string.h>
#include <sys/file.h>
#include <sys/mman.h>
#include <sys/stat.h>
#include <sys/syscall.h>
#include <sys/types.h>
#include <sys/wait.h>
#include <time.h>
#include <unistd.h>

#define NAME 256
#define FILES 1024
#define LINE 4096

/* WATCH is a device that the program opens once more while it has it open: it looks whether what it writes turns out to be what it reads. */
enum kind { OTHER, VOLUME, TARGET, WATCH, RANDOM, BROKEN };
enum call { ANY, READ, WRITE, FLUSH, TRUNCATE };
enum left { OLD, NEW, ONES, HALF, LOST, LOST_BEFORE, LOST_EVEN, LOST_ODD, LOST_ONES, SUCCEEDS = -1 };
static const char *const left_names[] = {"old", "new", "ones", "half", "lost", "lost-before", "lost-even", "lost-odd", "lost-ones", NULL};

/* What is known of each open file. */
static unsigned char kinds[FILES], just_opened[FILES], block_numbers[FILES], is_disguised[FILES];

/* --- the settings */

static char device_names[3][NAME];
static struct { int device, when, left, always; long number; } failing;
static struct { int device; long long most, parts[4]; } readable;
static const char *denied_names, *cut_text, *root;
static struct { char name[NAME]; int error; } breaking;
#define BLOCKS 16
static struct { char name[NAME]; unsigned major, minor; } blocks[BLOCKS];
static struct { char name[NAME]; unsigned long long inode; unsigned owner; } disguise;
static struct { char call[16], name[NAME], other[NAME]; long number; } exchange;
static struct { long number; long long at; } meddling = {-1, 0};
static const char *lock_answers;
static long room[3] = {-1, -1, -1};
static long memory = -1, largest = -1;
static int has_own_clock, lists_system, counts_opening;
static int log_file = -1, bytes_file = -1;

static int device_of(const char *word) { return word[0] == 'v' ? VOLUME : word[0] == 't' ? TARGET : WATCH; }

static void set_failing(const char *text)
{
    char device[16], when[16], left[16], always[16] = "";

    if (sscanf(text, "%15s %15s %ld %15s %15s", device, when, &failing.number, left, always) < 4)
        return;
    failing.device = device_of(device);
    failing.when = when[0] == 'c' ? ANY : when[0] == 'r' ? READ : when[0] == 'w' ? WRITE : when[0] == 'f' ? FLUSH : TRUNCATE;
    failing.always = always[0] != 0;
    while (left_names[failing.left] != NULL && strcmp(left_names[failing.left], left) != 0)
        failing.left++;
}

static void set_readable(const char *text)
{
    char device[16];
    long long *part = readable.parts;

    sscanf(text, "%15s %lld %lld %lld %lld %lld", device, &readable.most, part, part + 1, part + 2, part + 3);
    readable.device = device_of(device);
}

static void set_blocks(const char *text)
{
    for (int i = 0; i < BLOCKS && text != NULL; i++) {
        sscanf(text, "%255[^:]:%u:%u", blocks[i].name, &blocks[i].major, &blocks[i].minor);
        text = strchr(text, ',');
        text = text ? text + 1 : NULL;
    }
}

/* The file of this name, at a high number, where the program's files have the numbers that they have without it. */
static int record_in(const char *name)
{
    int file = (int)syscall(SYS_openat, AT_FDCWD, name, O_WRONLY | O_CREAT | O_TRUNC | O_CLOEXEC, 0600);
    int high = fcntl(file, F_DUPFD_CLOEXEC, 900);

    syscall(SYS_close, file);
    return high;
}

static void read_settings(void)
{
    const char *text;

    if ((text = getenv("SHIM_DEVICES")) != NULL)
        sscanf(text, "%255[^:]:%255[^:]:%255[^:]", device_names[0], device_names[1], device_names[2]);
    if ((text = getenv("SHIM_LOG")) != NULL)
        log_file = record_in(text);
    if ((text = getenv("SHIM_BYTES")) != NULL)
        bytes_file = record_in(text);
    if ((text = getenv("SHIM_FAIL")) != NULL)
        set_failing(text);
    if ((text = getenv("SHIM_READS")) != NULL)
        set_readable(text);
    if ((text = getenv("SHIM_BREAK")) != NULL)
        sscanf(text, "%255[^:]:%d", breaking.name, &breaking.error);
    if ((text = getenv("SHIM_BLOCK")) != NULL)
        set_blocks(text);
    if ((text = getenv("SHIM_STAT")) != NULL)
        sscanf(text, "%255[^:]:%llu:%u", disguise.name, &disguise.inode, &disguise.owner);
    if ((text = getenv("SHIM_EXCHANGE")) != NULL)
        sscanf(text, "%15s %ld %255s %255s", exchange.call, &exchange.number, exchange.name, exchange.other);
    if ((text = getenv("SHIM_MEDDLE")) != NULL)
        sscanf(text, "%ld %lld", &meddling.number, &meddling.at);
    lock_answers = getenv("SHIM_LOCKS");
    if ((text = getenv("SHIM_ROOM")) != NULL)
        sscanf(text, "%ld %ld", &room[1], &room[2]);
    if ((text = getenv("SHIM_MEMORY")) != NULL)
        memory = atol(text);
    if ((text = getenv("SHIM_LARGEST")) != NULL)
        largest = atol(text);
    denied_names = getenv("SHIM_DENY");
    cut_text = getenv("SHIM_CUT");
    root = getenv("SHIM_ROOT");
    has_own_clock = getenv("SHIM_CLOCK") != NULL;
    lists_system = getenv("SHIM_SYSTEM") != NULL;
    counts_opening = getenv("SHIM_OPENING") != NULL;
}

/* --- the log: a line for each call of a device (D is 1 for the volume, 2 for the target and 3 for the watch)

     r D AT LEN, w D AT LEN, f D   a read, a write, a flush
     o D                           the flush that a command makes when it opens the device
     x D N                         the call of number N failed
     R LEN                         so many random bytes were read
     m                             memory was refused
     open < NAME, open > NAME      a file was opened to be read, or to be written
     fsync, fdatasync, sleep MS    with SHIM_SYSTEM
     truncate D LEN                a file got this length */

static void note(const char *format, ...)
{
    char line[LINE + 64];
    va_list more;
    int length;

    if (log_file < 0)
        return;
    va_start(more, format);
    length = vsnprintf(line, sizeof line, format, more);
    va_end(more);
    syscall(SYS_write, log_file, line, (size_t)length < sizeof line ? (size_t)length : sizeof line - 1);
}

/* --- memory */

extern void *__libc_malloc(size_t), *__libc_realloc(void *, size_t), *__libc_calloc(size_t, size_t);

static int refuses_memory(size_t size)
{
    static int is_noted;
    int is_large = largest >= 0 && size > (size_t)largest;

    if (memory < 0 && !is_large)
        return 0;
    if (memory > 0 && !is_large) {
        memory--;
        return 0;
    }
    if (!is_noted)
        note("m\n");
    is_noted = 1;
    errno = ENOMEM;
    return 1;
}

void *malloc(size_t size) { return refuses_memory(size) ? NULL : __libc_malloc(size); }
void *calloc(size_t count, size_t size) { return refuses_memory(count * size) ? NULL : __libc_calloc(count, size); }
void *realloc(void *old, size_t size) { return refuses_memory(size) ? NULL : __libc_realloc(old, size); }

/* --- paths */

/* The error with which opening this file fails; 0 if it doesn't. */
static int denied(const char *path)
{
    size_t length = strlen(path);

    for (const char *at = denied_names; at != NULL && *at; at = strchr(at, ',') ? strchr(at, ',') + 1 : NULL)
        if (strncmp(at, path, length) == 0 && at[length] == ':')
            return atoi(at + length + 1);
    return 0;
}

/* The path; if it is below /sys/ or /run/ and a folder stands for these, the one below that folder, written to `place`. */
static const char *below_root(const char *path, char *place)
{
    if (root == NULL || (strncmp(path, "/sys/", 5) != 0 && strncmp(path, "/run/", 5) != 0))
        return path;
    snprintf(place, LINE, "%s%s", root, path);
    return place;
}

static void cut_other(const char *path)
{
    char name[NAME], other[NAME];
    long long length;

    if (cut_text != NULL && sscanf(cut_text, "%255[^:]:%255[^:]:%lld", name, other, &length) == 3 && strcmp(name, path) == 0)
        (void)!truncate(other, length);
}

static enum kind kind_of(const char *path)
{
    static const enum kind named[] = {VOLUME, TARGET, RANDOM};
    enum kind found = OTHER;

    for (int i = 0; i < 3; i++)
        if (device_names[i][0] && strcmp(device_names[i], path) == 0)
            found = named[i];
    if (found != OTHER && found != RANDOM && memchr(kinds, found, FILES) != NULL)
        found = WATCH;
    return breaking.name[0] && strcmp(breaking.name, path) == 0 ? BROKEN : found;
}

/* The number of the block device that the file of this name looks like, counted from 1; 0 if it is none. */
static unsigned char block_of(const char *path)
{
    for (int i = 0; i < BLOCKS; i++)
        if (blocks[i].name[0] && strcmp(blocks[i].name, path) == 0)
            return (unsigned char)(i + 1);
    return 0;
}

/* Gives the other file the name after a call of this kind, if it is the one of that number. */
static void exchange_after(const char *call)
{
    char place[LINE], other[LINE];

    if (strcmp(exchange.call, call) == 0 && exchange.number-- == 0)
        (void)!rename(below_root(exchange.other, other), below_root(exchange.name, place));
}

static int open_file(int folder, const char *path, int flags, int mode)
{
    char place[LINE];
    int file, error = denied(path);

    if (error) {
        errno = error;
        return -1;
    }
    file = (int)syscall(SYS_openat, folder, below_root(path, place), flags, mode);
    if (file < 0 || file >= FILES)
        return file;
    kinds[file] = (unsigned char)kind_of(path);
    block_numbers[file] = block_of(path);
    is_disguised[file] = disguise.name[0] && strcmp(path, disguise.name) == 0;
    just_opened[file] = 1;
    if (path[0] != '/' || lists_system)
        note("open %c %s\n", (flags & O_ACCMODE) == O_RDONLY ? '<' : '>', path);
    cut_other(path);
    return file;
}

int open(const char *path, int flags, ...)
{
    va_list more;
    int mode;

    va_start(more, flags);
    mode = va_arg(more, int);
    va_end(more);
    return open_file(AT_FDCWD, path, flags, mode);
}

int openat(int folder, const char *path, int flags, ...)
{
    va_list more;
    int mode;

    va_start(more, flags);
    mode = va_arg(more, int);
    va_end(more);
    return open_file(folder, path, flags, mode);
}

int close(int file)
{
    if (file >= 0 && file < FILES)
        kinds[file] = OTHER;
    return (int)syscall(SYS_close, file);
}

/* Makes what statx found look like a block device, or like a file of another inode or owner, if it is to. */
static void disguise_found(const char *path, int folder, struct statx *found)
{
    int is_open = path[0] == 0 && folder >= 0 && folder < FILES;
    int number = is_open ? block_numbers[folder] : block_of(path);

    if (number > 0) {
        found->stx_mode = (found->stx_mode & 07777) | S_IFBLK;
        found->stx_rdev_major = blocks[number - 1].major;
        found->stx_rdev_minor = blocks[number - 1].minor;
        found->stx_size = 0;
    }
    if (is_open ? is_disguised[folder] : disguise.name[0] && strcmp(path, disguise.name) == 0) {
        found->stx_ino = disguise.inode ? disguise.inode : found->stx_ino;
        found->stx_uid = disguise.owner != (unsigned)-1 ? disguise.owner : found->stx_uid;
    }
}

int statx(int folder, const char *path, int flags, unsigned mask, struct statx *found)
{
    char place[LINE];
    const char *call = path[0] == 0 ? "fstat" : flags & AT_SYMLINK_NOFOLLOW ? "lstat" : "stat";
    int done = (int)syscall(SYS_statx, folder, below_root(path, place), flags, mask, found);

    if (strncmp(path, "/proc/", 6) == 0)
        return done;
    if (lists_system)
        note("%s %s\n", call, path);
    if (done == 0)
        disguise_found(path, folder, found);
    exchange_after(call);
    return done;
}

int mkdir(const char *path, mode_t mode)
{
    char place[LINE];

    if (lists_system)
        note("mkdir %s\n", path);
    return (int)syscall(SYS_mkdir, below_root(path, place), mode);
}

int unlink(const char *path)
{
    char place[LINE];

    return (int)syscall(SYS_unlink, below_root(path, place));
}

/* Answers the next lock as the settings say. */
static int answer_lock(int file, int how)
{
    const char *answer = lock_answers ? lock_answers : "asked", *next = strchr(answer, ' ');

    lock_answers = next ? next + 1 : lock_answers;
    if (answer[0] == 'a')
        return (int)syscall(SYS_flock, file, how);
    errno = answer[0] == 't' ? EWOULDBLOCK : ENOLCK;
    return answer[0] == 'h' ? 0 : -1;
}

int flock(int file, int how)
{
    int done;

    if (lists_system)
        note("flock %s\n", how & LOCK_EX ? "exclusive" : "shared");
    done = answer_lock(file, how);
    exchange_after("flock");
    return done;
}

int ftruncate(int file, off_t length)
{
    if (file >= 0 && file < FILES && kinds[file] != OTHER) {
        note("truncate %d %lld\n", kinds[file], (long long)length);
        if (failing.device == kinds[file] && failing.when == TRUNCATE) {
            note("x %d length\n", kinds[file]);
            errno = EIO;
            return -1;
        }
    }
    return (int)syscall(SYS_ftruncate, file, length);
}

/* --- what a power cut takes away: the bytes that stood where a write was made since the last flush */

static struct before { off_t at; size_t length; unsigned char *bytes; } unsettled[4096];
static int unsettled_count;

static void *pages(size_t length)
{
    void *found = mmap(NULL, length + 1, PROT_READ | PROT_WRITE, MAP_PRIVATE | MAP_ANONYMOUS, -1, 0);

    if (found == MAP_FAILED)
        abort();
    return found;
}

static void remember(int file, off_t at, size_t length)
{
    struct before *it = &unsettled[unsettled_count++];
    long got;

    if (unsettled_count == 4096)
        abort();
    it->bytes = pages(length);
    got = syscall(SYS_pread64, file, it->bytes, length, at);
    it->at = at;
    it->length = got > 0 ? (size_t)got : 0;
}

static void forget(struct before *it) { munmap(it->bytes, it->length + 1); }

static void settle(void)
{
    while (unsettled_count > 0)
        forget(&unsettled[--unsettled_count]);
}

static void put(int file, off_t at, const void *bytes, size_t length) { syscall(SYS_pwrite64, file, bytes, length, at); }

static void put_ones(int file, off_t at, size_t length)
{
    void *ones = pages(length);

    memset(ones, 0xff, length);
    put(file, at, ones, length);
    munmap(ones, length + 1);
}

/* Puts back the old bytes of this write, or those of its sectors of even or odd numbers. */
static void restore(int file, const struct before *it, enum left how)
{
    if (how == LOST_ONES) {
        put_ones(file, it->at, it->length);
        return;
    }
    for (size_t i = 0; i < it->length; i++) {
        int is_even = (it->at + (off_t)i) / 512 % 2 == 0;
        if ((how != LOST_EVEN || is_even) && (how != LOST_ODD || !is_even))
            put(file, it->at + (off_t)i, it->bytes + i, 1);
    }
}

static void lose(int file, enum left how)
{
    while (unsettled_count > 0) {
        struct before *it = &unsettled[--unsettled_count];
        restore(file, it, how);
        forget(it);
    }
}

/* Leaves of a failing write what is asked for. */
static void leave(int file, off_t at, const void *bytes, size_t length, enum left left)
{
    switch (left) {
    case NEW: put(file, at, bytes, length); break;
    case HALF: put(file, at, bytes, length / 2); break;
    case ONES: put_ones(file, at, length); break;
    case LOST: lose(file, LOST); break;
    case LOST_BEFORE: lose(file, LOST); put(file, at, bytes, length); break;
    case LOST_ONES: lose(file, LOST_ONES); put_ones(file, at, length); break;
    case LOST_EVEN: case LOST_ODD: remember(file, at, length); put(file, at, bytes, length); lose(file, left); break;
    default: break;
    }
}

/* --- calls of the devices */

static long calls[WATCH + 1], flushes[WATCH + 1];
static int is_dead[WATCH + 1];

static int is_device(int file) { return file >= 0 && file < FILES && kinds[file] >= VOLUME && kinds[file] <= WATCH; }

static int fault(void)
{
    errno = EIO;
    return -1;
}

/* Whether the call of this number, made after so many flushes, is the one that fails. */
static int is_due(enum call what, long number, long after)
{
    return failing.when == ANY ? failing.number == number : failing.when == (int)what && failing.number == after;
}

/* Counts a call of a device; what it leaves if it fails, and otherwise SUCCEEDS. */
static enum left turn(int file, enum call what, off_t at, size_t length)
{
    int device = kinds[file];
    long number = calls[device]++, after = flushes[device];

    just_opened[file] = 0;
    if (what == FLUSH) {
        flushes[device]++;
        note("f %d\n", device);
    } else {
        note("%c %d %lld %zu\n", what == WRITE ? 'w' : 'r', device, (long long)at, length);
    }
    if (is_dead[device]) {
        note("x %d %ld\n", device, number);
        return OLD;
    }
    if (failing.device != device || !is_due(what, number, after))
        return SUCCEEDS;
    is_dead[device] = failing.always || failing.left >= LOST;
    failing.device = is_dead[device] ? device : OTHER;
    note("x %d %ld\n", device, number);
    return (enum left)failing.left;
}

/* Whether these bytes may be read, of a device of which only parts may be. */
static int may_read(int file, off_t at, size_t length)
{
    const long long *part = readable.parts;
    off_t end = at + (off_t)length;
    int is_inside = (part[0] <= at && end <= part[1]) || (part[2] <= at && end <= part[3]);

    if (readable.device != kinds[file])
        return 1;
    if (!is_inside || readable.most < (long long)length) {
        note("x %d read %lld %zu\n", kinds[file], (long long)at, length);
        return 0;
    }
    readable.most -= (long long)length;
    return 1;
}

static ssize_t read_at(int file, void *into, size_t length, off_t at)
{
    if (is_device(file) && kinds[file] == VOLUME && meddling.number >= 0 && meddling.number-- == 0) {
        meddling.number = 0;
        put(file, meddling.at, "c", 1);
    }
    if (is_device(file) && (turn(file, READ, at, length) != SUCCEEDS || !may_read(file, at, length)))
        return fault();
    return syscall(SYS_pread64, file, into, length, at);
}

static ssize_t write_at(int file, const void *bytes, size_t length, off_t at)
{
    enum left left;

    if (!is_device(file))
        return syscall(SYS_pwrite64, file, bytes, length, at);
    left = turn(file, WRITE, at, length);
    if (bytes_file >= 0)
        syscall(SYS_write, bytes_file, bytes, length);
    if (left != SUCCEEDS) {
        leave(file, at, bytes, length, left);
        return fault();
    }
    if (readable.device == kinds[file]) {
        note("x %d write\n", kinds[file]);
        return fault();
    }
    if (failing.device == kinds[file] && failing.left >= LOST)
        remember(file, at, length);
    return syscall(SYS_pwrite64, file, bytes, length, at);
}

static int flush(int file, long call)
{
    enum left left;

    if (lists_system)
        note(call == SYS_fsync ? "fsync\n" : "fdatasync\n");
    if (!is_device(file))
        return (int)syscall(call, file);
    if (just_opened[file] && !counts_opening) {
        note("o %d\n", kinds[file]);
        return 0;
    }
    left = turn(file, FLUSH, 0, 0);
    if (left >= LOST)
        lose(file, left);
    if (left != SUCCEEDS || readable.device == kinds[file])
        return fault();
    settle(); /* a test's files needn't reach a disk: no call is made */
    return 0;
}

ssize_t pread(int file, void *into, size_t length, off_t at) { return read_at(file, into, length, at); }
ssize_t pread64(int file, void *into, size_t length, off_t at) { return read_at(file, into, length, at); }
ssize_t pwrite(int file, const void *bytes, size_t length, off_t at) { return write_at(file, bytes, length, at); }
ssize_t pwrite64(int file, const void *bytes, size_t length, off_t at) { return write_at(file, bytes, length, at); }
int fsync(int file) { return flush(file, SYS_fsync); }
int fdatasync(int file) { return flush(file, SYS_fdatasync); }

/* --- streams */

static ssize_t read_breaking(int file, void *into, size_t length)
{
    ssize_t got = syscall(SYS_read, file, into, length > 1 ? 1 : length);

    if (got == 0 && length > 0) {
        errno = breaking.error;
        return -1;
    }
    return got;
}

ssize_t read(int file, void *into, size_t length)
{
    ssize_t got;

    if (file >= 0 && file < FILES && kinds[file] == BROKEN)
        return read_breaking(file, into, length);
    if (is_device(file)) {
        off_t at = lseek(file, 0, SEEK_CUR);
        got = read_at(file, into, length, at);
        if (got > 0)
            lseek(file, at + got, SEEK_SET);
        return got;
    }
    got = syscall(SYS_read, file, into, length);
    if (file >= 0 && file < FILES && kinds[file] == RANDOM && got > 0)
        note("R %zd\n", got);
    return got;
}

static ssize_t write_with_room(int file, const void *bytes, size_t length)
{
    ssize_t did;

    if (length > 0 && room[file] == 0) {
        errno = ENOSPC;
        return -1;
    }
    did = syscall(SYS_write, file, bytes, length > (size_t)room[file] ? (size_t)room[file] : length);
    if (did > 0)
        room[file] -= did;
    return did;
}

ssize_t write(int file, const void *bytes, size_t length)
{
    if ((file == 1 || file == 2) && room[file] >= 0)
        return write_with_room(file, bytes, length);
    if (is_device(file)) {
        off_t at = lseek(file, 0, SEEK_CUR);
        ssize_t did = write_at(file, bytes, length, at);
        if (did > 0)
            lseek(file, at + did, SEEK_SET);
        return did;
    }
    return syscall(SYS_write, file, bytes, length);
}

/* --- the clock */

int clock_gettime(clockid_t which, struct timespec *now)
{
    static long seconds;

    if (!has_own_clock)
        return (int)syscall(SYS_clock_gettime, which, now);
    now->tv_sec = which == CLOCK_REALTIME ? 0 : seconds++;
    now->tv_nsec = 0;
    return 0;
}

int nanosleep(const struct timespec *time, struct timespec *left)
{
    if (lists_system)
        note("sleep %ld\n", (long)(time->tv_sec * 1000 + time->tv_nsec / 1000000));
    return has_own_clock ? 0 : (int)syscall(SYS_nanosleep, time, left);
}

/* --- the server: it forks the program before its `main` for each request, so that a run needs neither exec nor the linker, some 0.5 ms rather
   than 4. A request is a length and so many bytes: texts, each with a zero behind it: first the settings, SHIM_..=.., then the words. The fork's
   standard streams are the files @in, @out and @err of the working folder. The answer is the status of waitpid. */

static int (*program)(int, char **, char **);

static int read_whole(int file, void *into, size_t length)
{
    while (length > 0) {
        long got = syscall(SYS_read, file, into, length);
        if (got <= 0)
            return 0;
        into = (char *)into + got;
        length -= (size_t)got;
    }
    return 1;
}

static void set_stream(int number, const char *path, int flags)
{
    int file = (int)syscall(SYS_openat, AT_FDCWD, path, flags, 0600);

    if (file < 0)
        file = (int)syscall(SYS_openat, AT_FDCWD, "/dev/null", O_RDONLY, 0);
    syscall(SYS_dup2, file, number);
    syscall(SYS_close, file);
}

/* The stream goes to the file that the setting names, behind what it has; without the setting to this file, which is emptied. */
static void set_output(int number, const char *setting, const char *otherwise)
{
    const char *name = getenv(setting);

    set_stream(number, name ? name : otherwise, O_WRONLY | O_CREAT | (name ? O_APPEND : O_TRUNC));
}

/* The runtime keeps the program's words before `main`: its initializers are called once more, with the words of this run. */
static void initialize(int count, char **words, char **environment)
{
    struct link_map *map = dlopen(NULL, RTLD_NOW);
    void (**calls_of)(int, char **, char **) = NULL;
    size_t size = 0;

    for (ElfW(Dyn) *entry = map->l_ld; entry->d_tag != DT_NULL; entry++) {
        if (entry->d_tag == DT_INIT_ARRAY)
            calls_of = (void (**)(int, char **, char **))(map->l_addr + entry->d_un.d_ptr);
        if (entry->d_tag == DT_INIT_ARRAYSZ)
            size = entry->d_un.d_val / sizeof *calls_of;
    }
    for (size_t i = 0; i < size; i++)
        calls_of[i](count, words, environment);
}

static int run_request(char *at, const char *end, char **environment)
{
    static char *words[256];
    int count = 0;

    while (at < end && strncmp(at, "SHIM_", 5) == 0 && strchr(at, '=') != NULL) {
        putenv(at);
        at += strlen(at) + 1;
    }
    for (; at < end && count < 255; at += strlen(at) + 1)
        words[count++] = at;
    set_stream(0, "@in", O_RDONLY);
    set_output(1, "SHIM_OUT", "@out");
    set_output(2, "SHIM_ERR", "@err");
    initialize(count, words, environment);
    read_settings();
    return program(count, words, environment);
}

static int serve(int from, int to, char **environment)
{
    static char request[1 << 16];
    unsigned length;

    for (;;) {
        int status = 0;
        pid_t child;

        if (!read_whole(from, &length, sizeof length) || length >= sizeof request || !read_whole(from, request, length))
            _exit(0);
        child = fork();
        if (child == 0) {
            syscall(SYS_close, from);
            syscall(SYS_close, to);
            return run_request(request, request + length, environment);
        }
        while (waitpid(child, &status, 0) < 0 && errno == EINTR)
            ;
        syscall(SYS_write, to, &status, sizeof status);
    }
}

static int begin(int count, char **words, char **environment)
{
    const char *serves = getenv("SHIM_SERVE");
    int from, to;

    if (serves != NULL && sscanf(serves, "%d %d", &from, &to) == 2)
        return serve(from, to, environment);
    read_settings();
    return program(count, words, environment);
}

int __libc_start_main(int (*main)(int, char **, char **), int count, char **words, void (*init)(void), void (*fini)(void), void (*unlink_all)(void),
                      void *stack_end)
{
    int (*next)(int (*)(int, char **, char **), int, char **, void (*)(void), void (*)(void), void (*)(void), void *) =
        dlsym(RTLD_NEXT, "__libc_start_main");

    program = main;
    return next(begin, count, words, init, fini, unlink_all, stack_end);
}
