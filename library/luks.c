/* The calls of libluks through a descriptor. They read the ranges of the volume that the proved calls ask for, and pass them on. Nothing here is
 * proved. */
#define _GNU_SOURCE
#include "luks.h"

#include <errno.h>
#include <fcntl.h>
#include <limits.h>
#include <linux/fs.h>
#include <stddef.h>
#include <stdio.h>
#include <stdlib.h>
#include <string.h>
#include <sys/file.h>
#include <sys/ioctl.h>
#include <sys/mman.h>
#include <sys/random.h>
#include <sys/stat.h>
#include <sys/sysmacros.h>
#include <time.h>
#include <unistd.h>

/* How many bytes the first read takes: the heads of both copies as cryptsetup lays them out, or those and two key areas. A read at each other place
 * takes half as many as the one before, and a read that goes on takes as many again. So few calls are made, and some 1 MiB is held that isn't
 * needed. */
#define HEADS ((uint64_t)1 << 16)
#define WITH_KEY_AREAS ((uint64_t)544 << 10)
#define LEAST_AHEAD ((uint64_t)1 << 12)
#define MOST_AHEAD ((uint64_t)1 << 20)

/* The most that one call of pread reads, before pages of zeros are given back. */
#define MOST_AT_ONCE ((uint64_t)1 << 18)

/* The step by which the memory for the bytes grows. */
#define ROOM_STEP ((size_t)1 << 20)

/* The bytes that a disk reads together, or can't. */
#define SECTOR ((uint64_t)512)

/* How many of the volume's first bytes are read again before the first write, and compared. */
#define COMPARED ((uint64_t)1 << 15)

/* Ranges of a volume that were read, in their order, with a gap between any two, and their bytes one after the other. The bytes have pages of their
 * own. Pages that hold only zeros take no memory. */
struct held {
    int fd;
    uint64_t start, total, ahead, unread; /* the last is the place that couldn't be read, if there is one */
    unsigned blanks;                      /* how many more unreadable stretches may be replaced by other bytes */
    uint8_t blank;                        /* such a byte: 0 in a search; BLANK in a range that will only be written */
    bool has_blanks;                      /* whether some were */
    struct luks_range *ranges;
    size_t ranges_count;
    uint8_t *bytes;
    size_t bytes_count, room;
};

/* The arguments with which a _bytes call takes them. */
#define GIVEN(held) (held)->ranges, (held)->ranges_count, (held)->bytes, (held)->bytes_count, (held)->total

static uint64_t least(uint64_t a, uint64_t b)
{
    return a < b ? a : b;
}

/* The most bytes that a struct of the caller's has in any version. */
#define MOST_FIELDS 1024

static bool is_size(uint64_t size, size_t least_size)
{
    return size >= least_size && size <= MOST_FIELDS;
}

/* Whether `count` bytes of a struct of this `size` may be read, and the bytes after them are zeros. If they aren't, a caller that was compiled for a
 * later version asks for something that isn't known here. */
static bool is_known(const void *given, uint64_t size, size_t count)
{
    const uint8_t *bytes = given;
    if (!is_size(size, count))
        return false;
    for (size_t i = count; i < size; i++)
        if (bytes[i] != 0)
            return false;
    return true;
}

/* Writes zeros over the fields of such a struct, except its size. */
static void clear(void *told, uint64_t size)
{
    memset((uint8_t *)told + sizeof size, 0, (size_t)size - sizeof size);
}

/* Whether the calls work on this descriptor. If it appends, pwrite puts bytes at the file's end; direct I/O needs aligned buffers, which these
 * aren't. This is checked before anything is read. */
static uint32_t judge(int fd, bool is_written)
{
    int flags = fcntl(fd, F_GETFL);
    if (flags < 0)
        return LUKS_DEVICE;
    if (is_written && (flags & O_ACCMODE) == O_RDONLY)
        return LUKS_READONLY;
    if (is_written && (flags & O_APPEND) != 0)
        return LUKS_APPENDS;
    return (flags & O_DIRECT) != 0 ? LUKS_DIRECT : LUKS_DONE;
}

/* The length of a file or a block device, without moving its position. */
static int length_of(int fd, uint64_t *total)
{
    struct stat about;
    if (fstat(fd, &about) != 0)
        return -1;
    if (S_ISREG(about.st_mode)) {
        *total = (uint64_t)about.st_size;
        return 0;
    }
    if (S_ISBLK(about.st_mode))
        return ioctl(fd, BLKGETSIZE64, total);
    errno = ESPIPE;
    return -1;
}

/* Reads `count` bytes at the place `at`. It goes on after a short read. The file's end is a failure. */
static int read_all(int fd, uint8_t *into, size_t count, uint64_t at)
{
    while (count > 0) {
        ssize_t got = pread(fd, into, count, (off_t)at);
        if (got < 0 && errno == EINTR)
            continue;
        if (got <= 0) {
            if (got == 0)
                errno = EIO;
            return -1;
        }
        into += got;
        count -= (size_t)got;
        at += (uint64_t)got;
    }
    return 0;
}

/* Makes room for `count` bytes. */
static bool make_room(struct held *held, size_t count)
{
    size_t room = (count / ROOM_STEP + 1) * ROOM_STEP;
    if (count < held->room)
        return true;
    void *bytes = held->room == 0 ? mmap(NULL, room, PROT_READ | PROT_WRITE, MAP_PRIVATE | MAP_ANONYMOUS, -1, 0)
                                  : mremap(held->bytes, held->room, room, MREMAP_MAYMOVE);
    if (bytes == MAP_FAILED)
        return false;
    held->bytes = bytes;
    held->room = room;
    return true;
}

static bool are_zeros(const uint8_t *bytes, size_t count)
{
    return bytes[0] == 0 && memcmp(bytes, bytes + 1, count - 1) == 0;
}

/* Gives back the pages between these addresses that hold only zeros. They still read as zeros. */
static void give_zeros_back(uint8_t *from, const uint8_t *to)
{
    size_t page = (size_t)sysconf(_SC_PAGESIZE), blank = 0;
    uint8_t *at = from - (uintptr_t)from % page;
    for (; (size_t)(to - at) >= page; at += page) {
        bool is_blank = are_zeros(at, page);
        if (!is_blank && blank > 0)
            (void)madvise(at - blank, blank, MADV_DONTNEED);
        blank = is_blank ? blank + page : 0;
    }
    if (blank > 0)
        (void)madvise(at - blank, blank, MADV_DONTNEED);
}

/* Reads up to `count` bytes at the place `at`, and answers how many could be read: all before the first unreadable sector. If a read fails, it tries
 * smaller pieces, at last pieces within one sector. The file's end is a failure. */
static size_t read_some(int fd, uint8_t *into, size_t count, uint64_t at)
{
    uint64_t piece = MOST_AT_ONCE;
    size_t done = 0;
    while (done < count) {
        uint64_t place = at + done;
        ssize_t got = pread(fd, into + done, (size_t)least(piece - place % piece, count - done), (off_t)place);
        if (got < 0 && errno == EINTR)
            continue;
        if (got > 0) {
            give_zeros_back(into + done, into + done + got);
            done += (size_t)got;
        } else if (got == 0)
            break;
        else if (piece > SECTOR)
            piece = piece > SECTOR * 8 ? SECTOR * 8 : SECTOR;
        else
            return done;
    }
    if (done < count)
        errno = EIO;
    return done;
}

/* Adds a range before the one numbered `i`, or joins it to the neighbours that it touches. There is room for it. */
static void add_range(struct held *held, size_t i, uint64_t at, uint64_t len)
{
    struct luks_range *ranges = held->ranges;
    bool is_behind = i > 0 && ranges[i - 1].at + ranges[i - 1].len == at;
    bool is_before = i < held->ranges_count && at + len == ranges[i].at;
    if (is_behind) {
        ranges[i - 1].len += len + (is_before ? ranges[i].len : 0);
        if (is_before)
            memmove(ranges + i, ranges + i + 1, (--held->ranges_count - i) * sizeof *ranges);
    } else if (is_before) {
        ranges[i].at = at;
        ranges[i].len += len;
    } else {
        memmove(ranges + i + 1, ranges + i, (held->ranges_count++ - i) * sizeof *ranges);
        ranges[i] = (struct luks_range){.at = at, .len = len};
    }
}

/* Reads from `place` on, as far as it can: at most to `most`, and at least to `needed`, else it fails. `place` is in the gap before the range
 * numbered `i`; the ranges before it have `before` bytes. */
static uint32_t read_gap(struct held *held, size_t i, size_t before, uint64_t place, uint64_t needed, uint64_t most)
{
    if (most - place > (uint64_t)PTRDIFF_MAX - held->bytes_count)
        return LUKS_MEMORY;
    size_t count = (size_t)(most - place), behind = held->bytes_count - before;
    struct luks_range *ranges = realloc(held->ranges, (held->ranges_count + 1) * sizeof *ranges);
    if (ranges == NULL)
        return LUKS_MEMORY;
    held->ranges = ranges;
    if (!make_room(held, held->bytes_count + count))
        return LUKS_MEMORY;
    uint8_t *bytes = held->bytes;
    memmove(bytes + before + count, bytes + before, behind);
    size_t got = read_some(held->fd, bytes + before, count, held->start + place);
    while (got < needed - place && held->blanks > 0) {
        uint64_t at = held->start + place + got, rest = needed - place - got;
        /* what is only written needn't be read, unless it is to be compared */
        bool is_rest = held->blank != 0 && place + got >= COMPARED;
        size_t blank = (size_t)(is_rest ? rest : least(SECTOR - at % SECTOR, rest));
        memset(bytes + before + got, held->blank, blank);
        held->blanks--;
        held->has_blanks = true;
        got += blank;
        got += read_some(held->fd, bytes + before + got, count - got, at + blank);
    }
    memmove(bytes + before + got, bytes + before + count, behind);
    held->bytes_count += got;
    if (got > 0)
        add_range(held, i, place, got);
    if (place + got >= needed)
        return LUKS_DONE;
    held->unread = place + got;
    return LUKS_DEVICE;
}

/* The number of the first range that ends after the place, and how many bytes the ranges before it have. */
static size_t range_behind(const struct held *held, uint64_t place, size_t *before)
{
    size_t i = 0;
    *before = 0;
    for (; i < held->ranges_count && held->ranges[i].at + held->ranges[i].len <= place; i++)
        *before += (size_t)held->ranges[i].len;
    return i;
}

/* Where a read at `place` ends; `i` ranges are before it. If a range ends there, the read is as long again, else half as long as the last one. */
static uint64_t reading_end(struct held *held, uint64_t place, size_t i)
{
    uint64_t ahead = held->ahead;
    if (i > 0 && held->ranges[i - 1].at + held->ranges[i - 1].len == place)
        ahead = least(held->ranges[i - 1].len, MOST_AHEAD);
    else
        held->ahead = ahead / 2 > LEAST_AHEAD ? ahead / 2 : LEAST_AHEAD;
    return place + least(ahead, held->total - place);
}

/* Reads the range that a call asked for, too. It answers LUKS_BEYOND if the call may be made again. */
static uint32_t hold_more(struct held *held, struct luks_range wanted)
{
    uint64_t needed = wanted.at + wanted.len, place = wanted.at;
    size_t before, i = range_behind(held, place, &before);
    uint64_t ahead = reading_end(held, place, i);
    while (place < needed) {
        i = range_behind(held, place, &before);
        uint64_t gap_end = i < held->ranges_count ? held->ranges[i].at : held->total;
        if (gap_end <= place) {
            place = held->ranges[i].at + held->ranges[i].len;
            continue;
        }
        uint64_t most = least(ahead > needed ? ahead : needed, gap_end);
        uint32_t answer = read_gap(held, i, before, place, least(needed, gap_end), most);
        if (answer != LUKS_DONE)
            return answer;
        place = most;
    }
    return LUKS_BEYOND;
}

/* The bytes of this range, or NULL if they aren't held. */
static const uint8_t *held_at(const struct held *held, uint64_t at, uint64_t len)
{
    size_t before, i = range_behind(held, at, &before);
    if (i == held->ranges_count || at < held->ranges[i].at || len > held->ranges[i].at + held->ranges[i].len - at)
        return NULL;
    return held->bytes + before + (size_t)(at - held->ranges[i].at);
}

/* Sets up the window of the descriptor, of which nothing is held yet. */
static uint32_t begin(struct held *held, int fd, uint64_t offset, uint64_t length, uint64_t ahead)
{
    uint64_t total = 0;
    memset(held, 0, sizeof *held);
    uint32_t answer = judge(fd, false);
    if (answer != LUKS_DONE)
        return answer;
    if (length_of(fd, &total) != 0)
        return LUKS_DEVICE;
    held->fd = fd;
    held->start = least(offset, total);
    held->total = least(length, total - held->start);
    held->ahead = ahead;
    held->unread = LUKS_TO_END;
    held->ranges = malloc(sizeof *held->ranges);
    return held->ranges != NULL && make_room(held, 0) ? LUKS_DONE : LUKS_MEMORY;
}

static void end(struct held *held)
{
    int kept = errno;
    free(held->ranges);
    if (held->room > 0)
        (void)munmap(held->bytes, held->room);
    errno = kept;
}

/* Whole pages that are kept out of swap and of core dumps during a call; none if `count` is 0. */
struct guarded {
    void *pages;
    size_t count;
};

/* Guards the pages of `count` bytes at this address. If the system refuses it, for example beyond RLIMIT_MEMLOCK, the call goes on without. Pages
 * that the caller has locked are left as they are; msync tells them by EBUSY. */
static struct guarded guard(uintptr_t at, size_t count)
{
    struct guarded none = {NULL, 0}, found;
    int kept = errno;
    uintptr_t page = (uintptr_t)sysconf(_SC_PAGESIZE);
    uintptr_t first = at / page * page;
    if (count == 0 || count > UINTPTR_MAX - page - at)
        return none;
    found.pages = (void *)first;
    found.count = (at + count - first + page - 1) / page * page;
    if (msync(found.pages, found.count, MS_ASYNC | MS_INVALIDATE) != 0 || mlock(found.pages, found.count) != 0)
        found = none;
    else
        (void)madvise(found.pages, found.count, MADV_DONTDUMP);
    errno = kept;
    return found;
}

/* Undoes guard. */
static void unguard(const struct guarded *guarded)
{
    int kept = errno;
    if (guarded->count > 0) {
        (void)madvise(guarded->pages, guarded->count, MADV_DODUMP);
        (void)munlock(guarded->pages, guarded->count);
    }
    errno = kept;
}

uint32_t luks_signature(int fd, uint64_t offset, uint64_t length, uint64_t within, uint32_t *shows)
{
    struct luks_signature signature;
    struct held held;
    if (shows == NULL)
        return LUKS_USAGE;
    *shows = 0;
    uint32_t answer = begin(&held, fd, offset, length, HEADS);
    if (answer == LUKS_DONE)
        do {
            answer = luks_signature_bytes(GIVEN(&held), within, &signature);
            if (answer == LUKS_BEYOND)
                answer = hold_more(&held, signature.beyond);
            else if (answer == LUKS_DONE)
                *shows = signature.shows;
        } while (answer == LUKS_BEYOND);
    end(&held);
    return answer;
}

uint32_t luks_check(int fd, uint64_t offset, uint64_t length, bool is_detached, struct luks_report *report)
{
    struct luks_report_bytes told = {0};
    struct held held;
    if (report == NULL || !is_size(report->size, sizeof *report))
        return LUKS_USAGE;
    clear(report, report->size);
    uint32_t answer = begin(&held, fd, offset, length, HEADS);
    if (answer == LUKS_DONE)
        do {
            answer = luks_check_bytes(GIVEN(&held), is_detached, &told);
            if (answer == LUKS_BEYOND)
                answer = hold_more(&held, told.beyond);
        } while (answer == LUKS_BEYOND);
    report->version = told.version;
    report->copies = told.copies;
    report->seqid = told.seqid;
    report->areas = told.areas;
    end(&held);
    return answer;
}

uint32_t luks_read(int fd, uint64_t offset, uint64_t length, char *json, size_t json_room, uint64_t *json_bytes)
{
    char nowhere = 0;
    struct luks_read read;
    struct held held;
    if (json_bytes == NULL || (json == NULL && json_room > 0))
        return LUKS_USAGE;
    *json_bytes = 0;
    uint32_t answer = begin(&held, fd, offset, length, HEADS);
    if (answer == LUKS_DONE)
        do {
            answer = luks_read_bytes(GIVEN(&held), (uint8_t *)(json != NULL ? json : &nowhere), json_room, &read);
            *json_bytes = read.json_bytes;
            if (answer == LUKS_BEYOND)
                answer = hold_more(&held, read.beyond);
        } while (answer == LUKS_BEYOND);
    end(&held);
    return answer;
}

uint32_t luks_token(int fd, uint64_t offset, uint64_t length, uint32_t number, char *text, size_t text_room, uint64_t *text_bytes)
{
    char nowhere = 0;
    struct luks_read read;
    struct held held;
    if (text_bytes == NULL || (text == NULL && text_room > 0))
        return LUKS_USAGE;
    *text_bytes = 0;
    uint32_t answer = begin(&held, fd, offset, length, HEADS);
    if (answer == LUKS_DONE)
        do {
            answer = luks_token_bytes(GIVEN(&held), number, (uint8_t *)(text != NULL ? text : &nowhere), text_room, &read);
            *text_bytes = read.json_bytes;
            if (answer == LUKS_BEYOND)
                answer = hold_more(&held, read.beyond);
        } while (answer == LUKS_BEYOND);
    end(&held);
    return answer;
}

/* ---- what the header says as records, taken from the object of luks_read ---- */

/* The rest of the object's text. This library wrote it, so there are no spaces between its parts. */
struct text {
    const char *at, *end;
};

static bool is_at_sign(const struct text *text, char sign)
{
    return text->at < text->end && *text->at == sign;
}

static bool take(struct text *text, char sign)
{
    bool is_there = is_at_sign(text, sign);
    text->at += is_there;
    return is_there;
}

/* Takes a text in quotation marks, as it is spelt between them. */
static bool take_string(struct text *text, struct text *string)
{
    if (!take(text, '"'))
        return false;
    string->at = text->at;
    while (text->at < text->end && *text->at != '"')
        text->at += *text->at == '\\' && text->end - text->at > 1 ? 2 : 1;
    string->end = text->at;
    return take(text, '"');
}

static bool take_number(struct text *text, uint64_t *number)
{
    const char *from = text->at;
    *number = 0;
    while (text->at < text->end && *text->at >= '0' && *text->at <= '9')
        *number = *number * 10 + (uint64_t)(*text->at++ - '0');
    return text->at > from;
}

/* Takes an array of numbers, each as a bit. */
static bool take_set(struct text *text, uint64_t *bits)
{
    uint64_t number;
    *bits = 0;
    if (!take(text, '['))
        return false;
    while (!take(text, ']')) {
        if (!take_number(text, &number))
            return false;
        *bits |= number < 64 ? (uint64_t)1 << number : 0;
        (void)take(text, ',');
    }
    return true;
}

/* Skips the next value, of any kind. */
static bool skip_value(struct text *text)
{
    struct text string;
    size_t depth = 0;
    do {
        if (is_at_sign(text, '"')) {
            if (!take_string(text, &string))
                return false;
        } else if (take(text, '{') || take(text, '[')) {
            depth++;
        } else if (depth > 0 && (take(text, '}') || take(text, ']'))) {
            depth--;
        } else {
            const char *from = text->at;
            while (text->at < text->end && strchr("\"{}[]", *text->at) == NULL && (depth > 0 || *text->at != ','))
                text->at++;
            if (text->at == from)
                return false;
        }
    } while (depth > 0);
    return true;
}

static bool is_named(const struct text *name, const char *as)
{
    return (size_t)(name->end - name->at) == strlen(as) && memcmp(name->at, as, strlen(as)) == 0;
}

/* Takes the name of the next member of an object, up to its value; false at the object's end. */
static bool next_member(struct text *text, struct text *name)
{
    (void)(take(text, '{') || take(text, ','));
    return !take(text, '}') && take_string(text, name) && take(text, ':');
}

/* A member of an object, or of an object `within` it, and the field of a record that it fills. NUMBER: a number; if the member is a text, the
 * greatest one. TEXT: a text, as much as fits. WORD: a text's place in a list. SET: an array of numbers, each as a bit. */
enum how { NUMBER, TEXT, WORD, SET };
struct field {
    const char *within, *name;
    enum how how;
    size_t at, bytes;
    const char *const *words;
};
#define AT(record, field) offsetof(struct record, field), sizeof ((struct record *)NULL)->field

static const char *const STATES[] = {"disabled", "enabled", NULL};
static const char *const DERIVATIONS[] = {"", "pbkdf2", "argon2i", "argon2id", NULL};
static const char *const SEGMENT_KINDS[] = {"", "crypt", "linear", NULL};

static const struct field OF_KEYSLOT[] = {
    {"", "number", NUMBER, AT(luks_keyslot, number), NULL},
    {"", "state", WORD, AT(luks_keyslot, is_enabled), STATES},
    {"", "priority", NUMBER, AT(luks_keyslot, priority), NULL},
    {"", "digest", NUMBER, AT(luks_keyslot, digest), NULL},
    {"", "key_bytes", NUMBER, AT(luks_keyslot, key_bytes), NULL},
    {"kdf", "type", WORD, AT(luks_keyslot, kdf), DERIVATIONS},
    {"kdf", "iterations", NUMBER, AT(luks_keyslot, turns), NULL},
    {"kdf", "time", NUMBER, AT(luks_keyslot, turns), NULL},
    {"kdf", "memory", NUMBER, AT(luks_keyslot, memory), NULL},
    {"kdf", "cpus", NUMBER, AT(luks_keyslot, lanes), NULL},
    {"kdf", "hash", TEXT, AT(luks_keyslot, hash), NULL},
    {"area", "key_bytes", NUMBER, AT(luks_keyslot, area_key_bytes), NULL},
    {"area", "offset", NUMBER, AT(luks_keyslot, offset), NULL},
    {"area", "size", NUMBER, AT(luks_keyslot, bytes), NULL},
    {"area", "cipher", TEXT, AT(luks_keyslot, cipher), NULL},
    {"splitter", "stripes", NUMBER, AT(luks_keyslot, stripes), NULL},
    {0},
};
static const struct field OF_SEGMENT[] = {
    {"", "number", NUMBER, AT(luks_segment, number), NULL},
    {"", "type", WORD, AT(luks_segment, kind), SEGMENT_KINDS},
    {"", "offset", NUMBER, AT(luks_segment, offset), NULL},
    {"", "size", NUMBER, AT(luks_segment, bytes), NULL},
    {"", "iv_tweak", NUMBER, AT(luks_segment, iv_tweak), NULL},
    {"", "sector_size", NUMBER, AT(luks_segment, sector_bytes), NULL},
    {"", "cipher", TEXT, AT(luks_segment, cipher), NULL},
    {0},
};
static const struct field OF_DIGEST[] = {
    {"", "number", NUMBER, AT(luks_digest, number), NULL},
    {"", "iterations", NUMBER, AT(luks_digest, iterations), NULL},
    {"", "keyslots", SET, AT(luks_digest, keyslots), NULL},
    {"", "segments", SET, AT(luks_digest, segments), NULL},
    {"", "hash", TEXT, AT(luks_digest, hash), NULL},
    {0},
};
static const struct field OF_TOKEN[] = {
    {"", "number", NUMBER, AT(luks_token, number), NULL},
    {"", "keyslots", SET, AT(luks_token, keyslots), NULL},
    {"", "type", TEXT, AT(luks_token, kind), NULL},
    {0},
};

/* What the object says of a LUKS1 header itself, without its keyslots. */
struct luks1 {
    uint32_t version, iterations;
    uint64_t payload;
    char cipher_name[32], cipher_mode[32], hash[32];
};
static const struct field OF_LUKS1[] = {
    {"", "version", NUMBER, AT(luks1, version), NULL},
    {"", "payload_offset", NUMBER, AT(luks1, payload), NULL},
    {"", "cipher_name", TEXT, AT(luks1, cipher_name), NULL},
    {"", "cipher_mode", TEXT, AT(luks1, cipher_mode), NULL},
    {"", "hash", TEXT, AT(luks1, hash), NULL},
    {"digest", "iterations", NUMBER, AT(luks1, iterations), NULL},
    {0},
};

static void put_number(const struct field *field, uint8_t *record, uint64_t number)
{
    uint32_t narrow = (uint32_t)number;
    memcpy(record + field->at, field->bytes == sizeof number ? (const void *)&number : &narrow, field->bytes);
}

static void put_string(const struct field *field, uint8_t *record, const struct text *string)
{
    if (field->how == TEXT)
        memcpy(record + field->at, string->at, (size_t)least((uint64_t)(string->end - string->at), field->bytes - 1));
    else if (field->how == NUMBER)
        put_number(field, record, UINT64_MAX);
    for (uint32_t i = 0; field->how == WORD && field->words[i] != NULL; i++)
        if (is_named(string, field->words[i]))
            put_number(field, record, i);
}

/* Puts the next value into its field. */
static bool keep_value(struct text *text, const struct field *field, uint8_t *record)
{
    struct text string;
    uint64_t number = 0;
    if (is_at_sign(text, '"')) {
        if (!take_string(text, &string))
            return false;
        put_string(field, record, &string);
        return true;
    }
    if (field->how == SET ? take_set(text, &number) : field->how == NUMBER && take_number(text, &number)) {
        put_number(field, record, number);
        return true;
    }
    return skip_value(text);
}

/* Puts the members of the object into their fields, and those of the objects within it, except arrays of objects. */
static bool keep_object(struct text *text, const char *within, const struct field *fields, uint8_t *record)
{
    static const char *const parts[] = {"area", "digest", "kdf", "splitter"};
    struct text name;
    while (next_member(text, &name)) {
        const char *part = NULL;
        const struct field *found = NULL;
        for (size_t i = 0; *within == 0 && is_at_sign(text, '{') && i < sizeof parts / sizeof *parts; i++)
            if (is_named(&name, parts[i]))
                part = parts[i];
        for (const struct field *field = fields; field->name != NULL; field++)
            if (strcmp(field->within, within) == 0 && is_named(&name, field->name))
                found = field;
        if (!(part != NULL ? keep_object(text, part, fields, record) : found != NULL ? keep_value(text, found, record) : skip_value(text)))
            return false;
    }
    return true;
}

/* Records of one kind: the array's name, the fields, a record's size, and what a record has before it is filled. */
struct shape {
    const char *array;
    const struct field *fields;
    size_t bytes;
    const void *empty;
};
static const struct luks_keyslot NO_KEYSLOT = {.priority = 1};
static const struct luks_segment NO_SEGMENT = {0};
static const struct luks_digest NO_DIGEST = {0};
static const struct luks_token NO_TOKEN = {0};
static const struct shape KEYSLOTS = {"keyslots", OF_KEYSLOT, sizeof NO_KEYSLOT, &NO_KEYSLOT};
static const struct shape SEGMENTS = {"segments", OF_SEGMENT, sizeof NO_SEGMENT, &NO_SEGMENT};
static const struct shape DIGESTS = {"digests", OF_DIGEST, sizeof NO_DIGEST, &NO_DIGEST};
static const struct shape TOKENS = {"tokens", OF_TOKEN, sizeof NO_TOKEN, &NO_TOKEN};

_Static_assert(sizeof(struct luks_keyslot) <= 256, "the largest of these");

/* Takes an array of objects as records, as many as there is room for, and answers how many there are. */
static size_t keep_array(struct text *text, const struct shape *shape, uint8_t *records, size_t room)
{
    uint8_t nowhere[256];
    size_t count = 0;
    for (; (take(text, '[') || take(text, ',')) && !is_at_sign(text, ']'); count++) {
        uint8_t *record = count < room ? records + count * shape->bytes : nowhere;
        memcpy(record, shape->empty, shape->bytes);
        if (!keep_object(text, "", shape->fields, record))
            break;
    }
    return count;
}

/* Takes the records of the whole object; none if it has no such array. */
static size_t keep_records(struct text text, const struct shape *shape, void *records, size_t room)
{
    struct text name;
    while (next_member(&text, &name)) {
        if (is_named(&name, shape->array))
            return keep_array(&text, shape, records, room);
        if (!skip_value(&text))
            break;
    }
    return 0;
}

/* The only segment of a LUKS1 volume. */
static void segment_of_luks1(const struct luks1 *told, struct luks_segment *segment)
{
    *segment = (struct luks_segment){.kind = LUKS_CRYPT, .sector_bytes = 512, .offset = told->payload, .bytes = LUKS_TO_END};
    snprintf(segment->cipher, sizeof segment->cipher, "%.31s-%.31s", told->cipher_name, told->cipher_mode);
}

/* The only digest of a LUKS1 volume, for all keyslots in use. */
static void digest_of_luks1(const struct luks1 *told, struct text text, struct luks_digest *digest)
{
    struct luks_keyslot keyslots[LUKS_KEYSLOTS];
    size_t count = keep_records(text, &KEYSLOTS, keyslots, LUKS_KEYSLOTS);
    *digest = (struct luks_digest){.iterations = told->iterations, .segments = 1};
    memcpy(digest->hash, told->hash, sizeof digest->hash);
    for (size_t i = 0; i < count && i < LUKS_KEYSLOTS; i++)
        digest->keyslots |= keyslots[i].is_enabled ? (uint32_t)1 << keyslots[i].number : 0;
}

/* The records of the object. For a LUKS1 header, its members give the segment and the digest. */
static size_t records_of(struct text text, const struct shape *shape, void *records, size_t room)
{
    struct luks1 told = {0};
    struct text whole = text;
    if (!keep_object(&whole, "", OF_LUKS1, (uint8_t *)&told) || told.version != 1 || (shape != &SEGMENTS && shape != &DIGESTS))
        return keep_records(text, shape, records, room);
    if (room > 0 && shape == &SEGMENTS)
        segment_of_luks1(&told, records);
    else if (room > 0)
        digest_of_luks1(&told, text, records);
    return 1;
}

static uint32_t read_records(int fd, uint64_t offset, uint64_t length, const struct shape *shape, void *records, size_t size, size_t room, size_t *count)
{
    uint64_t bytes = HEADS;
    char *json = NULL;
    if (count == NULL || size != shape->bytes || (records == NULL && room > 0))
        return LUKS_USAGE;
    *count = 0;
    uint32_t answer = LUKS_ROOM;
    for (uint64_t taken = 0; answer == LUKS_ROOM && taken < bytes;) {
        char *more = bytes < PTRDIFF_MAX ? realloc(json, (size_t)bytes) : NULL;
        taken = bytes;
        if (more == NULL)
            answer = LUKS_MEMORY;
        else
            answer = luks_read(fd, offset, length, json = more, (size_t)taken, &bytes);
    }
    if (answer == LUKS_DONE) {
        *count = records_of((struct text){json, json + bytes}, shape, records, room);
        answer = *count > room ? LUKS_ROOM : LUKS_DONE;
    }
    int kept = errno;
    free(json);
    errno = kept;
    return answer;
}

uint32_t luks_keyslots(int fd, uint64_t offset, uint64_t length, struct luks_keyslot *keyslots, size_t size, size_t room, size_t *count)
{
    return read_records(fd, offset, length, &KEYSLOTS, keyslots, size, room, count);
}

uint32_t luks_segments(int fd, uint64_t offset, uint64_t length, struct luks_segment *segments, size_t size, size_t room, size_t *count)
{
    return read_records(fd, offset, length, &SEGMENTS, segments, size, room, count);
}

uint32_t luks_digests(int fd, uint64_t offset, uint64_t length, struct luks_digest *digests, size_t size, size_t room, size_t *count)
{
    return read_records(fd, offset, length, &DIGESTS, digests, size, room, count);
}

uint32_t luks_tokens(int fd, uint64_t offset, uint64_t length, struct luks_token *tokens, size_t size, size_t room, size_t *count)
{
    return read_records(fd, offset, length, &TOKENS, tokens, size, room, count);
}

/* ---- secrets ---- */

/* More than a _bytes call uses of the stack. */
#define STACK ((size_t)192 << 10)

#ifdef __x86_64__
/* Clears registers in which copying leaves bytes. The first call of a function that the loader hasn't looked up yet would save them on the stack. */
static __attribute__((target("avx512f"))) void wipe_upper_registers(void)
{
    __asm__ volatile("vpxorq %%zmm16, %%zmm16, %%zmm16; vpxorq %%zmm17, %%zmm17, %%zmm17; vpxorq %%zmm18, %%zmm18, %%zmm18;"
                     "vpxorq %%zmm19, %%zmm19, %%zmm19; vpxorq %%zmm20, %%zmm20, %%zmm20; vpxorq %%zmm21, %%zmm21, %%zmm21;"
                     "vpxorq %%zmm22, %%zmm22, %%zmm22; vpxorq %%zmm23, %%zmm23, %%zmm23; vpxorq %%zmm24, %%zmm24, %%zmm24;"
                     "vpxorq %%zmm25, %%zmm25, %%zmm25; vpxorq %%zmm26, %%zmm26, %%zmm26; vpxorq %%zmm27, %%zmm27, %%zmm27;"
                     "vpxorq %%zmm28, %%zmm28, %%zmm28; vpxorq %%zmm29, %%zmm29, %%zmm29; vpxorq %%zmm30, %%zmm30, %%zmm30;"
                     "vpxorq %%zmm31, %%zmm31, %%zmm31" ::: "xmm16", "xmm17", "xmm18", "xmm19", "xmm20", "xmm21", "xmm22", "xmm23", "xmm24",
                     "xmm25", "xmm26", "xmm27", "xmm28", "xmm29", "xmm30", "xmm31");
}

static __attribute__((target("avx"))) void wipe_wide_registers(void)
{
    __asm__ volatile("vzeroall" ::: "xmm0", "xmm1", "xmm2", "xmm3", "xmm4", "xmm5", "xmm6", "xmm7", "xmm8", "xmm9", "xmm10", "xmm11", "xmm12",
                     "xmm13", "xmm14", "xmm15");
}

static void wipe_registers(void)
{
    if (__builtin_cpu_supports("avx512f"))
        wipe_upper_registers();
    if (__builtin_cpu_supports("avx"))
        wipe_wide_registers();
    else
        __asm__ volatile("pxor %%xmm0, %%xmm0; pxor %%xmm1, %%xmm1; pxor %%xmm2, %%xmm2; pxor %%xmm3, %%xmm3; pxor %%xmm4, %%xmm4; pxor %%xmm5, %%xmm5;"
                         "pxor %%xmm6, %%xmm6; pxor %%xmm7, %%xmm7; pxor %%xmm8, %%xmm8; pxor %%xmm9, %%xmm9; pxor %%xmm10, %%xmm10;"
                         "pxor %%xmm11, %%xmm11; pxor %%xmm12, %%xmm12; pxor %%xmm13, %%xmm13; pxor %%xmm14, %%xmm14; pxor %%xmm15, %%xmm15" :::
                         "xmm0", "xmm1", "xmm2", "xmm3", "xmm4", "xmm5", "xmm6", "xmm7", "xmm8", "xmm9", "xmm10", "xmm11", "xmm12", "xmm13", "xmm14",
                         "xmm15");
}
#else
static void wipe_registers(void)
{
}
#endif

/* Writes zeros over STACK bytes of the stack below its caller. */
static __attribute__((noinline)) void wipe_stack(void)
{
    uint8_t room[STACK];
    explicit_bzero(room, sizeof room);
}

/* Removes what earlier calls left of derived keys. It begins with the registers, since another call would save them on the stack. */
static __attribute__((noinline)) void forget(void)
{
    wipe_registers();
    wipe_stack();
}

/* Writes zeros over memory and frees it. */
static void give_wiped(void *memory, size_t count)
{
    int kept = errno;
    if (memory != NULL)
        explicit_bzero(memory, count);
    free(memory);
    errno = kept;
}

/* ---- opening ---- */

/* In place of a keyslot's number: any keyslot. */
#define ANY UINT32_MAX

/* The number in 8 bits. If it doesn't fit, it is UINT8_MAX, which no keyslot has. */
static uint8_t keyslot_of(uint32_t n)
{
    return n < UINT8_MAX ? (uint8_t)n : UINT8_MAX;
}

static uint32_t open_one(int fd, uint64_t offset, uint64_t length, uint32_t n, const void *passphrase, size_t passphrase_bytes, uint32_t memory,
                         uint32_t older, void *key, size_t key_room, struct luks_opened *opened)
{
    static const uint8_t nothing = 0;
    uint8_t nowhere = 0;
    struct luks_opened_bytes told = {0};
    struct held held;
    if (opened == NULL || !is_size(opened->size, sizeof *opened) || (passphrase == NULL && passphrase_bytes > 0) || (key == NULL && key_room > 0))
        return LUKS_USAGE;
    const uint8_t *words = passphrase != NULL ? passphrase : &nothing;
    uint8_t *into = key != NULL ? key : &nowhere;
    struct guarded words_pages = guard((uintptr_t)words, passphrase_bytes), key_pages = guard((uintptr_t)into, key_room);
    clear(opened, opened->size);
    uint32_t answer = begin(&held, fd, offset, length, WITH_KEY_AREAS);
    if (answer == LUKS_DONE)
        do {
            answer = n == ANY ? luks_unlock_bytes(GIVEN(&held), words, passphrase_bytes, memory, older, into, key_room, &told)
                              : luks_open_bytes(GIVEN(&held), keyslot_of(n), words, passphrase_bytes, memory, older, into,
                                                key_room, &told);
            if (answer == LUKS_BEYOND)
                answer = hold_more(&held, told.beyond);
        } while (answer == LUKS_BEYOND);
    forget();
    opened->slot = told.slot;
    opened->key_bytes = told.key_bytes;
    end(&held);
    unguard(&key_pages);
    unguard(&words_pages);
    return answer;
}

/* Tries the keyslots one by one, after one couldn't be read. It passes over those that can't be read, or for which memory was refused, as `luks open`
 * does. */
static uint32_t open_beside(int fd, uint64_t offset, uint64_t length, const void *passphrase, size_t passphrase_bytes, uint32_t memory,
                            uint32_t older, void *key, size_t key_room, struct luks_opened *opened)
{
    struct luks_keyslot keyslots[LUKS_KEYSLOTS];
    size_t count = 0;
    int kept = errno;
    (void)luks_keyslots(fd, offset, length, keyslots, sizeof *keyslots, LUKS_KEYSLOTS, &count);
    for (uint32_t priority = 2; priority > 0; priority--)
        for (size_t i = 0; i < count && i < LUKS_KEYSLOTS; i++) {
            if (!keyslots[i].is_enabled || keyslots[i].priority != priority)
                continue;
            uint32_t answer = open_one(fd, offset, length, keyslots[i].number, passphrase, passphrase_bytes, memory, older, key, key_room, opened);
            if (answer == LUKS_DONE || answer == LUKS_ROOM)
                return answer;
        }
    errno = kept;
    return LUKS_DEVICE;
}

uint32_t luks_unlock(int fd, uint64_t offset, uint64_t length, const void *passphrase, size_t passphrase_bytes, uint32_t memory,
                     uint32_t older, void *key, size_t key_room, struct luks_opened *opened)
{
    uint32_t answer = open_one(fd, offset, length, ANY, passphrase, passphrase_bytes, memory, older, key, key_room, opened);
    return answer != LUKS_DEVICE ? answer : open_beside(fd, offset, length, passphrase, passphrase_bytes, memory, older, key, key_room, opened);
}

uint32_t luks_open(int fd, uint64_t offset, uint64_t length, uint32_t n, const void *passphrase, size_t passphrase_bytes, uint32_t memory,
                   uint32_t older, void *key, size_t key_room, struct luks_opened *opened)
{
    return open_one(fd, offset, length, n != ANY ? n : UINT8_MAX, passphrase, passphrase_bytes, memory, older, key, key_room, opened);
}

uint32_t luks_meets(int fd, uint64_t offset, uint64_t length, const void *key, size_t key_bytes, uint32_t digest, uint32_t older, uint32_t *judged)
{
    static const uint8_t nothing = 0;
    struct luks_met met = {0};
    struct held held;
    if (key == NULL && key_bytes > 0)
        return LUKS_USAGE;
    struct guarded pages = guard((uintptr_t)key, key_bytes);
    uint32_t answer = begin(&held, fd, offset, length, HEADS);
    if (answer == LUKS_DONE)
        do {
            answer = luks_meets_bytes(GIVEN(&held), key != NULL ? key : &nothing, key_bytes, digest, older, &met);
            if (answer == LUKS_BEYOND)
                answer = hold_more(&held, met.beyond);
        } while (answer == LUKS_BEYOND);
    forget();
    if (judged != NULL)
        *judged = met.digest;
    end(&held);
    unguard(&pages);
    return answer;
}

/* Whether the caller's function says to go on, or there is none. */
static bool goes_on(luks_progress *progress, void *context, uint64_t done, uint64_t total)
{
    return progress == NULL || progress(context, done, total) == 0;
}

uint32_t luks_try(int fd, uint64_t offset, uint64_t length, const void *passphrase, size_t passphrase_bytes, uint32_t memory, uint32_t older,
                  luks_progress *progress, void *context, uint32_t answers[LUKS_KEYSLOTS])
{
    struct luks_opened opened = {.size = sizeof opened};
    if (answers == NULL)
        return LUKS_USAGE;
    /* no keyslot has this number, so this tells the faults of the header itself */
    uint32_t answer = open_one(fd, offset, length, UINT8_MAX, passphrase, passphrase_bytes, 0, 0, NULL, 0, &opened);
    if (answer != LUKS_FAULT_NO_SUCH_SLOT)
        return answer;
    for (uint32_t n = 0; n < LUKS_KEYSLOTS; n++) {
        if (!goes_on(progress, context, n, LUKS_KEYSLOTS))
            return LUKS_STOPPED;
        answers[n] = open_one(fd, offset, length, n, passphrase, passphrase_bytes, memory, older, NULL, 0, &opened);
    }
    return LUKS_DONE;
}

/* ---- calls that write ---- */

/* The first room for a plan: more than an edit takes of any volume that cryptsetup makes. Untouched memory costs nothing. */
#define CALLS_ROOM ((size_t)1 << 16)
#define BYTES_ROOM ((size_t)1 << 25)

struct room {
    struct luks_call *calls;
    uint8_t *bytes;
    size_t calls_room, bytes_room;
};

/* What a call that writes does. */
enum kind { EDIT, FORMAT1, FORMAT2, CONVERT, REBUILD1, REBUILD2, BACKUP, RESTORE };

struct asked {
    enum kind kind;
    bool is_detached, is_second, is_over_any;
    struct luks_edit_bytes edit;
    uint32_t hash, iterations, memory;
    struct luks_derivation_bytes derivation;
    struct luks_given given;
    struct luks_encryption_bytes encryption;
    uint64_t size;
    const uint8_t *passphrase, *text, *subsystem, *random;
    size_t passphrase_bytes, text_bytes, subsystem_bytes, random_bytes;
    struct held *source;
    struct luks_fields fields;
    const char *uuid;
};

static bool take_room(struct room *room, uint64_t calls, uint64_t bytes)
{
    if (calls > SIZE_MAX / sizeof *room->calls || bytes > SIZE_MAX)
        return false;
    free(room->calls);
    free(room->bytes);
    room->calls_room = (size_t)calls;
    room->bytes_room = (size_t)bytes;
    room->calls = malloc(room->calls_room * sizeof *room->calls);
    room->bytes = malloc(room->bytes_room);
    return room->calls != NULL && room->bytes != NULL;
}

static void give_room(struct room *room)
{
    int kept = errno;
    free(room->calls);
    free(room->bytes);
    errno = kept;
}

/* Writes `count` bytes at the place `at`. It goes on after a short write. */
static int write_all(int fd, const uint8_t *from, size_t count, uint64_t at)
{
    while (count > 0) {
        ssize_t put = pwrite(fd, from, count, (off_t)at);
        if (put < 0 && errno == EINTR)
            continue;
        if (put <= 0) {
            if (put == 0)
                errno = EIO;
            return -1;
        }
        from += put;
        count -= (size_t)put;
        at += (uint64_t)put;
    }
    return 0;
}

static int flush(int fd)
{
    int answer;
    do
        answer = fsync(fd);
    while (answer != 0 && errno == EINTR);
    return answer;
}

/* Settles what was written before, if the call can write by this descriptor. */
static uint32_t settle(int fd)
{
    uint32_t answer = judge(fd, true);
    if (answer == LUKS_DONE && flush(fd) != 0)
        answer = LUKS_DEVICE;
    return answer;
}

/* Whether the volume still has these bytes. If other bytes replaced unreadable ones, it passes over sectors that still can't be read. */
static int is_range_as_read(const struct held *held, uint64_t at, const uint8_t *bytes, uint64_t count)
{
    uint8_t again[4096];
    uint64_t piece = sizeof again;
    for (uint64_t done = 0; done < count;) {
        uint64_t place = held->start + at + done;
        size_t some = (size_t)least(piece - place % piece, count - done);
        if (read_all(held->fd, again, some, place) == 0) {
            if (memcmp(again, bytes + done, some) != 0) {
                errno = EBUSY;
                return -1;
            }
            done += some;
        } else if (held->has_blanks && piece > SECTOR)
            piece = SECTOR;
        else if (held->has_blanks && bytes[done] == held->blank && memcmp(bytes + done, bytes + done + 1, some - 1) == 0)
            done += some;
        else
            return -1;
    }
    return 0;
}

/* Whether the volume's beginning is still as it was read. A program without a lock may have written there. */
static int is_as_read(const struct held *held)
{
    const uint8_t *bytes = held->bytes;
    for (size_t i = 0; i < held->ranges_count && held->ranges[i].at < COMPARED; i++) {
        const struct luks_range *range = &held->ranges[i];
        if (is_range_as_read(held, range->at, bytes, least(range->len, COMPARED - range->at)) != 0)
            return -1;
        bytes += range->len;
    }
    return 0;
}

/* Carries out the plan, call by call. After a failure nothing more is written. */
static uint32_t play(const struct held *held, const struct room *room, const struct luks_plan *plan)
{
    const uint8_t *next = room->bytes;
    if (is_as_read(held) != 0)
        return LUKS_DEVICE;
    for (uint64_t i = 0; i < plan->calls; i++) {
        const struct luks_call *call = &room->calls[i];
        if (call->len == 0 ? flush(held->fd) != 0 : write_all(held->fd, next, (size_t)call->len, held->start + call->at) != 0)
            return LUKS_DEVICE;
        next += call->len;
    }
    return LUKS_DONE;
}

/* A text's bytes, and how many it has: none if it isn't given. */
static const uint8_t *bytes_of(const void *text)
{
    static const uint8_t nothing = 0;
    return text != NULL ? text : &nothing;
}

static size_t count_of(const char *text)
{
    return text != NULL ? strlen(text) : 0;
}

/* Plans a header that is made from the source, or copied from it. */
static uint32_t plan_of_source(const struct held *held, const struct asked *it, struct room *room, struct luks_plan *plan)
{
    const struct held *source = it->source;
    const struct luks_fields *given = &it->fields;
    if (it->kind == BACKUP)
        return luks_backup_bytes(GIVEN(source), it->is_detached, GIVEN(held), room->calls,
                                 room->calls_room, room->bytes, room->bytes_room, plan);
    if (it->kind == RESTORE)
        return luks_restore_bytes(GIVEN(source), GIVEN(held), it->is_detached,
                                  it->is_over_any, room->calls, room->calls_room, room->bytes, room->bytes_room, plan);
    if (it->kind == CONVERT)
        return luks_convert_bytes(GIVEN(source), it->is_detached, GIVEN(held), it->random,
                                  it->random_bytes, room->calls, room->calls_room, room->bytes, room->bytes_room, plan);
    if (it->kind == REBUILD2)
        return luks_rebuild2_bytes(GIVEN(source), it->is_second, it->size, bytes_of(it->uuid), count_of(it->uuid),
                                   GIVEN(held), it->random, it->random_bytes, room->calls, room->calls_room, room->bytes,
                                   room->bytes_room, plan);
    return luks_rebuild1_bytes(GIVEN(source), bytes_of(given->cipher_name), count_of(given->cipher_name),
                               bytes_of(given->cipher_mode), count_of(given->cipher_mode), bytes_of(given->hash), count_of(given->hash),
                               bytes_of(it->uuid), count_of(it->uuid), given->key_bytes, given->payload, GIVEN(held),
                               room->calls, room->calls_room, room->bytes, room->bytes_room, plan);
}

/* The arguments with which a _bytes call takes what is given for a new volume. */
#define LAYOUT(it) \
    (it)->given.sector, (it)->given.key != NULL, bytes_of((it)->given.key), (size_t)(it)->given.key_bytes, bytes_of((it)->given.uuid), \
        count_of((it)->given.uuid), bytes_of((it)->given.label), count_of((it)->given.label), bytes_of((it)->given.subsystem), \
        count_of((it)->given.subsystem), &(it)->encryption

/* Plans what the call does, from the bytes that are held. */
static uint32_t plan_of(const struct held *held, const struct asked *it, struct room *room, struct luks_plan *plan)
{
    if (it->kind == FORMAT1)
        return luks_format1_bytes(GIVEN(held), it->is_detached, LAYOUT(it), it->hash, it->iterations, it->passphrase,
                                  it->passphrase_bytes, it->random, it->random_bytes, room->calls, room->calls_room, room->bytes, room->bytes_room, plan);
    if (it->kind == FORMAT2)
        return luks_format2_bytes(GIVEN(held), it->is_detached, LAYOUT(it), it->hash, it->iterations, &it->derivation, it->passphrase,
                                  it->passphrase_bytes, it->memory, it->random, it->random_bytes, room->calls, room->calls_room, room->bytes,
                                  room->bytes_room, plan);
    if (it->kind != EDIT)
        return plan_of_source(held, it, room, plan);
    return luks_apply_bytes(GIVEN(held), it->is_detached, &it->edit, it->passphrase, it->passphrase_bytes, it->text, it->text_bytes,
                            it->subsystem, it->subsystem_bytes, it->random, it->random_bytes, room->calls, room->calls_room, room->bytes, room->bytes_room, plan);
}

/* Replaces a byte that can't be read and will only be written. It isn't 0, since no plan writes zeros over zeros. */
#define BLANK 0xFF

/* Reads the range of the volume that the plan asked for, too. If it will only be written, its sectors may be unreadable: the plan writes over each of
 * these bytes, and none is read before that, so other bytes may replace them. */
static uint32_t hold_to_write(struct held *held, const struct luks_plan *plan)
{
    held->blank = BLANK;
    held->blanks = plan->to_write == 1 ? UINT_MAX : 0;
    uint32_t answer = hold_more(held, plan->beyond);
    held->blanks = 0;
    return answer;
}

/* Makes the plan, with as many ranges and as much room as it takes, and carries it out. */
static uint32_t carry_out(struct held *held, const struct asked *it, uint32_t *slot)
{
    struct room room = {0};
    struct luks_plan plan;
    uint32_t answer = take_room(&room, CALLS_ROOM, BYTES_ROOM) ? LUKS_BEYOND : LUKS_MEMORY;
    while (answer == LUKS_BEYOND || answer == LUKS_ROOM) {
        answer = plan_of(held, it, &room, &plan);
        if (answer == LUKS_BEYOND)
            answer = plan.source_beyond.len > 0 ? hold_more(it->source, plan.source_beyond) : hold_to_write(held, &plan);
        else if (answer == LUKS_ROOM && !take_room(&room, plan.calls, plan.bytes))
            answer = LUKS_MEMORY;
    }
    forget();
    if (answer == LUKS_DONE)
        answer = play(held, &room, &plan);
    if (answer == LUKS_DONE && slot != NULL)
        *slot = plan.slot;
    give_room(&room);
    return answer;
}

/* Takes bytes from the system that nobody can guess. */
static int take_random(uint8_t *into, size_t count)
{
    while (count > 0) {
        ssize_t got = getrandom(into, count, 0);
        if (got < 0 && errno == EINTR)
            continue;
        if (got < 0)
            return -1;
        into += got;
        count -= (size_t)got;
    }
    return 0;
}

/* Calls carry_out, with `count` random bytes from the system if none are given. */
static uint32_t carry_out_by_chance(struct held *held, struct asked *it, uint64_t count, uint32_t *slot)
{
    if (it->random != NULL)
        return carry_out(held, it, slot);
    uint8_t *random = count < SIZE_MAX ? malloc((size_t)count + 1) : NULL;
    if (random == NULL)
        return LUKS_MEMORY;
    struct guarded pages = guard((uintptr_t)random, (size_t)count);
    it->random = random;
    it->random_bytes = (size_t)count;
    uint32_t answer = take_random(random, (size_t)count) == 0 ? carry_out(held, it, slot) : LUKS_DEVICE;
    int kept = errno;
    explicit_bzero(random, (size_t)count);
    unguard(&pages);
    errno = kept;
    give_wiped(random, (size_t)count);
    return answer;
}

/* The pages of the arguments that may hold passphrases and keys. */
struct secrets {
    struct guarded passphrase, text, random, key;
};

static struct secrets guard_all(const struct asked *it)
{
    struct secrets found = {guard((uintptr_t)it->passphrase, it->passphrase_bytes), guard((uintptr_t)it->text, it->text_bytes),
                            guard((uintptr_t)it->random, it->random_bytes), guard((uintptr_t)it->given.key, (size_t)it->given.key_bytes)};
    return found;
}

static void unguard_all(const struct secrets *secrets)
{
    unguard(&secrets->key);
    unguard(&secrets->random);
    unguard(&secrets->text);
    unguard(&secrets->passphrase);
}

/* How many random bytes the edit takes. */
static uint32_t need(struct held *held, const struct asked *it, uint64_t *count)
{
    struct luks_needed needed;
    uint32_t answer;
    do {
        answer = luks_needed_bytes(GIVEN(held), it->is_detached, &it->edit, it->passphrase, it->passphrase_bytes,
                                   it->text, it->text_bytes, it->subsystem, it->subsystem_bytes, &needed);
        if (answer == LUKS_BEYOND)
            answer = hold_more(held, needed.beyond);
    } while (answer == LUKS_BEYOND);
    *count = needed.random;
    return answer;
}

static bool are_given(const void *bytes, size_t count)
{
    return bytes != NULL || count == 0;
}

static const uint8_t *given(const void *bytes)
{
    static const uint8_t nothing = 0;
    return bytes != NULL ? bytes : &nothing;
}

/* The derivation that is chosen, or none; false if it can't be. */
static bool choice_of(const struct luks_derivation *derivation, struct luks_derivation_bytes *chosen)
{
    memset(chosen, 0, sizeof *chosen);
    if (derivation == NULL)
        return true;
    if (!is_known(derivation, derivation->size, sizeof *derivation) || derivation->kind == 0)
        return false;
    *chosen = (struct luks_derivation_bytes){.kind = derivation->kind, .turns = derivation->turns, .memory = derivation->memory, .lanes = derivation->lanes};
    return true;
}

/* The edit's numbers and its subsystem, in the form for a _bytes call; false if they can't be. */
static bool edit_of(const struct luks_edit *edit, struct asked *it)
{
    if (edit == NULL || !is_known(edit, edit->size, sizeof *edit) || edit->subsystem_bytes > SIZE_MAX ||
        !are_given(edit->subsystem, (size_t)edit->subsystem_bytes))
        return false;
    it->edit = (struct luks_edit_bytes){.kind = edit->kind, .slot = edit->slot, .by = edit->by, .to = edit->to, .iterations = edit->iterations,
                                        .memory = edit->memory, .older = edit->older, .by_key = edit->by_key, .subsystem = edit->subsystem != NULL};
    it->subsystem = given(edit->subsystem);
    it->subsystem_bytes = (size_t)edit->subsystem_bytes;
    return choice_of(edit->derivation, &it->edit.derivation);
}

uint32_t luks_needed(int fd, uint64_t offset, uint64_t length, bool is_detached, const struct luks_edit *edit, const void *secret,
                     size_t secret_bytes, const void *text, size_t text_bytes, uint64_t *random_bytes)
{
    struct held held;
    struct asked it = {.is_detached = is_detached, .passphrase = given(secret), .passphrase_bytes = secret_bytes, .text = given(text),
                       .text_bytes = text_bytes};
    if (!edit_of(edit, &it) || random_bytes == NULL || !are_given(secret, secret_bytes) || !are_given(text, text_bytes))
        return LUKS_USAGE;
    *random_bytes = 0;
    struct secrets secrets = guard_all(&it);
    uint32_t answer = begin(&held, fd, offset, length, HEADS);
    if (answer == LUKS_DONE)
        answer = need(&held, &it, random_bytes);
    end(&held);
    unguard_all(&secrets);
    return answer;
}

uint32_t luks_apply(int fd, uint64_t offset, uint64_t length, bool is_detached, const struct luks_edit *edit, const void *secret,
                    size_t secret_bytes, const void *text, size_t text_bytes, const void *random, size_t random_bytes, uint32_t *slot)
{
    struct held held;
    struct asked it = {.is_detached = is_detached, .passphrase = given(secret), .passphrase_bytes = secret_bytes, .text = given(text),
                       .text_bytes = text_bytes, .random = random, .random_bytes = random_bytes};
    if (!edit_of(edit, &it) || !are_given(secret, secret_bytes) || !are_given(text, text_bytes) || !are_given(random, random_bytes))
        return LUKS_USAGE;
    uint64_t count = random_bytes;
    uint32_t answer = settle(fd);
    if (answer != LUKS_DONE)
        return answer;
    struct secrets secrets = guard_all(&it);
    answer = begin(&held, fd, offset, length, WITH_KEY_AREAS);
    if (answer == LUKS_DONE && random == NULL)
        answer = need(&held, &it, &count);
    if (answer == LUKS_DONE)
        answer = carry_out_by_chance(&held, &it, count, slot);
    end(&held);
    unguard_all(&secrets);
    return answer;
}

/* Replaces LUKS_NO_SLOT by the keyslot that the passphrase opens, if the call can write by this descriptor. */
static uint32_t any_keyslot(int fd, uint64_t offset, uint64_t length, const void *passphrase, size_t passphrase_bytes, uint32_t memory, uint32_t older,
                            uint32_t *slot)
{
    struct luks_opened opened = {.size = sizeof opened};
    if (*slot != LUKS_NO_SLOT)
        return LUKS_DONE;
    uint32_t answer = judge(fd, true);
    if (answer == LUKS_DONE)
        answer = luks_unlock(fd, offset, length, passphrase, passphrase_bytes, memory, older, NULL, 0, &opened);
    *slot = opened.slot;
    return answer;
}

uint32_t luks_add(int fd, uint64_t offset, uint64_t length, bool is_detached, uint32_t by, const void *passphrase, size_t passphrase_bytes,
                  const void *added, size_t added_bytes, uint32_t to, uint32_t iterations, const struct luks_derivation *derivation,
                  uint32_t memory, uint32_t older, uint32_t *slot)
{
    struct luks_edit edit = {.size = sizeof edit, .kind = LUKS_ADD, .by = by, .to = to, .iterations = iterations, .memory = memory, .older = older,
                             .derivation = derivation};
    uint32_t answer = any_keyslot(fd, offset, length, passphrase, passphrase_bytes, memory, older, &edit.by);
    return answer != LUKS_DONE ? answer : luks_apply(fd, offset, length, is_detached, &edit, passphrase, passphrase_bytes, added, added_bytes, NULL, 0, slot);
}

uint32_t luks_add_by_key(int fd, uint64_t offset, uint64_t length, bool is_detached, uint32_t by, const void *key, size_t key_bytes,
                         const void *added, size_t added_bytes, uint32_t to, uint32_t iterations, const struct luks_derivation *derivation,
                         uint32_t memory, uint32_t older, uint32_t *slot)
{
    struct luks_edit edit = {.size = sizeof edit, .kind = LUKS_ADD, .by = by, .to = to, .iterations = iterations, .memory = memory, .older = older,
                             .by_key = 1, .derivation = derivation};
    return luks_apply(fd, offset, length, is_detached, &edit, key, key_bytes, added, added_bytes, NULL, 0, slot);
}

uint32_t luks_change(int fd, uint64_t offset, uint64_t length, bool is_detached, uint32_t slot, const void *passphrase, size_t passphrase_bytes,
                     const void *changed, size_t changed_bytes, uint32_t iterations, const struct luks_derivation *derivation,
                     uint32_t memory, uint32_t older, uint32_t *made)
{
    struct luks_edit edit = {.size = sizeof edit, .kind = LUKS_CHANGE, .slot = slot, .iterations = iterations, .memory = memory, .older = older,
                             .derivation = derivation};
    uint32_t answer = any_keyslot(fd, offset, length, passphrase, passphrase_bytes, memory, older, &edit.slot);
    return answer != LUKS_DONE ? answer : luks_apply(fd, offset, length, is_detached, &edit, passphrase, passphrase_bytes, changed, changed_bytes, NULL, 0, made);
}

uint32_t luks_remove(int fd, uint64_t offset, uint64_t length, bool is_detached, uint32_t slot, uint32_t by, const void *passphrase,
                     size_t passphrase_bytes, uint32_t memory, uint32_t older)
{
    struct luks_edit edit = {.size = sizeof edit, .kind = LUKS_REMOVE, .slot = slot, .by = by, .memory = memory, .older = older};
    return luks_apply(fd, offset, length, is_detached, &edit, passphrase, passphrase_bytes, NULL, 0, NULL, 0, NULL);
}

uint32_t luks_erase(int fd, uint64_t offset, uint64_t length, bool is_detached)
{
    struct luks_edit edit = {.size = sizeof edit, .kind = LUKS_ERASE};
    return luks_apply(fd, offset, length, is_detached, &edit, NULL, 0, NULL, 0, NULL, 0, NULL);
}

uint32_t luks_repair(int fd, uint64_t offset, uint64_t length, bool is_detached)
{
    struct luks_edit edit = {.size = sizeof edit, .kind = LUKS_REPAIR};
    return luks_apply(fd, offset, length, is_detached, &edit, NULL, 0, NULL, 0, NULL, 0, NULL);
}

uint32_t luks_label(int fd, uint64_t offset, uint64_t length, bool is_detached, const char *label, size_t label_bytes)
{
    return luks_label_subsystem(fd, offset, length, is_detached, label, label_bytes, NULL, 0);
}

uint32_t luks_label_subsystem(int fd, uint64_t offset, uint64_t length, bool is_detached, const char *label, size_t label_bytes, const char *subsystem,
                              size_t subsystem_bytes)
{
    struct luks_edit edit = {.size = sizeof edit, .kind = LUKS_LABEL, .subsystem = subsystem, .subsystem_bytes = subsystem_bytes};
    return luks_apply(fd, offset, length, is_detached, &edit, NULL, 0, label, label_bytes, NULL, 0, NULL);
}

uint32_t luks_set_uuid(int fd, uint64_t offset, uint64_t length, bool is_detached, const char *uuid)
{
    struct luks_edit edit = {.size = sizeof edit, .kind = LUKS_UUID};
    return luks_apply(fd, offset, length, is_detached, &edit, NULL, 0, uuid, uuid == NULL ? 0 : strlen(uuid), NULL, 0, NULL);
}

uint32_t luks_set_priority(int fd, uint64_t offset, uint64_t length, bool is_detached, uint32_t slot, uint32_t priority)
{
    struct luks_edit edit = {.size = sizeof edit, .kind = LUKS_PRIORITY, .slot = slot, .to = priority};
    return luks_apply(fd, offset, length, is_detached, &edit, NULL, 0, NULL, 0, NULL, 0, NULL);
}

uint32_t luks_token_add(int fd, uint64_t offset, uint64_t length, bool is_detached, const char *text, size_t text_bytes, uint32_t to)
{
    struct luks_edit edit = {.size = sizeof edit, .kind = LUKS_TOKEN_ADD, .to = to};
    return luks_apply(fd, offset, length, is_detached, &edit, NULL, 0, text, text_bytes, NULL, 0, NULL);
}

uint32_t luks_token_remove(int fd, uint64_t offset, uint64_t length, bool is_detached, uint32_t number)
{
    struct luks_edit edit = {.size = sizeof edit, .kind = LUKS_TOKEN_REMOVE, .to = number};
    return luks_apply(fd, offset, length, is_detached, &edit, NULL, 0, NULL, 0, NULL, 0, NULL);
}

/* What is given for a new volume, or nothing; false if it can't be. */
static bool layout_of(const struct luks_given *given, struct luks_given *layout)
{
    *layout = (struct luks_given){.size = sizeof *layout, .sector = LUKS_NO_SECTOR};
    if (given == NULL)
        return true;
    if (!is_known(given, given->size, sizeof *given) || given->key_bytes > SIZE_MAX || given->nothing != 0)
        return false;
    memcpy(layout, given, sizeof *layout);
    return true;
}

/* The longest volume key of a new volume, in bytes, and how many random bytes each of its bytes takes. */
#define MOST_KEY_BYTES 64
#define RANDOM_BYTES 4000

/* How it is encrypted, in the form for a _bytes call. What isn't given gets the program's default. */
static struct luks_encryption_bytes encryption_of(const struct luks_given *given)
{
    struct luks_encryption_bytes found = {.cipher = given->cipher, .key_bytes = (uint32_t)least(given->key_bytes, UINT32_MAX),
                                          .sector_bytes = given->sector_bytes, .older = given->older};
    if (found.cipher == 0)
        found.cipher = LUKS_AES_XTS_PLAIN64;
    if (found.key_bytes == 0)
        found.key_bytes = found.cipher >= LUKS_AES_CBC_ESSIV_SHA256 ? 32 : MOST_KEY_BYTES;
    if (found.sector_bytes == 0)
        found.sector_bytes = 512;
    return found;
}

/* Makes a volume. It takes `count` random bytes, and more for each byte of its key. */
static uint32_t format(int fd, uint64_t offset, uint64_t length, const struct luks_given *layout, struct asked *it, uint64_t count)
{
    struct held held;
    if (!layout_of(layout, &it->given) || !are_given(it->passphrase, it->passphrase_bytes) || !are_given(it->random, it->random_bytes))
        return LUKS_USAGE;
    it->passphrase = given(it->passphrase);
    it->encryption = encryption_of(&it->given);
    count += RANDOM_BYTES * least(it->encryption.key_bytes, MOST_KEY_BYTES);
    if (it->given.key == NULL)
        it->given.key_bytes = 0;
    uint32_t answer = settle(fd);
    if (answer != LUKS_DONE)
        return answer;
    struct secrets secrets = guard_all(it);
    answer = begin(&held, fd, offset, length, HEADS);
    if (answer == LUKS_DONE)
        answer = carry_out_by_chance(&held, it, count, NULL);
    end(&held);
    unguard_all(&secrets);
    return answer;
}

uint32_t luks_format1(int fd, uint64_t offset, uint64_t length, bool is_detached, const struct luks_given *given, uint32_t hash, uint32_t iterations,
                      const void *passphrase, size_t passphrase_bytes, const void *random, size_t random_bytes)
{
    struct asked it = {.kind = FORMAT1, .is_detached = is_detached, .hash = hash, .iterations = iterations, .passphrase = passphrase,
                       .passphrase_bytes = passphrase_bytes, .random = random, .random_bytes = random_bytes};
    return format(fd, offset, length, given, &it, 80);
}

uint32_t luks_format2(int fd, uint64_t offset, uint64_t length, bool is_detached, const struct luks_given *given, uint32_t hash, uint32_t iterations,
                      const struct luks_derivation *derivation, const void *passphrase, size_t passphrase_bytes, uint32_t memory,
                      const void *random, size_t random_bytes)
{
    struct asked it = {.kind = FORMAT2, .is_detached = is_detached, .hash = hash, .iterations = iterations, .passphrase = passphrase,
                       .passphrase_bytes = passphrase_bytes, .memory = memory, .random = random, .random_bytes = random_bytes};
    if (!choice_of(derivation, &it.derivation))
        return LUKS_USAGE;
    return format(fd, offset, length, given, &it, 208);
}

/* ---- costs by time ---- */

/* How much longer than the least derivation one has to take, so that the clock tells the time of its turns: 0.25 s. */
#define SAMPLE 250000000.0

/* The least costs of a derivation that the program chooses. */
#define LEAST_TURNS 1000
#define LEAST_PASSES 4
#define LEAST_KIB ((uint32_t)64 << 10)

/* How many nanoseconds it takes to make a volume in memory whose keyslot has this derivation. */
static double time_of(int fd, uint32_t hash, const struct luks_derivation *derivation, uint32_t *answer)
{
    struct timespec begun, ended;
    (void)clock_gettime(CLOCK_MONOTONIC, &begun);
    *answer = luks_format2(fd, 0, LUKS_TO_END, true, NULL, hash, LEAST_TURNS, derivation, "", 0, derivation->memory, NULL, 0);
    (void)clock_gettime(CLOCK_MONOTONIC, &ended);
    return (double)(ended.tv_sec - begun.tv_sec) * 1e9 + (double)(ended.tv_nsec - begun.tv_nsec);
}

static uint32_t within(double number, uint32_t low, uint32_t high)
{
    return number <= low ? low : number >= high ? high : (uint32_t)number;
}

/* Finds how many turns of PBKDF2 take `wanted` nanoseconds. It times more and more turns until they take long enough. */
static uint32_t turns_of(int fd, uint32_t hash, double wanted, struct luks_derivation *derivation)
{
    uint32_t answer;
    derivation->turns = LEAST_TURNS;
    double least = time_of(fd, hash, derivation, &answer), took = least;
    while (answer == LUKS_DONE && took - least < SAMPLE && derivation->turns < UINT32_MAX / 4) {
        derivation->turns *= 4;
        took = time_of(fd, hash, derivation, &answer);
    }
    double each = (took - least) / (derivation->turns - LEAST_TURNS);
    derivation->turns = within(wanted / (each > 0 ? each : 1), LEAST_TURNS, UINT32_MAX);
    return answer;
}

/* Finds how many passes of Argon2 take `wanted` nanoseconds, over as much memory as it may take, or over less if the least passes take longer. */
static uint32_t passes_of(int fd, uint32_t hash, double wanted, struct luks_derivation *derivation)
{
    uint32_t answer, most = derivation->memory, sampled = most < LEAST_KIB ? most : LEAST_KIB;
    struct luks_derivation least = {.size = sizeof least, .kind = LUKS_PBKDF2, .turns = LEAST_TURNS};
    double others = time_of(fd, hash, &least, &answer);
    derivation->turns = LEAST_PASSES;
    derivation->memory = sampled;
    double took = answer == LUKS_DONE ? time_of(fd, hash, derivation, &answer) - others : 0;
    double each = (took > 1 ? took : 1) / ((double)LEAST_PASSES * sampled);
    derivation->memory = within(wanted / (each * LEAST_PASSES), sampled, most) / 1024 * 1024;
    if (derivation->memory < sampled)
        derivation->memory = sampled;
    derivation->turns = within(wanted / (each * derivation->memory), LEAST_PASSES, UINT32_MAX);
    return answer;
}

uint32_t luks_costs(uint32_t kind, uint32_t hash, uint32_t milliseconds, uint32_t memory, uint32_t lanes, struct luks_derivation *derivation)
{
    if (derivation == NULL || !is_size(derivation->size, sizeof *derivation) || kind < LUKS_PBKDF2 || kind > LUKS_ARGON2ID || hash < LUKS_SHA1 || hash > LUKS_SHA512)
        return LUKS_USAGE;
    clear(derivation, derivation->size);
    derivation->kind = kind;
    int fd = memfd_create("luks", MFD_CLOEXEC);
    if (fd < 0)
        return LUKS_DEVICE;
    bool is_pbkdf2 = kind == LUKS_PBKDF2;
    derivation->memory = is_pbkdf2 ? 0 : memory;
    derivation->lanes = is_pbkdf2 ? 0 : lanes;
    uint32_t answer = LUKS_DEVICE;
    double wanted = (double)milliseconds * 1e6;
    if (ftruncate(fd, (off_t)1 << 24) == 0)
        answer = is_pbkdf2 ? turns_of(fd, hash, wanted, derivation) : passes_of(fd, hash, wanted, derivation);
    int kept = errno;
    close(fd);
    errno = kept;
    return answer;
}

/* ---- a header that is made from a source ---- */

/* The bytes of a LUKS1 header. */
#define HEADER1 592

/* Whether both descriptors are of one file, or of one block device; -1 if that can't be found out. */
static int are_one(int first, int second)
{
    struct stat one, other;
    if (fstat(first, &one) != 0 || fstat(second, &other) != 0)
        return -1;
    if (S_ISBLK(one.st_mode) && S_ISBLK(other.st_mode))
        return one.st_rdev == other.st_rdev;
    return one.st_dev == other.st_dev && one.st_ino == other.st_ino;
}

/* Settles the target, and sets up both windows. */
static uint32_t begin_both(struct held *source, int source_fd, uint64_t source_offset, uint64_t source_length, struct held *held, int fd,
                           uint64_t offset, uint64_t length)
{
    memset(source, 0, sizeof *source);
    memset(held, 0, sizeof *held);
    int is_one = are_one(source_fd, fd);
    if (is_one != 0)
        return is_one > 0 ? (uint32_t)LUKS_FAULT_SAME_FILE : (uint32_t)LUKS_DEVICE;
    /* no keyslot is opened, so calling once more costs little */
    uint32_t answer = settle(fd);
    if (answer == LUKS_DONE)
        answer = begin(source, source_fd, source_offset, source_length, HEADS);
    return answer == LUKS_DONE ? begin(held, fd, offset, length, HEADS) : answer;
}

static void end_both(struct held *source, struct held *held)
{
    end(source);
    end(held);
}

uint32_t luks_convert(int source_fd, uint64_t source_offset, uint64_t source_length, bool is_detached, int fd, uint64_t offset, uint64_t length,
                      const void *random, size_t random_bytes)
{
    struct held source, held;
    if (!are_given(random, random_bytes))
        return LUKS_USAGE;
    struct asked it = {.kind = CONVERT, .is_detached = is_detached, .source = &source, .random = random, .random_bytes = random_bytes};
    uint32_t answer = begin_both(&source, source_fd, source_offset, source_length, &held, fd, offset, length);
    if (answer == LUKS_DONE)
        answer = carry_out_by_chance(&held, &it, 128, NULL);
    end_both(&source, &held);
    return answer;
}

uint32_t luks_rebuild2(int source_fd, uint64_t source_offset, uint64_t source_length, bool is_second, uint64_t size, const char *uuid, int fd,
                       uint64_t offset, uint64_t length, const void *random, size_t random_bytes)
{
    struct held source, held;
    if (!are_given(random, random_bytes))
        return LUKS_USAGE;
    struct asked it = {.kind = REBUILD2, .is_second = is_second, .size = size, .uuid = uuid, .source = &source, .random = random,
                       .random_bytes = random_bytes};
    uint32_t answer = begin_both(&source, source_fd, source_offset, source_length, &held, fd, offset, length);
    if (answer == LUKS_DONE)
        answer = carry_out_by_chance(&held, &it, 144, NULL);
    end_both(&source, &held);
    return answer;
}

static const struct luks_fields NO_FIELDS = {.size = sizeof NO_FIELDS, .key_bytes = LUKS_NO_NUMBER, .payload = LUKS_NO_NUMBER};

uint32_t luks_rebuild1(int source_fd, uint64_t source_offset, uint64_t source_length, const struct luks_fields *fields, const char *uuid, int fd,
                       uint64_t offset, uint64_t length)
{
    struct held source, held;
    if (fields != NULL && !is_known(fields, fields->size, sizeof *fields))
        return LUKS_USAGE;
    struct asked it = {.kind = REBUILD1, .fields = fields != NULL ? *fields : NO_FIELDS, .uuid = uuid, .source = &source};
    uint32_t answer = begin_both(&source, source_fd, source_offset, source_length, &held, fd, offset, length);
    if (answer == LUKS_DONE)
        answer = carry_out(&held, &it, NULL);
    end_both(&source, &held);
    return answer;
}

/* Whether a fault of LUKS2 leads to LUKS1, by the source's first bytes: no metadata is whole, and they don't begin a LUKS2 header; or they begin a
 * LUKS1 header, accepted or not. */
static bool leads_to_luks1(const struct held *source, uint32_t fault)
{
    static const uint8_t magic[] = {'L', 'U', 'K', 'S', 0xBA, 0xBE};
    const uint8_t *header = held_at(source, 0, HEADER1);
    if (header == NULL)
        return false;
    unsigned version = (unsigned)header[6] << 8 | header[7];
    if (fault == LUKS_FAULT_NO_METADATA)
        return version != 2;
    return fault == LUKS_FAULT_COUNTS && memcmp(header, magic, sizeof magic) == 0 && version == 1;
}

uint32_t luks_rebuild(int source_fd, uint64_t source_offset, uint64_t source_length, const char *uuid, int fd, uint64_t offset, uint64_t length,
                      const void *random, size_t random_bytes)
{
    struct held source, held;
    if (!are_given(random, random_bytes))
        return LUKS_USAGE;
    struct asked it = {.kind = REBUILD2, .fields = NO_FIELDS, .uuid = uuid, .source = &source, .random = random, .random_bytes = random_bytes};
    uint32_t answer = begin_both(&source, source_fd, source_offset, source_length, &held, fd, offset, length);
    if (answer == LUKS_DONE)
        answer = carry_out_by_chance(&held, &it, 144, NULL);
    if (leads_to_luks1(&source, answer)) {
        it.kind = REBUILD1;
        uint32_t instead = carry_out(&held, &it, NULL);
        answer = instead == LUKS_FAULT_NO_HEADER ? answer : instead;
    }
    end_both(&source, &held);
    return answer;
}

/* ---- header backups ---- */

uint32_t luks_backup_length(int fd, uint64_t offset, uint64_t length, bool is_detached, uint64_t *bytes)
{
    struct luks_length told = {0};
    struct held held;
    if (bytes == NULL)
        return LUKS_USAGE;
    uint32_t answer = begin(&held, fd, offset, length, HEADS);
    if (answer == LUKS_DONE)
        do {
            answer = luks_backup_length_bytes(GIVEN(&held), is_detached, &told);
            if (answer == LUKS_BEYOND)
                answer = hold_more(&held, told.beyond);
        } while (answer == LUKS_BEYOND);
    *bytes = answer == LUKS_DONE ? told.bytes : 0;
    end(&held);
    return answer;
}

uint32_t luks_backup(int source_fd, uint64_t source_offset, uint64_t source_length, bool is_detached, int fd, uint64_t offset, uint64_t length)
{
    struct held source, held;
    struct asked it = {.kind = BACKUP, .is_detached = is_detached, .source = &source};
    uint32_t answer = begin_both(&source, source_fd, source_offset, source_length, &held, fd, offset, length);
    if (answer == LUKS_DONE)
        answer = carry_out(&held, &it, NULL);
    end_both(&source, &held);
    return answer;
}

uint32_t luks_restore(int backup_fd, uint64_t backup_offset, uint64_t backup_length, int fd, uint64_t offset, uint64_t length, bool is_detached,
                      bool is_over_any)
{
    struct held backup, held;
    struct asked it = {.kind = RESTORE, .is_detached = is_detached, .is_over_any = is_over_any, .source = &backup};
    uint32_t answer = begin_both(&backup, backup_fd, backup_offset, backup_length, &held, fd, offset, length);
    if (answer == LUKS_DONE)
        answer = carry_out(&held, &it, NULL);
    end_both(&backup, &held);
    return answer;
}

uint32_t luks_compare(int backup_fd, uint64_t backup_offset, uint64_t backup_length, int fd, uint64_t offset, uint64_t length, bool is_detached,
                      uint8_t keyslots[LUKS_KEYSLOTS], bool *is_same_key)
{
    struct luks_compared told = {0};
    struct held backup = {0}, held = {0};
    if (keyslots == NULL)
        return LUKS_USAGE;
    int is_one = are_one(backup_fd, fd);
    if (is_one != 0)
        return is_one > 0 ? (uint32_t)LUKS_FAULT_SAME_FILE : (uint32_t)LUKS_DEVICE;
    uint32_t answer = begin(&backup, backup_fd, backup_offset, backup_length, HEADS);
    if (answer == LUKS_DONE)
        answer = begin(&held, fd, offset, length, HEADS);
    if (answer == LUKS_DONE)
        do {
            answer = luks_compare_bytes(GIVEN(&backup), GIVEN(&held), is_detached, keyslots,
                                        LUKS_KEYSLOTS, &told);
            if (answer == LUKS_BEYOND)
                answer = told.backup_beyond.len > 0 ? hold_more(&backup, told.backup_beyond) : hold_more(&held, told.beyond);
        } while (answer == LUKS_BEYOND);
    if (answer == LUKS_DONE && is_same_key != NULL)
        *is_same_key = told.same_key == 1;
    end_both(&backup, &held);
    return answer;
}

/* ---- volumes on a disk ---- */

/* A disk is searched by blocks, small ones first. A volume is found by the 8 MiB from its start on: two copies of 4 MiB. Its second copy may be the
 * first one of another volume, which the next 4 MiB show. Its first copy may be the second one of another volume, which the 4 MiB before it show. So
 * a block finds all volumes that begin in it, except in its first 4 MiB, which belong to the block before, and in its last 12 MiB, which belong to
 * the next block. */
#define LEAST_BLOCK ((uint64_t)1 << 25)
#define MOST_BLOCK ((uint64_t)1 << 26)
#define EXPLAINS ((uint64_t)4 << 20)
#define TELLS ((uint64_t)12 << 20)

/* Finds the first start in the block that is held, from `from` on and before the end `before`; LUKS_TO_END if there is none. */
static uint32_t find_in(struct held *held, uint64_t from, uint64_t before, uint64_t *place)
{
    struct luks_found found = {.count = 64};
    uint64_t *starts = NULL;
    uint32_t answer = LUKS_ROOM;
    while (answer == LUKS_ROOM || answer == LUKS_BEYOND) {
        size_t room = (size_t)found.count;
        free(starts);
        starts = malloc(room * sizeof *starts);
        if (starts == NULL)
            return LUKS_MEMORY;
        answer = luks_find_bytes(GIVEN(held), starts, room, &found);
        if (answer == LUKS_BEYOND) {
            found.count = room;
            answer = hold_more(held, found.beyond);
        }
    }
    *place = LUKS_TO_END;
    for (uint64_t i = 0; answer == LUKS_DONE && i < found.count; i++)
        if (starts[i] >= from && starts[i] < before)
            *place = least(*place, starts[i]);
    free(starts);
    return answer;
}

uint32_t luks_find(int fd, uint64_t offset, uint64_t length, uint64_t from, uint64_t *place)
{
    return luks_find_watched(fd, offset, length, from, NULL, NULL, place);
}

/* Searches one block, which begins at `first` in the window, for the first start from `at` on and before `before`. `unread` is the place that
 * couldn't be read, or LUKS_TO_END. Up to `blanks` unreadable sectors count as zeros. */
static uint32_t find_in_block(int fd, uint64_t start, uint64_t first, uint64_t count, uint64_t at, uint64_t before, unsigned blanks, uint64_t *place,
                              uint64_t *unread)
{
    struct held held;
    *place = *unread = LUKS_TO_END;
    uint32_t answer = begin(&held, fd, start + first, count, count);
    held.blanks = blanks;
    if (answer == LUKS_DONE)
        answer = find_in(&held, at - first, before - first, place);
    if (answer == LUKS_DONE && *place != LUKS_TO_END)
        *place += first;
    if (answer == LUKS_DEVICE && held.unread != LUKS_TO_END)
        *unread = first + held.unread;
    end(&held);
    return answer;
}

/* Over how many unreadable sectors a search goes on: each takes a failing disk a second or more. */
#define MOST_BLANKS 16

/* Passes over a sector that can't be read. If it is before `at`, the block of `count` bytes then begins after it. Else it searches for a volume that
 * begins from `at` on and not after the sector; its second copy may tell of it. If there is none, the answer is LUKS_DEVICE, and `place` is the first
 * byte after the sector. That is also the answer if the search goes on inside the sector, after a volume that begins there. */
static uint32_t pass_over(int fd, uint64_t start, uint64_t *first, uint64_t count, uint64_t from, uint64_t at, uint64_t unread, uint64_t *place)
{
    uint64_t again, behind = ((start + unread) / SECTOR + 1) * SECTOR - start;
    if (behind <= at && (from <= unread || from >= behind)) {
        *first = behind;
        return LUKS_DONE;
    }
    again = LUKS_TO_END;
    uint32_t answer = at < behind ? find_in_block(fd, start, *first, count, at, behind, MOST_BLANKS, place, &again) : (uint32_t)LUKS_DONE;
    if (again != LUKS_TO_END)
        answer = unread > at ? find_in_block(fd, start, *first, unread - *first, at, unread, 0, place, &again) : (uint32_t)LUKS_DONE;
    if (answer != LUKS_DONE || *place != LUKS_TO_END)
        return answer;
    *place = behind;
    errno = EIO;
    return LUKS_DEVICE;
}

uint32_t luks_find_watched(int fd, uint64_t offset, uint64_t length, uint64_t from, luks_progress *progress, void *context, uint64_t *place)
{
    uint64_t total = 0, block = LEAST_BLOCK;
    if (place == NULL)
        return LUKS_USAGE;
    *place = LUKS_TO_END;
    uint32_t judged = judge(fd, false);
    if (judged != LUKS_DONE)
        return judged;
    if (length_of(fd, &total) != 0)
        return LUKS_DEVICE;
    uint64_t start = least(offset, total), at = from;
    total = least(length, total - start);
    if (from % SECTOR != 0)
        at = least(from, total) / SECTOR * SECTOR + SECTOR;
    while (at < total) {
        uint64_t unread = LUKS_TO_END, first = at - least(at, EXPLAINS), before;
        if (!goes_on(progress, context, at, total))
            return LUKS_STOPPED;
        uint32_t answer = LUKS_DEVICE;
        do {
            uint64_t count = least(block, total - first);
            before = first + (count < total - first ? count - TELLS : count);
            answer = find_in_block(fd, start, first, count, at, before, 0, place, &unread);
            if (unread != LUKS_TO_END)
                answer = pass_over(fd, start, &first, count, from, at, unread, place);
        } while (answer == LUKS_DONE && unread < at);
        if (answer != LUKS_DONE || *place != LUKS_TO_END)
            return answer;
        at = before;
        block = least(block * 2, MOST_BLOCK);
    }
    return LUKS_DONE;
}

/* Stops a search after one block, and keeps where the next one begins. */
struct step {
    bool is_begun;
    uint64_t reached;
};

static int step_once(void *context, uint64_t done, uint64_t total)
{
    struct step *step = context;
    bool is_second = step->is_begun;
    (void)total;
    step->is_begun = true;
    step->reached = done;
    return is_second;
}

uint32_t luks_find_step(int fd, uint64_t offset, uint64_t length, uint64_t from, uint64_t *place, uint64_t *reached)
{
    struct step step = {.reached = from};
    if (reached == NULL)
        return LUKS_USAGE;
    *reached = LUKS_TO_END;
    uint32_t answer = luks_find_watched(fd, offset, length, from, step_once, &step, place);
    if (answer == LUKS_DEVICE && place != NULL) {
        *reached = *place;
        *place = LUKS_TO_END;
    }
    if (answer != LUKS_STOPPED)
        return answer;
    *reached = step.reached;
    return LUKS_DONE;
}

/* ---- a volume by its name ---- */

/* The folder of cryptsetup's lock files for block devices. */
#define LOCKS "/run/cryptsetup"

/* The pause before a lock is asked for again, in milliseconds. */
#define PAUSE 50

/* What one try to lock a file gave: the lock is held, another program holds it or may by now, or the file can't be locked. */
enum lock { HELD, TAKEN, UNKNOWN };

static enum lock lock_once(int fd, bool writes)
{
    int answer;
    do
        answer = flock(fd, (writes ? LOCK_EX : LOCK_SH) | LOCK_NB);
    while (answer != 0 && errno == EINTR);
    return answer == 0 ? HELD : errno == EWOULDBLOCK ? TAKEN : UNKNOWN;
}

/* Whether this file still has the name. */
static bool is_at(int fd, const char *name)
{
    struct stat held, named;
    return fstat(fd, &held) == 0 && lstat(name, &named) == 0 && held.st_dev == named.st_dev && held.st_ino == named.st_ino;
}

/* Tries once to lock cryptsetup's file for a block device, makes it if it is missing, and keeps it open in `lock`. cryptsetup removes the file when
 * it releases it, and a lock on a removed file is worth nothing. So the name is looked up again. */
static enum lock lock_name(dev_t device, bool writes, int *lock)
{
    char name[64];
    struct stat folder, found;
    snprintf(name, sizeof name, LOCKS "/L_%u:%u", major(device), minor(device));
    (void)mkdir(LOCKS, 0700);
    if (lstat(LOCKS, &folder) != 0 || !S_ISDIR(folder.st_mode))
        return UNKNOWN;
    int fd = open(name, O_RDWR | O_CREAT | O_NOFOLLOW | O_CLOEXEC | O_NONBLOCK, 0600);
    if (fd < 0)
        return UNKNOWN;
    enum lock answer = fstat(fd, &found) == 0 && S_ISREG(found.st_mode) ? lock_once(fd, writes) : UNKNOWN;
    if (answer == HELD && !is_at(fd, name))
        answer = TAKEN;
    if (answer == HELD)
        *lock = fd;
    else
        close(fd);
    return answer;
}

/* Tries once to take all locks of the open file. */
static enum lock lock_volume(const struct stat *about, bool writes, struct luks_volume *volume)
{
    enum lock answer = lock_once(volume->fd, writes);
    if (answer != TAKEN && S_ISBLK(about->st_mode))
        answer = lock_name(about->st_rdev, writes, &volume->lock);
    return answer;
}

/* Refuses what is neither a regular file nor a block device, and a read-only device that is to be written. */
static int judge_kind(const struct stat *about, int fd, bool writes)
{
    int is_read_only = 0;
    if (!S_ISREG(about->st_mode) && !S_ISBLK(about->st_mode)) {
        errno = ESPIPE;
        return -1;
    }
    if (writes && S_ISBLK(about->st_mode) && ioctl(fd, BLKROGET, &is_read_only) == 0 && is_read_only) {
        errno = EROFS;
        return -1;
    }
    return 0;
}

/* Waits for the locks, for at most `milliseconds`. */
static uint32_t wait_for_locks(const struct stat *about, bool writes, uint32_t milliseconds, struct luks_volume *volume)
{
    const struct timespec pause = {.tv_nsec = PAUSE * 1000000L};
    for (uint32_t waited = 0; lock_volume(about, writes, volume) == TAKEN; waited += PAUSE) {
        if (milliseconds <= waited)
            return LUKS_BUSY;
        (void)nanosleep(&pause, NULL);
    }
    return LUKS_DONE;
}

uint32_t luks_open_volume(const char *name, bool writes, uint32_t milliseconds, struct luks_volume *volume)
{
    struct stat about;
    if (name == NULL || volume == NULL || !is_size(volume->size, sizeof *volume))
        return LUKS_USAGE;
    clear(volume, volume->size);
    volume->lock = -1;
    /* opening a pipe for reading would wait for its writer */
    volume->fd = open(name, (writes ? O_RDWR : O_RDONLY) | O_CLOEXEC | O_NONBLOCK | O_NOCTTY);
    uint32_t answer = LUKS_DEVICE;
    if (volume->fd >= 0 && fstat(volume->fd, &about) == 0 && judge_kind(&about, volume->fd, writes) == 0)
        answer = wait_for_locks(&about, writes, milliseconds, volume);
    if (answer != LUKS_DONE)
        luks_close_volume(volume);
    return answer;
}

void luks_close_volume(struct luks_volume *volume)
{
    int kept = errno;
    if (volume->lock >= 0)
        close(volume->lock);
    if (volume->fd >= 0)
        close(volume->fd);
    volume->fd = volume->lock = -1;
    errno = kept;
}

/* ---- which library this is ---- */

const char *luks_version(void)
{
    return VERSION;
}
