/* Calls of libluks of which one system call on a descriptor fails: failing-library CALL VOLUME OTHER RANDOM N MODE
 *
 * luks.c is compiled with pread, pwrite and fsync as they stand here. The Nth of them, counted from 1, fails by the MODE: eio, enospc, after (it and all
 * later ones), torn (a write leaves its first half), short (it does one byte), intr, or kill (the process ends there). Prints the call's answer, errno's
 * name where that is LUKS_DEVICE, and how many of these calls were made. Beside the calls there are `opens PASSPHRASE ..`, which prints the answer and the keyslot of each, and
 * `random SEED COUNT`, which makes all calls with arguments and on files that a generator makes of VOLUME and OTHER.
 */
#define _GNU_SOURCE
#include <errno.h>
#include <fcntl.h>
#include <luks.h>
#include <stdio.h>
#include <stdlib.h>
#include <string.h>
#include <sys/mman.h>
#include <unistd.h>

static unsigned long made, failing;
static const char *mode = "none";

/* Whether this call fails, and then errno. */
static bool fails(void)
{
    made++;
    bool is_it = made == failing || (made > failing && failing > 0 && strcmp(mode, "after") == 0);
    if (is_it && strcmp(mode, "kill") == 0)
        _exit(77);
    errno = strcmp(mode, "intr") == 0 ? EINTR : strcmp(mode, "enospc") == 0 ? ENOSPC : EIO;
    return is_it;
}

ssize_t failing_pread(int fd, void *into, size_t count, off_t at)
{
    if (!fails())
        return pread(fd, into, count, at);
    return strcmp(mode, "short") == 0 ? pread(fd, into, count > 0, at) : -1;
}

ssize_t failing_pwrite(int fd, const void *from, size_t count, off_t at)
{
    if (!fails())
        return pwrite(fd, from, count, at);
    if (strcmp(mode, "short") == 0)
        return pwrite(fd, from, count > 0, at);
    int kept = errno;
    if (strcmp(mode, "torn") == 0 && pwrite(fd, from, count / 2, at) < 0)
        return -1;
    errno = kept;
    return -1;
}

int failing_fsync(int fd)
{
    return fails() && strcmp(mode, "short") != 0 ? -1 : fsync(fd);
}

#define ALL 0, LUKS_TO_END

struct given {
    uint8_t bytes[1 << 19];
    size_t count;
};

static uint32_t edited(int fd, uint32_t kind, const struct given *random)
{
    struct luks_derivation derivation = {.size = sizeof derivation, .kind = LUKS_PBKDF2, .turns = 1000};
    struct luks_edit edit = {.size = sizeof edit, .kind = kind, .slot = kind == LUKS_REMOVE ? 1 : 0, .by = 0, .to = LUKS_NO_SLOT, .iterations = 1000, .derivation = &derivation};
    const char *text = kind == LUKS_LABEL ? "label" : kind == LUKS_TOKEN_ADD ? "{\"type\": \"t\", \"keyslots\": [\"1\"]}" : "new";
    if (kind == LUKS_LABEL)
        edit.subsystem = "subsystem", edit.subsystem_bytes = strlen(edit.subsystem);
    if (kind == LUKS_PRIORITY)
        edit.to = LUKS_PREFER;
    if (kind == LUKS_TOKEN_REMOVE)
        edit.to = 0;
    uint64_t needed = 0;
    uint32_t slot, answer = luks_needed(fd, ALL, false, &edit, "one", 3, text, strlen(text), &needed);
    if (answer != LUKS_DONE)
        return answer;
    return luks_apply(fd, ALL, false, &edit, "one", 3, text, strlen(text), random->bytes, needed < random->count ? (size_t)needed : random->count, &slot);
}

/* All records of the header: a fault is that of the first call. */
static uint32_t records(int fd)
{
    struct luks_keyslot keyslots[LUKS_KEYSLOTS];
    struct luks_segment segments[LUKS_KEYSLOTS];
    struct luks_digest digests[LUKS_KEYSLOTS];
    struct luks_token tokens[LUKS_KEYSLOTS];
    size_t count;
    uint32_t answer = luks_keyslots(fd, ALL, keyslots, sizeof *keyslots, LUKS_KEYSLOTS, &count);
    if (answer == LUKS_DONE)
        answer = luks_segments(fd, ALL, segments, sizeof *segments, LUKS_KEYSLOTS, &count);
    if (answer == LUKS_DONE)
        answer = luks_digests(fd, ALL, digests, sizeof *digests, LUKS_KEYSLOTS, &count);
    return answer == LUKS_DONE ? luks_tokens(fd, ALL, tokens, sizeof *tokens, LUKS_KEYSLOTS, &count) : answer;
}

static uint32_t called(const char *call, int fd, int other, const struct given *random)
{
    struct luks_report report = {.size = sizeof report};
    struct luks_opened opened = {.size = sizeof opened};
    struct luks_given given = {.size = sizeof given, .sector = LUKS_NO_SECTOR, .label = NULL};
    static char json[1 << 16];
    uint8_t keyslots[LUKS_KEYSLOTS], key[128];
    uint32_t shows, answers[LUKS_KEYSLOTS], digest;
    uint64_t bytes, place;
    bool is_same;
    if (strcmp(call, "check") == 0)
        return luks_check(fd, ALL, false, &report);
    if (strcmp(call, "read") == 0)
        return luks_read(fd, ALL, json, sizeof json, &bytes);
    if (strcmp(call, "records") == 0)
        return records(fd);
    if (strcmp(call, "unlock") == 0)
        return luks_unlock(fd, ALL, "two", 3, 0, 0, key, sizeof key, &opened);
    if (strcmp(call, "open") == 0)
        return luks_open(fd, ALL, 1, "two", 3, 0, 0, key, sizeof key, &opened);
    if (strcmp(call, "try") == 0)
        return luks_try(fd, ALL, "two", 3, 0, 0, NULL, NULL, answers);
    if (strcmp(call, "meets") == 0)
        return luks_meets(fd, ALL, random->bytes, 64, LUKS_NO_NUMBER, 0, &digest);
    if (strcmp(call, "signature") == 0)
        return luks_signature(fd, ALL, LUKS_TO_END, &shows);
    if (strcmp(call, "find") == 0)
        return luks_find(fd, ALL, 512, &place);
    if (strcmp(call, "add") == 0)
        return edited(fd, LUKS_ADD, random);
    if (strcmp(call, "change") == 0)
        return edited(fd, LUKS_CHANGE, random);
    if (strcmp(call, "remove") == 0)
        return edited(fd, LUKS_REMOVE, random);
    if (strcmp(call, "label") == 0)
        return edited(fd, LUKS_LABEL, random);
    if (strcmp(call, "priority") == 0)
        return edited(fd, LUKS_PRIORITY, random);
    if (strcmp(call, "token-add") == 0)
        return edited(fd, LUKS_TOKEN_ADD, random);
    if (strcmp(call, "token-remove") == 0)
        return edited(fd, LUKS_TOKEN_REMOVE, random);
    if (strcmp(call, "repair") == 0)
        return edited(fd, LUKS_REPAIR, random);
    if (strcmp(call, "format1") == 0)
        return luks_format1(fd, ALL, false, &given, LUKS_SHA256, 1000, "new", 3, random->bytes, 256080);
    if (strcmp(call, "format2") == 0)
        return luks_format2(fd, ALL, true, &given, LUKS_SHA256, 1000, NULL, "new", 3, 0, random->bytes, 256208);
    if (strcmp(call, "convert") == 0)
        return luks_convert(other, ALL, false, fd, ALL, random->bytes, 128);
    if (strcmp(call, "rebuild") == 0)
        return luks_rebuild(other, ALL, NULL, fd, ALL, random->bytes, 144);
    if (strcmp(call, "length") == 0)
        return luks_backup_length(fd, ALL, false, &bytes);
    if (strcmp(call, "backup") == 0)
        return luks_backup(other, ALL, false, fd, ALL);
    if (strcmp(call, "restore") == 0)
        return luks_restore(other, ALL, fd, ALL, false, true);
    if (strcmp(call, "compare") == 0)
        return luks_compare(other, ALL, fd, ALL, false, keyslots, &is_same);
    exit(2);
}

/* ---- what a generator makes ---- */

static uint64_t state;

static uint64_t next(void)
{
    state += 0x9E3779B97F4A7C15;
    uint64_t z = state;
    z = (z ^ (z >> 30)) * 0xBF58476D1CE4E5B9;
    z = (z ^ (z >> 27)) * 0x94D049BB133111EB;
    return z ^ (z >> 31);
}

/* A file in memory like this one, with some bytes changed, but none that says how often a passphrase is hashed: most at places that a header has, cut or grown. */
static int like(int fd)
{
    static uint8_t whole[8 << 20];
    int copy = memfd_create("volume", MFD_CLOEXEC);
    ssize_t count = pread(fd, whole, sizeof whole, 0);
    if (count <= 0)
        exit(2);
    for (uint64_t i = next() % 6; i > 0; i--) {
        static const uint64_t within[] = {8, 592, 4096, 16384, 32768, 8 << 20};
        size_t at = (size_t)(next() % within[next() % 6] % (uint64_t)count);
        bool is_cost = (at >= 164 && at < 168) || (at >= 208 && at < 592 && (at - 208) % 48 >= 4 && (at - 208) % 48 < 8);
        if (!is_cost)
            whole[at] = next() % 2 ? (uint8_t)next() : (uint8_t)(whole[at] ^ (1u << next() % 8));
    }
    size_t length = next() % 4 == 0 ? (size_t)(next() % (uint64_t)(count + 8192)) : (size_t)count;
    if (ftruncate(copy, (off_t)length) != 0 || pwrite(copy, whole, length < (size_t)count ? length : (size_t)count, 0) < 0)
        exit(2);
    return copy;
}

static uint64_t window(uint64_t most)
{
    switch (next() % 4) {
    case 0:
        return 0;
    case 1:
        return next();
    default:
        return next() % most;
    }
}

static int at_random(int fd, int other, const struct given *random, uint64_t seed, unsigned long count)
{
    static const char *const calls[] = {"check", "read", "records", "unlock", "open", "try", "meets", "signature", "find", "add", "change", "remove", "label", "priority", "token-add",
                                        "token-remove", "repair", "format1", "format2", "convert", "rebuild", "length", "backup", "restore", "compare"};
    unsigned long answered[256] = {0};
    state = seed;
    for (unsigned long i = 0; i < count; i++) {
        int one = like(fd), two = like(other);
        struct luks_report report = {.size = sizeof report};
        struct luks_opened opened = {.size = sizeof opened};
        uint8_t key[128];
        uint64_t bytes, offset = window(1 << 20), length = next() % 2 ? LUKS_TO_END : window(1 << 22);
        answered[called(calls[next() % (sizeof calls / sizeof *calls)], one, two, random) & 255]++;
        answered[luks_check(one, offset, length, next() % 2, &report) & 255]++;
        answered[luks_unlock(one, offset, length, random->bytes, (size_t)(next() % 80), (uint32_t)(next() % 4096), next() % 2, key, (size_t)(next() % 129), &opened) & 255]++;
        answered[luks_read(one, offset, length, (char *)key, (size_t)(next() % 129), &bytes) & 255]++;
        answered[luks_find(two, offset, length, window(1 << 22), &bytes) & 255]++;
        close(one);
        close(two);
    }
    for (int i = 0; i < 256; i++)
        if (answered[i] > 0)
            printf("%d: %lu\n", i, answered[i]);
    return 0;
}

int main(int count, char **words)
{
    static struct given random;
    if (count < 5)
        return 2;
    int fd = open(words[2], O_RDWR), other = open(words[3], O_RDONLY), from = open(words[4], O_RDONLY);
    random.count = from >= 0 ? (size_t)read(from, random.bytes, sizeof random.bytes) : 0;
    if (strcmp(words[1], "random") == 0 && count == 7)
        return at_random(fd, other, &random, strtoull(words[5], NULL, 10), strtoul(words[6], NULL, 10));
    for (int i = 5; strcmp(words[1], "opens") == 0 && i < count; i++) {
        struct luks_opened opened = {.size = sizeof opened};
        uint32_t answer = luks_unlock(fd, ALL, words[i], strlen(words[i]), 0, 0, NULL, 0, &opened);
        printf("%s %u %u\n", words[i], answer, opened.slot);
    }
    if (strcmp(words[1], "opens") == 0)
        return 0;
    if (count != 7)
        return 2;
    failing = strtoul(words[5], NULL, 10);
    mode = words[6];
    uint32_t answer = called(words[1], fd, other, &random);
    printf("%u %s %lu\n", answer, answer == LUKS_DEVICE ? strerrorname_np(errno) : "-", made);
    return 0;
}
