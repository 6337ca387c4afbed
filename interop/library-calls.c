/* Calls of libluks, as interop/library asks for them: library-calls CALL VOLUME OFFSET LENGTH [WORD..]
 *
 * It prints what `luks` would print of the same volume, a fault without its brackets, and then what the caller's side holds:
 * that its position in the file is where it was. It is built with the sanitizers.
 */
#define _GNU_SOURCE
#include <errno.h>
#include <fcntl.h>
#include <luks.h>
#include <pthread.h>
#include <stdio.h>
#include <stdlib.h>
#include <string.h>
#include <sys/mman.h>
#include <unistd.h>

static const char *const COPIES[] = {"", "in-step", "first-newer", "second-newer", "first-only", "second-only"};

static int told(uint32_t answer)
{
    uint8_t name[32];
    size_t bytes = luks_fault_name(answer, name, sizeof name);
    if (answer == LUKS_DEVICE)
        printf("device fault %s\n", strerrorname_np(errno));
    else
        printf("refused %.*s\n", (int)bytes, (char *)name);
    return 1;
}

static int check(int fd, uint64_t offset, uint64_t length, bool is_detached)
{
    struct luks_report report = {.size = sizeof report};
    uint32_t answer = luks_check(fd, offset, length, is_detached, &report);
    if (answer != LUKS_DONE)
        return told(answer);
    if (report.version == 1)
        printf("accepted luks1 areas %ju\n", (uintmax_t)report.areas);
    else
        printf("accepted luks2 %s seqid %ju areas %ju\n", COPIES[report.copies], (uintmax_t)report.seqid, (uintmax_t)report.areas);
    return 0;
}

/* Whether the word for what is allowed ends with it: MIB, or MIB,older. */
static uint32_t is_older(const char *allowed)
{
    return strstr(allowed, ",older") != NULL;
}

/* And whether what opens is the key. */
static uint32_t is_by_key(const char *allowed)
{
    return strstr(allowed, ",key") != NULL;
}

/* And whether the secret's file has the subsystem of a label. */
static bool is_subsystem(const char *allowed)
{
    return strstr(allowed, ",subsystem") != NULL;
}

/* The keyslot is a number, or `any`; where `room` is given, the key is printed behind the answer. */
static int opens(int fd, uint64_t offset, uint64_t length, const char *slot, const char *file, const char *allowed, const char *room)
{
    struct luks_opened opened = {.size = sizeof opened};
    size_t words_room = 65537, key_room = room ? strtoul(room, NULL, 10) : 0;
    uint8_t *words = malloc(words_room), *key = key_room ? malloc(key_room) : NULL;
    FILE *from = fopen(file, "rb");
    size_t bytes = fread(words, 1, words_room, from);
    uint8_t *exact = malloc(bytes ? bytes : 1);
    memcpy(exact, words, bytes);
    fclose(from);
    uint32_t memory = (uint32_t)strtoul(allowed, NULL, 10) * 1024, older = is_older(allowed);
    uint32_t answer = strcmp(slot, "any") == 0 ? luks_unlock(fd, offset, length, bytes ? exact : NULL, bytes, memory, older, key, key_room, &opened)
                                               : luks_open(fd, offset, length, (uint32_t)strtoul(slot, NULL, 10), exact, bytes, memory, older, key, key_room,
                                                           &opened);
    int status = 0;
    if (answer == LUKS_DONE)
        printf("slot %u opens\n", opened.slot);
    else if (answer == LUKS_SHUT && strcmp(slot, "any") == 0)
        puts("no slot opens");
    else if (answer == LUKS_SHUT)
        printf("slot %s does not open\n", slot);
    else
        status = told(answer);
    if (answer == LUKS_DONE && key_room) {
        printf("key ");
        for (uint32_t i = 0; i < opened.key_bytes; i++)
            printf("%02x", key[i]);
        puts("");
    }
    if (answer == LUKS_ROOM)
        printf("bytes %u\n", opened.key_bytes);
    free(exact);
    free(words);
    free(key);
    return status;
}

/* Ranges of a volume: at most so many, in their order, with a gap between any two. */
#define MOST_RANGES 64
struct ranges {
    struct luks_range all[MOST_RANGES];
    size_t count;
};

/* Adds the range that is asked for, up to the next one that is there, and joins what touches. Whether it lies in the volume and begins with a place
 * that isn't there. */
static bool is_added(struct ranges *ranges, struct luks_range wanted, uint64_t total)
{
    size_t i = 0;
    while (i < ranges->count && ranges->all[i].at <= wanted.at)
        i++;
    if (wanted.len == 0 || wanted.at > total || wanted.len > total - wanted.at || ranges->count == MOST_RANGES)
        return false;
    if (i > 0 && wanted.at < ranges->all[i - 1].at + ranges->all[i - 1].len)
        return false;
    if (i < ranges->count && wanted.at + wanted.len > ranges->all[i].at)
        wanted.len = ranges->all[i].at - wanted.at;
    memmove(ranges->all + i + 1, ranges->all + i, (ranges->count++ - i) * sizeof wanted);
    ranges->all[i] = wanted;
    for (size_t k = ranges->count - 1; k > 0; k--)
        if (ranges->all[k - 1].at + ranges->all[k - 1].len == ranges->all[k].at) {
            ranges->all[k - 1].len += ranges->all[k].len;
            memmove(ranges->all + k, ranges->all + k + 1, (--ranges->count - k) * sizeof wanted);
        }
    return true;
}

/* Their bytes, in a block of just their number. */
static uint8_t *read_ranges(int fd, uint64_t offset, const struct ranges *ranges, size_t *bytes)
{
    *bytes = 0;
    for (size_t i = 0; i < ranges->count; i++)
        *bytes += ranges->all[i].len;
    uint8_t *held = malloc(*bytes ? *bytes : 1), *next = held;
    for (size_t i = 0; i < ranges->count; next += ranges->all[i++].len)
        if (pread(fd, next, ranges->all[i].len, (off_t)(offset + ranges->all[i].at)) != (ssize_t)ranges->all[i].len)
            exit(2);
    return held;
}

/* Checking over bytes in memory: none at first, and then the ranges that are asked for. */
static int check_bytes(int fd, uint64_t offset, uint64_t length, bool is_detached)
{
    off_t end = lseek(fd, 0, SEEK_END);
    uint64_t total = (uint64_t)end > offset ? (uint64_t)end - offset : 0;
    total = total < length ? total : length;
    struct ranges ranges = {.count = 0};
    struct luks_report_bytes report;
    for (;;) {
        size_t bytes;
        uint8_t *held = read_ranges(fd, offset, &ranges, &bytes);
        uint32_t answer = luks_check_bytes(ranges.all, ranges.count, held, bytes, total, is_detached, &report);
        free(held);
        if (answer == LUKS_BEYOND) {
            if (is_added(&ranges, report.beyond, total))
                continue;
            puts("what is there is asked for, or what isn't of the volume");
            return 1;
        }
        if (answer != LUKS_DONE)
            return told(answer);
        printf("accepted luks%u areas %ju\n", report.version, (uintmax_t)report.areas);
        return 0;
    }
}

/* The listing, or the token of a number, into a buffer of this room. */
static int shows(int fd, uint64_t offset, uint64_t length, size_t room, const char *token)
{
    char *json = malloc(room ? room : 1);
    uint64_t bytes = 0;
    uint32_t answer = token != NULL ? luks_token(fd, offset, length, (uint32_t)strtoul(token, NULL, 10), room ? json : NULL, room, &bytes)
                                    : luks_read(fd, offset, length, room ? json : NULL, room, &bytes);
    int status = 0;
    if (answer == LUKS_DONE)
        printf("%.*s\n", (int)bytes, json);
    else
        status = told(answer);
    if (answer == LUKS_ROOM)
        printf("bytes %ju\n", (uintmax_t)bytes);
    free(json);
    return status;
}

/* A file's bytes, in a block of just their number, where it has any. */
static uint8_t *file_of(const char *name, size_t most, size_t *bytes)
{
    uint8_t *words = malloc(most);
    FILE *from = fopen(name, "rb");
    *bytes = fread(words, 1, most, from);
    fclose(from);
    if (*bytes == 0) {
        free(words);
        return NULL;
    }
    return realloc(words, *bytes);
}

static uint32_t number(const char *word)
{
    return strcmp(word, "none") == 0 ? LUKS_NO_SLOT : (uint32_t)strtoul(word, NULL, 10);
}

static int done(uint32_t answer, uint32_t slot)
{
    if (answer != LUKS_DONE)
        return told(answer);
    if (slot == LUKS_NO_SLOT)
        puts("done");
    else
        printf("done slot %u\n", slot);
    return 0;
}

/* A derivation, where one is chosen: KDF TURNS KIB LANES, each a number. */
static struct luks_derivation derivation_of(char **words)
{
    struct luks_derivation chosen = {.size = sizeof chosen};
    if (words[0] == NULL)
        return chosen;
    return (struct luks_derivation){.size = sizeof chosen, .kind = number(words[0]), .turns = number(words[1]), .memory = number(words[2]), .lanes = number(words[3])};
}

/* An edit: KIND SLOT BY TO ITERATIONS MIB[,older][,key][,subsystem] SECRET TEXT RANDOM PLACE [KDF TURNS KIB LANES]; RANDOM is a file, or `system`. */
static int edits(int fd, uint64_t offset, uint64_t length, char **words)
{
    struct luks_derivation derivation = derivation_of(words + 10);
    struct luks_edit edit = {.size = sizeof edit, .kind = number(words[0]), .slot = number(words[1]), .by = number(words[2]), .to = number(words[3]),
                             .iterations = number(words[4]), .memory = number(words[5]) * 1024, .older = is_older(words[5]), .by_key = is_by_key(words[5]),
                             .derivation = words[10] != NULL ? &derivation : NULL};
    size_t old_bytes, text_bytes, random_bytes = 0;
    bool is_detached = strcmp(words[9], "detached") == 0;
    uint8_t *old = file_of(words[6], 65537, &old_bytes), *text = file_of(words[7], 65537, &text_bytes), *random = NULL;
    uint32_t slot = LUKS_NO_SLOT, answer = LUKS_DONE;
    if (is_subsystem(words[5])) {
        edit.subsystem = (const char *)old;
        edit.subsystem_bytes = old_bytes;
    }
    if (strcmp(words[8], "system") != 0) {
        uint64_t needed = 0;
        answer = luks_needed(fd, offset, length, is_detached, &edit, old, old_bytes, text, text_bytes, &needed);
        if (answer == LUKS_DONE)
            random = file_of(words[8], (size_t)needed + 1, &random_bytes);
        random_bytes = random_bytes > needed ? (size_t)needed : random_bytes;
    }
    if (answer == LUKS_DONE)
        answer = luks_apply(fd, offset, length, is_detached, &edit, old, old_bytes, text, text_bytes, random, random_bytes, &slot);
    free(old);
    free(text);
    free(random);
    return done(answer, slot);
}

/* The same by the calls that are named for it, with random bytes of the system. */
static int edits_by_name(int fd, uint64_t offset, uint64_t length, char **words)
{
    uint32_t kind = number(words[0]), slot = number(words[1]), by = number(words[2]), iterations = number(words[4]), memory = number(words[5]) * 1024;
    uint32_t older = is_older(words[5]);
    size_t old_bytes, text_bytes;
    bool is_detached = strcmp(words[9], "detached") == 0;
    uint8_t *old = file_of(words[6], 65537, &old_bytes), *text = file_of(words[7], 65537, &text_bytes);
    struct luks_derivation derivation = derivation_of(words + 10), *chosen = words[10] != NULL ? &derivation : NULL;
    uint32_t made = LUKS_NO_SLOT, answer = LUKS_USAGE;
    char uuid[65] = "";
    if (kind == LUKS_ADD && is_by_key(words[5]))
        answer = luks_add_by_key(fd, offset, length, is_detached, by, old, old_bytes, text, text_bytes, number(words[3]), iterations, chosen, memory, older, &made);
    else if (kind == LUKS_ADD)
        answer = luks_add(fd, offset, length, is_detached, by, old, old_bytes, text, text_bytes, number(words[3]), iterations, chosen, memory, older, &made);
    else if (kind == LUKS_CHANGE)
        answer = luks_change(fd, offset, length, is_detached, slot, old, old_bytes, text, text_bytes, iterations, chosen, memory, older, &made);
    else if (kind == LUKS_REMOVE)
        answer = luks_remove(fd, offset, length, is_detached, slot, by, old, old_bytes, memory, older);
    else if (kind == LUKS_ERASE)
        answer = luks_erase(fd, offset, length, is_detached);
    else if (kind == LUKS_REPAIR)
        answer = luks_repair(fd, offset, length, is_detached);
    else if (kind == LUKS_LABEL && is_subsystem(words[5]))
        answer = luks_label_subsystem(fd, offset, length, is_detached, (const char *)text, text_bytes, (const char *)old, old_bytes);
    else if (kind == LUKS_LABEL)
        answer = luks_label(fd, offset, length, is_detached, (const char *)text, text_bytes);
    else if (kind == LUKS_UUID && text_bytes < sizeof uuid)
        answer = luks_set_uuid(fd, offset, length, is_detached, text_bytes == 0 ? NULL : memcpy(uuid, text, text_bytes));
    else if (kind == LUKS_PRIORITY)
        answer = luks_set_priority(fd, offset, length, is_detached, slot, number(words[3]));
    else if (kind == LUKS_TOKEN_ADD)
        answer = luks_token_add(fd, offset, length, is_detached, (const char *)text, text_bytes, number(words[3]));
    else if (kind == LUKS_TOKEN_REMOVE)
        answer = luks_token_remove(fd, offset, length, is_detached, number(words[3]));
    free(old);
    free(text);
    return done(answer, made);
}

/* A new volume: VERSION HASH ITERATIONS PASSPHRASE RANDOM PLACE [KDF TURNS KIB LANES MIB]. */
static int formats(int fd, uint64_t offset, uint64_t length, char **words)
{
    static const char *const HASHES[] = {"", "sha1", "sha256", "sha512"};
    size_t old_bytes, random_bytes = 0;
    bool is_first = strcmp(words[0], "1") == 0, is_detached = strcmp(words[5], "detached") == 0;
    uint8_t *old = file_of(words[3], 65537, &old_bytes), *random = NULL;
    struct luks_derivation derivation = derivation_of(words + 6), *chosen = words[6] != NULL ? &derivation : NULL;
    uint32_t hash = 0, memory = chosen != NULL ? number(words[10]) * 1024 : 0;
    while (hash < 4 && strcmp(HASHES[hash], words[1]) != 0)
        hash++;
    if (strcmp(words[4], "system") != 0)
        random = file_of(words[4], is_first ? 256080 : 256208, &random_bytes);
    uint32_t iterations = number(words[2]);
    uint32_t answer = is_first ? luks_format1(fd, offset, length, is_detached, NULL, hash, iterations, old, old_bytes, random, random_bytes)
                               : luks_format2(fd, offset, length, is_detached, NULL, hash, iterations, chosen, old, old_bytes, memory, random, random_bytes);
    free(old);
    free(random);
    return done(answer, 0);
}

/* A text, or NULL for `none`. */
static const char *maybe(const char *word)
{
    return strcmp(word, "none") == 0 ? NULL : word;
}

/* The same of a volume of which something is given: VERSION ITERATIONS PASSPHRASE RANDOM PLACE SECTOR KEY UUID LABEL SUBSYSTEM [CIPHER KEY_BYTES SECTOR_BYTES OLDER],
 * of the five from SECTOR on `none` where it isn't. KEY is a file; the last four are numbers. */
static int formats_as(int fd, uint64_t offset, uint64_t length, char **words)
{
    static const uint8_t no_byte = 0;
    size_t old_bytes, random_bytes = 0, key_bytes = 0;
    bool is_first = strcmp(words[0], "1") == 0, is_detached = strcmp(words[4], "detached") == 0;
    uint8_t *old = file_of(words[2], 65537, &old_bytes);
    uint8_t *key = strcmp(words[6], "none") == 0 ? NULL : file_of(words[6], 65537, &key_bytes);
    struct luks_given given = {.size = sizeof given, .sector = strcmp(words[5], "none") == 0 ? LUKS_NO_SECTOR : strtoull(words[5], NULL, 10), .key = key,
                               .key_bytes = key_bytes, .uuid = maybe(words[7]), .label = maybe(words[8]), .subsystem = maybe(words[9])};
    if (words[10] != NULL) {
        given.cipher = number(words[10]);
        given.key_bytes = key != NULL ? key_bytes : number(words[11]);
        given.sector_bytes = number(words[12]);
        given.older = number(words[13]);
    }
    size_t each = given.key_bytes > 0 && given.key_bytes < 64 ? given.key_bytes : given.key_bytes == 0 && given.cipher > 2 ? 32 : 64;
    uint8_t *random = file_of(words[3], (is_first ? 80 : 208) + 4000 * each, &random_bytes);
    uint32_t iterations = number(words[1]);
    if (key == NULL && strcmp(words[6], "none") != 0)
        given.key = &no_byte;
    uint32_t answer = is_first ? luks_format1(fd, offset, length, is_detached, &given, LUKS_SHA256, iterations, old, old_bytes, random, random_bytes)
                               : luks_format2(fd, offset, length, is_detached, &given, LUKS_SHA256, iterations, NULL, old, old_bytes, 0, random, random_bytes);
    free(old);
    free(random);
    free(key);
    return done(answer, 0);
}

/* Whether a key is the volume's: KEY DIGEST OLDER, by the digest of this number or `none`. */
static int meets(int fd, uint64_t offset, uint64_t length, char **words)
{
    size_t key_bytes = 0;
    uint8_t *key = file_of(words[0], 65537, &key_bytes);
    uint32_t judged = 99, answer = luks_meets(fd, offset, length, key, key_bytes, number(words[1]), strcmp(words[2], "older") == 0, &judged);
    free(key);
    if (answer != LUKS_DONE && answer != LUKS_SHUT)
        return told(answer);
    printf("key %s %u\n", answer == LUKS_DONE ? "matches" : "does not match", judged);
    return 0;
}

/* A header on a target, at 0: convert TARGET RANDOM PLACE; rebuild TARGET RANDOM UUID; rebuild2 TARGET RANDOM UUID SECOND SIZE;
 * rebuild1 TARGET RANDOM UUID CIPHER MODE HASH KEY-BYTES PAYLOAD. */
static int makes_header(int fd, uint64_t offset, uint64_t length, const char *call, char **words)
{
    size_t random_bytes = 0, wanted = strcmp(call, "convert") == 0 ? 128 : 144;
    uint8_t *random = strcmp(words[1], "system") == 0 ? NULL : file_of(words[1], wanted, &random_bytes);
    int target = open(words[0], O_RDWR);
    uint32_t answer = LUKS_USAGE;
    lseek(target, 5, SEEK_SET);
    if (strcmp(call, "convert") == 0)
        answer = luks_convert(fd, offset, length, strcmp(words[2], "detached") == 0, target, 0, LUKS_TO_END, random, random_bytes);
    else if (strcmp(call, "rebuild") == 0)
        answer = luks_rebuild(fd, offset, length, maybe(words[2]), target, 0, LUKS_TO_END, random, random_bytes);
    else if (strcmp(call, "rebuild2") == 0)
        answer = luks_rebuild2(fd, offset, length, strcmp(words[3], "second") == 0, strtoull(words[4], NULL, 10), maybe(words[2]), target, 0,
                               LUKS_TO_END, random, random_bytes);
    else {
        struct luks_fields fields = {.size = sizeof fields, .cipher_name = maybe(words[3]), .cipher_mode = maybe(words[4]), .hash = maybe(words[5]),
                                     .key_bytes = number(words[6]), .payload = number(words[7])};
        answer = luks_rebuild1(fd, offset, length, &fields, maybe(words[2]), target, 0, LUKS_TO_END);
    }
    free(random);
    int kept = errno;
    if (target >= 0 && lseek(target, 0, SEEK_CUR) != 5)
        puts("the target's position moved");
    errno = kept;
    return done(answer, LUKS_NO_SLOT);
}

/* What else the disk is used for, by its first bytes. */
static int signature(int fd, uint64_t offset, uint64_t length, const char *within)
{
    uint32_t shows = 99;
    uint8_t name[16];
    uint32_t answer = luks_signature(fd, offset, length, strcmp(within, "all") == 0 ? LUKS_TO_END : strtoull(within, NULL, 10), &shows);
    if (answer != LUKS_DONE)
        return told(answer);
    printf("%.*s\n", (int)luks_signature_name(shows, name, sizeof name), (char *)name);
    return 0;
}

/* A backup, put back or compared: backup TARGET PLACE; restore VOLUME PLACE OVER; compare VOLUME PLACE. The descriptor's file is the source, of
 * the last two the backup. */
static int keeps(int fd, uint64_t offset, uint64_t length, const char *call, char **words)
{
    bool is_detached = strcmp(words[1], "detached") == 0, is_same_key = false;
    uint8_t keyslots[LUKS_KEYSLOTS];
    uint64_t bytes = 0;
    int other = open(words[0], O_RDWR);
    uint32_t answer = LUKS_USAGE;
    lseek(other, 5, SEEK_SET);
    if (strcmp(call, "backup") == 0) {
        answer = luks_backup_length(fd, offset, length, is_detached, &bytes);
        if (answer == LUKS_DONE && lseek(other, 0, SEEK_END) == 0 && ftruncate(other, (off_t)bytes) != 0)
            puts("the target has no room");
        lseek(other, 5, SEEK_SET);
        if (answer == LUKS_DONE)
            answer = luks_backup(fd, offset, length, is_detached, other, 0, LUKS_TO_END);
    } else if (strcmp(call, "restore") == 0)
        answer = luks_restore(fd, offset, length, other, 0, LUKS_TO_END, is_detached, strcmp(words[2], "any") == 0);
    else
        answer = luks_compare(fd, offset, length, other, 0, LUKS_TO_END, is_detached, keyslots, &is_same_key);
    int kept = errno;
    if (other >= 0 && lseek(other, 0, SEEK_CUR) != 5)
        puts("the other's position moved");
    errno = kept;
    if (answer != LUKS_DONE || strcmp(call, "compare") != 0)
        return done(answer, LUKS_NO_SLOT);
    static const char *const STATES[] = {"absent", "same", "older", "missing", "removed", "damaged"};
    bool is_current = true;
    for (int n = 0; n < LUKS_KEYSLOTS; n++)
        is_current = is_current && keyslots[n] <= LUKS_SAME;
    puts(is_current ? "current" : "outdated");
    for (int n = 0; n < LUKS_KEYSLOTS; n++)
        if (keyslots[n] != LUKS_ABSENT)
            printf("keyslot %d %s\n", n, STATES[keyslots[n]]);
    return is_current ? 0 : 3;
}

/* Each place at which a volume begins, from this one on. */
static int finds(int fd, uint64_t offset, uint64_t length, const char *from)
{
    uint64_t place = strtoull(from, NULL, 10);
    for (;;) {
        uint32_t answer = luks_find(fd, offset, length, place, &place);
        if (answer != LUKS_DONE)
            return told(answer);
        if (place == LUKS_TO_END)
            return 0;
        printf("%ju\n", (uintmax_t)place);
        place++;
    }
}

/* Structs of another size: as of a caller that was compiled for an earlier or a later version. */
static void sizes(int fd)
{
    struct {
        struct luks_report now;
        uint64_t later;
    } report = {.now.size = sizeof report, .later = 7}, same = {.now.size = sizeof same.now, .later = 7};
    struct {
        struct luks_edit now;
        uint64_t later;
    } edit = {.now = {.size = sizeof edit, .kind = LUKS_REPAIR}}, unknown = {.now = {.size = sizeof unknown, .kind = LUKS_REPAIR}, .later = 1};
    struct luks_report none = {.size = 0}, short_one = {.size = sizeof short_one - 1};
    struct luks_opened opened = {.size = sizeof opened - 8};
    struct luks_volume volume = {.size = sizeof volume - 1};
    struct luks_derivation derivation = {.size = 4, .kind = LUKS_PBKDF2, .turns = 1000};
    struct luks_given given = {.size = sizeof given - 1, .sector = LUKS_NO_SECTOR};
    uint64_t needed;
    printf("%u %u %u %u\n", luks_check(fd, 0, LUKS_TO_END, false, &none), luks_check(fd, 0, LUKS_TO_END, false, &short_one),
           luks_unlock(fd, 0, LUKS_TO_END, "one", 3, 0, 0, NULL, 0, &opened), luks_open_volume("opening2", false, 0, &volume));
    uint32_t answers[] = {luks_check(fd, 0, LUKS_TO_END, false, &report.now), luks_check(fd, 0, LUKS_TO_END, false, &same.now)};
    printf("%u %ju %u %ju\n", answers[0], (uintmax_t)report.later, answers[1], (uintmax_t)same.later);
    printf("%u %u %u %u\n", luks_needed(fd, 0, LUKS_TO_END, false, &edit.now, NULL, 0, NULL, 0, &needed),
           luks_needed(fd, 0, LUKS_TO_END, false, &unknown.now, NULL, 0, NULL, 0, &needed),
           luks_add(fd, 0, LUKS_TO_END, false, 0, "one", 3, "two", 3, LUKS_NO_SLOT, 1000, &derivation, 0, 0, NULL),
           luks_format2(fd, 0, LUKS_TO_END, false, &given, LUKS_SHA256, 1000, NULL, "one", 3, 0, NULL, 0));
}

/* What a caller gets wrong. */
static int wrong(int fd)
{
    struct luks_report_bytes report;
    struct luks_opened_bytes opened_bytes;
    struct luks_opened opened = {.size = sizeof opened};
    uint8_t byte = 0;
    struct luks_range one = {.at = 0, .len = 1};
    printf("%u %u %u %u\n", luks_check(fd, 0, LUKS_TO_END, false, NULL), luks_unlock(fd, 0, LUKS_TO_END, NULL, 1, 0, 0, NULL, 0, &opened),
           luks_unlock(fd, 0, LUKS_TO_END, &byte, 1, 0, 0, NULL, 1, &opened), luks_check_bytes(&one, 1, &byte, 1, 0, false, &report));
    printf("%zu %zu %zu\n", luks_fault_name(98, &byte, 0), luks_fault_text(1, 0, &byte, 0), luks_fault_text(1, 5, &byte, 1));
    size_t long_one = (size_t)1 << 32;
    uint8_t *words = mmap(NULL, long_one, PROT_READ, MAP_PRIVATE | MAP_ANONYMOUS | MAP_NORESERVE, -1, 0);
    printf("%u %u\n", luks_unlock_bytes(&one, 1, &byte, 1, 1, words, long_one, 0, 0, &byte, 0, &opened_bytes),
           luks_open_bytes(&one, 1, &byte, 1, 1, 0, words, long_one, 0, 0, &byte, 0, &opened_bytes));
    munmap(words, long_one);
    struct luks_edit edit = {.size = sizeof edit, .kind = LUKS_ADD, .to = LUKS_NO_SLOT, .iterations = 1000}, no_edit = {.size = sizeof edit, .kind = 9},
                     no_slot = {.size = sizeof edit, .kind = LUKS_REMOVE, .slot = 256};
    uint64_t needed;
    uint32_t shows, slot;
    printf("%u %u %u %u\n", luks_needed(fd, 0, LUKS_TO_END, false, NULL, NULL, 0, NULL, 0, &needed),
           luks_needed(fd, 0, LUKS_TO_END, false, &edit, NULL, 0, NULL, 0, NULL), luks_needed(fd, 0, LUKS_TO_END, false, &no_edit, NULL, 0, NULL, 0, &needed),
           luks_needed(fd, 0, LUKS_TO_END, false, &no_slot, NULL, 0, NULL, 0, &needed));
    printf("%u %u %u %u\n", luks_apply(fd, 0, LUKS_TO_END, false, NULL, NULL, 0, NULL, 0, NULL, 0, &slot),
           luks_apply(fd, 0, LUKS_TO_END, false, &edit, NULL, 3, NULL, 0, NULL, 0, &slot), luks_apply(fd, 0, LUKS_TO_END, false, &edit, NULL, 0, NULL, 3, NULL, 0, &slot),
           luks_apply(fd, 0, LUKS_TO_END, false, &edit, NULL, 0, NULL, 0, NULL, 3, &slot));
    printf("%u %u %u %u\n", luks_read(fd, 0, LUKS_TO_END, NULL, 0, NULL), luks_read(fd, 0, LUKS_TO_END, NULL, 1, &needed),
           luks_format2(fd, 0, LUKS_TO_END, false, NULL, LUKS_SHA256, 1000, NULL, NULL, 1, 0, NULL, 0), luks_signature(fd, 0, LUKS_TO_END, 0, NULL));
    static const char long_text[] = "a cipher whose name is far too long for its field";
    struct luks_fields fields = {.size = sizeof fields, .cipher_name = long_text, .key_bytes = LUKS_NO_NUMBER, .payload = LUKS_NO_NUMBER};
    int target = open("target", O_RDWR);
    printf("%u %u %u %u\n", luks_convert(fd, 0, LUKS_TO_END, false, target, 0, LUKS_TO_END, NULL, 1),
           luks_rebuild1(fd, 0, LUKS_TO_END, &fields, NULL, target, 0, LUKS_TO_END),
           luks_rebuild2(fd, 0, LUKS_TO_END, false, 0, "\xff", target, 0, LUKS_TO_END, NULL, 0), luks_rebuild(fd, 0, LUKS_TO_END, NULL, fd, 0, LUKS_TO_END, NULL, 0));
    printf("%u %u\n", luks_convert(fd, 0, LUKS_TO_END, false, 1000, 0, LUKS_TO_END, NULL, 0), luks_convert(1000, 0, LUKS_TO_END, false, target, 0, LUKS_TO_END, NULL, 0));
    shows = 99;
    uint32_t answer = luks_signature(fd, 0, 0, 0, &shows);
    printf("%u %u %zu %zu\n", answer, shows, luks_signature_name(0, &byte, 1), luks_signature_name(64, &byte, 1));
    struct luks_compared compared;
    struct luks_length backup;
    struct luks_found found;
    uint8_t keyslots[LUKS_KEYSLOTS];
    uint64_t start = 0;
    printf("%u %u %u %u\n", luks_find(fd, 0, LUKS_TO_END, 0, NULL), luks_backup_length(fd, 0, LUKS_TO_END, false, NULL),
           luks_compare(fd, 0, LUKS_TO_END, target, 0, LUKS_TO_END, false, NULL, NULL), luks_compare(fd, 0, LUKS_TO_END, fd, 0, LUKS_TO_END, false, keyslots, NULL));
    printf("%u %u %u %u\n", luks_find_bytes(&one, 1, &byte, 1, 0, &start, 1, &found), luks_backup_length_bytes(&one, 1, &byte, 1, 0, false, &backup),
           luks_compare_bytes(&one, 1, &byte, 1, 1, &one, 1, &byte, 1, 1, false, keyslots, LUKS_KEYSLOTS - 1, &compared), luks_compare_bytes(&one, 1, &byte, 1, 0, &one, 1, &byte, 1, 1, false, keyslots, LUKS_KEYSLOTS, &compared));
    printf("%u %u %u %u\n", luks_backup(fd, 0, LUKS_TO_END, false, 1000, 0, LUKS_TO_END), luks_backup(fd, 0, LUKS_TO_END, false, fd, 0, LUKS_TO_END),
           luks_restore(fd, 0, LUKS_TO_END, 1000, 0, LUKS_TO_END, false, false), luks_restore(1000, 0, LUKS_TO_END, target, 0, LUKS_TO_END, false, false));
    answer = luks_find(fd, 0, 0, 7, &start);
    printf("%u %d\n", answer, start == LUKS_TO_END);
    const struct luks_range touching[] = {{0, 1}, {1, 1}}, turned[] = {{3, 1}, {0, 1}}, twice[] = {{0, 2}, {1, 1}}, last[] = {{UINT64_MAX, 1}};
    uint8_t bytes[3] = {0};
    printf("%u %u %u %u %u\n", luks_check_bytes(touching, 2, bytes, 2, 8, false, &report), luks_check_bytes(turned, 2, bytes, 2, 8, false, &report),
           luks_check_bytes(twice, 2, bytes, 3, 8, false, &report), luks_check_bytes(last, 1, bytes, 1, 8, false, &report),
           luks_check_bytes(&one, 1, bytes, 2, 8, false, &report));
    close(target);
    sizes(fd);
    return 0;
}

static int texts(void)
{
    for (uint32_t number = 0; number < 120; number++) {
        uint8_t room[2048];
        size_t bytes = luks_fault_name(number, room, sizeof room);
        if (bytes == 0)
            continue;
        printf("%u %.*s\n", number, (int)bytes, (char *)room);
        static const char *const before[] = {"", "means  ", "where  ", "safe   ", "next   "};
        for (uint32_t part = 1; part <= 4; part++) {
            bytes = luks_fault_text(number, part, room, sizeof room);
            if (bytes)
                printf("%s%.*s\n", before[part], (int)bytes, (char *)room);
        }
    }
    return 0;
}

struct one {
    const char *volume;
    uint32_t answers[16], added, removed;
};

static void *many(void *given)
{
    struct one *one = given;
    int fd = open(one->volume, O_RDWR);
    uint32_t slot = LUKS_NO_SLOT;
    one->added = luks_add(fd, 0, LUKS_TO_END, false, 0, "one", 3, "thread", 6, LUKS_NO_SLOT, 1000, NULL, 0, 0, &slot);
    one->removed = luks_remove(fd, 0, LUKS_TO_END, false, slot, LUKS_NO_SLOT, "thread", 6, 0, 0);
    for (int i = 0; i < 16; i++) {
        struct luks_opened opened = {.size = sizeof opened};
        one->answers[i] = luks_unlock(fd, 0, LUKS_TO_END, "one", 3, 0, 0, NULL, 0, &opened);
    }
    close(fd);
    return NULL;
}

/* Two threads with two volumes. */
static int threads(const char *first, const char *second)
{
    struct one ones[2] = {{.volume = first}, {.volume = second}};
    pthread_t ids[2];
    pthread_attr_t small;
    pthread_attr_init(&small);
    pthread_attr_setstacksize(&small, (size_t)256 << 10);
    for (int i = 0; i < 2; i++)
        pthread_create(&ids[i], &small, many, &ones[i]);
    for (int i = 0; i < 2; i++)
        pthread_join(ids[i], NULL);
    for (int i = 0; i < 2; i++)
        for (int k = 1; k < 16; k++)
            if (ones[i].answers[k] != ones[i].answers[0])
                return puts("another answer"), 1;
    printf("%u %u\n", ones[0].answers[0], ones[1].answers[0]);
    printf("%u %u %u %u\n", ones[0].added, ones[0].removed, ones[1].added, ones[1].removed);
    return 0;
}

int main(int count, char **words)
{
    if (count == 2 && strcmp(words[1], "texts") == 0)
        return texts();
    if (count == 4 && strcmp(words[1], "threads") == 0)
        return threads(words[2], words[3]);
    if (count < 5)
        return 2;
    bool is_written = strncmp(words[1], "edit", 4) == 0 || strncmp(words[1], "format", 6) == 0;
    int fd = strcmp(words[2], "-") == 0 ? 0 : strcmp(words[2], "closed") == 0 ? 1000 : open(words[2], is_written ? O_RDWR : O_RDONLY);
    uint64_t offset = strtoull(words[3], NULL, 10), length = strcmp(words[4], "all") == 0 ? LUKS_TO_END : strtoull(words[4], NULL, 10);
    lseek(fd, 7, SEEK_SET);
    off_t place = lseek(fd, 0, SEEK_CUR);
    int status = 2;
    if (strcmp(words[1], "check") == 0 && count == 6)
        status = check(fd, offset, length, strcmp(words[5], "detached") == 0);
    else if (strcmp(words[1], "open") == 0 && count >= 8)
        status = opens(fd, offset, length, words[5], words[6], words[7], count > 8 ? words[8] : NULL);
    else if (strcmp(words[1], "check-bytes") == 0 && count == 6)
        return check_bytes(fd, offset, length, strcmp(words[5], "detached") == 0);
    else if (strcmp(words[1], "read") == 0 && count == 6)
        status = shows(fd, offset, length, strtoul(words[5], NULL, 10), NULL);
    else if (strcmp(words[1], "token") == 0 && count == 7)
        status = shows(fd, offset, length, strtoul(words[5], NULL, 10), words[6]);
    else if (strcmp(words[1], "edit") == 0 && (count == 15 || count == 19))
        status = edits(fd, offset, length, words + 5);
    else if (strcmp(words[1], "edit-by-name") == 0 && (count == 15 || count == 19))
        status = edits_by_name(fd, offset, length, words + 5);
    else if (strcmp(words[1], "format") == 0 && (count == 11 || count == 16))
        status = formats(fd, offset, length, words + 5);
    else if (strcmp(words[1], "format-as") == 0 && (count == 15 || count == 19))
        status = formats_as(fd, offset, length, words + 5);
    else if (strcmp(words[1], "meets") == 0 && count == 8)
        status = meets(fd, offset, length, words + 5);
    else if ((strcmp(words[1], "convert") == 0 || strncmp(words[1], "rebuild", 7) == 0) && count >= 8)
        status = makes_header(fd, offset, length, words[1], words + 5);
    else if ((strcmp(words[1], "backup") == 0 || strcmp(words[1], "restore") == 0 || strcmp(words[1], "compare") == 0) && count >= 7)
        status = keeps(fd, offset, length, words[1], words + 5);
    else if (strcmp(words[1], "find") == 0 && count == 6)
        status = finds(fd, offset, length, words[5]);
    else if (strcmp(words[1], "signature") == 0 && count == 6)
        status = signature(fd, offset, length, words[5]);
    else if (strcmp(words[1], "wrong") == 0)
        status = wrong(fd);
    if (lseek(fd, 0, SEEK_CUR) != place)
        puts("the position moved");
    return status;
}
