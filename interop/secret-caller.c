/* A caller of libluks that leaves nothing secret itself, as interop/secrets runs it: secret-caller CALL VOLUME PASSPHRASE NEW
 *
 * CALL is unlock, key, open, try, add, change, remove, meets, add-by-key, remove-by-key, format1 or format2; the last two words are files, of those by the key PASSPHRASE is
 * the key's. It reads them by read, and writes over its buffers as
 * luks.h says that a caller does. The calls take random bytes of the system. It ends with 0 where the call was done, or the passphrase opens nothing.
 */
#define _GNU_SOURCE
#include <fcntl.h>
#include <luks.h>
#include <string.h>
#include <sys/random.h>
#include <unistd.h>

#define ITERATIONS 1000
#define KIB 1024
#define RANDOM 256208

static uint8_t old[4096], new[4096], key[128], random_bytes[RANDOM];

static size_t read_file(const char *name, uint8_t *into)
{
    int fd = open(name, O_RDONLY);
    ssize_t bytes = read(fd, into, 4096);
    close(fd);
    return bytes > 0 ? (size_t)bytes : 0;
}

static uint32_t called(const char *call, int fd, size_t old_bytes, size_t new_bytes)
{
    struct luks_opened opened = {.size = sizeof opened};
    uint32_t slot, answers[LUKS_KEYSLOTS];
    if (strcmp(call, "unlock") == 0)
        return luks_unlock(fd, 0, LUKS_TO_END, old, old_bytes, KIB, 0, NULL, 0, &opened);
    if (strcmp(call, "key") == 0)
        return luks_unlock(fd, 0, LUKS_TO_END, old, old_bytes, KIB, 0, key, sizeof key, &opened);
    if (strcmp(call, "open") == 0)
        return luks_open(fd, 0, LUKS_TO_END, 0, old, old_bytes, KIB, 0, key, sizeof key, &opened);
    if (strcmp(call, "try") == 0)
        return luks_try(fd, 0, LUKS_TO_END, old, old_bytes, KIB, 0, NULL, NULL, answers);
    if (strcmp(call, "add") == 0)
        return luks_add(fd, 0, LUKS_TO_END, false, 0, old, old_bytes, new, new_bytes, LUKS_NO_SLOT, ITERATIONS, NULL, KIB, 0, &slot);
    if (strcmp(call, "change") == 0)
        return luks_change(fd, 0, LUKS_TO_END, false, 0, old, old_bytes, new, new_bytes, ITERATIONS, NULL, KIB, 0, &slot);
    if (strcmp(call, "remove") == 0)
        return luks_remove(fd, 0, LUKS_TO_END, false, 0, LUKS_NO_SLOT, old, old_bytes, KIB, 0);
    if (strcmp(call, "meets") == 0)
        return luks_meets(fd, 0, LUKS_TO_END, old, old_bytes, LUKS_NO_NUMBER, 0, &slot);
    if (strcmp(call, "add-by-key") == 0)
        return luks_add_by_key(fd, 0, LUKS_TO_END, false, 0, old, old_bytes, new, new_bytes, LUKS_NO_SLOT, ITERATIONS, NULL, KIB, 0, &slot);
    if (strcmp(call, "remove-by-key") == 0) {
        struct luks_edit edit = {.size = sizeof edit, .kind = LUKS_REMOVE, .slot = 0, .by = LUKS_NO_SLOT, .memory = KIB, .by_key = 1};
        return luks_apply(fd, 0, LUKS_TO_END, false, &edit, old, old_bytes, NULL, 0, NULL, 0, NULL);
    }
    if (strcmp(call, "format1") == 0)
        return luks_format1(fd, 0, LUKS_TO_END, false, NULL, LUKS_SHA256, ITERATIONS, old, old_bytes, NULL, 0);
    if (getrandom(random_bytes, sizeof random_bytes, 0) != sizeof random_bytes)
        return LUKS_DEVICE;
    return luks_format2(fd, 0, LUKS_TO_END, false, NULL, LUKS_SHA256, ITERATIONS, NULL, old, old_bytes, KIB, random_bytes, sizeof random_bytes);
}

int main(int count, char **words)
{
    if (count != 5)
        return 2;
    size_t old_bytes = read_file(words[3], old), new_bytes = read_file(words[4], new);
    int fd = open(words[2], O_RDWR);
    uint32_t answer = called(words[1], fd, old_bytes, new_bytes);
    explicit_bzero(old, sizeof old);
    explicit_bzero(new, sizeof new);
    explicit_bzero(key, sizeof key);
    explicit_bzero(random_bytes, sizeof random_bytes);
    return answer == LUKS_DONE || answer == LUKS_SHUT ? 0 : 1;
}
