/* Makes an encrypted volume, as an installer does: installer VOLUME PASSPHRASE RECOVERY BACKUP
 *
 *     cc installer.c -lluks -o installer
 *
 * VOLUME is a file or a block device. PASSPHRASE and RECOVERY are files, and the whole file is the passphrase. The program never overwrites another
 * use of the disk or another volume. The keyslots derive by Argon2id. A backup of the header goes to the new file BACKUP. The status is 0 if all is
 * done; otherwise the program says why not.
 */
#define _DEFAULT_SOURCE
#include <errno.h>
#include <fcntl.h>
#include <luks.h>
#include <stdio.h>
#include <string.h>
#include <unistd.h>

#define KIB ((uint32_t)64 << 10)
#define ITERATIONS 100000

struct words {
    uint8_t bytes[4096];
    size_t count;
};

/* Says why a call failed, and what to try next. */
static int refused(const char *what, uint32_t answer)
{
    uint8_t text[1024];
    int kept = errno;
    fprintf(stderr, "%s: refused %.*s\n", what, (int)luks_fault_name(answer, text, sizeof text), (char *)text);
    if (answer == LUKS_DEVICE)
        fprintf(stderr, "why    %s\n", strerror(kept));
    fprintf(stderr, "means  %.*s\n", (int)luks_fault_text(answer, 1, text, sizeof text), (char *)text);
    fprintf(stderr, "next   %.*s\n", (int)luks_fault_text(answer, 4, text, sizeof text), (char *)text);
    return 1;
}

static int read_words(const char *name, struct words *words)
{
    int fd = open(name, O_RDONLY | O_CLOEXEC);
    ssize_t bytes = fd < 0 ? -1 : read(fd, words->bytes, sizeof words->bytes);
    if (fd >= 0)
        close(fd);
    if (bytes <= 0 || bytes == (ssize_t)sizeof words->bytes) {
        fprintf(stderr, "%s: no passphrase of 1 to %zu bytes\n", name, sizeof words->bytes - 1);
        return 1;
    }
    words->count = (size_t)bytes;
    return 0;
}

/* Refuses to overwrite another use of the disk, or a volume's header. */
static int stands(int fd)
{
    struct luks_report report = {.size = sizeof report};
    uint32_t shows = 0, answer = luks_signature(fd, 0, LUKS_TO_END, LUKS_TO_END, &shows);
    if (answer != LUKS_DONE)
        return refused("signature", answer);
    if (shows != 0)
        return refused("format", LUKS_FAULT_OTHER_USE);
    answer = luks_check(fd, 0, LUKS_TO_END, true, &report);
    if (answer == LUKS_DONE)
        return refused("format", LUKS_FAULT_OTHER_VOLUME);
    return answer == LUKS_DEVICE || answer == LUKS_MEMORY ? refused("check", answer) : 0;
}

/* Writes a backup of the header to a new file. */
static int backs_up(int fd, const char *name)
{
    uint64_t bytes = 0;
    uint32_t answer = luks_backup_length(fd, 0, LUKS_TO_END, false, &bytes);
    if (answer != LUKS_DONE)
        return refused("backup", answer);
    int backup = open(name, O_RDWR | O_CREAT | O_EXCL | O_CLOEXEC, 0600);
    if (backup < 0 || ftruncate(backup, (off_t)bytes) != 0) {
        perror(name);
        return 1;
    }
    answer = luks_backup(fd, 0, LUKS_TO_END, false, backup, 0, LUKS_TO_END);
    close(backup);
    return answer == LUKS_DONE ? 0 : refused("backup", answer);
}

static int installs(int fd, const struct words *words, const struct words *recovery, const char *backup)
{
    const struct luks_derivation strong = {.size = sizeof strong, .kind = LUKS_ARGON2ID, .turns = 4, .memory = KIB, .lanes = 4};
    uint32_t slot = 0;
    if (stands(fd) != 0)
        return 1;
    uint32_t answer = luks_format2(fd, 0, LUKS_TO_END, false, NULL, LUKS_SHA256, ITERATIONS, &strong, words->bytes, words->count, KIB, NULL, 0);
    if (answer != LUKS_DONE)
        return refused("format", answer);
    answer = luks_add(fd, 0, LUKS_TO_END, false, 0, words->bytes, words->count, recovery->bytes, recovery->count, LUKS_NO_SLOT, ITERATIONS, &strong,
                      KIB, 0, &slot);
    if (answer != LUKS_DONE)
        return refused("add", answer);
    printf("keyslot 0 opens by the passphrase, keyslot %u by that for recovery\n", slot);
    return backs_up(fd, backup);
}

int main(int count, char **names)
{
    static struct words words, recovery;
    struct luks_volume volume = {.size = sizeof volume};
    if (count != 5) {
        fputs("usage: installer VOLUME PASSPHRASE RECOVERY BACKUP\n", stderr);
        return 2;
    }
    if (read_words(names[2], &words) != 0 || read_words(names[3], &recovery) != 0)
        return 1;
    uint32_t answer = luks_open_volume(names[1], true, 3000, &volume);
    int status = answer == LUKS_DONE ? installs(volume.fd, &words, &recovery, names[4]) : refused(names[1], answer);
    if (answer == LUKS_DONE)
        luks_close_volume(&volume);
    explicit_bzero(&words, sizeof words);
    explicit_bzero(&recovery, sizeof recovery);
    return status;
}
