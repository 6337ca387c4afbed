/* libluks: judges, lists and opens LUKS volumes, edits their keyslots, makes and backs up headers, and finds volumes on a disk.
 *
 * Link with -lluks. There are two families of calls, with the same answers:
 *
 *   luks_check, luks_read, luks_unlock, luks_open     read the volume through a descriptor
 *   luks_add, luks_format2 and so on                  write it through a descriptor
 *   luks_check_bytes and so on                        take ranges of the volume in memory
 *
 * The calls named _bytes are proved (docs/PROOFS.md). The others are C code that is tested: they read the ranges that a _bytes
 * call asks for, by pread, and call it. A _bytes call that writes answers a plan of writes and flushes; the call through a
 * descriptor performs it by pwrite and fsync, in its order. No call prints, keeps anything after it has returned, starts a
 * thread, catches a signal or leaves memory for the caller to free.
 *
 * Answers. Each call answers a number: LUKS_DONE, a fault of the volume or of the request (LUKS_FAULT_..), or one of those
 * below it. luks_fault_name and luks_fault_text explain all of them. If a fault refuses a call, nothing was written. With
 * LUKS_DEVICE errno has the reason, as pread, pwrite, fsync or fstat left it: ESPIPE if the descriptor is neither a regular
 * file nor a block device, EIO if the disk fails or the file has become shorter, EBUSY if the volume's first bytes changed
 * between reading and writing, so that nothing was written. Any call may answer LUKS_USAGE, LUKS_MEMORY, LUKS_DEVICE and
 * LUKS_DIRECT, and one that writes LUKS_READONLY and LUKS_APPENDS. The comment of each call names its other faults.
 *
 * What is read. Each call has a window: the `length` bytes from `offset` on, fewer if the file ends before. It reads ranges of
 * the window as it needs them, and holds them in memory until it returns: the header, and the key areas that are opened or
 * written. The first read takes 64 KiB, or 544 KiB if a keyslot is opened; each other place takes half as much as the one
 * before; reading on takes as much again, at most 1 MiB. So a call holds some 1 MiB beyond what it needs. A call that writes
 * holds the bytes that it overwrites and those that it writes, except final zeros of a write that are there already, which
 * aren't written. Pages of zeros take no memory (docs/PERFORMANCE.md has a table). A sector that can't be read is LUKS_DEVICE
 * only if a byte of it is needed; one that is only written is written. The position in the file stays.
 *
 * Locks. Only luks_open_volume takes locks. The caller of the other calls holds flock(LOCK_SH) on the volume's file while it is
 * read, and LOCK_EX from before it is read until it was written. For a block device it also locks the file
 * /run/cryptsetup/L_MAJOR:MINOR, which cryptsetup locks, and removes when it lets go. luks_open_volume opens a name and does
 * all that.
 *
 * Threads. The calls are re-entrant: two threads may call at once, each with arguments and volumes of its own. A thread needs
 * at most 256 KiB of stack.
 *
 * Secrets. While a call through a descriptor runs, it keeps the whole pages with a passphrase, a key or random bytes out of
 * swap and of core dumps (mlock, MADV_DONTDUMP), and undoes that at its end. If the system refuses it, for example beyond
 * RLIMIT_MEMLOCK, the call goes on without; so does one of two calls that run at once over one page. Pages that the caller has
 * locked are left as they are. Memory in which keys are derived isn't locked: turn swap off or encrypt it, or call mlockall;
 * setrlimit(RLIMIT_CORE) keeps it out of core dumps. Before a call returns, it writes zeros over the keys that it derived, the
 * random bytes that it took itself, and 192 KiB of the stack below the caller. The caller keeps its own buffers: write over the
 * passphrase, the key in `key` and your random bytes (explicit_bzero), and over what a FILE or a toolkit buffered of them.
 * Registers of 16 bytes and more are cleared, on x86-64. The calls named _bytes leave the stack, registers and pages to their
 * caller.
 */
#ifndef LUKS_H
#define LUKS_H

#include <stdbool.h>
#include <stddef.h>
#include <stdint.h>

#ifdef __cplusplus
extern "C" {
#endif

enum {
    LUKS_DONE = 0,
    LUKS_USAGE = 101,  /* an argument that can't be, such as a passphrase of 4 GiB, or ranges outside the volume */
    LUKS_BEYOND = 102, /* another range has to be given; only from calls named _bytes */
    LUKS_MEMORY = 103, /* out of memory */
    LUKS_DEVICE = 104, /* a system call on the descriptor failed, and errno says how; never from calls named _bytes. A volume
                          that was being written may be changed in part: what was left opens, as after a power cut
                          (docs/PROOFS.md) */
    LUKS_SHUT = 105,   /* the passphrase opens no keyslot that was tried, or the key isn't the volume's */
    LUKS_ROOM = 106,   /* the caller's buffer is too small */

    /* Only from calls through a descriptor. The first three come before anything is read or written. */
    LUKS_APPENDS = 107,  /* the call writes, and the descriptor appends to the file's end (O_APPEND) */
    LUKS_READONLY = 108, /* the call writes, and the descriptor is open only for reading */
    LUKS_DIRECT = 109,   /* the descriptor is open for direct I/O (O_DIRECT), which needs aligned buffers */
    LUKS_STOPPED = 110,  /* the caller's luks_progress asked to stop */
    LUKS_BUSY = 111      /* only from luks_open_volume: another program holds the volume's lock */
};

/* The faults, named as by `luks explain`. A later version never changes a number; a new fault gets the next one. */
/* made by tools/faults */
enum luks_fault {
    LUKS_FAULT_TOO_SHORT = 1,
    LUKS_FAULT_NOT_LUKS = 2,
    LUKS_FAULT_VERSION = 3,
    LUKS_FAULT_NO_SOUND_COPY = 4,
    LUKS_FAULT_TEXT = 5,
    LUKS_FAULT_UUID = 6,
    LUKS_FAULT_SLOT_STATE = 7,
    LUKS_FAULT_KEY_BYTES = 8,
    LUKS_FAULT_STRIPES = 9,
    LUKS_FAULT_ITERATIONS = 10,
    LUKS_FAULT_JSON_AREA = 11,
    LUKS_FAULT_BAD_JSON = 12,
    LUKS_FAULT_NOT_WHOLE = 13,
    LUKS_FAULT_SHAPE = 14,
    LUKS_FAULT_KIND = 15,
    LUKS_FAULT_NO_SUCH_NAME = 16,
    LUKS_FAULT_ASSIGNED = 17,
    LUKS_FAULT_SIZES = 18,
    LUKS_FAULT_AREA_TOO_SMALL = 19,
    LUKS_FAULT_REGION = 20,
    LUKS_FAULT_OUTSIDE = 21,
    LUKS_FAULT_OVERLAP = 22,
    LUKS_FAULT_NO_SUCH_SLOT = 23,
    LUKS_FAULT_SLOT_FREE = 24,
    LUKS_FAULT_ARGON2 = 25,
    LUKS_FAULT_CIPHER = 26,
    LUKS_FAULT_HASH = 27,
    LUKS_FAULT_KEY_SIZE = 28,
    LUKS_FAULT_LOCKED = 29,
    LUKS_FAULT_PASSPHRASE = 30,
    LUKS_FAULT_REQUIREMENTS = 31,
    LUKS_FAULT_SLOT_TAKEN = 32,
    LUKS_FAULT_NO_FREE_SLOT = 33,
    LUKS_FAULT_NO_ROOM = 34,
    LUKS_FAULT_LAST_SLOT = 35,
    LUKS_FAULT_BAD_LABEL = 36,
    LUKS_FAULT_SEQ_EXHAUSTED = 37,
    LUKS_FAULT_METADATA_FULL = 38,
    LUKS_FAULT_RANDOM_LENGTH = 39,
    LUKS_FAULT_TOO_SMALL = 40,
    LUKS_FAULT_NOT_LUKS1 = 41,
    LUKS_FAULT_SAME_FILE = 42,
    LUKS_FAULT_COUNTS = 43,
    LUKS_FAULT_NO_METADATA = 44,
    LUKS_FAULT_EXISTS = 45,
    LUKS_FAULT_NOT_ACCEPTED = 46,
    LUKS_FAULT_DOES_NOT_FIT = 47,
    LUKS_FAULT_OTHER_VOLUME = 48,
    LUKS_FAULT_OTHER_USE = 49,
    LUKS_FAULT_SAME_SLOT = 50,
    LUKS_FAULT_NO_HEADER = 51,
    LUKS_FAULT_REENCRYPTING = 52,
    LUKS_FAULT_NO_SUCH_DIGEST = 53,
    LUKS_FAULT_KEY_LENGTH = 54,
    LUKS_FAULT_PAYLOAD = 55,
    LUKS_FAULT_SECTOR_SIZE = 56,
    LUKS_FAULT_UNEVEN = 57,
    LUKS_FAULT_WRONG_KEY = 58,
    LUKS_FAULT_NO_SUCH_TOKEN = 59,
    LUKS_FAULT_TOKEN_TAKEN = 60,
    LUKS_FAULT_NO_FREE_TOKEN = 61,
    LUKS_FAULT_UNREADABLE_TOKEN = 62,
    LUKS_FAULT_BAD_UUID = 63,
    LUKS_FAULT_UNDER_WAY = 64,
    LUKS_FAULT_NO_KEY = 65,
    LUKS_FAULT_PROGRESSED = 66,
    LUKS_FAULT_NOT_UNDER_WAY = 67
};
/* until here */

/* In place of the length of a window: everything from `offset` on. */
#define LUKS_TO_END UINT64_MAX

/* In place of a keyslot: none, or any. */
#define LUKS_NO_SLOT UINT32_MAX

/* In place of another number: none is given. */
#define LUKS_NO_NUMBER UINT32_MAX

/* In place of a sector: none is given. */
#define LUKS_NO_SECTOR UINT64_MAX

/* A struct with a field `size` can grow: a later version may add fields after the last one. Set `size` before each call:
 * `struct luks_report report = {.size = sizeof report}`. A size below that of this version's struct, or above 1024, is
 * LUKS_USAGE. It may be larger than this version's struct, if the caller was compiled for a later version. Then a call that
 * reads the struct answers LUKS_USAGE unless the fields that it doesn't know are zeros, and a call that writes the struct puts
 * zeros there. The structs of the calls named _bytes have no size: if such a call changes, it gets another name. */

/* A range of a volume: `len` bytes from the place `at` on. */
struct luks_range {
    uint64_t at, len;
};

/* What luks_check says of an accepted volume; zeros if it is refused. */
struct luks_report {
    uint64_t size;    /* of this struct */
    uint32_t version; /* 1 or 2 */
    uint32_t copies;  /* LUKS2: 1 both copies agree, 2 the first is newer, 3 the second is newer, 4 only the first is sound,
                         5 only the second is sound */
    uint64_t seqid;   /* LUKS2: the sequence number of the copy that counts */
    uint64_t areas;   /* how many areas it has: headers, keyslots, segments */
};

/* When a keyslot is tried if none is named: not at all, after the preferred ones, before the others. */
enum { LUKS_IGNORE = 0, LUKS_NORMAL = 1, LUKS_PREFER = 2 };

/* A keyslot, as the header describes it. */
struct luks_keyslot {
    uint32_t number;
    uint32_t is_enabled;     /* 0: not in use, which only LUKS1 has; then only the key area and the stripes are filled in */
    uint32_t priority;       /* LUKS2: LUKS_PREFER is tried first, LUKS_IGNORE only if it is named; otherwise LUKS_NORMAL */
    uint32_t digest;         /* LUKS2: the digest of its volume key */
    uint32_t kdf;            /* LUKS_PBKDF2, LUKS_ARGON2I or LUKS_ARGON2ID */
    uint32_t turns;          /* the iterations of PBKDF2, or the passes of Argon2 */
    uint32_t memory, lanes;  /* Argon2: its memory in KiB, and its lanes */
    uint32_t key_bytes;      /* the length of the volume key */
    uint32_t area_key_bytes; /* the length of the key that encrypts the key area */
    uint32_t stripes;
    uint64_t offset, bytes;  /* the key area: its place from the volume's start, and its length */
    char cipher[64];         /* the key area's cipher, such as aes-xts-plain64, and a 0; cut off if it is longer */
    char hash[32];           /* PBKDF2: its hash, likewise */
};

/* A part of the data, as the header describes it. */
enum { LUKS_CRYPT = 1, LUKS_LINEAR = 2 };
struct luks_segment {
    uint32_t number;
    uint32_t kind;         /* one of the numbers above, or 0 for another kind */
    uint64_t offset;       /* in bytes from the start of the device that has the data */
    uint64_t bytes;        /* LUKS_TO_END: up to that device's end */
    uint64_t iv_tweak;     /* if it is encrypted: the number of its first sector */
    uint32_t sector_bytes; /* if it is encrypted */
    char cipher[64];       /* if it is encrypted: its cipher, such as aes-xts-plain64, and a 0; cut off if it is longer */
};

/* A digest, as the header describes it. It tells whether a volume key is the right one. luks_read gives its salt and value. */
struct luks_digest {
    uint32_t number;
    uint32_t iterations; /* of PBKDF2 */
    uint32_t keyslots;   /* the keyslots that hold its volume key, a bit for each: 1 for keyslot 0, 2 for keyslot 1, and so on */
    uint32_t segments;   /* the segments that this key encrypts, likewise */
    char hash[32];       /* the hash of PBKDF2, and a 0; cut off if it is longer */
};

/* A token of a LUKS2 header, from which another program gets a passphrase. luks_token gives its whole text. */
struct luks_token {
    uint32_t number;
    uint32_t keyslots; /* the keyslots that the passphrase opens, a bit for each, as in luks_digest */
    char kind[64];     /* its type as JSON spells it, and a 0; cut off if it is longer */
};

/* What a passphrase opens. */
struct luks_opened {
    uint64_t size;      /* of this struct */
    uint32_t slot;      /* the keyslot */
    uint32_t key_bytes; /* the length of the volume key; 0 if no keyslot opens */
};

/* How a new keyslot derives its key from the passphrase. Argon2 has 1 to 2^24 - 1 lanes and takes at least 8 KiB for each.
 * LUKS1 has only PBKDF2. Costs beyond these bounds, or beyond the memory that the call allows, are the fault Argon2. Fewer than
 * 1000 iterations, or no pass, are the fault Iterations. Another kind is LUKS_USAGE. */
enum { LUKS_PBKDF2 = 1, LUKS_ARGON2I = 2, LUKS_ARGON2ID = 3 };
struct luks_derivation {
    uint64_t size;   /* of this struct */
    uint32_t kind;   /* one of the numbers above */
    uint32_t turns;  /* the iterations of PBKDF2, or the passes of Argon2 */
    uint32_t memory; /* Argon2: in KiB */
    uint32_t lanes;  /* Argon2 */
};

/* An edit, without its secret and its text. The secret is the passphrase of a keyslot, or the volume key in that keyslot. With
 * the key nothing is derived, and the key material isn't read. */
enum {
    LUKS_ADD = 1,
    LUKS_CHANGE = 2,
    LUKS_REMOVE = 3,
    LUKS_REPAIR = 4,
    LUKS_LABEL = 5,
    LUKS_PRIORITY = 6,
    LUKS_TOKEN_ADD = 7,
    LUKS_TOKEN_REMOVE = 8,
    LUKS_UUID = 9,
    LUKS_ERASE = 10
};
struct luks_edit {
    uint64_t size;       /* of this struct */
    uint32_t kind;       /* one of the numbers above */
    uint32_t slot;       /* change, remove, priority: the keyslot */
    uint32_t by;         /* add: the keyslot that the secret opens; remove: likewise, LUKS_NO_SLOT if it is `slot` */
    uint32_t to;         /* add: the new keyslot, or LUKS_NO_SLOT for the lowest free one; token to add: its number, likewise;
                            token to remove: its number; priority: LUKS_IGNORE and so on */
    uint32_t iterations; /* add, change: of the new keyslot's PBKDF2, at least 1000, if no derivation is given */
    uint32_t memory;     /* how many KiB Argon2 may take */
    uint32_t older;      /* whether the secret may open a keyslot of an older disk, as for luks_unlock; 0: no */
    uint32_t by_key;     /* add, change, remove: whether the secret is the volume key; 0: it is a passphrase */
    const struct luks_derivation *derivation; /* add, change: the new keyslot's; NULL: like the keyslot that the secret opens */
    const char *subsystem;    /* label: the subsystem, of bytes that a label may have too; NULL: it stays */
    uint64_t subsystem_bytes; /* label: how many bytes the subsystem has; 0 if it is NULL */
};

/* The cipher of a new volume, for its data and its key areas. The last three are of older disks, for data that is already
 * there. */
enum {
    LUKS_AES_XTS_PLAIN64 = 1,      /* with keys of 32 or 64 bytes */
    LUKS_AES_XTS_PLAIN = 2,        /* likewise */
    LUKS_AES_CBC_ESSIV_SHA256 = 3, /* with keys of 16, 24 or 32 bytes */
    LUKS_AES_CBC_PLAIN64 = 4,
    LUKS_AES_CBC_PLAIN = 5
};

/* What the caller gives for a new volume. A pointer is NULL if nothing is given. */
struct luks_given {
    uint64_t size;         /* of this struct */
    uint64_t sector;       /* where the data begins, in sectors of 512 bytes. LUKS_NO_SECTOR: at 2 MiB for LUKS1, at 16 MiB for
                              LUKS2, and at 0 if `is_detached` */
    const void *key;       /* the volume key; NULL: random bytes */
    uint64_t key_bytes;    /* the length of the volume key, also of a random one; 0: 64, or 32 with a cipher of older disks */
    const char *uuid, *label, *subsystem; /* texts that end with a 0; an empty one isn't given. LUKS1 has only the first */
    uint32_t cipher;       /* one of the numbers above; 0: LUKS_AES_XTS_PLAIN64 */
    uint32_t sector_bytes; /* the length of the data's sectors: 512, for LUKS2 also 1024, 2048 or 4096; 0: 512 */
    uint32_t older;        /* whether a cipher of older disks is accepted; 0: no */
    uint32_t nothing;      /* 0, else the answer is LUKS_USAGE */
};

/* The hash of a new volume: for the derivation, the splitter and the digest. */
enum { LUKS_SHA1 = 1, LUKS_SHA256 = 2, LUKS_SHA512 = 3 };

/* A call of a plan. It writes the next `len` of the plan's bytes at the place `at`, or is a flush if `len` is 0. */
struct luks_call {
    uint64_t at, len;
};

/* A plan. Only calls named _bytes have one. */
struct luks_plan {
    uint64_t calls;         /* how many calls it has, also with LUKS_ROOM */
    uint64_t bytes;         /* how many bytes they write together */
    struct luks_range beyond;        /* LUKS_BEYOND: the range that has to be given; empty if it is the source's */
    struct luks_range source_beyond; /* LUKS_BEYOND, calls with a source: the source's range that has to be given; empty if it is
                                        the target's */
    uint32_t slot;          /* edits: the keyslot that is made or sealed again, or LUKS_NO_SLOT */
    uint32_t to_write;      /* LUKS_BEYOND: 1 if the bytes of `beyond` will be written and none of them is read before that; else
                               0. A caller that can't read them may give any other bytes but 0 in their place: the plan
                               overwrites each */
};

/* What the caller gives for a LUKS1 header that is rebuilt: texts that end with a 0, or NULL if one isn't given. */
struct luks_fields {
    uint64_t size;                                /* of this struct */
    const char *cipher_name, *cipher_mode, *hash; /* such as aes, xts-plain64, sha256 */
    uint32_t key_bytes;                           /* the length of the volume key, 1 to 128; LUKS_NO_NUMBER: not given */
    uint32_t payload;                             /* the sector where the data begins; LUKS_NO_NUMBER: not given */
};

/* How a keyslot of a backup compares to the volume's keyslot with the same number. Their salts tell, since a keyslot gets a new
 * salt whenever it is made.
 *
 *   LUKS_ABSENT   neither has it
 *   LUKS_SAME     both have it, with one salt and one key area
 *   LUKS_OLDER    both have it, with different salts
 *   LUKS_MISSING  only the volume has it
 *   LUKS_REMOVED  only the backup has it
 *   LUKS_DAMAGED  both have it, with one salt and different key areas, so one of the two is damaged
 */
enum { LUKS_ABSENT = 0, LUKS_SAME = 1, LUKS_OLDER = 2, LUKS_MISSING = 3, LUKS_REMOVED = 4, LUKS_DAMAGED = 5 };

/* How many keyslots a volume may have. */
#define LUKS_KEYSLOTS 32

/* How a backup compares to a volume, besides the keyslots; only for the call named _bytes. */
struct luks_compared {
    uint32_t same_key;      /* 1 if a digest of the backup's volume key is one of the volume's */
    struct luks_range backup_beyond; /* LUKS_BEYOND: the backup's range that has to be given; empty if it is the volume's */
    struct luks_range beyond;        /* LUKS_BEYOND: the volume's range that has to be given; empty if it is the backup's */
};

/* How long a backup is; only for the call named _bytes. */
struct luks_length {
    uint64_t bytes;
    struct luks_range beyond; /* LUKS_BEYOND: the range that has to be given */
};

/* How many volumes were found; only for the call named _bytes. */
struct luks_found {
    uint64_t count;  /* also with LUKS_ROOM */
    struct luks_range beyond; /* LUKS_BEYOND: the range that has to be given */
};

/* What else a disk is used for; only for the call named _bytes. */
struct luks_signature {
    uint32_t shows;  /* a number for luks_signature_name, or 0 for no other use */
    struct luks_range beyond; /* LUKS_BEYOND: the range that has to be given */
};

/* How many random bytes an edit takes; only for the call named _bytes. */
struct luks_needed {
    uint64_t random;
    struct luks_range beyond; /* LUKS_BEYOND: the range that has to be given */
};

/* Whether a key is the volume's; only for the call named _bytes. */
struct luks_met {
    uint32_t digest; /* the digest that judged it */
    struct luks_range beyond; /* LUKS_BEYOND: the range that has to be given */
};

/* The structs above, for the calls named _bytes: what a volume is, what a passphrase opens, and what is asked for. */
struct luks_report_bytes {
    uint32_t version, copies;
    uint64_t seqid, areas;
    struct luks_range beyond; /* LUKS_BEYOND: the range that has to be given */
};

struct luks_opened_bytes {
    uint32_t slot, key_bytes;
    struct luks_range beyond; /* LUKS_BEYOND: the range that has to be given */
};

struct luks_derivation_bytes {
    uint32_t kind; /* 0: none is given */
    uint32_t turns, memory, lanes;
};

struct luks_encryption_bytes {
    uint32_t cipher, key_bytes, sector_bytes, older; /* as in luks_given, but 0 is neither a cipher nor a number of bytes */
};

struct luks_edit_bytes {
    uint32_t kind, slot, by, to, iterations, memory, older, by_key;
    uint32_t subsystem; /* label: whether the subsystem is set too; 0: no */
    struct luks_derivation_bytes derivation;
};

/* What a header says, or the text of a token; only for calls named _bytes. */
struct luks_read {
    uint64_t json_bytes; /* how many bytes the text has; 0 if there is none */
    struct luks_range beyond;     /* LUKS_BEYOND: the range that has to be given */
};

/* A function of the caller's that a running call tells how far it is: `done` of `total`. It is called on the thread that made
 * the call, between two parts of the work, and never while a secret is derived. If it returns anything but 0, the call ends
 * with LUKS_STOPPED. */
typedef int luks_progress(void *context, uint64_t done, uint64_t total);

/* ---- a volume by its name ---- */

/* What luks_open_volume opened. */
struct luks_volume {
    uint64_t size; /* of this struct */
    int fd;   /* for the calls below; -1 if it isn't open */
    int lock; /* block device: cryptsetup's file, which is locked. -1 for a regular file, and if that file can't be made or
                 locked, for example by a user without rights: then cryptsetup isn't kept out */
};

/* Opens a file or a block device, for reading or, if `writes`, for reading and writing, and takes the locks that `luks` takes:
 * shared to read, exclusive to write, for a block device also that of cryptsetup's file. If another program holds a lock, it
 * asks again every 50 ms, for at most `milliseconds` (`luks` waits 3000), and then answers LUKS_BUSY. If the file system knows
 * no locks, it goes on without. If the answer is LUKS_DEVICE, errno is what open left: ESPIPE for a folder, a pipe and so on,
 * which it never waits for; EROFS for a read-only device that is to be written. What was read before the lock was held may be
 * outdated: read it again. */
uint32_t luks_open_volume(const char *name, bool writes, uint32_t milliseconds, struct luks_volume *volume);

/* Closes the volume, which releases its locks. errno stays. */
void luks_close_volume(struct luks_volume *volume);

/* ---- through a descriptor of a file or a block device, open for reading ----
 *
 * The volume is the `length` bytes from `offset` on, fewer if the file ends before; LUKS_TO_END takes all.
 *
 * Each call that reads a header may be refused by the header's first fault: LUKS_FAULT_TOO_SHORT to LUKS_FAULT_OVERLAP, the
 * numbers 1 to 22. */

/* Checks whether the volume is well formed, with its areas. If it isn't, the answer is its first fault, one of these 22.
 * `is_detached`: the data is elsewhere. */
uint32_t luks_check(int fd, uint64_t offset, uint64_t length, bool is_detached, struct luks_report *report);

/* Gives what the header that counts says: the JSON object of `luks show --json`, without a 0 or a newline after it.
 * `json_bytes` gets its length, also with LUKS_ROOM: ask with no room first. The areas may be in impossible places, which
 * luks_check tells. Otherwise the answer is the header's first fault. */
uint32_t luks_read(int fd, uint64_t offset, uint64_t length, char *json, size_t json_room, uint64_t *json_bytes);

/* Give what the header that counts says as records, by their numbers, in an array with room for `room` of them. `size` is the
 * size of a record, sizeof(struct luks_keyslot) and so on, else the answer is LUKS_USAGE. `count` gets how many there are, at
 * most LUKS_KEYSLOTS, also with LUKS_ROOM, which says that there are more than `room`. LUKS2 has the keyslots of its metadata.
 * LUKS1 has all eight keyslots, one segment, one digest and no token. Otherwise the answer is the header's first fault, as for
 * luks_read. */
uint32_t luks_keyslots(int fd, uint64_t offset, uint64_t length, struct luks_keyslot *keyslots, size_t size, size_t room,
                       size_t *count);

uint32_t luks_segments(int fd, uint64_t offset, uint64_t length, struct luks_segment *segments, size_t size, size_t room,
                       size_t *count);

uint32_t luks_digests(int fd, uint64_t offset, uint64_t length, struct luks_digest *digests, size_t size, size_t room,
                      size_t *count);

uint32_t luks_tokens(int fd, uint64_t offset, uint64_t length, struct luks_token *tokens, size_t size, size_t room,
                     size_t *count);

/* Gives the text of the token `number`, as `luks token export` prints it, without a 0 or a newline after it: a JSON object that
 * luks_token_add takes. Characters that control a terminal are escaped. `text_bytes` gets its length, also with LUKS_ROOM.
 * LUKS_FAULT_NO_SUCH_TOKEN: there is no such token. Otherwise the answer is the header's first fault, as for luks_read. */
uint32_t luks_token(int fd, uint64_t offset, uint64_t length, uint32_t number, char *text, size_t text_room,
                    uint64_t *text_bytes);

/* Finds the first keyslot that the passphrase opens. Argon2 may take up to `memory` KiB for each keyslot. If `older` isn't 0,
 * the ciphers and hashes of older disks are accepted (docs/PROFILE.md): key areas in aes-cbc-essiv:sha256, aes-cbc-plain and
 * aes-cbc-plain64, and sha224, sha384, ripemd160, whirlpool and blake2b-512. If it is 0, such keyslots are passed over.
 *
 * `key` gets the volume key, unless `key_room` is 0. 128 bytes hold any key. If the key has more than `key_room` bytes, the
 * answer is LUKS_ROOM, and `key_bytes` of `opened` says how many.
 *
 * For LUKS2, keyslots of priority 2 are tried first, and those of priority 0 not at all. LUKS_SHUT: the passphrase opens no
 * keyslot that was tried. It may still be right: a keyslot may need more `memory`, or `older`; luks_try says which ones weren't
 * tried. If a keyslot can't be read, the others are tried once more, and the answer is LUKS_DEVICE if none of them opens.
 * Otherwise the answer is the header's first fault. */
uint32_t luks_unlock(int fd, uint64_t offset, uint64_t length, const void *passphrase, size_t passphrase_bytes, uint32_t memory,
                     uint32_t older, void *key, size_t key_room, struct luks_opened *opened);

/* Tries the passphrase only on the keyslot `n`, even if its priority is 0; the arguments are those of luks_unlock. LUKS_SHUT:
 * the passphrase was tried, and doesn't open it. The faults for which it isn't tried: the header's first fault,
 * LUKS_FAULT_NO_SUCH_SLOT (also for every number above 31 for LUKS2, above 7 for LUKS1), _SLOT_FREE, _OUTSIDE, _ARGON2 (it
 * takes more than `memory`), _CIPHER or _HASH (unknown, or of an older disk), _KEY_SIZE. */
uint32_t luks_open(int fd, uint64_t offset, uint64_t length, uint32_t n, const void *passphrase, size_t passphrase_bytes,
                   uint32_t memory, uint32_t older, void *key, size_t key_room, struct luks_opened *opened);

/* Tries the passphrase on each keyslot, and puts what luks_open answers for the keyslot `n` into answers[n]: LUKS_DONE,
 * LUKS_SHUT, the fault for which it wasn't tried, or LUKS_DEVICE or LUKS_MEMORY, which don't end the call. It takes as long as
 * luks_unlock takes if no keyslot opens. `progress` may be NULL; it is called before each keyslot. If the header can't be read
 * or is refused, that is the answer, and `answers` is left alone. If it is LUKS_STOPPED, `answers` has those up to then. */
uint32_t luks_try(int fd, uint64_t offset, uint64_t length, const void *passphrase, size_t passphrase_bytes, uint32_t memory,
                  uint32_t older, luks_progress *progress, void *context, uint32_t answers[LUKS_KEYSLOTS]);

/* Says whether these bytes are the volume key: LUKS_DONE if they meet the digest, by the standards' equation for a key from a
 * keyslot, else LUKS_SHUT. `digest` is the number of the digest, or LUKS_NO_NUMBER for that of the volume key: the only one of
 * LUKS1, for LUKS2 the one of segment 0. `judged`, unless it is NULL, gets its number. Faults: the header's first,
 * LUKS_FAULT_NO_SUCH_DIGEST, _KEY_LENGTH (a keyslot of that digest gives a key of another length) or _HASH (unknown, or an
 * older one and `older` is 0). luks_unlock and luks_open give the key itself. */
uint32_t luks_meets(int fd, uint64_t offset, uint64_t length, const void *key, size_t key_bytes, uint32_t digest,
                    uint32_t older, uint32_t *judged);

/* Says what else the disk is used for, by the signatures in the first `within` bytes. `shows` gets a number whose name
 * luks_signature_name gives: a partition table, a file system, swap and so on, as libblkid knows them. LUKS is none of them,
 * and no other use is 0. */
uint32_t luks_signature(int fd, uint64_t offset, uint64_t length, uint64_t within, uint32_t *shows);

/* Finds the first place, at `from` or after it, at which a LUKS volume begins in the window. It knows a volume by its header
 * (for LUKS1 also without the magic), by its second copy, or by metadata that is whole. `place` is in bytes from the window's
 * start, a multiple of 512, or LUKS_TO_END if there is none. The call holds up to 64 MiB. If a sector can't be read, it first
 * searches what is before that sector. Then the answer is LUKS_DEVICE, and `place` is the first byte after the sector: ask
 * again from there, and so on. If nothing can be read, `place` is LUKS_TO_END. */
uint32_t luks_find(int fd, uint64_t offset, uint64_t length, uint64_t from, uint64_t *place);

/* Does what luks_find does, and calls `progress` before it reads each block: no volume begins before `done`. */
uint32_t luks_find_watched(int fd, uint64_t offset, uint64_t length, uint64_t from, luks_progress *progress, void *context,
                           uint64_t *place);

/* Searches only one block, for callers that look for signals between two. If no volume begins in it, `place` is LUKS_TO_END,
 * and `reached` is the place to ask from next, or LUKS_TO_END if the search is done. If the answer is LUKS_DEVICE, `reached` is
 * the first byte after the sector that can't be read. */
uint32_t luks_find_step(int fd, uint64_t offset, uint64_t length, uint64_t from, uint64_t *place, uint64_t *reached);

/* Compares the keyslots of a backup (the first descriptor) to those of the volume, by their salts and key areas: `keyslots`
 * gets LUKS_ABSENT and so on for each number. The backup is current if each keyslot is LUKS_ABSENT or LUKS_SAME. `is_same_key`,
 * unless it is NULL, says whether a digest of the backup's volume key is one of the volume's. Nothing is written. Faults:
 * LUKS_FAULT_SAME_FILE (both descriptors are of one file), _NOT_ACCEPTED (the backup's header), _OTHER_VOLUME (the header that
 * counts is another volume's), or the first fault of the volume's header. */
uint32_t luks_compare(int backup_fd, uint64_t backup_offset, uint64_t backup_length, int fd, uint64_t offset, uint64_t length,
                      bool is_detached, uint8_t keyslots[LUKS_KEYSLOTS], bool *is_same_key);

/* Says how many bytes a backup of the volume's header has. Otherwise the answer is the header's first fault. */
uint32_t luks_backup_length(int fd, uint64_t offset, uint64_t length, bool is_detached, uint64_t *bytes);

/* ---- through a descriptor that is open for reading and writing ----
 *
 * LUKS_READONLY, LUKS_APPENDS and LUKS_DIRECT come before anything is read. Then the call settles what was written before
 * (fsync), and reads everything of the volume that it needs or will overwrite. If a fault refuses the call, nothing was
 * written. `is_detached`: the volume is only a header, and its data is elsewhere. `random`: bytes that nobody can guess, as
 * many as luks_needed says, or NULL for bytes from getrandom.
 *
 * No call asks what else the disk is used for. So ask first:
 *
 *   before a call makes a header (luks_format1, luks_convert and so on)
 *       luks_signature of the whole target, and luks_check with `is_detached`: another volume's header may be there
 *   before an edit, if luks_check says that only one copy is sound
 *       luks_signature of the places of both copies, twice the header's size: the other one may have another use by now
 *
 * An edit may be refused by the header's first fault, by those of luks_open for the keyslot that the passphrase opens, and by
 * LUKS_FAULT_REQUIREMENTS (of the metadata, for example during a reencryption), _LOCKED (the passphrase doesn't open the
 * keyslot), _SAME_SLOT, _SLOT_TAKEN, _NO_FREE_SLOT, _NO_ROOM, _LAST_SLOT, _ITERATIONS and _ARGON2 (costs of the new keyslot),
 * _BAD_LABEL (also for what LUKS1 doesn't have: label, priority, tokens), _SEQ_EXHAUSTED, _METADATA_FULL, _RANDOM_LENGTH (of
 * given random bytes). The edits of a priority, a token and a uuid name more faults below. If the power fails during an edit,
 * everything that opened before still opens, or what the edit makes does. */

/* Says how many random bytes the edit takes, and writes nothing. `secret` is the passphrase, or the volume key if `by_key` says
 * so. `text` is the new passphrase, the label, the uuid (empty: a new one) or the text of the new token. Otherwise the answer
 * is the edit's first fault, of those that show without opening a keyslot. */
uint32_t luks_needed(int fd, uint64_t offset, uint64_t length, bool is_detached, const struct luks_edit *edit,
                     const void *secret, size_t secret_bytes, const void *text, size_t text_bytes, uint64_t *random_bytes);

/* Does the edit. `slot`, unless it is NULL, gets the keyslot that is made or sealed again. */
uint32_t luks_apply(int fd, uint64_t offset, uint64_t length, bool is_detached, const struct luks_edit *edit,
                    const void *secret, size_t secret_bytes, const void *text, size_t text_bytes, const void *random,
                    size_t random_bytes, uint32_t *slot);

/* Finds costs with which a derivation of this kind takes about `milliseconds` on this machine. For PBKDF2 these are the
 * iterations by this hash, at least 1000. For Argon2 these are the passes, at least 4, over `memory` KiB with so many lanes; if
 * 4 passes take longer, it is less memory, but at least 64 MiB. It measures them, which takes a second or two and as much
 * memory; whatever else runs meanwhile slows it down. Costs that can't be are LUKS_FAULT_ARGON2. No file is read or written. */
uint32_t luks_costs(uint32_t kind, uint32_t hash, uint32_t milliseconds, uint32_t memory, uint32_t lanes,
                    struct luks_derivation *derivation);

/* The edits by name, with random bytes from getrandom. luks_add adds the keyslot `to`, or with LUKS_NO_SLOT the lowest free
 * one, in which the passphrase `added` opens what `passphrase` opens in the keyslot `by`. luks_change replaces `passphrase`,
 * which opens the keyslot `slot`, by `changed`. luks_remove removes the keyslot `slot` by its own passphrase, or by that of the
 * keyslot `by`. Unless they are NULL, `slot` of luks_add and `made` of luks_change get the new keyslot.
 *
 * If the keyslot that luks_add or luks_change opens is LUKS_NO_SLOT, they open the one that luks_unlock finds, and LUKS_SHUT
 * says that the passphrase opens none. The new keyslot derives by `derivation`; if that is NULL, like the keyslot that is
 * opened, PBKDF2 with `iterations`. Argon2 may take up to `memory` KiB for either. If `older` isn't 0, the passphrase may open
 * a keyslot of an older disk, as for luks_unlock, and the new keyslot is like it. */
uint32_t luks_add(int fd, uint64_t offset, uint64_t length, bool is_detached, uint32_t by, const void *passphrase,
                  size_t passphrase_bytes, const void *added, size_t added_bytes, uint32_t to, uint32_t iterations,
                  const struct luks_derivation *derivation, uint32_t memory, uint32_t older, uint32_t *slot);

uint32_t luks_change(int fd, uint64_t offset, uint64_t length, bool is_detached, uint32_t slot, const void *passphrase,
                     size_t passphrase_bytes, const void *changed, size_t changed_bytes, uint32_t iterations,
                     const struct luks_derivation *derivation, uint32_t memory, uint32_t older, uint32_t *made);

/* Does what luks_add does, with the volume key in place of a passphrase. If `by` is LUKS_NO_SLOT, it needs no keyslot, so it
 * gives a keyslot to a header whose keyslots are all destroyed or gone. The header's digest checks the key. For LUKS2 that is
 * the first one that the key meets, of those that a segment is assigned to, else of all. If `by` names a keyslot, the key is
 * that keyslot's, and its key area isn't read. LUKS_FAULT_KEY_LENGTH: no such key has so many bytes. LUKS_FAULT_WRONG_KEY: it
 * isn't the key. Use luks_apply to change or remove a keyslot by the volume key. It removes a keyslot by any key of the volume
 * if `by` is LUKS_NO_SLOT. */
uint32_t luks_add_by_key(int fd, uint64_t offset, uint64_t length, bool is_detached, uint32_t by, const void *key,
                         size_t key_bytes, const void *added, size_t added_bytes, uint32_t to, uint32_t iterations,
                         const struct luks_derivation *derivation, uint32_t memory, uint32_t older, uint32_t *slot);

uint32_t luks_remove(int fd, uint64_t offset, uint64_t length, bool is_detached, uint32_t slot, uint32_t by,
                     const void *passphrase, size_t passphrase_bytes, uint32_t memory, uint32_t older);

/* Removes every keyslot and wipes its area, for LUKS1 also those that aren't in use. It asks for no passphrase, and none opens
 * the volume afterwards. Only a backup of the header brings the data back, or the volume key, by luks_add_by_key. */
uint32_t luks_erase(int fd, uint64_t offset, uint64_t length, bool is_detached);

/* LUKS2: writes both copies of the header anew from the one that counts. LUKS1: nothing. */
uint32_t luks_repair(int fd, uint64_t offset, uint64_t length, bool is_detached);

/* LUKS2: sets the label, at most 47 bytes of 0x20 to 0x7E. */
uint32_t luks_label(int fd, uint64_t offset, uint64_t length, bool is_detached, const char *label, size_t label_bytes);

/* LUKS2: sets the label and the subsystem, which is at most 47 such bytes too. If `subsystem` is NULL, it stays. */
uint32_t luks_label_subsystem(int fd, uint64_t offset, uint64_t length, bool is_detached, const char *label, size_t label_bytes,
                              const char *subsystem, size_t subsystem_bytes);

/* Sets the volume's uuid, and nothing else: each keyslot opens to what it did. `uuid` ends with a 0 and has 32 hexadecimal
 * digits with hyphens at places 8, 13, 18 and 23, else the answer is LUKS_FAULT_BAD_UUID. NULL or an empty text asks for a new
 * uuid of random bytes. */
uint32_t luks_set_uuid(int fd, uint64_t offset, uint64_t length, bool is_detached, const char *uuid);

/* LUKS2: sets the priority of the keyslot `slot` to LUKS_IGNORE, LUKS_NORMAL or LUKS_PREFER; another number is LUKS_USAGE.
 * LUKS_FAULT_NO_SUCH_SLOT: there is no such keyslot. */
uint32_t luks_set_priority(int fd, uint64_t offset, uint64_t length, bool is_detached, uint32_t slot, uint32_t priority);

/* LUKS2: adds a token. The text is a JSON object with a `type`, with `keyslots`, an array of texts that name keyslots, and with
 * any other members, which are kept. The token gets the number `to`, or with LUKS_NO_NUMBER the lowest free one. Faults:
 * LUKS_FAULT_NO_SUCH_TOKEN (31 is the last number), _TOKEN_TAKEN, _NO_FREE_TOKEN, _UNREADABLE_TOKEN (an empty type, or more
 * than 29 levels of arrays and objects, which cryptsetup doesn't read), _BAD_JSON (the text isn't JSON), and those that
 * luks_check would find in it: _SHAPE, _KIND, _NO_SUCH_NAME. luks_token reads a token. */
uint32_t luks_token_add(int fd, uint64_t offset, uint64_t length, bool is_detached, const char *text, size_t text_bytes,
                        uint32_t to);

/* LUKS2: removes the token `number`. LUKS_FAULT_NO_SUCH_TOKEN: there is no such token. */
uint32_t luks_token_remove(int fd, uint64_t offset, uint64_t length, bool is_detached, uint32_t number);

/* Make a LUKS1 or a LUKS2 volume whose keyslot 0 opens by the passphrase. `given` is NULL, or has what is to be taken in place
 * of random bytes and of the defaults. What was there before is overwritten without a question, but no byte from where the data
 * begins.
 *
 * Faults, in this order: LUKS_FAULT_PAYLOAD (in the header or the key areas, or beyond what the header can say), _TOO_SMALL,
 * _SECTOR_SIZE, _UNEVEN (the data isn't a whole number of such sectors), _UUID, _BAD_LABEL, _CIPHER (of older disks, and
 * `older` is 0), _KEY_LENGTH (the cipher takes no such key), _ITERATIONS, _ARGON2 and _RANDOM_LENGTH. A number that is no
 * cipher's is LUKS_USAGE.
 *
 * The calls take 80 and 208 random bytes, and 4000 for each byte of the volume key: 256080 and 256208 for a key of 64 bytes.
 * They take them even if something is given in their place. The keyslot of LUKS2 derives by `derivation`, Argon2 with up to
 * `memory` KiB; if that is NULL, by PBKDF2 with `iterations`, like the digest of the volume key. */
uint32_t luks_format1(int fd, uint64_t offset, uint64_t length, bool is_detached, const struct luks_given *given, uint32_t hash,
                      uint32_t iterations, const void *passphrase, size_t passphrase_bytes, const void *random,
                      size_t random_bytes);

uint32_t luks_format2(int fd, uint64_t offset, uint64_t length, bool is_detached, const struct luks_given *given, uint32_t hash,
                      uint32_t iterations, const struct luks_derivation *derivation, const void *passphrase,
                      size_t passphrase_bytes, uint32_t memory, const void *random, size_t random_bytes);

/* ---- a separate header, made of a source ----
 *
 * The first descriptor is the source's, which is only read. The second one is the target's, another file, open for reading and
 * writing. A header for the source's data is written to the target, from its byte 0 on, over whatever is there. The target has
 * to be long enough: 16 MiB hold any header that luks_convert makes. If a fault refuses the call, nothing was written.
 * LUKS_FAULT_SAME_FILE: both descriptors are of one file. LUKS_FAULT_TOO_SMALL: the target is too short. */

/* Makes a LUKS2 header of a LUKS1 volume, with which each enabled keyslot opens as before. `is_detached`: the source's data is
 * elsewhere. It takes 128 random bytes. Faults: the source's first, LUKS_FAULT_NOT_LUKS1, _NO_ROOM, _METADATA_FULL. */
uint32_t luks_convert(int source_fd, uint64_t source_offset, uint64_t source_length, bool is_detached, int fd, uint64_t offset,
                      uint64_t length, const void *random, size_t random_bytes);

/* Makes a LUKS2 header of metadata that a checksum vouches for, or that is still whole, if no header counts. With `is_second`
 * it takes a second copy's metadata, with a `size` other than 0 that of a copy of so many bytes; either works even if a header
 * counts. `uuid` is a text or NULL. It takes 144 random bytes. Faults: LUKS_FAULT_COUNTS (a header counts), _NO_METADATA,
 * _UUID, or a fault of areas (_REGION, _OUTSIDE, _OVERLAP, _AREA_TOO_SMALL). */
uint32_t luks_rebuild2(int source_fd, uint64_t source_offset, uint64_t source_length, bool is_second, uint64_t size,
                       const char *uuid, int fd, uint64_t offset, uint64_t length, const void *random, size_t random_bytes);

/* Makes a LUKS1 header of what is left of one, and of what is given: `fields` and `uuid` may be NULL. Faults:
 * LUKS_FAULT_COUNTS, _NO_HEADER, _REENCRYPTING, _TEXT, _KEY_BYTES, _ITERATIONS, or a fault of areas. */
uint32_t luks_rebuild1(int source_fd, uint64_t source_offset, uint64_t source_length, const struct luks_fields *fields,
                       const char *uuid, int fd, uint64_t offset, uint64_t length);

/* Does what `luks rebuild` without options does: luks_rebuild2 with any copy, or luks_rebuild1 if the source turns out to be
 * LUKS1. */
uint32_t luks_rebuild(int source_fd, uint64_t source_offset, uint64_t source_length, const char *uuid, int fd, uint64_t offset,
                      uint64_t length, const void *random, size_t random_bytes);

/* ---- header backups: the first descriptor is the source's, which is only read ---- */

/* Writes a backup of the source's header to the target, from its byte 0 on: the header and the key areas of the keyslots in
 * use, at their places, with zeros between them. The target needs as many bytes as luks_backup_length says, else the answer is
 * LUKS_FAULT_TOO_SMALL. It has to be another file, else the answer is LUKS_FAULT_SAME_FILE. */
uint32_t luks_backup(int source_fd, uint64_t source_offset, uint64_t source_length, bool is_detached, int fd, uint64_t offset,
                     uint64_t length);

/* Puts the header and the key areas of a backup onto the volume, which is only a header if `is_detached`. If the header that
 * counts there is another volume's, the call is refused, unless it `is_over_any`. It asks neither for another use of the disk,
 * which luks_signature tells, nor for an unfinished reencryption of the volume. Faults: LUKS_FAULT_NOT_ACCEPTED (the backup has
 * no header that is accepted), _DOES_NOT_FIT (it has one, but not for this volume), _OTHER_VOLUME, _SAME_FILE. */
uint32_t luks_restore(int backup_fd, uint64_t backup_offset, uint64_t backup_length, int fd, uint64_t offset, uint64_t length,
                      bool is_detached, bool is_over_any);

/* ---- on ranges of a volume of `total` bytes, in memory ----
 *
 * The ranges are inside the volume, in their order and with a gap between any two. `held` has their bytes one after the other.
 * Anything else is LUKS_USAGE. Begin with no range, if you like. LUKS_BEYOND asks for a range, which begins at the first place
 * that isn't given: make the call again with it too, joined to the ranges that it touches. If you can't read it, the call's
 * answer is LUKS_DEVICE. Any other answer depends only on the given bytes, whatever is around them.
 *
 * Pointers are valid for their lengths. A buffer that is written overlaps no other one. A pointer with length 0 may be
 * anything but null. */

uint32_t luks_check_bytes(const struct luks_range *ranges, size_t ranges_count, const uint8_t *held, size_t held_bytes,
                          uint64_t total, bool is_detached, struct luks_report_bytes *report);

uint32_t luks_read_bytes(const struct luks_range *ranges, size_t ranges_count, const uint8_t *held, size_t held_bytes,
                         uint64_t total, uint8_t *json, size_t json_room, struct luks_read *read);

uint32_t luks_token_bytes(const struct luks_range *ranges, size_t ranges_count, const uint8_t *held, size_t held_bytes,
                          uint64_t total, uint32_t number, uint8_t *text, size_t text_room, struct luks_read *read);

uint32_t luks_unlock_bytes(const struct luks_range *ranges, size_t ranges_count, const uint8_t *held, size_t held_bytes,
                           uint64_t total, const uint8_t *passphrase, size_t passphrase_bytes, uint32_t memory, uint32_t older,
                           uint8_t *key, size_t key_room, struct luks_opened_bytes *opened);

/* `n` has 8 bits: C takes the remainder of a larger number. */
uint32_t luks_open_bytes(const struct luks_range *ranges, size_t ranges_count, const uint8_t *held, size_t held_bytes,
                         uint64_t total, uint8_t n, const uint8_t *passphrase, size_t passphrase_bytes, uint32_t memory,
                         uint32_t older, uint8_t *key, size_t key_room, struct luks_opened_bytes *opened);

/* 0: the key meets the digest; LUKS_SHUT: it doesn't. With LUKS_NO_NUMBER as `digest` it is that of the volume key. */
uint32_t luks_meets_bytes(const struct luks_range *ranges, size_t ranges_count, const uint8_t *held, size_t held_bytes,
                          uint64_t total, const uint8_t *key, size_t key_bytes, uint32_t digest, uint32_t older,
                          struct luks_met *met);

uint32_t luks_needed_bytes(const struct luks_range *ranges, size_t ranges_count, const uint8_t *held, size_t held_bytes,
                           uint64_t total, bool is_detached, const struct luks_edit_bytes *edit, const uint8_t *passphrase,
                           size_t passphrase_bytes, const uint8_t *text, size_t text_bytes, const uint8_t *subsystem,
                           size_t subsystem_bytes, struct luks_needed *needed);

uint32_t luks_signature_bytes(const struct luks_range *ranges, size_t ranges_count, const uint8_t *held, size_t held_bytes,
                              uint64_t total, uint64_t within, struct luks_signature *signature);

uint32_t luks_backup_length_bytes(const struct luks_range *ranges, size_t ranges_count, const uint8_t *held, size_t held_bytes,
                                  uint64_t total, bool is_detached, struct luks_length *backup);

/* `keyslots` has room for LUKS_KEYSLOTS numbers, else the answer is LUKS_USAGE. */
uint32_t luks_compare_bytes(const struct luks_range *backup_ranges, size_t backup_ranges_count, const uint8_t *backup,
                            size_t backup_bytes, uint64_t backup_total, const struct luks_range *ranges, size_t ranges_count,
                            const uint8_t *held, size_t held_bytes, uint64_t total, bool is_detached, uint8_t *keyslots,
                            size_t keyslots_room, struct luks_compared *compared);

/* Gives all places at which volumes begin, in the order of the first remains of each. All bytes have to be given. */
uint32_t luks_find_bytes(const struct luks_range *ranges, size_t ranges_count, const uint8_t *held, size_t held_bytes,
                         uint64_t total, uint64_t *starts, size_t starts_room, struct luks_found *found);

/* These calls give plans: all calls and bytes, or LUKS_ROOM and how many there are. A plan that is carried out on the volume
 * leaves what the call through a descriptor leaves. A flush follows each write, and no place is written that isn't given. */
uint32_t luks_apply_bytes(const struct luks_range *ranges, size_t ranges_count, const uint8_t *held, size_t held_bytes,
                          uint64_t total, bool is_detached, const struct luks_edit_bytes *edit, const uint8_t *passphrase,
                          size_t passphrase_bytes, const uint8_t *text, size_t text_bytes, const uint8_t *subsystem,
                          size_t subsystem_bytes, const uint8_t *random, size_t random_bytes, struct luks_call *calls,
                          size_t calls_room, uint8_t *bytes, size_t bytes_room, struct luks_plan *plan);

/* `sector` is LUKS_NO_SECTOR if none is given. The key is given if `is_keyed`, and a text if it isn't empty. A text that isn't
 * UTF-8 is LUKS_USAGE, and so is a number that is no cipher's. */
uint32_t luks_format1_bytes(const struct luks_range *ranges, size_t ranges_count, const uint8_t *held, size_t held_bytes,
                            uint64_t total, bool is_detached, uint64_t sector, bool is_keyed, const uint8_t *key,
                            size_t key_bytes, const uint8_t *uuid, size_t uuid_bytes, const uint8_t *label, size_t label_bytes,
                            const uint8_t *subsystem, size_t subsystem_bytes, const struct luks_encryption_bytes *encryption,
                            uint32_t hash, uint32_t iterations, const uint8_t *passphrase, size_t passphrase_bytes,
                            const uint8_t *random, size_t random_bytes, struct luks_call *calls, size_t calls_room,
                            uint8_t *bytes, size_t bytes_room, struct luks_plan *plan);

/* The kind of `derivation` is 0 if none is chosen. */
uint32_t luks_format2_bytes(const struct luks_range *ranges, size_t ranges_count, const uint8_t *held, size_t held_bytes,
                            uint64_t total, bool is_detached, uint64_t sector, bool is_keyed, const uint8_t *key,
                            size_t key_bytes, const uint8_t *uuid, size_t uuid_bytes, const uint8_t *label, size_t label_bytes,
                            const uint8_t *subsystem, size_t subsystem_bytes, const struct luks_encryption_bytes *encryption,
                            uint32_t hash, uint32_t iterations, const struct luks_derivation_bytes *derivation,
                            const uint8_t *passphrase, size_t passphrase_bytes, uint32_t memory, const uint8_t *random,
                            size_t random_bytes, struct luks_call *calls, size_t calls_room, uint8_t *bytes, size_t bytes_room,
                            struct luks_plan *plan);

/* Calls with a source: an empty text isn't given. A uuid or another text that isn't UTF-8, or that is longer than its field in
 * a LUKS1 header (32 bytes, 40 for the uuid), is LUKS_USAGE. */
uint32_t luks_convert_bytes(const struct luks_range *source_ranges, size_t source_ranges_count, const uint8_t *source,
                            size_t source_bytes, uint64_t source_total, bool is_detached, const struct luks_range *ranges,
                            size_t ranges_count, const uint8_t *held, size_t held_bytes, uint64_t total, const uint8_t *random,
                            size_t random_bytes, struct luks_call *calls, size_t calls_room, uint8_t *bytes, size_t bytes_room,
                            struct luks_plan *plan);

uint32_t luks_rebuild2_bytes(const struct luks_range *source_ranges, size_t source_ranges_count, const uint8_t *source,
                             size_t source_bytes, uint64_t source_total, bool is_second, uint64_t size, const uint8_t *uuid,
                             size_t uuid_bytes, const struct luks_range *ranges, size_t ranges_count, const uint8_t *held,
                             size_t held_bytes, uint64_t total, const uint8_t *random, size_t random_bytes,
                             struct luks_call *calls, size_t calls_room, uint8_t *bytes, size_t bytes_room,
                             struct luks_plan *plan);

uint32_t luks_rebuild1_bytes(const struct luks_range *source_ranges, size_t source_ranges_count, const uint8_t *source,
                             size_t source_bytes, uint64_t source_total, const uint8_t *cipher_name, size_t cipher_name_bytes,
                             const uint8_t *cipher_mode, size_t cipher_mode_bytes, const uint8_t *hash, size_t hash_bytes,
                             const uint8_t *uuid, size_t uuid_bytes, uint32_t key_bytes, uint32_t payload,
                             const struct luks_range *ranges, size_t ranges_count, const uint8_t *held, size_t held_bytes,
                             uint64_t total, struct luks_call *calls, size_t calls_room, uint8_t *bytes, size_t bytes_room,
                             struct luks_plan *plan);

uint32_t luks_backup_bytes(const struct luks_range *source_ranges, size_t source_ranges_count, const uint8_t *source,
                           size_t source_bytes, uint64_t source_total, bool is_detached, const struct luks_range *ranges,
                           size_t ranges_count, const uint8_t *held, size_t held_bytes, uint64_t total, struct luks_call *calls,
                           size_t calls_room, uint8_t *bytes, size_t bytes_room, struct luks_plan *plan);

uint32_t luks_restore_bytes(const struct luks_range *backup_ranges, size_t backup_ranges_count, const uint8_t *backup,
                            size_t backup_bytes, uint64_t backup_total, const struct luks_range *ranges, size_t ranges_count,
                            const uint8_t *held, size_t held_bytes, uint64_t total, bool is_detached, bool is_over_any,
                            struct luks_call *calls, size_t calls_room, uint8_t *bytes, size_t bytes_room,
                            struct luks_plan *plan);

/* ---- what a number says ----
 *
 * Each call puts as much of a text into the buffer as fits, without a 0 after it, and returns how many bytes the whole text
 * has: 0 if the number has none. */

/* The name of an answer: for a fault what `luks` prints, without brackets. */
size_t luks_fault_name(uint32_t number, uint8_t *buffer, size_t room);

/* What is said of an answer. `part` 1: what it means; 2: where it can be; 3: what is still safe; 4: what to try next. Only
 * faults have the last three. */
size_t luks_fault_text(uint32_t number, uint32_t part, uint8_t *buffer, size_t room);

/* The name of a use that luks_signature shows. */
size_t luks_signature_name(uint32_t shows, uint8_t *buffer, size_t room);

/* The version of the library that is loaded, such as "1.2.3". */
const char *luks_version(void);

#ifdef __cplusplus
}
#endif

#endif
