"""The numbers that the calls of libluks answer."""
import enum

__all__ = ["Number"]


class Number(enum.IntEnum):
    """The numbers of luks.h: 1 to 99 are faults, those from 101 on are other answers."""

    # made by tools/faults
    DONE = 0
    TOO_SHORT = 1
    NOT_LUKS = 2
    VERSION = 3
    NO_SOUND_COPY = 4
    TEXT = 5
    UUID = 6
    SLOT_STATE = 7
    KEY_BYTES = 8
    STRIPES = 9
    ITERATIONS = 10
    JSON_AREA = 11
    BAD_JSON = 12
    NOT_WHOLE = 13
    SHAPE = 14
    KIND = 15
    NO_SUCH_NAME = 16
    ASSIGNED = 17
    SIZES = 18
    AREA_TOO_SMALL = 19
    REGION = 20
    OUTSIDE = 21
    OVERLAP = 22
    NO_SUCH_SLOT = 23
    SLOT_FREE = 24
    ARGON2 = 25
    CIPHER = 26
    HASH = 27
    KEY_SIZE = 28
    LOCKED = 29
    PASSPHRASE = 30
    REQUIREMENTS = 31
    SLOT_TAKEN = 32
    NO_FREE_SLOT = 33
    NO_ROOM = 34
    LAST_SLOT = 35
    BAD_LABEL = 36
    SEQ_EXHAUSTED = 37
    METADATA_FULL = 38
    RANDOM_LENGTH = 39
    TOO_SMALL = 40
    NOT_LUKS1 = 41
    SAME_FILE = 42
    COUNTS = 43
    NO_METADATA = 44
    EXISTS = 45
    NOT_ACCEPTED = 46
    DOES_NOT_FIT = 47
    OTHER_VOLUME = 48
    OTHER_USE = 49
    SAME_SLOT = 50
    NO_HEADER = 51
    REENCRYPTING = 52
    NO_SUCH_DIGEST = 53
    KEY_LENGTH = 54
    PAYLOAD = 55
    SECTOR_SIZE = 56
    UNEVEN = 57
    WRONG_KEY = 58
    NO_SUCH_TOKEN = 59
    TOKEN_TAKEN = 60
    NO_FREE_TOKEN = 61
    UNREADABLE_TOKEN = 62
    BAD_UUID = 63
    UNDER_WAY = 64
    NO_KEY = 65
    PROGRESSED = 66
    NOT_UNDER_WAY = 67
    USAGE = 101
    BEYOND = 102
    MEMORY = 103
    DEVICE = 104
    SHUT = 105
    ROOM = 106
    APPENDS = 107
    READONLY = 108
    DIRECT = 109
    STOPPED = 110
    BUSY = 111
    # until here
