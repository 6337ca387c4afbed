"""Another use of a disk, by docs/COMMANDS.md: what is in the place of a copy of a LUKS2 header that isn't sound. `signatures` compares its rows with libblkid."""
import reader

MD = bytes.fromhex("FC4E2BA9")
BCACHE = bytes.fromhex("C68573F64E1A45CA8265F57F48BA6D81")
UBERBLOCK = 0x00BAB10C
# where the two labels of ZFS at the start have uberblocks
UBERBLOCKS = [label + 131072 + 1024 * it for label in (0, 262144) for it in range(128)]


def at(place, *texts):
    """Whether one of these is there, wholly inside. The function has the place and the texts."""
    def stands(front):
        return any(front[place:place + len(text)] == text for text in texts)
    stands.place, stands.texts = place, texts
    return stands


def has_uberblock(front):
    return any(front[place:place + 8] == UBERBLOCK.to_bytes(8, order) for place in UBERBLOCKS for order in ("little", "big"))


def has_partition(front):
    """The first sector ends as a boot record, and one of its four entries has a type and sectors."""
    entries = [front[446 + 16 * it:462 + 16 * it] for it in range(4)]
    return front[510:512] == b"\x55\xAA" and any(entry[4] != 0 and entry[12:16] != bytes(4) for entry in entries)


def has_empty_table(front):
    """The first sector ends as a boot record, names its disk by 4 bytes that aren't all 0, and each of its four entries begins with 0 or 0x80."""
    return front[510:512] == b"\x55\xAA" and front[440:444] != bytes(4) and all(front[446 + 16 * it] in (0, 0x80) for it in range(4))


# in the order in which they are asked
ROWS = [
    ("GPT", at(512, b"EFI PART")),
    ("GPT", at(4096, b"EFI PART")),
    ("md", at(0, bytes.fromhex("FC 4E 2B A9"))),
    ("md", at(4096, bytes.fromhex("FC 4E 2B A9"))),
    ("HighPoint", at(4640, bytes.fromhex("F0 16 78 5A"), bytes.fromhex("FD 16 78 5A"))),
    ("bcache", at(4120, bytes.fromhex("C6 85 73 F6 4E 1A 45 CA 82 65 F5 7F 48 BA 6D 81"))),
    ("BlueStore", at(0, b"bluestore block device")),
    ("DRBD", at(0, b"$DRBDmgr=q", b"DRBDdlh*")),
    ("LVM2", at(0, b"LABELONE")),
    ("LVM2", at(512, b"LABELONE")),
    ("LVM2", at(1024, b"LABELONE")),
    ("LVM2", at(1536, b"LABELONE")),
    ("LVM1", at(0, bytes.fromhex("48 4D 01 00"), bytes.fromhex("48 4D 02 00"))),
    ("dm-snapshot", at(0, b"SnAp")),
    ("dm-verity", at(0, bytes.fromhex("76 65 72 69 74 79 00 00"))),
    ("dm-integrity", at(0, bytes.fromhex("69 6E 74 65 67 72 74 00"))),
    ("VMFS", at(1048576, bytes.fromhex("0DD001C0"))),
    ("UBI", at(0, b"UBI#")),
    ("VDO", at(0, b"dmvdo001")),
    ("Stratis", at(516, bytes.fromhex("21 53 74 72 61 30 74 69 73 86 FF 02 5E 41 72 68"))),
    ("Stratis", at(4612, bytes.fromhex("21 53 74 72 61 30 74 69 73 86 FF 02 5E 41 72 68"))),
    ("BitLocker", at(3, b"-FVE-FS-")),
    ("FAT", at(82, b"MSWIN", b"FAT32   ")),
    ("FAT", at(54, b"MSDOS", b"FAT16   ", b"FAT12   ", b"FAT     ")),
    ("swap", at(0, bytes.fromhex("ED C3 02 E9 98 56 E5 0C"))),
    ("swap", at(4086, b"S1SUSPEND", b"S2SUSPEND", b"ULSUSPEND", b"LINHIB0001")),
    ("swap", at(8182, b"S1SUSPEND", b"S2SUSPEND", b"ULSUSPEND", b"LINHIB0001")),
    ("swap", at(16374, b"S1SUSPEND", b"S2SUSPEND", b"ULSUSPEND", b"LINHIB0001")),
    ("swap", at(32758, b"S1SUSPEND", b"S2SUSPEND", b"ULSUSPEND", b"LINHIB0001")),
    ("swap", at(65526, b"S1SUSPEND", b"S2SUSPEND", b"ULSUSPEND", b"LINHIB0001")),
    ("swap", at(4086, b"SWAP-SPACE", b"SWAPSPACE2")),
    ("swap", at(8182, b"SWAP-SPACE", b"SWAPSPACE2")),
    ("swap", at(16374, b"SWAP-SPACE", b"SWAPSPACE2")),
    ("swap", at(32758, b"SWAP-SPACE", b"SWAPSPACE2")),
    ("swap", at(65526, b"SWAP-SPACE", b"SWAPSPACE2")),
    ("XFS", at(0, b"XFSB")),
    ("EXFS", at(0, b"EXFS")),
    ("ext", at(1080, bytes.fromhex("53 EF"))),
    ("ReiserFS", at(8244, b"ReIsErFs")),
    ("ReiserFS", at(65588, b"ReIsEr2Fs", b"ReIsEr3Fs", b"ReIsErFs")),
    ("ReiserFS", at(8212, b"ReIsErFs")),
    ("Reiser4", at(65536, b"ReIsEr4")),
    ("JFS", at(32768, b"JFS1")),
    ("UDF", at(32769, b"BEA01", b"BOOT2", b"CDW02", b"NSR02", b"NSR03", b"TEA01")),
    ("ISO9660", at(32769, b"CD001")),
    ("ISO9660", at(32777, b"CDROM")),
    ("ZFS", has_uberblock),
    ("HFS+", at(1024, b"H+", b"HX")),
    ("HFS", at(1024, b"BD")),
    ("UFS", at(1372, bytes.fromhex("19 01 54 19"), bytes.fromhex("19 54 01 19"), bytes.fromhex("54 19 01 00"), bytes.fromhex("00 01 19 54"))),
    ("UFS", at(9564, bytes.fromhex("19 01 54 19"), bytes.fromhex("19 54 01 19"), bytes.fromhex("54 19 01 00"), bytes.fromhex("00 01 19 54"))),
    ("UFS", at(66908, bytes.fromhex("19 01 54 19"), bytes.fromhex("19 54 01 19"), bytes.fromhex("54 19 01 00"), bytes.fromhex("00 01 19 54"))),
    ("UFS", at(263516, bytes.fromhex("19 01 54 19"), bytes.fromhex("19 54 01 19"), bytes.fromhex("54 19 01 00"), bytes.fromhex("00 01 19 54"))),
    ("HPFS", at(8192, bytes.fromhex("49 E8 95 F9"))),
    ("SysV", at(1016, bytes.fromhex("20 7E 18 FD"), bytes.fromhex("FD 18 7E 20"))),
    ("SysV", at(10232, bytes.fromhex("20 7E 18 FD"), bytes.fromhex("FD 18 7E 20"))),
    ("SysV", at(16376, bytes.fromhex("20 7E 18 FD"), bytes.fromhex("FD 18 7E 20"))),
    ("SysV", at(19448, bytes.fromhex("20 7E 18 FD"), bytes.fromhex("FD 18 7E 20"))),
    ("Xenix", at(2048, b"+UD", b"DU+")),
    ("NTFS", at(3, b"NTFS    ")),
    ("ReFS", at(0, bytes.fromhex("00 00 00 52 65 46 53 00"))),
    ("cramfs", at(0, bytes.fromhex("45 3D CD 28"), bytes.fromhex("28 CD 3D 45"))),
    ("romfs", at(0, b"-rom1fs-")),
    ("Minix", at(1040, bytes.fromhex("7F 13"), bytes.fromhex("8F 13"), bytes.fromhex("13 7F"), bytes.fromhex("13 8F"), b"h$", b"x$", b"$h", b"$x")),
    ("Minix", at(1048, b"ZM", b"MZ")),
    ("GFS2", at(65536, bytes.fromhex("01 16 19 70"))),
    ("OCFS", at(8192, b"OracleCFS")),
    ("OCFS2", at(1024, b"OCFSV2")),
    ("OCFS2", at(2048, b"OCFSV2")),
    ("OCFS2", at(4096, b"OCFSV2")),
    ("OCFS2", at(8192, b"OCFSV2")),
    ("OracleASM", at(32, b"ORCLDISK")),
    ("VxFS", at(1024, bytes.fromhex("F5 FC 01 A5"))),
    ("VxFS", at(8192, bytes.fromhex("A5 01 FC F5"))),
    ("SquashFS", at(0, b"hsqs", b"sqsh")),
    ("NSS", at(4096, b"SPB5")),
    ("btrfs", at(65600, b"_BHRfS_M")),
    ("UBIFS", at(0, bytes.fromhex("31 18 10 06"))),
    ("BFS", at(0, bytes.fromhex("CE FA AD 1B"))),
    ("VMFS", at(2097152, bytes.fromhex("5E F1 AB 2F"))),
    ("BeFS", at(32, b"BFS1", b"1SFB")),
    ("BeFS", at(544, b"BFS1", b"1SFB")),
    ("NILFS2", at(1030, b"44")),
    ("exFAT", at(3, b"EXFAT   ")),
    ("F2FS", at(1024, bytes.fromhex("10 20 F5 F2"))),
    ("mpool", at(0, b"mpoolDev")),
    ("APFS", at(32, b"NXSB")),
    ("zonefs", at(0, b"SFOZ")),
    ("EROFS", at(1024, bytes.fromhex("E2 E1 F5 E0"))),
    ("AIX", at(0, bytes.fromhex("C9C2D4C1"))),
    ("SGI", at(0, bytes.fromhex("0B E5 A9 41"))),
    ("Sun", at(508, bytes.fromhex("DA BE"))),
    ("Mac", at(0, b"ER")),
    ("Ultrix", at(16312, bytes.fromhex("57 29 03 00 01 00 00 00"))),
    ("BSD", at(512, bytes.fromhex("57 45 56 82"))),
    ("BSD", at(64, bytes.fromhex("57 45 56 82"))),
    ("BSD", at(128, bytes.fromhex("57 45 56 82"))),
    ("MBR", has_partition),
    ("MBR", has_empty_table),
]


def first(front):
    """The first use that these bytes show, or none."""
    return next((name for name, stands in ROWS if stands(front)), None)


def standing(volume):
    """The other use of the disk where one copy alone of a LUKS2 header is sound, or none: before the end of the other one's place."""
    chosen = reader.select(volume)
    if chosen == 1:
        return None
    copy, copies = chosen
    if copies == "second-only":
        return first(volume[:copy["at"]])
    if copies == "first-only":
        return first(volume[:2 * copy["size"]])
    return None


# how much of a disk `format` looks at for what is left behind
LOOKED_AT = 2 * reader.SIZES[-1]


def left_behind(front, name, own):
    """What is said of what stands on a disk where formatting writes nothing: sound second copies of older headers, and two signatures. The new header has the
    first `own` bytes."""
    found = [(at, "the second copy of an older LUKS2 header") for at in reader.SIZES if own <= at and reader.sound(front, at) and reader.sound(front, at)["size"] == at]
    found += [(at, text) for at, texts, text in LEFT if own <= at and any(front[at:at + len(it)] == it for it in texts)]
    hint = [f"{name}: wipefs --offset BYTE takes it away, wipefs --all before format all"] if found else []
    return [f"{name}: left at byte {at}: {text}" for at, text in found] + hint


LEFT = [(1080, [b"\x53\xef"], "the signature of ext2, ext3 or ext4"), (4086, [b"SWAP-SPACE", b"SWAPSPACE2"], "the signature of swap")]
