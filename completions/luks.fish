# fish completion for luks(1), made by tools/commands

complete -c luks -f
complete -c luks -s h -l help -d 'Print help'
complete -c luks -n __fish_use_subcommand -s V -l version -d 'Print version'

complete -c luks -n __fish_use_subcommand -a check -d "Judges a volume's header and where its areas lie"
complete -c luks -n '__fish_seen_subcommand_from check' -F
complete -c luks -n '__fish_seen_subcommand_from check' -l detached -d 'The data is on another device'
complete -c luks -n '__fish_seen_subcommand_from check' -l json -d 'One JSON object instead of the line'
complete -c luks -n '__fish_seen_subcommand_from check' -l offset -x -d 'The byte of the file where the volume begins'
complete -c luks -n '__fish_seen_subcommand_from check' -l length -x -d 'How many bytes the volume has'
complete -c luks -n '__fish_seen_subcommand_from check' -l quiet -d 'No hints on standard error'

complete -c luks -n __fish_use_subcommand -a show -d "Lists what a volume's header says"
complete -c luks -n '__fish_seen_subcommand_from show' -F
complete -c luks -n '__fish_seen_subcommand_from show' -l all -d 'With costs, salts and encryption, LUKS1 in bytes too'
complete -c luks -n '__fish_seen_subcommand_from show' -l map -d 'A map of the areas, in the order of their places'
complete -c luks -n '__fish_seen_subcommand_from show' -l tables -d 'Lines for dmsetup, of a volume under reencryption'
complete -c luks -n '__fish_seen_subcommand_from show' -l json -d 'One JSON object instead, for scripts'
complete -c luks -n '__fish_seen_subcommand_from show' -l offset -x -d 'The byte of the file where the volume begins'
complete -c luks -n '__fish_seen_subcommand_from show' -l length -x -d 'How many bytes the volume has'
complete -c luks -n '__fish_seen_subcommand_from show' -l quiet -d 'No hints on standard error'

complete -c luks -n __fish_use_subcommand -a open -d "Tells whether a passphrase opens a keyslot, or a key is the volume's"
complete -c luks -n '__fish_seen_subcommand_from open' -F
complete -c luks -n '__fish_seen_subcommand_from open' -l passphrase -r -F -d 'The file of the passphrase, taken whole'
complete -c luks -n '__fish_seen_subcommand_from open' -l passphrase-line -r -F -d 'The file whose first line is the passphrase'
complete -c luks -n '__fish_seen_subcommand_from open' -l slot -x -a '(seq 0 31)' -d 'The keyslot to try, 0 to 31; else all'
complete -c luks -n '__fish_seen_subcommand_from open' -l memory -x -d 'The MiB that Argon2 may take'
complete -c luks -n '__fish_seen_subcommand_from open' -l key -r -F -d 'The file of the key that is judged'
complete -c luks -n '__fish_seen_subcommand_from open' -l digest -x -a '(seq 0 31)' -d 'The digest that the key is judged by'
complete -c luks -n '__fish_seen_subcommand_from open' -l older -d 'Accept ciphers and hashes of older disks'
complete -c luks -n '__fish_seen_subcommand_from open' -l json -d 'One JSON object instead of the line'
complete -c luks -n '__fish_seen_subcommand_from open' -l offset -x -d 'The byte of the file where the volume begins'
complete -c luks -n '__fish_seen_subcommand_from open' -l length -x -d 'How many bytes the volume has'
complete -c luks -n '__fish_seen_subcommand_from open' -l quiet -d 'No hints on standard error'

complete -c luks -n __fish_use_subcommand -a add -d 'Adds a keyslot for a new passphrase'
complete -c luks -n '__fish_seen_subcommand_from add' -F
complete -c luks -n '__fish_seen_subcommand_from add' -l slot -x -a '(seq 0 31)' -d 'The keyslot that the passphrase opens'
complete -c luks -n '__fish_seen_subcommand_from add' -l passphrase -r -F -d 'The file of the passphrase, taken whole'
complete -c luks -n '__fish_seen_subcommand_from add' -l passphrase-line -r -F -d 'The file whose first line is the passphrase'
complete -c luks -n '__fish_seen_subcommand_from add' -l key -r -F -d 'The file of the volume key'
complete -c luks -n '__fish_seen_subcommand_from add' -l new -r -F -d 'The file of the new passphrase, taken whole'
complete -c luks -n '__fish_seen_subcommand_from add' -l new-line -r -F -d 'The file whose first line is the new passphrase'
complete -c luks -n '__fish_seen_subcommand_from add' -l random -r -F -d 'A file of random bytes, such as /dev/urandom'
complete -c luks -n '__fish_seen_subcommand_from add' -l to -x -a '(seq 0 31)' -d 'The new keyslot, 0 to 31; else the least free'
complete -c luks -n '__fish_seen_subcommand_from add' -l iterations -x -d 'The iterations of PBKDF2'
complete -c luks -n '__fish_seen_subcommand_from add' -l kdf -x -a 'pbkdf2 argon2i argon2id' -d 'What the key is derived by'
complete -c luks -n '__fish_seen_subcommand_from add' -l kdf-memory -x -d 'MiB that Argon2 takes, 1 to 4095'
complete -c luks -n '__fish_seen_subcommand_from add' -l passes -x -d 'The passes of Argon2'
complete -c luks -n '__fish_seen_subcommand_from add' -l lanes -x -a '(seq 1 4)' -d 'The lanes of Argon2'
complete -c luks -n '__fish_seen_subcommand_from add' -l iter-time -x -d 'Choose costs that take so many milliseconds'
complete -c luks -n '__fish_seen_subcommand_from add' -l memory -x -d 'The MiB that Argon2 may take'
complete -c luks -n '__fish_seen_subcommand_from add' -l older -d 'Accept ciphers and hashes of older disks'
complete -c luks -n '__fish_seen_subcommand_from add' -l over -d 'Write over another use of the disk'
complete -c luks -n '__fish_seen_subcommand_from add' -l detached -d 'The data is on another device'
complete -c luks -n '__fish_seen_subcommand_from add' -l offset -x -d 'The byte of the file where the volume begins'
complete -c luks -n '__fish_seen_subcommand_from add' -l length -x -d 'How many bytes the volume has'
complete -c luks -n '__fish_seen_subcommand_from add' -l quiet -d 'No hints on standard error'

complete -c luks -n __fish_use_subcommand -a change -d 'Replaces a passphrase by a new one'
complete -c luks -n '__fish_seen_subcommand_from change' -F
complete -c luks -n '__fish_seen_subcommand_from change' -l slot -x -a '(seq 0 31)' -d 'The keyslot that the passphrase opens'
complete -c luks -n '__fish_seen_subcommand_from change' -l passphrase -r -F -d 'The file of the passphrase, taken whole'
complete -c luks -n '__fish_seen_subcommand_from change' -l passphrase-line -r -F -d 'The file whose first line is the passphrase'
complete -c luks -n '__fish_seen_subcommand_from change' -l key -r -F -d 'The file of the volume key'
complete -c luks -n '__fish_seen_subcommand_from change' -l new -r -F -d 'The file of the new passphrase, taken whole'
complete -c luks -n '__fish_seen_subcommand_from change' -l new-line -r -F -d 'The file whose first line is the new passphrase'
complete -c luks -n '__fish_seen_subcommand_from change' -l random -r -F -d 'A file of random bytes, such as /dev/urandom'
complete -c luks -n '__fish_seen_subcommand_from change' -l iterations -x -d 'The iterations of PBKDF2'
complete -c luks -n '__fish_seen_subcommand_from change' -l kdf -x -a 'pbkdf2 argon2i argon2id' -d 'What the key is derived by'
complete -c luks -n '__fish_seen_subcommand_from change' -l kdf-memory -x -d 'MiB that Argon2 takes, 1 to 4095'
complete -c luks -n '__fish_seen_subcommand_from change' -l passes -x -d 'The passes of Argon2'
complete -c luks -n '__fish_seen_subcommand_from change' -l lanes -x -a '(seq 1 4)' -d 'The lanes of Argon2'
complete -c luks -n '__fish_seen_subcommand_from change' -l iter-time -x -d 'Choose costs that take so many milliseconds'
complete -c luks -n '__fish_seen_subcommand_from change' -l memory -x -d 'The MiB that Argon2 may take'
complete -c luks -n '__fish_seen_subcommand_from change' -l older -d 'Accept ciphers and hashes of older disks'
complete -c luks -n '__fish_seen_subcommand_from change' -l over -d 'Write over another use of the disk'
complete -c luks -n '__fish_seen_subcommand_from change' -l detached -d 'The data is on another device'
complete -c luks -n '__fish_seen_subcommand_from change' -l offset -x -d 'The byte of the file where the volume begins'
complete -c luks -n '__fish_seen_subcommand_from change' -l length -x -d 'How many bytes the volume has'
complete -c luks -n '__fish_seen_subcommand_from change' -l quiet -d 'No hints on standard error'

complete -c luks -n __fish_use_subcommand -a remove -d 'Removes a keyslot'
complete -c luks -n '__fish_seen_subcommand_from remove' -F
complete -c luks -n '__fish_seen_subcommand_from remove' -l slot -x -a '(seq 0 31)' -d 'The keyslot to remove'
complete -c luks -n '__fish_seen_subcommand_from remove' -l by -x -a '(seq 0 31)' -d 'The one that the passphrase opens; else --slot'
complete -c luks -n '__fish_seen_subcommand_from remove' -l passphrase -r -F -d 'The file of the passphrase, taken whole'
complete -c luks -n '__fish_seen_subcommand_from remove' -l passphrase-line -r -F -d 'The file whose first line is the passphrase'
complete -c luks -n '__fish_seen_subcommand_from remove' -l key -r -F -d 'The file of the volume key'
complete -c luks -n '__fish_seen_subcommand_from remove' -l random -r -F -d 'A file of random bytes, such as /dev/urandom'
complete -c luks -n '__fish_seen_subcommand_from remove' -l memory -x -d 'The MiB that Argon2 may take'
complete -c luks -n '__fish_seen_subcommand_from remove' -l older -d 'Accept ciphers and hashes of older disks'
complete -c luks -n '__fish_seen_subcommand_from remove' -l over -d 'Write over another use of the disk'
complete -c luks -n '__fish_seen_subcommand_from remove' -l detached -d 'The data is on another device'
complete -c luks -n '__fish_seen_subcommand_from remove' -l offset -x -d 'The byte of the file where the volume begins'
complete -c luks -n '__fish_seen_subcommand_from remove' -l length -x -d 'How many bytes the volume has'
complete -c luks -n '__fish_seen_subcommand_from remove' -l quiet -d 'No hints on standard error'

complete -c luks -n __fish_use_subcommand -a erase -d 'Removes every keyslot of a volume'
complete -c luks -n '__fish_seen_subcommand_from erase' -F
complete -c luks -n '__fish_seen_subcommand_from erase' -l all -d 'Every keyslot; needed, since nothing is asked'
complete -c luks -n '__fish_seen_subcommand_from erase' -l random -r -F -d 'A file of random bytes, such as /dev/urandom'
complete -c luks -n '__fish_seen_subcommand_from erase' -l over -d 'Write over another use of the disk'
complete -c luks -n '__fish_seen_subcommand_from erase' -l detached -d 'The data is on another device'
complete -c luks -n '__fish_seen_subcommand_from erase' -l offset -x -d 'The byte of the file where the volume begins'
complete -c luks -n '__fish_seen_subcommand_from erase' -l length -x -d 'How many bytes the volume has'
complete -c luks -n '__fish_seen_subcommand_from erase' -l quiet -d 'No hints on standard error'

complete -c luks -n __fish_use_subcommand -a repair -d 'Rewrites both copies of a LUKS2 header'
complete -c luks -n '__fish_seen_subcommand_from repair' -F
complete -c luks -n '__fish_seen_subcommand_from repair' -l random -r -F -d 'A file of random bytes, such as /dev/urandom'
complete -c luks -n '__fish_seen_subcommand_from repair' -l over -d 'Write over another use of the disk'
complete -c luks -n '__fish_seen_subcommand_from repair' -l detached -d 'The data is on another device'
complete -c luks -n '__fish_seen_subcommand_from repair' -l offset -x -d 'The byte of the file where the volume begins'
complete -c luks -n '__fish_seen_subcommand_from repair' -l length -x -d 'How many bytes the volume has'
complete -c luks -n '__fish_seen_subcommand_from repair' -l quiet -d 'No hints on standard error'

complete -c luks -n __fish_use_subcommand -a label -d 'Sets the label of a LUKS2 volume'
complete -c luks -n '__fish_seen_subcommand_from label' -F
complete -c luks -n '__fish_seen_subcommand_from label' -l random -r -F -d 'A file of random bytes, such as /dev/urandom'
complete -c luks -n '__fish_seen_subcommand_from label' -l subsystem -x -d "LUKS2: the volume's subsystem"
complete -c luks -n '__fish_seen_subcommand_from label' -l over -d 'Write over another use of the disk'
complete -c luks -n '__fish_seen_subcommand_from label' -l detached -d 'The data is on another device'
complete -c luks -n '__fish_seen_subcommand_from label' -l offset -x -d 'The byte of the file where the volume begins'
complete -c luks -n '__fish_seen_subcommand_from label' -l length -x -d 'How many bytes the volume has'
complete -c luks -n '__fish_seen_subcommand_from label' -l quiet -d 'No hints on standard error'

complete -c luks -n __fish_use_subcommand -a uuid -d 'Sets the uuid of a volume'
complete -c luks -n '__fish_seen_subcommand_from uuid' -F
complete -c luks -n '__fish_seen_subcommand_from uuid' -l random -r -F -d 'A file of random bytes, such as /dev/urandom'
complete -c luks -n '__fish_seen_subcommand_from uuid' -l over -d 'Write over another use of the disk'
complete -c luks -n '__fish_seen_subcommand_from uuid' -l detached -d 'The data is on another device'
complete -c luks -n '__fish_seen_subcommand_from uuid' -l offset -x -d 'The byte of the file where the volume begins'
complete -c luks -n '__fish_seen_subcommand_from uuid' -l length -x -d 'How many bytes the volume has'
complete -c luks -n '__fish_seen_subcommand_from uuid' -l quiet -d 'No hints on standard error'

complete -c luks -n __fish_use_subcommand -a priority -d 'Sets when a keyslot of LUKS2 is tried'
complete -c luks -n '__fish_seen_subcommand_from priority' -F
complete -c luks -n '__fish_seen_subcommand_from priority' -l slot -x -a '(seq 0 31)' -d 'The keyslot, 0 to 31'
complete -c luks -n '__fish_seen_subcommand_from priority' -l random -r -F -d 'A file of random bytes, such as /dev/urandom'
complete -c luks -n '__fish_seen_subcommand_from priority' -l over -d 'Write over another use of the disk'
complete -c luks -n '__fish_seen_subcommand_from priority' -l detached -d 'The data is on another device'
complete -c luks -n '__fish_seen_subcommand_from priority' -l offset -x -d 'The byte of the file where the volume begins'
complete -c luks -n '__fish_seen_subcommand_from priority' -l length -x -d 'How many bytes the volume has'
complete -c luks -n '__fish_seen_subcommand_from priority' -l quiet -d 'No hints on standard error'

complete -c luks -n __fish_use_subcommand -a token -d 'Lists, exports, imports and removes tokens of LUKS2'
complete -c luks -n '__fish_seen_subcommand_from token' -F
complete -c luks -n '__fish_seen_subcommand_from token' -l to -x -a '(seq 0 31)' -d 'The number of the new token; else the least free'
complete -c luks -n '__fish_seen_subcommand_from token' -l random -r -F -d 'A file of random bytes, such as /dev/urandom'
complete -c luks -n '__fish_seen_subcommand_from token' -l over -d "Write over another use, or a FILE that isn't empty"
complete -c luks -n '__fish_seen_subcommand_from token' -l detached -d 'The data is on another device'
complete -c luks -n '__fish_seen_subcommand_from token' -l offset -x -d 'The byte of the file where the volume begins'
complete -c luks -n '__fish_seen_subcommand_from token' -l length -x -d 'How many bytes the volume has'
complete -c luks -n '__fish_seen_subcommand_from token' -l quiet -d 'No hints on standard error'

complete -c luks -n __fish_use_subcommand -a format -d 'Makes a LUKS volume'
complete -c luks -n '__fish_seen_subcommand_from format' -F
complete -c luks -n '__fish_seen_subcommand_from format' -l passphrase -r -F -d 'The file of the passphrase, taken whole'
complete -c luks -n '__fish_seen_subcommand_from format' -l passphrase-line -r -F -d 'The file whose first line is the passphrase'
complete -c luks -n '__fish_seen_subcommand_from format' -l random -r -F -d 'A file of random bytes, such as /dev/urandom'
complete -c luks -n '__fish_seen_subcommand_from format' -l version -x -a '1 2' -d 'The version of LUKS'
complete -c luks -n '__fish_seen_subcommand_from format' -l hash -x -a 'sha1 sha256 sha512' -d 'The hash'
complete -c luks -n '__fish_seen_subcommand_from format' -l iterations -x -d 'The iterations of PBKDF2'
complete -c luks -n '__fish_seen_subcommand_from format' -l kdf -x -a 'pbkdf2 argon2i argon2id' -d 'What the key is derived by'
complete -c luks -n '__fish_seen_subcommand_from format' -l kdf-memory -x -d 'MiB that Argon2 takes, 1 to 4095'
complete -c luks -n '__fish_seen_subcommand_from format' -l passes -x -d 'The passes of Argon2'
complete -c luks -n '__fish_seen_subcommand_from format' -l lanes -x -a '(seq 1 4)' -d 'The lanes of Argon2'
complete -c luks -n '__fish_seen_subcommand_from format' -l iter-time -x -d 'Choose costs that take so many milliseconds'
complete -c luks -n '__fish_seen_subcommand_from format' -l memory -x -d 'The MiB that Argon2 may take'
complete -c luks -n '__fish_seen_subcommand_from format' -l cipher -x -a 'aes-xts-plain64 aes-xts-plain aes-cbc-essiv:sha256 aes-cbc-plain64 aes-cbc-plain' -d 'The cipher of data and key areas'
complete -c luks -n '__fish_seen_subcommand_from format' -l key-bytes -x -a '16 32 64' -d 'How long the volume key is; else 64, for cbc 32'
complete -c luks -n '__fish_seen_subcommand_from format' -l sector-size -x -a '512 1024 2048 4096' -d 'LUKS2: how long a data sector is'
complete -c luks -n '__fish_seen_subcommand_from format' -l older -d 'Accept a cipher of older disks'
complete -c luks -n '__fish_seen_subcommand_from format' -l key -r -F -d 'The file of the volume key; else it is random'
complete -c luks -n '__fish_seen_subcommand_from format' -l payload -x -d 'Where the data begins, in sectors of 512 bytes'
complete -c luks -n '__fish_seen_subcommand_from format' -l uuid -x -d "The volume's uuid; else a new one"
complete -c luks -n '__fish_seen_subcommand_from format' -l label -x -d "LUKS2: the volume's label"
complete -c luks -n '__fish_seen_subcommand_from format' -l subsystem -x -d "LUKS2: the volume's subsystem"
complete -c luks -n '__fish_seen_subcommand_from format' -l over -d 'Write over another volume or another use of it'
complete -c luks -n '__fish_seen_subcommand_from format' -l detached -d 'The data is on another device'
complete -c luks -n '__fish_seen_subcommand_from format' -l offset -x -d 'The byte of the file where the volume begins'
complete -c luks -n '__fish_seen_subcommand_from format' -l length -x -d 'How many bytes the volume has'
complete -c luks -n '__fish_seen_subcommand_from format' -l quiet -d 'No hints on standard error'

complete -c luks -n __fish_use_subcommand -a convert -d 'Makes a LUKS2 header for a LUKS1 volume, in another file'
complete -c luks -n '__fish_seen_subcommand_from convert' -F
complete -c luks -n '__fish_seen_subcommand_from convert' -l random -r -F -d 'A file of random bytes, such as /dev/urandom'
complete -c luks -n '__fish_seen_subcommand_from convert' -l over -d 'Write over another volume or another use of it'
complete -c luks -n '__fish_seen_subcommand_from convert' -l detached -d 'SOURCE is a detached header'
complete -c luks -n '__fish_seen_subcommand_from convert' -l offset -x -d 'The byte of the file where the volume begins'
complete -c luks -n '__fish_seen_subcommand_from convert' -l length -x -d 'How many bytes the volume has'
complete -c luks -n '__fish_seen_subcommand_from convert' -l quiet -d 'No hints on standard error'

complete -c luks -n __fish_use_subcommand -a rebuild -d 'Makes a header from what is left of a damaged one'
complete -c luks -n '__fish_seen_subcommand_from rebuild' -F
complete -c luks -n '__fish_seen_subcommand_from rebuild' -l random -r -F -d 'A file of random bytes, such as /dev/urandom'
complete -c luks -n '__fish_seen_subcommand_from rebuild' -l second -d 'LUKS2: take the metadata of a second copy'
complete -c luks -n '__fish_seen_subcommand_from rebuild' -l size -x -a '16384 32768 65536 131072 262144 524288 1048576 2097152 4194304' -d 'LUKS2: take that of a copy of so many bytes'
complete -c luks -n '__fish_seen_subcommand_from rebuild' -l thorough -d 'Search longer; with --passphrase for wrong bits'
complete -c luks -n '__fish_seen_subcommand_from rebuild' -l cipher -x -a 'aes-xts-plain64 aes-cbc-essiv:sha256' -d 'LUKS1: the cipher, such as aes-xts-plain64'
complete -c luks -n '__fish_seen_subcommand_from rebuild' -l hash -x -a 'sha1 sha256 sha512' -d 'LUKS1: the hash, such as sha256'
complete -c luks -n '__fish_seen_subcommand_from rebuild' -l key-bytes -x -a '16 32 64' -d 'LUKS1: how long the volume key is, 1 to 128'
complete -c luks -n '__fish_seen_subcommand_from rebuild' -l payload -x -d 'LUKS1: where the data begins, in sectors of 512'
complete -c luks -n '__fish_seen_subcommand_from rebuild' -l sector-size -x -a '512 1024 2048 4096' -d 'LUKS2: how long a data sector is, 512 to 4096'
complete -c luks -n '__fish_seen_subcommand_from rebuild' -l passphrase -r -F -d 'Try fields of LUKS1 until this opens it'
complete -c luks -n '__fish_seen_subcommand_from rebuild' -l passphrase-line -r -F -d 'Instead, a file whose first line is taken'
complete -c luks -n '__fish_seen_subcommand_from rebuild' -l memory -x -d 'The MiB that Argon2 may take'
complete -c luks -n '__fish_seen_subcommand_from rebuild' -l uuid -x -d "The header's uuid; else SOURCE's, or a new one"
complete -c luks -n '__fish_seen_subcommand_from rebuild' -l over -d 'Write over another volume or another use of it'
complete -c luks -n '__fish_seen_subcommand_from rebuild' -l offset -x -d 'The byte of the file where the volume begins'
complete -c luks -n '__fish_seen_subcommand_from rebuild' -l length -x -d 'How many bytes the volume has'
complete -c luks -n '__fish_seen_subcommand_from rebuild' -l quiet -d 'No hints on standard error'

complete -c luks -n __fish_use_subcommand -a find -d 'Finds the volumes on a disk by any sign left of them'
complete -c luks -n '__fish_seen_subcommand_from find' -F
complete -c luks -n '__fish_seen_subcommand_from find' -l fragments -d 'Find whole keyslots, digests and segments instead'
complete -c luks -n '__fish_seen_subcommand_from find' -l json -d 'With --fragments a JSON object in place of each line'
complete -c luks -n '__fish_seen_subcommand_from find' -l offset -x -d 'The byte of the device where the search begins'
complete -c luks -n '__fish_seen_subcommand_from find' -l length -x -d 'How many bytes are searched'
complete -c luks -n '__fish_seen_subcommand_from find' -l quiet -d 'No hints on standard error'

complete -c luks -n __fish_use_subcommand -a backup -d "Copies a volume's header and key areas to a file"
complete -c luks -n '__fish_seen_subcommand_from backup' -F
complete -c luks -n '__fish_seen_subcommand_from backup' -l over -d "Write over a FILE that isn't empty"
complete -c luks -n '__fish_seen_subcommand_from backup' -l rescue -d "Go on if a key area can't be read"
complete -c luks -n '__fish_seen_subcommand_from backup' -l detached -d 'The data is on another device'
complete -c luks -n '__fish_seen_subcommand_from backup' -l offset -x -d 'The byte of the file where the volume begins'
complete -c luks -n '__fish_seen_subcommand_from backup' -l length -x -d 'How many bytes the volume has'
complete -c luks -n '__fish_seen_subcommand_from backup' -l quiet -d 'No hints on standard error'

complete -c luks -n __fish_use_subcommand -a restore -d 'Puts a header backup back onto its volume'
complete -c luks -n '__fish_seen_subcommand_from restore' -F
complete -c luks -n '__fish_seen_subcommand_from restore' -l other -d 'Write over the header of another volume'
complete -c luks -n '__fish_seen_subcommand_from restore' -l over -d 'Write over another volume or another use of it'
complete -c luks -n '__fish_seen_subcommand_from restore' -l over-reencryption -d "Write over a reencryption that isn't finished"
complete -c luks -n '__fish_seen_subcommand_from restore' -l detached -d 'The data is on another device'
complete -c luks -n '__fish_seen_subcommand_from restore' -l offset -x -d 'The byte of the file where the volume begins'
complete -c luks -n '__fish_seen_subcommand_from restore' -l length -x -d 'How many bytes the volume has'
complete -c luks -n '__fish_seen_subcommand_from restore' -l quiet -d 'No hints on standard error'

complete -c luks -n __fish_use_subcommand -a compare -d 'Tells whether a header backup is up to date'
complete -c luks -n '__fish_seen_subcommand_from compare' -F
complete -c luks -n '__fish_seen_subcommand_from compare' -l detached -d 'The data is on another device'
complete -c luks -n '__fish_seen_subcommand_from compare' -l offset -x -d 'The byte of the file where the volume begins'
complete -c luks -n '__fish_seen_subcommand_from compare' -l length -x -d 'How many bytes the volume has'
complete -c luks -n '__fish_seen_subcommand_from compare' -l quiet -d 'No hints on standard error'

complete -c luks -n __fish_use_subcommand -a key -d 'Writes the volume key to a file, for escrow'
complete -c luks -n '__fish_seen_subcommand_from key' -F
complete -c luks -n '__fish_seen_subcommand_from key' -l passphrase -r -F -d 'The file of the passphrase, taken whole'
complete -c luks -n '__fish_seen_subcommand_from key' -l passphrase-line -r -F -d 'The file whose first line is the passphrase'
complete -c luks -n '__fish_seen_subcommand_from key' -l to -r -F -d 'The file of the key, which is made'
complete -c luks -n '__fish_seen_subcommand_from key' -l slot -x -a '(seq 0 31)' -d 'The keyslot to try, 0 to 31; else all'
complete -c luks -n '__fish_seen_subcommand_from key' -l memory -x -d 'The MiB that Argon2 may take'
complete -c luks -n '__fish_seen_subcommand_from key' -l older -d 'Accept ciphers and hashes of older disks'
complete -c luks -n '__fish_seen_subcommand_from key' -l over -d "Write over a FILE that isn't empty"
complete -c luks -n '__fish_seen_subcommand_from key' -l offset -x -d 'The byte of the file where the volume begins'
complete -c luks -n '__fish_seen_subcommand_from key' -l length -x -d 'How many bytes the volume has'
complete -c luks -n '__fish_seen_subcommand_from key' -l quiet -d 'No hints on standard error'

complete -c luks -n __fish_use_subcommand -a explain -d 'Says what a fault means, and what to try next'
complete -c luks -n '__fish_seen_subcommand_from explain' -a '(luks explain 2>/dev/null | cut -d" " -f1)'

complete -c luks -n __fish_use_subcommand -a help -d 'Print help'
complete -c luks -n '__fish_seen_subcommand_from help' -a 'check show open add change remove erase repair label uuid priority token format convert rebuild find backup restore compare key explain'
