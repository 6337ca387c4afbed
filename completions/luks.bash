# bash completion for luks(1), made by tools/commands

_luks() {
    # each command with its options
    local -A options=(
        [check]="--detached --json --offset --length --quiet --help"
        [show]="--all --map --tables --json --offset --length --quiet --help"
        [open]="--passphrase --passphrase-line --slot --memory --key --digest --older --json --offset --length --quiet --help"
        [add]="--slot --passphrase --passphrase-line --key --new --new-line --random --to --iterations --kdf --kdf-memory --passes --lanes --iter-time --memory --older --over --detached --offset --length --quiet --help"
        [change]="--slot --passphrase --passphrase-line --key --new --new-line --random --iterations --kdf --kdf-memory --passes --lanes --iter-time --memory --older --over --detached --offset --length --quiet --help"
        [remove]="--slot --by --passphrase --passphrase-line --key --random --memory --older --over --detached --offset --length --quiet --help"
        [erase]="--all --random --over --detached --offset --length --quiet --help"
        [repair]="--random --over --detached --offset --length --quiet --help"
        [label]="--random --subsystem --over --detached --offset --length --quiet --help"
        [uuid]="--random --over --detached --offset --length --quiet --help"
        [priority]="--slot --random --over --detached --offset --length --quiet --help"
        [token]="--to --random --over --detached --offset --length --quiet --help"
        [format]="--passphrase --passphrase-line --random --version --hash --iterations --kdf --kdf-memory --passes --lanes --iter-time --memory --cipher --key-bytes --sector-size --older --key --payload --uuid --label --subsystem --over --detached --offset --length --quiet --help"
        [convert]="--random --over --detached --offset --length --quiet --help"
        [rebuild]="--random --second --size --thorough --cipher --hash --key-bytes --payload --sector-size --passphrase --passphrase-line --memory --uuid --over --offset --length --quiet --help"
        [find]="--fragments --json --offset --length --quiet --help"
        [backup]="--over --rescue --detached --offset --length --quiet --help"
        [restore]="--other --over --over-reencryption --detached --offset --length --quiet --help"
        [compare]="--detached --offset --length --quiet --help"
        [key]="--passphrase --passphrase-line --to --slot --memory --older --over --offset --length --quiet --help"
        [explain]="--help"
        [help]="--help"
    )
    local at=$COMP_CWORD word=${COMP_WORDS[COMP_CWORD]} begun= words= value=
    # of --slot=3 bash makes three words, --slot and = and 3, and likewise of what has a colon, as aes-cbc-essiv:sha256
    if [[ $word == : ]]; then
        word=
    elif [[ ${COMP_WORDS[at - 1]} == : ]]; then
        at=$((at - 1))
    fi
    if [[ ${COMP_WORDS[at]} == : ]]; then
        at=$((at - 1))
        begun=${COMP_WORDS[at]}:
    fi
    if [[ $word == = ]]; then
        word=
    elif [[ ${COMP_WORDS[at - 1]} == = ]] && ((at > 2)); then
        at=$((at - 1))
    fi
    local before=${COMP_WORDS[at - 1]}
    # these options take no file, but one of these words, if some are known
    case $before in
        --slot | --to | --by | --digest) value=1 words="$(echo {0..31})" ;;
        --memory | --iterations | --uuid | --offset | --length | --payload | --kdf-memory | --passes | --iter-time | --label | --subsystem) value=1 ;;
        --version) value=1 words="1 2" ;;
        --hash) value=1 words="sha1 sha256 sha512" ;;
        --size) value=1 words="16384 32768 65536 131072 262144 524288 1048576 2097152 4194304" ;;
        --cipher) value=1 words="aes-xts-plain64 aes-cbc-essiv:sha256" ;;
        --key-bytes) value=1 words="16 32 64" ;;
        --kdf) value=1 words="pbkdf2 argon2i argon2id" ;;
        --lanes) value=1 words="$(echo {1..4})" ;;
        --cipher) value=1 words="aes-xts-plain64 aes-xts-plain aes-cbc-essiv:sha256 aes-cbc-plain64 aes-cbc-plain" ;;
        --sector-size) value=1 words="512 1024 2048 4096" ;;
    esac
    if ((COMP_CWORD == 1)); then
        words="${!options[*]} --help --version"
    elif [[ ${COMP_WORDS[1]} == help ]]; then
        words="${!options[*]}"
    elif [[ $value == 1 ]]; then
        compopt +o default 2>/dev/null
    elif [[ $word == -* ]]; then
        words=${options[${COMP_WORDS[1]}]}
    elif [[ ${COMP_WORDS[1]} == explain ]]; then
        # the program lists its faults, each at the beginning of a line; no file is named
        compopt +o default 2>/dev/null
        words=$("${COMP_WORDS[0]}" explain 2>/dev/null | cut -d' ' -f1)
    fi
    # if nothing is offered, -o default names files; the text before a colon is there already
    mapfile -t COMPREPLY < <(compgen -W "$words" -- "$begun$word")
    COMPREPLY=("${COMPREPLY[@]#"$begun"}")
}

complete -o default -F _luks luks
