#!/bin/sh
# Installs luks under a folder, or removes it again:
#
#   ./install.sh PREFIX             such as ./install.sh /usr/local, or ./install.sh "$HOME/.local", which needs no root
#   ./install.sh --remove PREFIX
#
# PREFIX/share/doc/luks/INSTALLED lists what was installed. The script overwrites and removes no other file. If one is in the way, it names the
# file and installs nothing. The status is 0 if all is done, 1 if it isn't, 2 if the command line is wrong.
set -euf
umask 022
LC_ALL=C
export LC_ALL
list=share/doc/luks/INSTALLED

say() {
    printf 'install.sh: %s\n' "$*" >&2
}

stop() {
    say "$*"
    exit 1
}

usage() {
    printf 'usage: install.sh PREFIX\n       install.sh --remove PREFIX\n' >&2
    exit 2
}

# The folder's full name; it has to exist.
whole_name() {
    (CDPATH='' cd -- "$1" && pwd) || stop "$1 isn't a folder that can be entered"
}

# Every file to install, by its place under PREFIX.
files() {
    (cd "$from" && find bin include lib share -type f) | sed "s|^share/zsh/site-functions/|share/zsh/$zsh/|" | sort
}

# The folders of these places that don't exist yet, each with a slash at the end.
missing_folders() {
    while read -r place; do
        folder=$(dirname "$place")
        while [ "$folder" != . ] && [ ! -d "$prefix/$folder" ]; do
            printf '%s/\n' "$folder"
            folder=$(dirname "$folder")
        done
    done | sort -u
}

# What INSTALLED lists, except names that this script can't have made.
listed() {
    grep -E '^(bin|include|lib|share)/[A-Za-z0-9._/-]*$' "$prefix/$list" 2>/dev/null | grep -v -F .. || :
}

is_listed() {
    listed | grep -Fqx -e "$1"
}

compare_sums() {
    if ! command -v sha256sum >/dev/null; then
        say "sha256sum isn't there, so the files aren't compared with SHA256SUMS"
    elif ! said=$(cd "$from" && sha256sum -c SHA256SUMS 2>&1); then
        printf '%s\n' "$said" | grep -v ': OK$' >&2
        stop "these files aren't those of SHA256SUMS; nothing is installed"
    fi
}

refuse_strangers() {
    strangers=$(files | while read -r place; do
        if { [ -e "$prefix/$place" ] || [ -L "$prefix/$place" ]; } && ! is_listed "$place"; then
            printf ' %s' "$prefix/$place"
        fi
    done)
    [ -z "$strangers" ] || stop "there already, and not by this script:$strangers; nothing is installed"
}

# Each file is complete before it gets its name, so a luks that is running isn't disturbed.
put() {
    source=$(printf '%s\n' "$1" | sed "s|^share/zsh/$zsh/|share/zsh/site-functions/|")
    case $1 in bin/*) mode=755 ;; *) mode=644 ;; esac
    mkdir -p "$prefix/$(dirname "$1")" && cp "$from/$source" "$prefix/$1.new" && chmod "$mode" "$prefix/$1.new" && mv -f "$prefix/$1.new" "$prefix/$1"
}

install_all() {
    compare_sums
    mkdir -p "$prefix" || stop "nothing is installed"
    prefix=$(whole_name "$prefix")
    [ "$prefix" != /usr ] || zsh=vendor-completions
    refuse_strangers
    new=$(files)
    folders=$(printf '%s\n' "$new" | missing_folders)
    old=$(listed)
    mkdir -p "$prefix/${list%/*}" || stop "nothing is installed"
    printf '%s\n' "$folders" "$new" "$old" | grep . | sort -u >"$prefix/$list" || stop "nothing is installed"
    for place in $new; do
        put "$place" || stop "not all is installed; 'install.sh --remove $prefix' takes away what is"
    done
    for place in $old; do
        case $place in */) continue ;; esac
        printf '%s\n' "$new" | grep -Fqx -e "$place" || rm -f "$prefix/$place"
    done
    printf '%s\n' "$folders" "$new" "$old" | grep . | sort -u | while read -r place; do
        [ ! -e "$prefix/$place" ] || printf '%s\n' "$place"
    done >"$prefix/$list.new"
    mv -f "$prefix/$list.new" "$prefix/$list"
    if told=$("$prefix/bin/luks" --version 2>/dev/null); then
        printf 'installed %s under %s\n' "$told" "$prefix"
    else
        say "installed, but $prefix/bin/luks doesn't run here: README says which C library it needs; bin/luks-static needs none"
    fi
}

remove_all() {
    prefix=$(whole_name "$prefix")
    [ -f "$prefix/$list" ] || stop "$prefix/$list isn't there: nothing was installed under $prefix by this script"
    all=$(listed | sort -r)
    for place in $all; do
        case $place in */) ;; *) rm -f "$prefix/$place" "$prefix/$place.new" || stop "not all is removed" ;; esac
    done
    rm -f "$prefix/$list" "$prefix/$list.new" || stop "not all is removed"
    # a folder that contains something else by now stays
    for place in $all; do
        case $place in */) rmdir "$prefix/$place" 2>/dev/null || : ;; esac
    done
    printf 'removed luks from %s\n' "$prefix"
}

from=$(whole_name "$(dirname "$0")")
zsh=site-functions
case $#:${1-} in
    1: | 2: | 1:-*) usage ;;
    1:*) prefix=$1 && install_all ;;
    2:--remove) [ -n "$2" ] || usage; prefix=$2 && remove_all ;;
    *) usage ;;
esac
