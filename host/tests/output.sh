#!/usr/bin/env bash
# output.sh ROUTINE SCRATCH: the files that `routine` writes: links, standard output, owner, group, access control list and
# mode, and what is left when something fails.
set -u
script="output"
. host/tests/expect.sh
odd=$samples/odd-flags.vtil
written=$scratch/written

# old_file MODE: in an empty folder, a file `a` that is to be replaced.
old_file() {
    fresh
    cp samples/blocks.vtil "$to/a"
    chmod "$1" "$to/a"
}

# about FILE: owner, group and mode.
about() {
    stat -c '%u %g %a' "$1"
}

replaced() {
    cmp "$to/a" "$written" && has_only "$to" a
}

# with FAILING: runs normalize on $to/a with failing.c loaded.
with() {
    with_failing "$1" normalize "$odd" -o "$to/a"
}

# Symbolic links ---------------------------------------------------------------------

# link_to NAME TARGET FILE OUT: a link leads to TARGET, which is not there, and another link to that one; OUT is one of the
# two, and FILE is then made.
link_to() {
    fresh
    mkdir "$to/one" "$to/two"
    ln -s "$2" "$to/one/link"
    ln -s ../one/link "$to/two/chain"
    expect "$1" 0 "" "" "$routine" normalize "$odd" -o "$to/$4"
    passes "$1: the file is made" cmp "$to/$3" "$written"
    passes "$1: the links stay" [ "$(readlink "$to/one/link") $(readlink "$to/two/chain")" = "$2 ../one/link" ]
    passes "$1: its mode is a new file's" [ "$(stat -c %a "$to/$3")" = "$(printf %o $((0666 & ~0$(umask))))" ]
}
links_to_nothing() {
    link_to "a link to nothing" new one/new one/link
    link_to "a link to nothing in another folder" ../two/new two/new one/link
    link_to "a link to nothing by a whole path" "$to/new" new one/link
    link_to "a link to a link to nothing" new one/new two/chain
    fresh
    ln -s none/new "$to/link"
    expect "a link to nothing, its folder not there" 2 "" "routine: $to/link: not written: No such file or directory" \
        "$routine" normalize "$odd" -o "$to/link"
    ln -sf link "$to/link"
    expect "a link to itself" 2 "" "routine: $to/link: not written: Too many levels of symbolic links" \
        "$routine" normalize "$odd" -o "$to/link"
    passes "nothing is left of them" has_only "$to" link
}

# Standard output by another name --------------------------------------------------------

# The file keeps what was in it, and what comes after it: it isn't replaced.
between_words() {
    fresh
    { echo before && "$routine" normalize "$odd" -o "$1" && echo after; } >"$to/a"
    cmp "$to/a" <(echo before && cat "$written" && echo after)
}
named_standard_output() {
    if [ -e /dev/stdout ]; then
        passes "/dev/stdout is standard output" between_words /dev/stdout
    else
        skip "/dev/stdout is standard output" "there is no /dev/stdout"
    fi
    passes "the file's own name is standard output" between_words "$to/a"
    fresh
    printf 'create 1\n' >"$scratch/script"
    status=0
    "$routine" edit samples/minimal.vtil -s "$scratch/script" -o "$to/a" >"$to/a" 2>"$scratch/lines" || status=$?
    passes "edit to the file that standard output is" [ "$status" = 0 ]
    expect "it holds the routine and nothing else" 0 "$to/a: accepted, 150 bytes consumed" "" "$routine" check "$to/a"
    passes "the lines' answers are on standard error" [ "$(tail -n 1 "$scratch/lines")" = "1 line, 0 refused" ]
    expect "a null device is no closed standard output" 0 "" "" bash -c '"$0" normalize "$1" -o /dev/null >&-' "$routine" "$odd"
}

# Owner, group and mode --------------------------------------------------------------------

# A group that this user can give a file, and that new files don't have; empty where there is none.
other_group() {
    if [ "$(id -u)" = 0 ]; then echo 12345; else id -G | tr ' ' '\n' | grep -vx "$(id -g)" | head -n 1; fi
}

# group_case NAME FAILING MODE GROUP DUE: a file of MODE and GROUP is replaced; DUE is its group and mode then.
group_case() {
    old_file "$3"
    chgrp "$4" "$to/a"
    expect "$1" 0 "" "" with "$2"
    passes "$1: group and mode" [ "$(stat -c '%g %a' "$to/a")" = "$5" ]
    passes "$1: the file" replaced
}
other_groups() {
    local group mine
    group=$(other_group)
    mine=$(id -g)
    if [ -z "$group" ]; then
        skip "a file of another group" "this user is in one group only"
        return
    fi
    group_case "a file of another group" none 660 "$group" "$group 660"
    group_case "its owner can't be set" owner 660 "$group" "$group 660"
    group_case "its group can't be set, others have no right" fchown 660 "$group" "$mine 600"
    group_case "its group can't be set, others may read" fchown 664 "$group" "$mine 644"
    group_case "its group can't be set, others have more rights" fchown 646 "$group" "$mine 644"
}

# For real: nobody replaces files of root's and his own in a folder that all can write.
other_users() {
    local public=$scratch/public
    mkdir -m 755 "$public"
    cp "$routine" "$public/routine" && cp "$odd" "$public"
    if ! as_nobody --clear-groups test -x "$public/routine" 2>/dev/null; then
        skip "another user's file" "no other user can be tried"
        return
    fi
    old_file 660
    chmod 777 "$to"
    chgrp 12345 "$to/a"
    expect "another user's file, of a group that one is in" 0 "" "" \
        as_nobody --groups 12345 "$public/routine" normalize "$public/odd-flags.vtil" -o "$to/a"
    passes "it has a new owner and its old group" [ "$(about "$to/a")" = "65534 12345 660" ]
    chmod 660 "$to/a"
    expect "one's own file, of a group that one is not in" 0 "" "" \
        as_nobody --clear-groups "$public/routine" normalize "$public/odd-flags.vtil" -o "$to/a"
    passes "its new group has no rights" [ "$(about "$to/a")" = "65534 65534 600" ]
    chown 65534:12345 "$to/a" && chmod 640 "$to/a"
    expect "root keeps owner and group" 0 "" "" "$routine" normalize "$odd" -o "$to/a"
    passes "they are the old ones" [ "$(about "$to/a")" = "65534 12345 640" ]
    # It can't be opened, so it can't be synced either.
    old_file 666
    chmod 733 "$to"
    expect "a folder that one may write but not read" 0 "" "" \
        as_nobody --clear-groups "$public/routine" normalize "$public/odd-flags.vtil" -o "$to/a"
    passes "the file in it is replaced" replaced
}

special_bits() {
    old_file 6755
    expect "a file with setuid and setgid" 0 "" "" "$routine" normalize "$odd" -o "$to/a"
    passes "these are dropped" [ "$(stat -c %a "$to/a")" = 755 ]
}

# A file system without modes: the new file has less rights than the old one, which does no harm.
no_modes() {
    old_file 644
    expect "a mode that can't be set" 0 "" "" with fchmod
    passes "only the owner has rights then" [ "$(stat -c %a "$to/a")" = 600 ]
    passes "the file is replaced" replaced
    fresh
    expect "a new file where no mode can be set" 0 "" "" with fchmod
    passes "the file is made" replaced
}

# Access control lists -----------------------------------------------------------------------

acl() {
    python3 -B host/tests/acl.py "$@"
}
same_list() {
    [ "$(acl show "$1")" = "$(acl show "$2")" ] && [ "$(stat -c %a "$1")" = "$(stat -c %a "$2")" ]
}
without_list() {
    [ -z "$(acl show "$1")" ] && [ "$(stat -c %a "$1")" = "$2" ]
}
lists() {
    old_file 600
    if ! acl set "$to/a" 2>/dev/null; then
        skip "a file with an access control list" "there is no python3, or no such list here"
        return
    fi
    cp "$to/a" "$scratch/like" && acl set "$scratch/like"
    expect "a file with an access control list" 0 "" "" "$routine" normalize "$odd" -o "$to/a"
    passes "the list stays" same_list "$to/a" "$scratch/like"
    passes "the file is replaced" replaced
    expect "a list that can't be set" 0 "" "" with fsetxattr
    passes "only the owner has rights" without_list "$to/a" 600
    acl set "$to/a"
    lists_and_groups
    lists_of_folders
}
lists_and_groups() {
    local group
    group=$(other_group)
    if [ -z "$group" ]; then
        skip "a list, and a group that can't be set" "this user is in one group only"
        return
    fi
    chgrp "$group" "$to/a"
    expect "a list, and a group that can't be set" 0 "" "" with fchown
    passes "then too only the owner has rights" without_list "$to/a" 600
}
# The folder gives its new files a list.
lists_of_folders() {
    old_file 660
    acl default "$to"
    expect "a file without a list, where new files have one" 0 "" "" "$routine" normalize "$odd" -o "$to/a"
    passes "it has none" without_list "$to/a" 660
    expect "a new file, where new files have a list" 0 "" "" "$routine" normalize "$odd" -o "$to/b"
    : >"$to/c"
    passes "it is as any new file" same_list "$to/b" "$to/c"
}

# What is said and left when something fails --------------------------------------------------------

folder_not_synced() {
    local say="written, but a crash may undo it, since its folder could not be synced: Input/output error"
    old_file 644
    expect "a folder that can't be synced" 2 "" "routine: $to/a: $say" with folder
    passes "the file is replaced all the same" replaced
    old_file 644
    expect "a folder on a file system that syncs none" 0 "" "" with "no syncing"
    passes "the file is replaced there too" replaced
}

# A signal that ends the command ends it when the file is whole, and nothing else is left.
signals() {
    local name number
    for name in INT TERM HUP QUIT ALRM XCPU; do
        number=$(kill -l $name)
        old_file 644
        status=0
        (ulimit -c 0 && with "signal $number") 2>"$scratch/err" || status=$?
        passes "SIG$name while the file is written" [ "$status" = $((128 + number)) ]
        passes "SIG$name leaves one whole file" replaced
    done
}

"$routine" normalize "$odd" -o "$written"
links_to_nothing
named_standard_output
other_users
special_bits
if build_failing; then
    other_groups
    no_modes
    lists
    folder_not_synced
    signals
else
    skip "calls that fail" "nothing that is loaded before libc can be built"
fi
finish
