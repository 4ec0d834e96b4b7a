# shellcheck shell=bash disable=SC2154 # run_built.sh, which reads this file, sets `room`, `program` and `usage`
# The runs of `copy`, apart from run_built.sh by their length: what it prints, and the files and rights that it leaves.

# hex BYTES: prints the bytes with these hexadecimal digits.
hex() {
    printf '%b' "$(printf '%s' "$1" | sed 's/../\\x&/g')"
}

# runs_by COMMAND..: runs it in the folder, and keeps what it prints.
runs_by() {
    (cd "$room/files" && "$@" < /dev/null > "$room/output" 2> "$room/error")
}

# runs ARGUMENT..: runs the program so.
runs() {
    runs_by "$program" "$@"
}

# others FILE: what the folder holds besides this file.
others() {
    (cd "$room/files" && find . ! -path "./$1" ! -type f && find . ! -path "./$1" -type f -exec cksum {} +) | sort
}

# mode NAME: that of a file in the folder.
mode() {
    stat -c %a "$room/files/$1"
}

# keeps WHAT NAME: that the file holds `old`, and nothing new stands in its folder.
keeps() {
    { [ "$(cat "$room/files/$2")" = old ] && [ -z "$(find "$room" -name '.pkcs1_tool*')" ]; } ||
        fails "$1: $2 doesn't hold what it held, or a new file is left"
}

# copies STATUS ERROR FILE BYTES ARGUMENT..: with these arguments the program exits with this status and standard error,
# and then the file has these bytes; `-` means that the file isn't there. All else in the folder is as it was.
copies() {
    local status=$1 error=$2 file=$3 bytes=$4 got before
    shift 4
    before=$(others "$file")
    runs "$@"
    got=$?
    [ "$(others "$file")" = "$before" ] || fails "copy $*: another file than $file changed"
    if [ "$bytes" = - ]; then
        [ ! -e "$room/files/$file" ] || fails "copy $*: $file is there"
    elif ! hex "$bytes" | cmp -s - "$room/files/$file"; then
        fails "copy $*: $file doesn't hold $bytes"
    fi
    ends "$*" "$status" "$error" "" "$got"
}

# needs_memory: an emulator or a sanitizer has memory of its own.
needs_memory() {
    [ -n "${EMULATED-}" ] || grep -qE '__(asan|hwasan|msan|tsan)_init' "$program"
}

# A key of 20 MB in 45 MB of addresses: its buffer grew to 34 MB, and there is no room for a second copy.
copies_in_little_memory() {
    if needs_memory; then
        less='all but one of '
        echo "run_built: a copy in little memory isn't tried: an emulator or a sanitizer has memory of its own here"
        return
    fi
    (hex 308401312d09028401312d00 && head -c 20000000 /dev/zero | tr '\0' '\021' && hex 020103) \
        > "$room/files/large.der"
    (ulimit -v 45000 && runs copy pub large.der again.der)
    ends "copy pub large.der again.der" 0 "" "" $?
    cmp -s "$room/files/large.der" "$room/files/again.der" || fails "copy pub large.der again.der: other bytes"
    holds_once large.der
}

# holds_once FILE: while a pipe is to take the key in this file of 20 MB, which was judged then, one copy is in memory.
holds_once() {
    local most
    mkfifo "$room/files/pipe"
    (cd "$room/files" && exec "$program" copy pub "$1" pipe) &
    exec 9< "$room/files/pipe"
    most=$(sed -n 's/^VmHWM:[^0-9]*\([0-9]*\) kB$/\1/p' "/proc/$!/status")
    cmp -s "$room/files/$1" - <&9 || fails "copy pub $1 pipe: other bytes"
    exec 9<&-
    wait
    [[ "$most" -gt 19000 && "$most" -lt 30000 ]] || fails "copy pub $1 pipe: it took $most KB"
    rm "$room/files/pipe"
}

# Two names of one file, pipes, a name that is too long, and the longest paths of IN and of the new file: 4095 bytes.
copies_by_other_names() {
    local long
    long=$(printf './%.0s' {1..2044})
    copies 0 "" out.der "$public" copy pub "${long}pub.der" out.der
    copies 1 "reading $long/pub.der: $file" kept.der "$old" copy pub "$long/pub.der" kept.der
    long=$(printf '../files/%.0s' {1..451})
    copies 0 "" out.der "$private" copy priv priv.der "././././${long}out.der"
    long=.//./././$long
    copies 1 "writing ${long}new.der: no file can be created beside it" new.der - copy pub pub.der "${long}new.der"
    long=$(head -c 5000 /dev/zero | tr '\0' x)
    copies 1 "reading $long: $file" new.der - copy pub "$long" new.der
    copies 1 "writing $long: it can't be opened" kept.der "$old" copy pub pub.der "$long"
    ln "$room/files/same.der" "$room/files/hard.der"
    ln -s same.der "$room/files/soft.der"
    copies 0 "" hard.der "$public" copy pub same.der hard.der
    copies 0 "" same.der "$public" copy pub soft.der same.der
    copies 0 "" same.der "$public" copy pub same.der soft.der
    copies 1 "reading soft.der: $error the value of tag 0x02 is not allowed" same.der "$public" \
        copy priv soft.der same.der
    rm "$room/files/hard.der" "$room/files/soft.der"
    mkfifo "$room/files/pipe"
    hex "$public" > "$room/files/pipe" &
    copies 0 "" out.der "$public" copy pub pipe out.der
    hex 3006020107 > "$room/files/pipe" &
    copies 1 "reading pipe: $error the input ends too early" kept.der "$old" copy pub pipe kept.der
    cat "$room/files/pipe" > "$room/piped" &
    copies 0 "" pub.der "$public" copy pub pub.der pipe
    wait
    hex "$public" | cmp -s - "$room/piped" || fails "copy pub pub.der pipe: other bytes"
    [ -p "$room/files/pipe" ] || fails "copy pub pub.der pipe: it is no pipe"
    rm "$room/files/pipe"
}

# What links name is replaced, and the links stay. Nothing is created through a link to nothing.
copies_through_links() {
    mkdir "$room/files/sub"
    printf old > "$room/files/sub/real.der"
    ln -s sub/real.der "$room/files/link.der"
    ln -s sub/none.der "$room/files/nothing.der"
    ln -s /dev/full "$room/files/device"
    ln "$room/files/sub/real.der" "$room/files/before.der"
    copies 0 "" sub/real.der "$public" copy pub pub.der link.der
    [ "$(cat "$room/files/before.der")" = old ] || fails "copy pub pub.der link.der: the old file is written"
    copies 1 "writing nothing.der: it is a link to nothing" sub/none.der - copy pub pub.der nothing.der
    copies 1 "writing nothing.der: it is a link to nothing" sub/none.der - copy priv priv.der nothing.der
    copies 1 "writing device: a write failed" new.der - copy pub pub.der device
    { [ -L "$room/files/link.der" ] && [ -L "$room/files/nothing.der" ] && [ -L "$room/files/device" ]; } ||
        fails "copies through links: a link is replaced"
    rm -r "$room/files/sub" "$room/files"/{link.der,nothing.der,device,before.der}
}

# gives WHAT WANTED KIND IN OUT [UMASK]: the copy succeeds, and leaves OUT with these rights.
gives() {
    (umask "${6:-000}" && runs copy "$3" "$4" "$5")
    ends "copy $3, rights: $1" 0 "" "" $?
    [ "$(mode "$5")" = "$2" ] || fails "copy $3: $1: rights $(mode "$5"), not $2"
}

# The rights of a new file: of a private key those of IN's owner alone. Of a public key those of the old file, or else
# those of IN that the umask leaves. A row has the kind, the umask, IN's rights, the old file's, and what is wanted.
keeps_rights() {
    local it kind mask from has wanted
    for it in 'priv 000 600 - 600' 'priv 000 644 - 600' 'priv 022 604 - 600' 'priv 000 700 - 700' 'priv 277 600 - 400' \
        'priv 000 600 200 600' 'priv 000 400 664 400' 'priv 000 660 660 600' 'pub 000 644 - 644' 'pub 027 666 - 640' \
        'pub 000 600 - 600' 'pub 077 644 664 664' 'pub 000 644 600 600'; do
        read -r kind mask from has wanted <<< "$it"
        rm -f "$room/files/out.der"
        chmod "$from" "$room/files/$kind.der"
        [ "$has" = - ] || { printf old > "$room/files/out.der" && chmod "$has" "$room/files/out.der"; }
        gives "$it" "$wanted" "$kind" "$kind.der" out.der "$mask"
    done
    rm "$room/files/out.der"
    chmod 644 "$room/files/priv.der" "$room/files/pub.der"
}

# What IN and OUT's folder give to others by access lists: nobody has any right to a private key's new file. By its mode
# the group bits are the mask of its list.
keeps_from_lists() {
    { command -v setfacl > /dev/null && mkdir "$room/files/shared" && cp "$room/files/priv.der" "$room/files/listed.der" &&
        chmod 600 "$room/files/listed.der" && setfacl -m u:65534:r,g::--- "$room/files/listed.der" 2> "$room/error" &&
        setfacl -d -m u:65534:rwx,g::rwx,o::r "$room/files/shared" 2> "$room/error"; } || {
        less='not all of '
        rm -rf "$room/files/shared" "$room/files/listed.der"
        echo "run_built: access lists aren't tried: setfacl is not installed, or this file system has none"
        return
    }
    [ "$(mode listed.der)" = 640 ] || fails "a file with a list has the rights $(mode listed.der)"
    gives "IN has a list" 600 priv listed.der out.der
    gives "OUT's folder has a default list" 600 priv listed.der shared/out.der
    gives "a list, over a file" 600 priv priv.der listed.der
    getfacl -c "$room/files/listed.der" 2> "$room/error" | grep -q 65534 && fails "a new file has the old one's list"
    rm -r "$room/files/shared" "$room/files/listed.der" "$room/files/out.der"
}

# The rights are those of the file that was read, even if another stands at its path by then.
keeps_rights_of_what_was_read() {
    mkfifo -m 600 "$room/files/pipe"
    ln -s pipe "$room/files/in.der"
    cp "$room/files/priv.der" "$room/files/wide.der"
    chmod 700 "$room/files/wide.der"
    # The pipe opens for writing as soon as the program has opened it for reading.
    { exec 9> "$room/files/pipe" && ln -sfn wide.der "$room/files/in.der" && hex "$private" >&9; } &
    gives "IN's link is changed once it is open" 600 priv in.der out.der
    wait
    rm "$room/files"/{pipe,in.der,wide.der,out.der}
}

# Copies into one folder at the same time take the names of new files from each other.
copies_at_the_same_time() {
    mkdir "$room/files/many"
    seq 200 | (cd "$room/files" && xargs -P 16 -I{} "$program" copy pub pub.der many/{}.der) 2> "$room/error"
    [ "$(cat "$room/files/many"/* | wc -c)" = 1600 ] || fails "copies at the same time: $(sort "$room/error" | uniq -c)"
    rm -r "$room/files/many"
}

# Names that other versions of the tool gave, or others may take, are in nobody's way.
takes_no_name() {
    touch "$room/files"/.pkcs1_tool{,.{0..99}}
    copies 0 "" out.der "$public" copy pub pub.der out.der
    rm "$room/files"/.pkcs1_tool*
}

# An IN that goes on after what can be a key, in 45 MB of addresses.
ends_without_an_end() {
    local shell=(bash -c 'ulimit -v 45000; exec "$@"' sh)
    ! needs_memory || shell=()
    runs_by timeout 20 "${shell[@]}" "$program" copy priv /dev/zero new.der
    ends "copy priv /dev/zero" 1 "reading /dev/zero: $error the tag octet 0x00 is not known" "" $?
    mkfifo "$room/files/pipe"
    (hex "$public"; exec cat /dev/zero) > "$room/files/pipe" 2> "$room/piped" &
    runs_by timeout 20 "${shell[@]}" "$program" copy pub pipe new.der
    ends "copy pub of a pipe that goes on" 1 "reading pipe: $error bytes follow the value" "" $?
    wait
    rm "$room/files/pipe"
    [ ! -e "$room/files/new.der" ] || fails "copies without an end: new.der is there"
}

# A file of at most 1024 bytes takes the first part of a longer key; the write of the second fails. OUT keeps what it
# has, also if it is IN. Only the tool of make ignores the signal that comes then; BY_MAKE says that this is it.
keeps_what_is_there() {
    local out
    cat ../../ffi/tests/keys/priv2.der > "$room/files/long_key.der"
    for out in kept.der long_key.der; do
        ([ -n "${BY_MAKE-}" ] || trap '' XFSZ; ulimit -f 1 && runs copy priv long_key.der "$out")
        ends "copy priv long_key.der $out" 1 "writing $out: a write failed" "" $?
    done
    keeps "copy priv long_key.der kept.der" kept.der
    cmp -s ../../ffi/tests/keys/priv2.der "$room/files/long_key.der" || fails "copy long_key.der: the key is lost"
    out=$(od -An -v -tx1 "$room/files/long_key.der" | tr -d ' \n')
    copies 0 "" long_key.der "$out" copy priv long_key.der long_key.der
    rm "$room/files/long_key.der"
}

# Without a right to write to a folder, or to a file, both stay as they are. A folder that can be written to and not read
# can't be synced, which is reported.
keeps_out_without_rights() {
    local as=()
    [ "$(id -u)" != 0 ] || as=(setpriv --reuid 65534 --regid 65534 --clear-groups)
    { "${as[@]}" test -x "$program" && "${as[@]}" "$program" < /dev/null > "$room/output" 2> "$room/error"; } || {
        # shellcheck disable=SC2034 # run_built.sh prints it
        less='not all of '
        echo "run_built: a folder without rights isn't tried: no other user runs the program here"
        return
    }
    chmod 755 "$room"
    printf old > "$room/files/kept.der"
    chmod 666 "$room/files/kept.der"
    chmod 555 "$room/files"
    runs_by "${as[@]}" "$program" copy pub pub.der kept.der
    ends "copy pub to a folder without rights" 1 "writing kept.der: no file can be created beside it" "" $?
    chmod 777 "$room/files"
    chmod 444 "$room/files/kept.der"
    runs_by "${as[@]}" "$program" copy pub pub.der kept.der
    ends "copy pub to a file without rights" 1 "writing kept.der: it can't be opened" "" $?
    chmod 333 "$room/files"
    runs_by "${as[@]}" "$program" copy pub pub.der unsynced.der
    ends "copy pub to a folder that can't be read" 1 \
        "writing unsynced.der: it is replaced, but its folder can't be synced" "" $?
    hex "$public" | cmp -s - "$room/files/unsynced.der" || fails "copy pub to a folder that can't be read: other bytes"
    rm -f "$room/files/unsynced.der"
    chmod 755 "$room/files"
    chmod 644 "$room/files/kept.der"
    keeps "copies without rights" kept.der
}

# A file system of three pages, where the machine allows to mount one: a key of two pages has no room beside an old one
# of two, and where there is room for no other file, none is created. Both times the old one is kept.
copies_to_a_full_disk() {
    unshare -rm true 2> "$room/error" || {
        echo "run_built: a full disk isn't tried: no file system can be mounted here"
        return
    }
    (hex 30821f47 && hex 02821f40 && head -c 8000 /dev/zero | tr '\0' '\021' && hex 020103) > "$room/files/page.der"
    mkdir "$room/small"
    # shellcheck disable=SC2016 # the shell that it starts expands this
    unshare -rm sh -c 'for nodes in 3 2; do
        mount -t tmpfs -o size=12k,nr_inodes=$nodes none "$2" && cd "$2" && cp ../files/page.der out.der && {
        "$1" copy pub out.der out.der > ../output 2>> ../errors; echo $? >> ../status
        cmp out.der ../files/page.der; ls -A; cd ..; umount "$2"; } >> ../listing; done' sh "$program" "$room/small"
    mv "$room/errors" "$room/error"
    ends "copies to a full disk" "1
1" "writing out.der: a write failed
writing out.der: no file can be created beside it" "" "$(cat "$room/status")"
    [ "$(cat "$room/listing")" = "out.der
out.der" ] || fails "copies to a full disk: the key is lost, or another file is there"
    rm -r "$room/small" "$room/files/page.der" "$room/status" "$room/listing"
}

# The calls on files, in order, where strace is there to tell: the new file is created, written, on the disk and closed
# before it is renamed, and then its name is; OUT isn't truncated. The new file has another name each time. OUT is looked
# at only after a key.
calls_in_order() {
    local -x ASAN_OPTIONS=detect_leaks=0 # under strace a sanitizer can't look for leaks
    { command -v strace > /dev/null && strace -o "$room/trace" true 2> "$room/error"; } || {
        echo "run_built: the order of calls isn't looked at: strace is not installed, or may not trace here"
        return
    }
    runs_by strace -y -o "$room/trace" -e trace=file,write,fsync,ftruncate,close "$program" copy pub pub.der out.der
    ends "copy pub pub.der out.der, traced" 0 "" "" $?
    grep -oE '\.pkcs1_tool\.[0-9a-f]{16}"' "$room/trace" | sort -u > "$room/name"
    sed -i -E 's/\.pkcs1_tool\.[0-9a-f]{16}/.pkcs1_tool/g' "$room/trace"
    sed -n -E -e '/^open.*(\.der|\.pkcs1_tool)"/s/^open[^"]*"([^"]*\/)?([^"]*)", ([A-Z_|]*).*/\2 \3/p' \
        -e 's/^(write|fsync|ftruncate|close)\([0-9]+<([^>]*\/)?(\.pkcs1_tool|[^>\/]*\.der|files)>.*/\1 \3/p' \
        -e '/^(truncate|creat)\(/s/\(.*//p' \
        -e 's/^(rename|unlink)[^"]*"([^"]*\/)?([^"]*)".*"([^"]*\/)?([^"]*)".*/\1 \3 \5/p' "$room/trace" |
        sed -E 's/\|O_(CLOEXEC|NOCTTY|LARGEFILE)//g' > "$room/calls"
    printf '%s\n' 'pub.der O_RDONLY' 'close pub.der' 'out.der O_WRONLY' 'close out.der' \
        '.pkcs1_tool O_WRONLY|O_CREAT|O_EXCL' 'write .pkcs1_tool' 'fsync .pkcs1_tool' 'close .pkcs1_tool' \
        'rename .pkcs1_tool out.der' 'fsync files' 'close files' |
        diff - "$room/calls" || fails "copy pub pub.der out.der: other calls (>)"
    runs_by strace -o "$room/trace" -e trace=file "$program" copy pub pub.der out.der
    grep -oE '\.pkcs1_tool\.[0-9a-f]{16}"' "$room/trace" | sort -u | cat "$room/name" - | sort -u > "$room/names"
    [ "$(wc -l < "$room/name") $(wc -l < "$room/names")" = "1 2" ] ||
        fails "copy pub pub.der out.der: the new files have the names $(cat "$room/names")"
    runs_by strace -o "$room/trace" -e trace=file,ftruncate "$program" copy pub null.der out.der
    ends "copy pub null.der out.der, traced" 1 "reading null.der: $error tag 0x30 was expected, 0x05 was found" "" $?
    ! sed '/^execve/d' "$room/trace" | grep -q 'out\.der"' || fails "copy pub null.der out.der: out.der is looked at"
}

copies_keys() {
    local public=3006020107020103 old=6f6c64
    local private=301b02010002010702010302010502010b02010d020102020104020106
    local multi=302802010102010702010302010502010b02010d020102020104020106300b3009020111020102020103
    local error="PKCS#1 ASN.1 error:" file="PKCS#1 ASN.1 error: a read or a write failed" folder=no_such_folder
    rm -rf "$room/files" && mkdir "$room/files"
    hex $public > "$room/files/pub.der"
    hex $private > "$room/files/priv.der"
    hex $multi > "$room/files/multi.der"
    hex ${public}00 > "$room/files/long.der"
    hex 0500 > "$room/files/null.der"
    hex 3000 > "$room/files/sequence.der"
    : > "$room/files/empty.der"
    hex $old > "$room/files/kept.der"
    hex $public > "$room/files/same.der"
    copies 0 "" out.der $public copy pub pub.der out.der
    copies 0 "" out.der $private copy priv priv.der out.der
    copies 0 "" out.der $multi copy priv multi.der out.der
    copies 0 "" out.der $public copy pub pub.der out.der
    copies 0 "" same.der $public copy pub same.der same.der
    copies 1 "reading missing.der: $file" kept.der $old copy pub missing.der kept.der
    copies 1 "reading missing.der: $file" new.der - copy priv missing.der new.der
    copies 1 "reading long.der: $error bytes follow the value" kept.der $old copy pub long.der kept.der
    copies 1 "reading null.der: $error tag 0x30 was expected, 0x05 was found" kept.der $old copy pub null.der kept.der
    copies 1 "reading empty.der: $error the input ends too early" kept.der $old copy priv empty.der kept.der
    copies 1 "reading sequence.der: $error the input ends too early" kept.der $old copy pub sequence.der kept.der
    copies 1 "reading priv.der: $error bytes follow the value" kept.der $old copy pub priv.der kept.der
    copies 1 "reading pub.der: $error the value of tag 0x02 is not allowed" kept.der $old copy priv pub.der kept.der
    copies 1 "writing $folder/out.der: no file can be created beside it" $folder - copy pub pub.der $folder/out.der
    copies 1 "reading .: $file" new.der - copy pub . new.der
    copies 1 "writing .: it can't be opened" new.der - copy pub pub.der .
    copies 1 "writing new.der/: the new file can't be renamed to it" new.der - copy pub pub.der new.der/
    copies 1 "writing /dev/full: a write failed" new.der - copy pub pub.der /dev/full
    copies 1 "writing $folder/out.der: no file can be created beside it" $folder - copy priv priv.der $folder/out.der
    copies 1 "writing .: it can't be opened" new.der - copy priv priv.der .
    copies 1 "writing /dev/full: a write failed" new.der - copy priv priv.der /dev/full
    copies_in_little_memory
    ends_without_an_end
    copies_by_other_names
    copies_through_links
    keeps_rights
    keeps_from_lists
    keeps_rights_of_what_was_read
    copies_at_the_same_time
    takes_no_name
    copies_to_a_full_disk
    calls_in_order
    copies 2 "$usage" kept.der $old copy
    copies 2 "$usage" new.der - copy pub pub.der
    copies 2 "$usage" kept.der $old copy pub pub.der kept.der more
    copies 2 "$usage" kept.der $old copy pem pub.der kept.der
    copies 2 "$usage" kept.der $old move pub pub.der kept.der
    copies 2 "$usage" kept.der $old copy pub "$(printf 'pub\377.der')" kept.der
    keeps_what_is_there
    keeps_out_without_rights
}
