# Whether the program of a checkout is the one that was proved there, from the sources that stand there. To be read by
# sh scripts that have set `checkout` and `program`.
#
# crates/arterial/out/proved/ is written where a proof ends (streettools/launch/record.py):
#   sums      SHA-256 of the program and of every file that its proof has read
#   names     the names of these files and of the folders between them, each ended by a NUL
#   kit       the kit's folder, then its own WHAT, which has the checksums of what it was made of
#   tested    its time is that of the last test of the sums
# A file whose time of change (ctime) is not past that of `tested` has not been written, moved or replaced since. So
# one look at times is enough as long as nothing was touched; else all sums are tested again. A clock that was set
# back can deceive it, and so can who writes `proved` anew, which everybody can who may write the checkout.
record=crates/arterial/out/proved
proved=$checkout/$record

# Whether nothing was touched since the sums were tested.
is_untouched() {
    [ -e "$proved/tested" ] && [ -x "$program" ] && is_kit || return 1
    # one process alone, and no texts in the reader's language: the start of another takes as long as a thousand looks
    touched=$(cd "$checkout" && LC_ALL=C exec find -files0-from "$record/names" \
        -prune -cnewer "$record/tested" -print -quit 2>&1)
    [ -z "$touched" ]
}

# Whether the kit that stands here, if one does, is the one of the proof.
is_kit() {
    {
        read -r folder || return 1
        [ -e "$folder/WHAT" ] || return 0
        while read -r due; do
            read -r found <&4 && [ "$found" = "$due" ] || return 1
        done 4<"$folder/WHAT"
    } <"$proved/kit"
}

# Tests all sums. Returns 0 where all are right, 1 where there is no proof or it was one of other sources, 123 where
# the program alone is another.
test_sums() {
    [ -e "$proved/sums" ] && [ -e "$program" ] || { why="there is no proved program here yet" && return 1; }
    is_kit || { why="the kit is not the one of the proof" && return 1; }
    touch -d '1 second ago' "$proved/testing.$$" 2>/dev/null
    wrong=$(cd "$checkout" && LC_ALL=C sha256sum --quiet -c "$record/sums" 2>/dev/null)
    if [ -z "$wrong" ]; then
        mv -f "$proved/testing.$$" "$proved/tested" 2>/dev/null
        return 0
    fi
    rm -f "$proved/testing.$$"
    [ "$wrong" = "crates/arterial/out/arterial: FAILED" ] && return 123
    # the sums begin with the program's, so what is named first may be that; a source is of more use to the reader
    name=$(echo "$wrong" | sed -n '/^crates\/arterial\/out\/arterial: /!{s/: FAILED.*//p;q;}')
    why="$name has changed since the program was proved"
    return 1
}

# As test_sums, and quick where nothing was touched.
is_proved() {
    is_untouched || test_sums
}

# Whether the proof was made elsewhere and taken over (./arterial take).
is_taken() {
    [ -e "$proved/maker" ]
}

# Whether the unproved program that was built here is one of the sources that are here. It is never taken for the proved
# one: it has its own place and its own record, crates/arterial/out/tried/.
is_tried() {
    record=crates/arterial/out/tried proved=$checkout/crates/arterial/out/tried program=$checkout/crates/arterial/out/tried/program
    is_proved
}
