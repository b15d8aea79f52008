# How the command is built: without a warning, hardened, and with the options that are given. Sourced by run.

# A whole build, as make does it: some warnings are found only by the optimiser, or with what hardens the program.
make -s -C "$root" -o target/staticlib/libyaffledesk.a COMMAND="$scratch/strict" CFLAGS='-O2 -Werror' \
    >"$scratch/log" 2>&1 && [ -x "$scratch/strict" ] || { cat "$scratch/log"; false; }
count $? "the command is built without a warning"

# has WHAT PATTERN: what readelf says of the program has such a line.
has() {
    grep -Eq "$2" "$scratch/elf"
    count $? "the program has $1"
}
if [ -z "${COMMAND:-}" ]; then # another program is built as its maker likes
    readelf -W -h -l -d --dyn-syms "$yaffledesk" >"$scratch/elf"
    has "any place in memory (PIE)" '^ *Type: +DYN '
    has "its tables read-only (RELRO)" '^ *GNU_RELRO '
    has "all functions found when it starts (BIND_NOW)" 'BIND_NOW|FLAGS_1.* NOW'
    has "guards on its stack" ' __stack_chk_fail(@|$)'
    has "checked functions of the C library" ' __(memcpy|memset|snprintf|vsnprintf|fprintf)_chk(@|$)'
fi

# line WORDS ..: how make would compile the command, with these words, as one line.
line() {
    env "${given[@]}" make -s -n -C "$root" -o target/staticlib/libyaffledesk.a COMMAND="$scratch/none" "$@" 2>&1 |
        sed -e ':a' -e '/\\$/N; s/\\\n//; ta' | grep -- ' -std=c11 '
}

# built WHAT WORD ..: that line has each of these words, and none of those with a ! before it.
built() {
    local word
    for word in "${@:2}"; do
        case $word in
        !*) [[ " $built " != *" ${word#!} "* ]] ;;
        *) [[ " $built " == *" $word "* ]] ;;
        esac
        count $? "$1: $word: $built"
    done
}
options=(CFLAGS=-O1 CPPFLAGS=-DX LDFLAGS=-Wl,--as-needed)
given=(-u CFLAGS -u CPPFLAGS -u LDFLAGS -u HARDENING -u MAKEFLAGS) built=$(line)
built "make" gcc -O2 -fstack-protector-strong -D_FORTIFY_SOURCE=2 -Wl,-z,relro,-z,now -Wall '!-Werror'
built=$(line "${options[@]}")
built "options on the command line" -O1 -DX -Wl,--as-needed -D_FORTIFY_SOURCE=2 '!-O2'
built=$(line HARDENING=)
built "no hardening" -O2 '!-fstack-protector-strong' '!-D_FORTIFY_SOURCE=2' '!-Wl,-z,relro,-z,now' '!-pie'
for flags in "" -O0 "-O2 -O0" -g; do
    built=$(line CFLAGS="$flags")
    built "no optimisation ($flags)" -fstack-protector-strong '!-D_FORTIFY_SOURCE=2'
done
built=$(line CPPFLAGS=-D_FORTIFY_SOURCE=3)
built "another choice" -D_FORTIFY_SOURCE=3 '!-D_FORTIFY_SOURCE=2'
given+=("${options[@]}") built=$(line)
built "options of the environment" -O1 -DX -Wl,--as-needed '!-O2'
