# What `make install` puts where, and that a C program is built with what pkg-config says of it. Sourced by run.

# made WORDS ..: make, with the program that is tried; it is not built again (-o).
made() {
    command make -s -C "$root" -o "$yaffledesk" -o target/staticlib/libyaffledesk.a COMMAND="$yaffledesk" "$@" \
        >"$scratch/log" 2>&1
}

# makes WHAT WORDS ..: the same, and it ends well.
makes() {
    made "${@:2}" || { cat "$scratch/log"; false; }
    count $? "$1"
}

# installed BELOW: the files there, with their rights.
installed() {
    (cd "$1" 2>/dev/null && find . -type f -printf '%m %p\n' | sort)
}
everything="644 ./include/yaffledesk.h
644 ./lib/libyaffledesk.a
644 ./lib/pkgconfig/yaffledesk.pc
644 ./share/man/man1/yaffledesk.1
755 ./bin/yaffledesk
755 ./bin/yaffledesk-planfile"

place="$scratch/a place"
makes "make install PREFIX" install PREFIX="$scratch/place" DESTDIR=
makes "make install PREFIX DESTDIR" install PREFIX=/opt/desk DESTDIR="$place"
[ "$(installed "$scratch/place")" = "$everything" ]
count $? "what is installed below PREFIX: $(installed "$scratch/place")"
[ "$(installed "$place")" = "${everything//.\//./opt/desk/}" ]
count $? "what is installed below DESTDIR: $(installed "$place")"
cmp "$scratch/place/bin/yaffledesk" "$yaffledesk" &&
    cmp "$scratch/place/include/yaffledesk.h" "$root/include/yaffledesk.h" &&
    cmp "$scratch/place/share/man/man1/yaffledesk.1" "$root/command/yaffledesk.1" &&
    cmp "$scratch/place/bin/yaffledesk-planfile" "$root/tools/planfile"
count $? "the files installed are those that were made"
[ "$("$scratch/place/bin/yaffledesk" starts examples/f.plan)" = "$("$yaffledesk" starts examples/f.plan)" ]
count $? "the command that is installed runs"

# config WORDS ..: what pkg-config says, by the files installed alone.
config() {
    PKG_CONFIG_LIBDIR=$scratch/place/lib/pkgconfig PKG_CONFIG_PATH=$scratch/place/lib/pkgconfig pkg-config "$@" yaffledesk
}
[ "$(config --modversion)" = "$version" ] && config --validate
count $? "pkg-config knows the version"
# shellcheck disable=SC2046 # options, which are several words
gcc -Wall -Wextra -Werror $(config --cflags) "$root/examples/counter.c" $(config --libs) -o "$scratch/counter" &&
    [ "$("$scratch/counter" examples/a.plan)" = "accepted: activities 4, kinds 1" ]
count $? "a C program with the options of pkg-config"
[ "$(PKG_CONFIG_LIBDIR=$place/opt/desk/lib/pkgconfig PKG_CONFIG_PATH= pkg-config --variable=prefix yaffledesk)" = /opt/desk ]
count $? "pkg-config's file has the place without DESTDIR"

# README's lines for C programs, as they stand, but that make builds nothing again.
mkdir "$scratch/readme" && sed -n '/^## For C programs/,/^## /s/^    //p' "$root/README.md" >"$scratch/readme.sh"
(
    cd "$scratch/readme" && ln -s "$root/examples" . && HOME=$scratch/home
    make() { made "$@"; }
    . "$scratch/readme.sh"
) >"$scratch/out" 2>&1
[ "$(wc -l <"$scratch/readme.sh")" -ge 3 ] && holds "$scratch/out" "accepted: activities 4, kinds 1"
count $? "README's lines for C programs: $(<"$scratch/out")"

# With nothing but what is installed: the hall in the manual is packed, shown, listed and drawn, and its crew fits.
manual=$scratch/place/share/man/man1/yaffledesk.1
# example FIRST: the lines of the manual's example that begins with this one.
example() {
    sed -n "/^$1\$/,/^\.EE/p" "$manual" | sed '$d; s/\\-/-/g'
}
# by_itself WORDS ..: a command that is installed, where there is nothing else of the tree.
by_itself() {
    (cd "$scratch/alone" && env -i PATH="$scratch/place/bin:$PATH" LC_ALL=C "$@") >"$scratch/out" 2>"$scratch/err"
    status=$?
    [ $status -eq 0 ] && holds "$scratch/err" ""
}
mkdir "$scratch/alone"
example '# A small hall: .*' >"$scratch/alone/hall.txt"
example '# activity, start, duration' >"$scratch/alone/hall.crew"
by_itself yaffledesk-planfile pack hall.txt -o hall.plan && [ "$(stat -c %s "$scratch/alone/hall.plan")" -gt 200 ]
told "the manual's hall is packed by what is installed"
by_itself yaffledesk-planfile show hall.plan &&
    [ "$(<"$scratch/out")" = "$(sed 's/ *#.*//; /^$/d' "$scratch/alone/hall.txt")" ]
told "it is shown as it was written"
by_itself yaffledesk list --width 9 hall.plan && line=$(<"$scratch/out") && [[ $line == "hall.plan  accepted "* ]] &&
    grep -qxF -- "$line" "$manual"
told "it is accepted, with the line that the manual has"
by_itself yaffledesk draw hall.plan -o hall.svg && grep -q '<svg ' "$scratch/alone/hall.svg"
told "it is drawn"
by_itself yaffledesk crew hall.plan hall.crew && holds "$scratch/out" fits
told "its crew fits"
by_itself yaffledesk-planfile --help && [[ $(<"$scratch/out") == "usage: yaffledesk-planfile "* ]]
told "planfile that is installed says its own name"
by_itself yaffledesk --help && grep -q 'yaffledesk-planfile' "$scratch/out"
told "--help names planfile as it is installed"
by_itself man -l "$manual" && grep -q '^SEE ALSO' "$scratch/out" && grep -q 'yaffledesk-planfile' "$scratch/out"
told "so does the manual"

makes "make uninstall PREFIX" uninstall PREFIX="$scratch/place" DESTDIR=
makes "make uninstall PREFIX DESTDIR" uninstall PREFIX=/opt/desk DESTDIR="$place"
[ -z "$(find "$scratch/place" "$place" -type f)" ]
count $? "make uninstall leaves no file"

# Any characters: those of the shell, of sed, of pkg-config and of make, where $ is written $$ on its command line.
# placed PREFIX: all is below there, and what pkg-config says of it, without its quotes, names it so.
placed() {
    local where=$1
    [ "$(installed "$where")" = "$everything" ] && PKG_CONFIG_LIBDIR=$where/lib/pkgconfig PKG_CONFIG_PATH= \
        pkg-config --cflags --libs yaffledesk >"$scratch/out" && "$python" -c '
import os, shlex, sys
where = sys.argv[1]
found, due = shlex.split(sys.stdin.read()), [f"-I{where}/include", f"-L{where}/lib", "-lyaffledesk"]
sys.exit([*map(os.fsencode, found)] != [*map(os.fsencode, due)])' "$where" <"$scratch/out"
    count $? "what is installed below $where, and pkg-config says of it: $(<"$scratch/out")"
}
odds=('a|b' 'a&b' 'a\b' 'two  blanks' 'a#b' 'a$b' 'a${prefix}b' 'a"b' "a'b" 'a`b' 'a;(b)' 'a*?[b]' '~a' 'a%b=c')
odds+=('ä' '$(x)')
for odd in "${odds[@]}"; do
    where=$scratch/odd/$odd
    makes "make install PREFIX=$odd" install PREFIX="${where//\$/\$\$}" DESTDIR=
    placed "$where"
    makes "make uninstall PREFIX=$odd" uninstall PREFIX="${where//\$/\$\$}" DESTDIR=
    PREFIX=$where made install DESTDIR=
    placed "$where"
    makes "make install DESTDIR=$odd" install PREFIX=/opt/desk DESTDIR="${where//\$/\$\$}/to"
    [ "$(installed "$where/to")" = "${everything//.\//./opt/desk/}" ]
    count $? "what is installed below DESTDIR $where/to"
    rm -rf "$scratch/odd"
done

# What cannot be written fails: a folder in the place of a file, and a sed that ends in trouble.
mkdir -p "$scratch/odd/lib/pkgconfig/yaffledesk.pc" "$scratch/failing"
! made install PREFIX="$scratch/odd" DESTDIR= && [ -z "$(ls "$scratch/odd/lib/pkgconfig/yaffledesk.pc")" ]
count $? "make install where pkg-config's file cannot be written"
rm -rf "$scratch/odd"
printf '#!/bin/sh\nexit 4\n' >"$scratch/failing/sed" && chmod +x "$scratch/failing/sed"
! PATH=$scratch/failing:$PATH made install PREFIX="$scratch/odd" DESTDIR=
count $? "make install where pkg-config's file cannot be made"
rm -rf "$scratch/odd" "$scratch/failing" "$scratch/alone"
