# Outputs that are open already, by the names that they have, and outputs that are also read. Sourced by run.

starts=$'start 1 0\nstart 2 1\nstart 3 0\nstart 4 3\nend 4'
mkdir open && echo head >open/head

# into WHAT REDIRECTION WORDS ..: with `head` in open/out before, and `tail` written behind it, the file has all three.
# The redirection is that of all of it; nothing is left beside the file.
into() {
    cp open/head open/out
    eval "{ \"\$yaffledesk\" starts examples/a.plan ${*:3}; status=\$?; echo tail >&4; } 4>>open/out $2" \
        2>"$scratch/err"
    : >"$scratch/out"
    [ "$status" -eq 0 ] && holds open/out "head"$'\n'"$starts"$'\n'"tail" &&
        [ "$(ls -A open | tr '\n' ' ')" = "head out " ]
    told "$1"
}
for name in /dev/stdout /dev/fd/1 /proc/self/fd/1 //dev/../dev/stdout; do
    into "standard output, that is added to a file, by the name $name" ">>open/out" -o $name
done
into "standard error by its name" "2>>open/out" -o /dev/stderr
into "a descriptor by its name" "7>>open/out" -o /dev/fd/7
into "a descriptor by its name in /proc" "7>>open/out" -o /proc/self/fd/7
into "a file by its name, which standard output goes to" ">>open/out" -o open/out
into "a file by its name, which standard error goes to" "2>>open/out" -o open/out
mkdir links && ln -s ../open/out links/file && ln -s /dev/stdout links/standard && ln -s standard links/twice
ln -s /dev/fd links/all
for name in links/file links/standard links/twice links/all/1; do
    into "standard output by a link, $name" ">>open/out" -o $name
done
ln open/out links/hard
{ echo head; "$yaffledesk" starts examples/a.plan -o links/hard; echo tail; } >open/out
holds open/out "head"$'\n'"$starts"$'\n'"tail" && [ open/out -ef links/hard ]
count $? "standard output by another name of its file"
rm -r links
{ echo head; "$yaffledesk" starts examples/a.plan -o /dev/stdout; echo tail; } >open/out
holds open/out "head"$'\n'"$starts"$'\n'"tail"
count $? "standard output by its name, in the middle of a file"
"$yaffledesk" starts examples/a.plan -o /dev/stdout | cmp - <(echo "$starts")
count $? "standard output by its name, that is a pipe"
mkdir 1 && (cd 1 && "$yaffledesk" starts ../examples/a.plan -o 1 >../open/out) &&
    holds 1/1 "$starts" && holds open/out ""
count $? "a file whose name is a number"
rm -r 1

# A descriptor that is not open, or only to be read from, and no name of one.
gives 2 "" "yaffledesk: /dev/fd/77: cannot be written: Bad file descriptor" starts examples/a.plan -o /dev/fd/77
gives 2 "" "yaffledesk: /dev/fd/3: cannot be written: Bad file descriptor" starts examples/a.plan -o /dev/fd/3 3>&-
gives 2 "" "yaffledesk: /proc/self/fd/0: cannot be written: Bad file descriptor" \
    starts examples/a.plan -o /proc/self/fd/0 <open/head
"$yaffledesk" starts examples/a.plan -o /dev/stdout 2>"$scratch/err" >&-
[ $? -eq 2 ] && holds "$scratch/err" "yaffledesk: /dev/stdout: cannot be written: Bad file descriptor"
count $? "standard output by its name, that is closed"
for name in /dev/fd/x /dev/fd/01 /dev/fd/99999999999 /dev/fd/; do
    try starts examples/a.plan -o $name
    [ "$status" -eq 2 ] && holds "$scratch/out" "" && grep -q "^yaffledesk: $name: cannot be written: " "$scratch/err"
    told "no descriptor's name, $name"
done
"$yaffledesk" starts examples/a.plan -o /dev/stdout 2>"$scratch/err" >/dev/full
[ $? -eq 2 ] && holds "$scratch/err" "yaffledesk: /dev/stdout: cannot be written: No space left on device"
count $? "standard output by its name, that is full"

# What went is not said among a plan's bytes.
"$yaffledesk" trim examples/comfort.plan >"$scratch/plan"
went=$'kept 13 of 16 records\nextra 7 3 went\nextra 1 6 went\nextra 1 2 went'
for name in /dev/stdout /dev/fd/1 /dev/fd/7 open/out; do
    "$yaffledesk" trim examples/comfort.plan -o $name >open/out 7>&1 && cmp open/out "$scratch/plan"
    count $? "a trimmed plan on standard output, by the name $name"
done
"$yaffledesk" trim examples/comfort.plan -o /dev/stderr 2>&1 | cmp - "$scratch/plan"
count $? "a trimmed plan on standard error, which is the pipe that standard output is"
"$yaffledesk" trim examples/comfort.plan -o /dev/stderr 2>open/out >"$scratch/out"
cmp open/out "$scratch/plan" && holds "$scratch/out" "$went"
count $? "a trimmed plan on standard error, and what went on standard output"

# also_read OUTPUT FILE WORDS ..: the output is one of the files that are read. It is refused, and the file stays.
also_read() {
    cp "$2" "$scratch/before"
    gives 2 "" "yaffledesk: $1: it is also what is read; nothing is written" "${@:3}" -o "$1"
    cmp "$2" "$scratch/before" && [ "$(ls -A spoilt | tr '\n' ' ')" = "a.crew a.plan hard link " ]
    count $? "$2 stays what it was, by the words ${*:3} -o $1"
}
mkdir spoilt && cp examples/a.plan spoilt && printf '%s\n' '1 0 1' '2 1 2' '3 0 3' '4 3 1' >spoilt/a.crew
ln -s a.plan spoilt/link && ln spoilt/a.plan spoilt/hard
for command in report starts flow "flow --binary" overload sheet draw; do
    # shellcheck disable=SC2086 # several words
    also_read spoilt/a.plan spoilt/a.plan $command spoilt/a.plan
done
also_read spoilt/link spoilt/a.plan starts spoilt/a.plan
also_read spoilt/hard spoilt/a.plan starts spoilt/a.plan
also_read spoilt/a.plan spoilt/a.plan starts spoilt/link
also_read ./spoilt/../spoilt/a.plan spoilt/a.plan starts spoilt/a.plan
also_read spoilt/a.plan spoilt/a.plan starts - <spoilt/a.plan
also_read /dev/fd/7 spoilt/a.plan starts spoilt/a.plan 7>>spoilt/a.plan
also_read spoilt/a.plan spoilt/a.plan crew spoilt/a.plan spoilt/a.crew
also_read spoilt/a.crew spoilt/a.crew crew spoilt/a.plan spoilt/a.crew
also_read spoilt/a.crew spoilt/a.crew crew spoilt/a.plan - <spoilt/a.crew
"$yaffledesk" starts spoilt/a.plan 2>"$scratch/err" >>spoilt/a.plan
[ $? -eq 2 ] && holds "$scratch/err" "yaffledesk: standard output: it is also what is read; nothing is written" &&
    cmp spoilt/a.plan examples/a.plan
count $? "a plan that standard output is added to"
gives 1 "" "yaffledesk: /dev/null: refused 1: the file is empty: a plan has 1 to 2,048 records of 24 bytes" \
    starts /dev/null -o /dev/null
cp examples/comfort.plan spoilt/a.plan && gives 0 "$went" "" trim spoilt/a.plan -o spoilt/a.plan
cmp spoilt/a.plan "$scratch/plan"
count $? "trim replaces its plan"
rm -r spoilt open
