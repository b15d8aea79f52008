# Where results go: files that are replaced when all is there, disks that are full, and readers that go away. Sourced by run.

starts=$'start 1 0\nstart 2 1\nstart 3 0\nstart 4 3\nend 4'
no_space="No space left on device"

# alone FILE: no other file is beside it.
alone() {
    [ "$(ls -A "$(dirname "$1")")" = "$(basename "$1")" ]
}

# A new file has the rights that the mask leaves; an old one keeps its own.
mkdir to
(umask 027 && "$yaffledesk" starts examples/a.plan -o to/new)
[ $? -eq 0 ] && holds to/new "$starts" && [ "$(stat -c %a to/new)" = 640 ] && alone to/new
count $? "a new file"
for rights in 600 644 755 666; do
    echo old >to/new && chmod $rights to/new
    (umask 077 && "$yaffledesk" starts examples/a.plan --output=to/new)
    [ $? -eq 0 ] && holds to/new "$starts" && [ "$(stat -c %a to/new)" = $rights ] && alone to/new
    count $? "a file of rights $rights keeps them"
done

if [ "$(id -u)" -eq 0 ]; then # others may not give files away
    echo old >to/new && chmod 640 to/new && chown 12345:54321 to/new
    "$yaffledesk" starts examples/a.plan -o to/new
    holds to/new "$starts" && [ "$(stat -c %u:%g:%a to/new)" = 12345:54321:640 ]
    count $? "a file keeps its owner"
    rm to/new
fi

# Whoever reads the old file reads on in it, and the new one is another: it was replaced, not written over.
echo old >to/new
exec 7<to/new
"$yaffledesk" starts examples/a.plan -o to/new
line= && read -r line <&7
[ "$line" = old ] && holds to/new "$starts"
count $? "a file that is open while it is replaced"
exec 7<&-

# The longest name that a file can have.
long=$(printf 'x%.0s' {1..255})
rm to/new && "$yaffledesk" starts examples/a.plan -o "to/$long" && holds "to/$long" "$starts" && alone "to/$long"
count $? "a file with the longest name"
rm "to/$long"

# A link stays a link, and its file is replaced; a link to nothing is not written through, nor replaced.
mkdir links && echo old >to/new && ln -s ../to/new links/to && ln -s to links/twice
for link in to twice; do
    gives 0 "" "" starts examples/a.plan -o links/$link
    [ -L links/$link ] && [ ! -L to/new ] && holds to/new "$starts" && alone to/new && [ "$(ls -A links | tr '\n' ' ')" = "to twice " ]
    count $? "a link to a file, $link"
    echo old >to/new
done
rm links/* && ln -s nowhere links/none
gives 2 "" "yaffledesk: links/none: cannot be written: No such file or directory" starts examples/a.plan -o links/none
[ -L links/none ] && alone links/none
count $? "a link to nothing"
rm -r links

# cannot NAME WHY WORDS ..: output that cannot be written.
cannot() {
    gives 2 "" "yaffledesk: $1: cannot be written: $2" "${@:3}" -o "$1"
}
for command in starts report flow overload sheet trim draw; do
    cannot none/out "No such file or directory" "$command" examples/a.plan
    cannot examples "Is a directory" "$command" examples/a.plan
    cannot /dev/full "$no_space" "$command" examples/a.plan
done
cannot "" "No such file or directory" starts examples/a.plan
cannot to/new/out "Not a directory" starts examples/a.plan
gives 0 "" "" starts examples/a.plan -o /dev/null
[ -c /dev/null ] && [ -c /dev/full ]
count $? "devices stay devices"
if [ "$(id -u)" -ne 0 ]; then
    echo old >to/new && chmod 444 to/new
    cannot to/new "Permission denied" starts examples/a.plan
    holds to/new old && alone to/new
    count $? "a file that may not be written stays what it was"
fi
rm -f to/new && mkfifo to/pipe
timeout 5 "$yaffledesk" starts examples/a.plan -o to/pipe &
timeout 5 cat to/pipe >"$scratch/piped"
wait $!
holds "$scratch/piped" "$starts" && [ -p to/pipe ]
count $? "a pipe is written to, and stays a pipe"
rm to/pipe

# The name - is standard output.
gives 0 "$starts" "" starts examples/a.plan -o -
[ ! -e ./- ]
count $? "no file is called -"

# full STATUS WHAT COMMAND ..: with a standard output that takes nothing, or that is closed.
full() {
    "$yaffledesk" "$@" >/dev/full 2>"$scratch/err"
    status=$?
    : >"$scratch/out"
    [ $status -eq 2 ] && holds "$scratch/err" "yaffledesk: standard output: cannot be written: $no_space"
    told "$* to a full disk"
    "$yaffledesk" "$@" 2>"$scratch/err" >&-
    status=$?
    [ $status -eq 2 ] && holds "$scratch/err" "yaffledesk: standard output: cannot be written: Bad file descriptor"
    told "$* to a standard output that is closed"
}
printf '%s\n' '1 0 1' '2 1 2' '3 0 3' '4 3 1' >crew.txt
for command in list report starts flow overload sheet trim draw; do full "$command" examples/a.plan; done
full list examples
full list -j 2 examples examples examples
full list --heading --csv examples
full flow --binary examples/a.plan
full crew examples/a.plan crew.txt
full --help
full --version

# What trim says of a plan that is written may not arrive; the plan is there.
"$yaffledesk" trim examples/a.plan -o to/new >/dev/full 2>"$scratch/err"
[ $? -eq 2 ] && holds "$scratch/err" "yaffledesk: standard output: cannot be written: $no_space" && cmp -s to/new <("$yaffledesk" trim examples/a.plan)
count $? "trim to a file, with a full disk for what it says"

# A reader that goes away ends the command, without a complaint: 141 is the status of a program that SIGPIPE ended. (watch.py has the other commands.)
mkdir some && for i in {1..2000}; do ln examples/a.plan "some/$i.plan" || cp examples/a.plan "some/$i.plan"; done 2>/dev/null
for jobs in 1 3; do
    { "$yaffledesk" list -j $jobs some some some 2>"$scratch/err"; echo $? >"$scratch/status"; } | head -n 1 >"$scratch/out"
    holds "$scratch/status" 141 && holds "$scratch/err" "" && holds "$scratch/out" "some/1.plan                       accepted    kind 1: need     4 of 4"
    count $? "a list whose first line is enough, -j $jobs: status $(<"$scratch/status")"
done

# limited WHAT WORDS ..: a disk with room for one KB more: the old file stays, and no part of a new one.
limited() {
    echo old >to/new
    (trap '' XFSZ && ulimit -f 1 && "$yaffledesk" "${@:2}" -o to/new 2>"$scratch/err" >"$scratch/out")
    status=$?
    [ $status -eq 2 ] && grep -q "^yaffledesk: to/new: cannot be written: " "$scratch/err" && holds to/new old && alone to/new
    told "$1"
}
limited "a file that grows too large" sheet examples/hall.plan
limited "the same of a flow" flow examples/hall.plan

# A disk that is really full, where one can be mounted; else that is said, and the limit on files above stands for it.
if unshare -m true 2>/dev/null; then
    unshare -m bash "$root/tests/command/disk.sh" "$yaffledesk" 2>&1
elif unshare -rm true 2>/dev/null; then
    unshare -rm bash "$root/tests/command/disk.sh" "$yaffledesk" 2>&1
else
    (exit 3)
fi
case $? in
0) count 0 ;;
3) echo "note: no disk can be mounted here: a limit on files stands for a full one" ;;
*) count 1 "a full disk" ;;
esac
rm -rf to some full err crew.txt
