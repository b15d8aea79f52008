# disk.sh COMMAND: on a disk of 16 KB that is its own, mounted where only this process sees it. Run by output.sh, in a namespace of its own.
set -u
yaffledesk=$1
mkdir full && mount -t tmpfs -o size=16k none full || exit 3
echo old >full/out
head -c 8192 /dev/zero >full/ballast
# left: the old file is there, and nothing beside it
left() {
    [ "$(cat full/out)" = old ] && [ "$(ls -A full | tr '\n' ' ')" = "ballast out " ]
}
for command in "sheet examples/hall.plan" "flow examples/hall.plan --binary"; do
    # shellcheck disable=SC2086 # several words
    "$yaffledesk" $command -o full/out 2>err
    [ $? -eq 2 ] && [ "$(cat err)" = "yaffledesk: full/out: cannot be written: No space left on device" ] && left || { echo "$command: $(cat err)"; exit 1; }
    "$yaffledesk" $command -o full/other 2>err
    [ $? -eq 2 ] && left || { echo "$command, to a new file: $(cat err)"; exit 1; }
done
for jobs in 1 2; do
    "$yaffledesk" list -j $jobs some --summary -o full/out 2>err
    [ $? -eq 2 ] && [ "$(cat err)" = "yaffledesk: full/out: cannot be written: No space left on device" ] && left ||
        { echo "list -o: $(cat err)"; exit 1; }
done
"$yaffledesk" starts examples/a.plan -o full/out || exit 1 # this one has room
echo old >full/out
"$yaffledesk" list some >full/list 2>err
[ $? -eq 2 ] && [ "$(cat err)" = "yaffledesk: standard output: cannot be written: No space left on device" ] || { echo "list: $(cat err)"; exit 1; }
