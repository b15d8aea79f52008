# disk.sh PLANFILE: on a disk of 16 KB that is its own, mounted where only this process sees it. Run by outputs.py, in a
# namespace of its own.
set -u
planfile=$1
mkdir full && mount -t tmpfs -o size=16k none full || exit 3
echo old >full/out
head -c 4096 /dev/zero >full/ballast
{ echo "crew 4" && yes "job 1 -> 2" | head -n 600; } >text # 14,424 bytes: 12,288 of them would be 512 whole records
# left: the old file is there, and nothing beside it
left() {
    [ "$(cat full/out)" = old ] && [ "$(ls -A full | tr '\n' ' ')" = "ballast out " ]
}
for out in out other; do
    "$planfile" pack text -o full/$out 2>err
    status=$?
    [ $status -eq 2 ] && [ "$(cat err)" = "full/$out: cannot be written: No space left on device" ] && left ||
        { echo "to $out: status $status: $(cat err)"; ls -lA full; exit 1; }
done
head -n 200 text | "$planfile" pack -o full/out || exit 1 # this one has room
[ "$(stat -c %s full/out)" = 4800 ] && [ "$(ls -A full | wc -l)" -eq 2 ]
