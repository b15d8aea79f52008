# Many plans: folders of 20,000, on several processors, and in parts. Sourced by run.

# Links to the examples: so the lines differ from one another. `many` is made in no order, `sorted` in that of the names; `fewer` has a
# tenth. `longs` has names that take more memory than is held.
"$python" - <<'END'
import os, random, shutil
plans = sorted("examples/" + name for name in os.listdir("examples"))
names = [f"{i:05}.plan" if i % 7 else f"{i % 13:x}-{'ä' * (i % 3)}{i}.plan" for i in range(20000)]
def make(folder, names):
    os.mkdir(folder)
    for i, name in names:
        try:
            os.link(plans[i % len(plans)], f"{folder}/{name}")
        except OSError: # so many links are not allowed everywhere
            shutil.copy(plans[i % len(plans)], f"{folder}/{name}")
given = list(enumerate(names))
make("longs", [(i, f"{i * 7919 % 9000:04}{'x' * 246}.plan") for i in range(9000)]) # 255 bytes, as long as a name can be
make("sorted", sorted(given, key=lambda pair: os.fsencode(pair[1])))
make("fewer", given[:2000])
random.Random(7).shuffle(given)
make("many", given)
END
find many -name '*.plan' | sort >"$scratch/names"
[ "$(wc -l <"$scratch/names")" -eq 20000 ]
count $? "20,000 plans are there"

"$yaffledesk" list many >"$scratch/one" 2>"$scratch/err"
[ $? -eq 1 ] && holds "$scratch/err" ""
count $? "a list of 20,000 plans: $(head -c 200 "$scratch/err")"
sed 's/\.plan .*/.plan/' "$scratch/one" | cmp - "$scratch/names"
count $? "its names are those of the folder, each once, sorted"
for jobs in 2 7; do
    "$yaffledesk" list -j $jobs many >"$scratch/jobs" 2>"$scratch/err"
    [ $? -eq 1 ] && cmp "$scratch/one" "$scratch/jobs" && holds "$scratch/err" ""
    count $? "the same on $jobs processors"
done
"$yaffledesk" list -j 2 sorted | sed 's/^sorted/many/; s/\.plan /.plan   /' | cmp - "$scratch/one"
count $? "the same of a folder that was made in order"

# By their names in place of the folder, which is given to the program a few at a time.
xargs "$yaffledesk" list <"$scratch/names" | cmp - "$scratch/one"
count $? "the same by their names"

# A line depends on nothing but its plan: parts that are made apart and put behind one another are the list. By GNU parallel, and as a job array would make them.
PARALLEL_HOME=$scratch/parallel
export PARALLEL_HOME
mkdir "$PARALLEL_HOME" && : >"$PARALLEL_HOME/will-cite"
parallel -k -X "$yaffledesk" list <"$scratch/names" >"$scratch/parts" 2>"$scratch/err"
cmp "$scratch/parts" "$scratch/one"
count $? "a list made by parallel: $(head -c 200 "$scratch/err")"
# As the guide has it for Slurm: names in files of their own, and a task for each, which finds the command by its name.
mkdir array && (cd array && ln -s ../many . && mkdir bin && ln -s "$yaffledesk" bin/yaffledesk && split -d -a 4 -n l/5 "$scratch/names" names. && : >names.0005)
for task in 0 1 2 3 4 5; do (cd array && PATH=$PWD/bin:$PATH SLURM_ARRAY_TASK_ID=$task sh "$root/examples/edition.sbatch") || echo "task $task"; done >"$scratch/tasks" 2>&1
holds "$scratch/tasks" "" && cat array/lines.000[0-5] | cmp - "$scratch/one"
count $? "a list made by examples/edition.sbatch, the last task of which has no plan: $(<"$scratch/tasks")"
echo none.plan >array/names.0005
(cd array && PATH=$PWD/bin:$PATH SLURM_ARRAY_TASK_ID=5 sh "$root/examples/edition.sbatch") 2>"$scratch/err"
[ $? -ne 0 ] && grep -q '^yaffledesk: none.plan: cannot be read' "$scratch/err"
count $? "a task of examples/edition.sbatch with a plan that cannot be read"
rm -r array
for format in csv json; do
    "$yaffledesk" list "--$format" -j 2 many >"$scratch/whole"
    for task in 0 1 2; do
        sed -n "$((6667 * task + 1)),$((6667 * (task + 1)))p" "$scratch/names" | xargs "$yaffledesk" list "--$format" >"$scratch/task.$task" &
    done
    wait
    cat "$scratch"/task.[012] | cmp - "$scratch/whole" && [ "$(wc -l <"$scratch/whole")" -eq 20000 ]
    count $? "a list made by a job array, as $format"
done

# Complaints among many plans, in their order too, and the others go on.
ln -s nowhere many/00500.x.plan && ln -s nowhere many/19000.x.plan && mkdir many/00001.x.plan
expected="yaffledesk: many/00001.x.plan: cannot be read: is no regular file
yaffledesk: many/00500.x.plan: cannot be read: No such file or directory
yaffledesk: many/19000.x.plan: cannot be read: No such file or directory"
for jobs in 1 7; do
    try list -j $jobs many
    [ "$status" -eq 2 ] && cmp "$scratch/out" "$scratch/one" && holds "$scratch/err" "$expected"
    told "20,000 plans and three that cannot be read, -j $jobs"
done
rm -rf many/*.x.plan

# As many as fit into a batch, and one more or less; as many as are held at a time, by their bytes.
# sizes FOLDER SIZE ..: folders with the first so many names of another.
sizes() {
    local size
    find "$1" -name '*.plan' -printf '%f\n' | sort >"$scratch/found"
    for size in "${@:2}"; do
        mkdir size && head -n "$size" "$scratch/found" | (cd "$1" && xargs ln -t ../size 2>/dev/null || xargs cp -t ../size)
        "$yaffledesk" list -j 2 size | sed 's/\.plan .*/.plan/; s|^size/||' | cmp - <(head -n "$size" "$scratch/found")
        count $? "a folder of $size plans, as in $1"
        rm -r size
    done
}
sizes many 1 127 128 129 256
sizes longs 4095 4096 4097 6144 8192 8193 9000

# The names that the guide's lines find are those that list takes: of a folder with a hidden plan too.
mkdir -p guide/plans && cp examples/a.plan guide/plans/a.plan && cp examples/b.plan guide/plans/.b.plan
mapfile -t finds < <(sed -n 's/^    \(find plans [^|>]*|[^|>]*\)[|>].*/\1/p' "$root/docs/GUIDE.md")
for find in "${finds[@]}"; do
    (cd guide && eval "$find" | xargs "$yaffledesk" list) | cmp - <(cd guide && "$yaffledesk" list plans)
    count $? "the guide's line: $find"
done
[ "${#finds[@]}" -eq 2 ]
count $? "the guide has two such lines: ${#finds[@]}"
rm -r guide
