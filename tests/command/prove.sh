# What `make` and `make run` say while they prove, by a stand-in for rt that says what rt does. Sourced by run.

mkdir stand_in && cat >stand_in/rt <<'END'
#!/bin/sh
crate=$(basename "$PWD")
echo "$crate $*" >>"$ASKED"
case $crate,$* in report,run) ;; report,*) exit 9 ;; *,lib) ;; *) exit 9 ;; esac
case $crate in
words) echo "fn words::least: proved"; echo "crate words: modules loaded=8 checked=5" ;;
order) echo "crate order: modules loaded=13 checked=0" ;;
records) echo "fn records::put: $SAYS"; echo "crate records: modules loaded=8 checked=17"; [ "$SAYS" = proved ] ;;
esac
END
chmod +x stand_in/rt

# proves SAYS: tools/prove with the stand-in, for which a function of records is SAYS. The seconds that each takes are
# left out.
proves() {
    : >asked
    PATH=$PWD/stand_in:$PATH ASKED=$PWD/asked SAYS=$1 "$root/tools/prove" report >"$scratch/out" 2>"$scratch/err"
    status=$?
    sed -i 's/ in [0-9]* s / in N s /' "$scratch/err"
}
crates=$("$python" -c 'import sys
lines = [line.split(":") for line in open(sys.argv[1]) if ":" in line]
below = {line[0].split()[0]: line[1].split() for line in lines}
def all_of(name): return {name}.union(*map(all_of, [one for one in below[name] if one in below]))
print(len(all_of("report")))' "$root/crates.txt")
begins="proving report and what it rests on, $crates crates; what has not changed is proved already"
proves proved
words="  words proved in N s (1 of $crates)" records="  records proved in N s (3 of $crates)"
[ $status -eq 0 ] && holds "$scratch/out" "" && [ "$(wc -l <asked)" -eq "$crates" ] &&
    [ "$(head -n 1 asked)" = "words lib" ] && [ "$(tail -n 1 asked)" = "report run" ] &&
    holds "$scratch/err" "$begins"$'\n'"$words"$'\n'"$records"
told "each crate that is proved is named, and one that is proved already is not"
proves "not proved"
[ $status -ne 0 ] && [ "$(head -n 2 "$scratch/err" | tail -n 1)" = "$words" ] &&
    [ "$(tail -n 1 asked)" = "records lib" ] && grep -qx 'records is not proved' "$scratch/err" &&
    grep -qx 'fn records::put: not proved' "$scratch/err"
told "where a proof fails, all that rt said of the crate follows, and no crate above it is tried"
make -s -C "$root" run PLAN=none.plan >"$scratch/out" 2>"$scratch/err"
status=$?
[ $status -ne 0 ] && holds "$scratch/out" "" && grep -qx 'make run: cannot read the plan file none.plan' "$scratch/err"
told "make run of a plan that is not there"
rm -r stand_in asked
