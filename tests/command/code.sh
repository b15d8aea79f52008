# What is asked of the command's code, and not of the program: command/*.c, by gcc. Sourced by run.

gcc -std=c11 -D_GNU_SOURCE -DYAFFLEDESK_VERSION='""' -Wall -Wextra -Wshadow -Werror -pedantic -fsyntax-only \
    -I"$root/include" "$root"/command/*.c 2>"$scratch/log"
count $? "no name in the command's code hides another: $(head -n 3 "$scratch/log")"

# Where printf cannot print, the program ends and says so; it does not go on with a text that is not whole.
gcc -std=c11 -D_GNU_SOURCE -Wall -Wextra -Werror -I"$root/command" "$root/tests/command/texts.c" \
    "$root/command/text.c" -o "$scratch/texts" && "$scratch/texts" >"$scratch/out" 2>"$scratch/err"
status=$?
[ "$status" -eq 2 ] && holds "$scratch/out" "" && holds "$scratch/err" "yaffledesk: a text cannot be printed"
told "a text that cannot be printed"

# Plans are read in several threads, and strerror is for one: what they call takes its words from input.c.
called=$(cd "$root/command" && grep -n '\<strerror(' input.c plan.c quote.c refusal.c shown.c text.c utf8.c workers.c)
[ -z "$called" ]
count $? "no thread calls strerror: $called"
# calls NAME: how often workers.c calls such functions.
calls() {
    grep -c "pthread_[a-z]*_$1(" "$root/command/workers.c"
}
[ "$(calls init)" -eq 3 ] && [ "$(calls destroy)" -eq 3 ]
count $? "every lock and condition is destroyed"
