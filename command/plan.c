#include "plan.h"

#include "input.h"

#include <fcntl.h>
#include <unistd.h>

const char *plan_read(struct plan *plan, const char *name) {
    int file = input_open(name);
    if (file < 0) return input_trouble();
    plan->which = which_open(file);
    return input_take(file, plan->bytes, sizeof plan->bytes, &plan->len);
}

const char *plan_read_found(struct plan *plan, const char *name) {
    // a pipe without a writer is opened at once, and a regular file as ever
    int file = open(name, O_RDONLY | O_CLOEXEC | O_NONBLOCK);
    if (file < 0) return input_trouble();
    plan->which = which_open(file);
    if (!plan->which.is) {
        close(file);
        return "is no regular file";
    }
    return input_take(file, plan->bytes, sizeof plan->bytes, &plan->len);
}

size_t plan_crew(const struct plan *plan) {
    size_t place = 0;
    while (place < plan_records(plan) && record_type(plan_record(plan, place)) != CREW) place++;
    return place;
}

unsigned plan_available(const struct plan *plan, unsigned kind) { return record_of_kind(plan_record(plan, plan_crew(plan)), kind); }

unsigned plan_demand(const struct plan *plan, unsigned activity, unsigned kind) { return record_of_kind(plan_record(plan, activity - 1), kind); }

unsigned plan_duration(const struct plan *plan, unsigned activity) { return activity_duration(plan_record(plan, activity - 1)); }
