#include "workers.h"

#include "plan.h"
#include "quote.h"
#include "shown.h"

#include <pthread.h>
#include <stdlib.h>
#include <string.h>

void batch_add(struct batch *batch, enum origin origin, const char *folder, const char *name) {
    batch->starts[batch->count] = batch->names.len;
    batch->origins[batch->count++] = origin;
    text_put(&batch->names, folder);
    text_add(&batch->names, name, strlen(name) + 1);
}

int batch_is_full(const struct batch *batch) {
    return batch->count == BATCH_NAMES || batch->complaints.len >= BATCH_COMPLAINTS;
}

static void empty(struct batch *batch) {
    text_clear(&batch->names);
    text_clear(&batch->lines);
    text_clear(&batch->complaints);
    batch->count = batch->quoted = batch->unread = batch->empty = 0;
    batch->spoils = 0;
}

static void free_batch(struct batch *batch) {
    text_free(&batch->names);
    text_free(&batch->lines);
    text_free(&batch->complaints);
}

// What is the same for all batches.
struct task {
    const struct options *options;
    const struct which *file; // where the lines go
};

static void quote_one(struct batch *batch, size_t place, struct plan *plan, const struct task *task) {
    const char *name = batch->names.bytes + batch->starts[place];
    const char *why = batch->origins[place] == FOUND ? plan_read_found(plan, name) : plan_read(plan, name);
    if (why != NULL) {
        complaint(&batch->complaints, name, "cannot be read: %s", why);
        batch->unread++;
    } else if (which_same(&plan->which, task->file))
        batch->spoils = 1;
    else
        batch->numbers[batch->quoted++] = (unsigned char)quote_plan(&batch->lines, plan, name, task->options);
}

static void quote_all(struct batch *batch, struct plan *plan, const struct task *task) {
    for (size_t i = 0; i < batch->count; i++) quote_one(batch, i, plan, task);
}

// The batches are a ring. Each is filled, then worked on, then taken: `filled`, `begun` and `taken` count these from the beginning, and `done` says of each
// whether it is worked on. One thread fills and takes; the others work.
struct ring {
    struct task task;
    struct batch *batches;
    int *done;
    size_t size, filled, begun, taken;
    int over; // nothing more is filled
    pthread_mutex_t lock;
    pthread_cond_t fill, finish; // a batch is filled, or nothing more is; a batch is done
};

static void *worker(void *of) {
    struct ring *ring = of;
    struct plan plan;
    pthread_mutex_lock(&ring->lock);
    for (;;) {
        while (ring->begun == ring->filled && !ring->over) pthread_cond_wait(&ring->fill, &ring->lock);
        if (ring->begun == ring->filled) break;
        size_t mine = ring->begun++ % ring->size;
        pthread_mutex_unlock(&ring->lock);
        quote_all(&ring->batches[mine], &plan, &ring->task);
        pthread_mutex_lock(&ring->lock);
        ring->done[mine] = 1;
        pthread_cond_signal(&ring->finish);
    }
    pthread_mutex_unlock(&ring->lock);
    return NULL;
}

static void hand_out(struct ring *ring) {
    pthread_mutex_lock(&ring->lock);
    ring->filled++;
    pthread_cond_signal(&ring->fill);
    pthread_mutex_unlock(&ring->lock);
}

// The oldest batch that is not taken yet, when it is done.
static struct batch *oldest(struct ring *ring) {
    size_t place = ring->taken % ring->size;
    pthread_mutex_lock(&ring->lock);
    while (!ring->done[place]) pthread_cond_wait(&ring->finish, &ring->lock);
    ring->done[place] = 0;
    pthread_mutex_unlock(&ring->lock);
    ring->taken++;
    return &ring->batches[place];
}

// No batch is begun any more, and those who wait for one come to their end.
static void stop(struct ring *ring) {
    pthread_mutex_lock(&ring->lock);
    ring->begun = ring->filled;
    ring->over = 1;
    pthread_cond_broadcast(&ring->fill);
    pthread_mutex_unlock(&ring->lock);
}

static void work_together(struct ring *ring, struct source source, struct sink sink) {
    int more = 1, going = 1;
    while (going && (more || ring->taken < ring->filled))
        if (more && ring->filled - ring->taken < ring->size) {
            struct batch *batch = &ring->batches[ring->filled % ring->size];
            empty(batch);
            more = source.fill(source.from, batch);
            hand_out(ring);
        } else
            going = sink.take(sink.to, oldest(ring));
    stop(ring);
}

static void work_alone(const struct task *task, struct source source, struct sink sink) {
    struct batch batch = {0};
    struct plan plan;
    int more = 1;
    while (more) {
        empty(&batch);
        more = source.fill(source.from, &batch);
        quote_all(&batch, &plan, task);
        if (!sink.take(sink.to, &batch)) break;
    }
    free_batch(&batch);
}

// A ring of batches that nobody works on yet. Where there is no memory for it, its batches are none.
static void open_ring(struct ring *ring, struct task task) {
    size_t size = 4 * (size_t)task.options->jobs;
    *ring = (struct ring){.task = task, .size = size};
    pthread_mutex_init(&ring->lock, NULL);
    pthread_cond_init(&ring->fill, NULL);
    pthread_cond_init(&ring->finish, NULL);
    ring->batches = calloc(size, sizeof *ring->batches);
    ring->done = calloc(size, sizeof *ring->done);
}

static void close_ring(struct ring *ring) {
    for (size_t i = 0; ring->batches != NULL && i < ring->size; i++) free_batch(&ring->batches[i]);
    free(ring->batches);
    free(ring->done);
    pthread_cond_destroy(&ring->finish);
    pthread_cond_destroy(&ring->fill);
    pthread_mutex_destroy(&ring->lock);
}

// As many threads as are asked for, or as can be had. None for one job: it is done without.
static size_t start_threads(struct ring *ring, pthread_t *threads, size_t jobs) {
    size_t started = 0;
    if (ring->batches == NULL || ring->done == NULL || jobs == 1) return 0;
    while (started < jobs && pthread_create(&threads[started], NULL, worker, ring) == 0) started++;
    return started;
}

void work(const struct options *options, struct source source, struct sink sink) {
    pthread_t threads[options->jobs];
    struct ring ring;
    open_ring(&ring, (struct task){options, sink.file});
    size_t started = start_threads(&ring, threads, options->jobs);
    if (started > 0)
        work_together(&ring, source, sink);
    else
        work_alone(&ring.task, source, sink);
    for (size_t i = 0; i < started; i++) pthread_join(threads[i], NULL);
    close_ring(&ring);
}
