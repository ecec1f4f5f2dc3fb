/* Works on the blocks of an input: reads them one after another, works on several at the same time if there are several threads, and
 * reports the results in order. */
#include "nody.h"

#include <stdlib.h>
#include <string.h>

/* Threads on a file where nobody says how many, and blocks for each thread, so that one which waits for the CPU stops no other. */
enum { JOBS = 4, MOST_JOBS = 256, EACH = 3 };

/* The threads, and the blocks that they work on: those from the next one to tell of up to the last that was taken. */
static struct {
    struct run *run;
    pthread_mutex_t lock;
    pthread_cond_t changed;
    struct worker workers[EACH * MOST_JOBS]; /* a ring: a block has the one of its number */
    size_t count;
    uint64_t taken, told; /* numbers of blocks */
    bool is_reading, is_telling, is_over;
} crew = {.lock = PTHREAD_MUTEX_INITIALIZER, .changed = PTHREAD_COND_INITIALIZER};

/* Grows the output buffer to `room` bytes, and returns false if that fails. */
bool has_room(struct worker *worker, size_t room) {
    if (room <= worker->made_room) return true;
    uint8_t *made = realloc(worker->made, room);
    if (!made) return false;
    worker->made = made;
    worker->made_room = room;
    return true;
}

static struct worker *worker_of(uint64_t number) {
    return &crew.workers[number % crew.count];
}

static bool can_tell(void) {
    return !crew.is_telling && crew.told < crew.taken && worker_of(crew.told)->is_ready;
}

static bool can_take(void) {
    return !crew.is_over && !crew.is_reading && crew.taken < crew.told + crew.count;
}

/* Takes the next block in the order of the input; false if that has ended. It is called, and ends, with the lock. */
static bool read_next(struct worker *worker) {
    crew.is_reading = true;
    pthread_mutex_unlock(&crew.lock);
    bool is_taken = take_block(&crew.run->source, &worker->block);
    pthread_mutex_lock(&crew.lock);
    crew.is_reading = false;
    crew.is_over |= !is_taken;
    pthread_cond_broadcast(&crew.changed);
    return is_taken;
}

static void work_on(struct worker *worker) {
    worker->has_failed = false;
    worker->count = 0;
    worker->more = 0;
    worker->made_len = 0;
    memset(&worker->end, 0, sizeof worker->end);
    worker->run->command->work(worker);
}

/* Takes a block and works on it. It is called, and ends, with the lock. */
static void take_next(void) {
    struct run *run = crew.run;
    struct worker *worker = worker_of(crew.taken);
    worker->is_ready = false;
    if (!run->source.is_apart && !read_next(worker)) return;
    uint64_t number = crew.taken++;
    pthread_mutex_unlock(&crew.lock);
    if (run->source.is_apart) load_block(&run->source, &worker->block, number);
    work_on(worker);
    pthread_mutex_lock(&crew.lock);
    worker->is_ready = true;
}

/* Tells what came of a block, unless that failed, or no more is wanted. */
static void tell_block(struct run *run, struct worker *worker) {
    struct source *source = &run->source;
    if (worker->has_failed || (source->is_apart && worker->block.error)) {
        run->has_no_memory = worker->has_failed;
        source->error = worker->block.error;
        run->has_stopped = true;
        return;
    }
    run->command->tell(run, worker);
    add_place(&run->place, &worker->end);
    run->bytes += worker->block.end;
    if (source->is_apart && worker->block.is_last) end_source(source, run->bytes);
    if (!S_ISREG(source->about.st_mode) || source->is_followed) flush_output(run->out);
    if (run->out->error) run->has_stopped = true;
    show_progress(run);
}

/* Whether nothing comes after what was reported, or nobody wants it. */
static bool has_ended(const struct run *run) {
    return run->has_stopped || (run->source.is_apart && run->source.has_ended);
}

/* Tells of the next block. It is called, and ends, with the lock. */
static void tell_next(void) {
    struct worker *worker = worker_of(crew.told);
    crew.is_telling = true;
    pthread_mutex_unlock(&crew.lock);
    if (!has_ended(crew.run)) tell_block(crew.run, worker);
    bool is_over = has_ended(crew.run);
    pthread_mutex_lock(&crew.lock);
    crew.is_telling = false;
    crew.is_over |= is_over;
    crew.told++;
    pthread_cond_broadcast(&crew.changed);
}

static void *work(void *unused) {
    pthread_mutex_lock(&crew.lock);
    while (!(crew.is_over && crew.told == crew.taken)) {
        if (can_tell()) tell_next();
        else if (can_take()) take_next();
        else pthread_cond_wait(&crew.changed, &crew.lock);
    }
    pthread_mutex_unlock(&crew.lock);
    return unused;
}

/* The number of threads to use. (a small file has one, and so has a pipe if the number was not given: it reports each part before it waits
 * for the next) */
static size_t jobs_of(struct run *run) {
    static long here; /* (asked once: the system opens a file to tell it) */
    if (here == 0) here = sysconf(_SC_NPROCESSORS_ONLN);
    size_t jobs = run->request->jobs, asked = jobs ? jobs : here < 1 ? 1 : here < JOBS ? (size_t)here : JOBS;
    if (asked == 1 || run->request->is_followed) return 1;
    if (S_ISREG(run->source.about.st_mode)) read_apart(&run->source);
    if (!run->source.is_apart && (!jobs || S_ISREG(run->source.about.st_mode))) return 1;
    return asked < MOST_JOBS ? asked : MOST_JOBS;
}

/* Takes one block in the caller's thread, works on it and reports the result. Returns false if there is none, or no more is wanted. */
bool run_block(struct run *run, struct worker *worker) {
    if (run->has_stopped || !take_block(&run->source, &worker->block)) return false;
    work_on(worker);
    tell_block(run, worker);
    return true;
}

/* Makes a worker ready for a run. It keeps the memory of the run before. Returns false if there is no memory. */
bool open_worker(struct worker *worker, struct run *run) {
    worker->run = run;
    if (!worker->block.room) worker->block.room = malloc(BLOCK_ROOM);
    return worker->block.room != NULL;
}

void close_worker(struct worker *worker) {
    free(worker->block.room);
    free(worker->found);
    free(worker->made);
    memset(worker, 0, sizeof *worker);
}

static void open_workers(struct run *run, size_t count) {
    crew.count = 0;
    while (crew.count < count && open_worker(&crew.workers[crew.count], run)) crew.count++;
}

/* Gives memory back, but for that of the first worker, which the next small file takes. */
static void close_workers(void) {
    for (size_t i = 1; i < crew.count; i++) close_worker(&crew.workers[i]);
}

void run_blocks(struct run *run) {
    pthread_t threads[MOST_JOBS];
    size_t jobs = jobs_of(run), started = 0;
    crew.run = run;
    crew.taken = crew.told = 0;
    crew.is_over = false;
    open_workers(run, jobs == 1 ? 1 : EACH * jobs);
    run->has_no_memory = crew.count == 0;
    if (run->has_no_memory) return;
    while (started + 1 < jobs && pthread_create(&threads[started], NULL, work, NULL) == 0) started++;
    work(NULL);
    while (started > 0) pthread_join(threads[--started], NULL);
    close_workers();
}
