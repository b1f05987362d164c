/* Calls the library for C on files of test cases, which tests/callers.py and tests/arm.py make. Each slice that a call gets ends at a page that can
 * be neither read nor written, so a call that leaves its slice ends the program.
 *
 *     clibrary sets CASES THREADS     codes and decodes each set in each thread, and compares
 *     clibrary damaged CASES          decodes each file, and prints its fault, or its raw bytes in hexadecimal */
#include <ccsds123.h>

#include <pthread.h>
#include <stdio.h>
#include <stdlib.h>
#include <string.h>
#include <sys/mman.h>
#include <unistd.h>

#define MOST_RAW 40000
#define MOST_THREADS 64

/* A slice that ends at a page without access. */
struct edge {
    uint8_t *bytes;
    size_t length;
    uint8_t *base;
    size_t mapped;
};

static struct edge edge_of(size_t length)
{
    size_t page = (size_t)sysconf(_SC_PAGESIZE), whole = (length + page - 1) / page * page;
    struct edge found = { NULL, length, NULL, whole + page };
    void *base = mmap(NULL, found.mapped, PROT_READ | PROT_WRITE, MAP_PRIVATE | MAP_ANONYMOUS, -1, 0);
    if (base == MAP_FAILED || mprotect((uint8_t *)base + whole, page, PROT_NONE) != 0) {
        perror("clibrary");
        exit(3);
    }
    found.base = (uint8_t *)base;
    found.bytes = found.base + whole - length;
    return found;
}

static struct edge copy_of(const uint8_t *bytes, size_t length)
{
    struct edge found = edge_of(length);
    if (length != 0)
        memcpy(found.bytes, bytes, length);
    return found;
}

static void drop(struct edge edge)
{
    munmap(edge.base, edge.mapped);
}

/* The cases: a file, read whole, and how far it was taken. */
struct cases {
    uint8_t *bytes;
    size_t length, at;
};

static struct cases read_cases(const char *name)
{
    struct cases found = { NULL, 0, 0 };
    FILE *file = fopen(name, "rb");
    if (file == NULL || fseek(file, 0, SEEK_END) != 0) {
        perror(name);
        exit(3);
    }
    found.length = (size_t)ftell(file);
    rewind(file);
    found.bytes = (uint8_t *)malloc(found.length + 1);
    if (found.bytes == NULL || fread(found.bytes, 1, found.length, file) != found.length)
        exit(3);
    fclose(file);
    return found;
}

static const uint8_t *take(struct cases *cases, size_t length)
{
    const uint8_t *found = cases->bytes + cases->at;
    cases->at += length;
    return found;
}

static uint32_t take_number(struct cases *cases)
{
    uint32_t found;
    memcpy(&found, take(cases, sizeof found), sizeof found);
    return found;
}

/* ---- sets */

/* Parameters, weights, accumulators, a layout, raw bytes, and the file that they have. */
struct set {
    ccsds123_params params;
    struct edge weights, accumulators;
    ccsds123_layout layout;
    struct edge raw, file;
};

static struct edge take_slice(struct cases *cases, size_t width)
{
    size_t length = take_number(cases) * width;
    return copy_of(take(cases, length), length);
}

static struct set take_set(struct cases *cases)
{
    struct set found;
    memcpy(&found.params, take(cases, sizeof found.params), sizeof found.params);
    memcpy(&found.layout, take(cases, sizeof found.layout), sizeof found.layout);
    found.weights = take_slice(cases, sizeof(int32_t));
    found.accumulators = take_slice(cases, 1);
    found.raw = take_slice(cases, 1);
    found.file = take_slice(cases, 1);
    return found;
}

static void drop_set(struct set set)
{
    drop(set.weights);
    drop(set.accumulators);
    drop(set.raw);
    drop(set.file);
}

/* Returns whether rows that come one after another, each at the edge of its slice, are coded to the set's file; another encoder is freed on the way. */
static int is_well_by_rows(const struct set *set)
{
    ccsds123_encoder encoder = CCSDS123_ENCODER_NONE, other = CCSDS123_ENCODER_NONE;
    ccsds123_fault fault;
    const int32_t *weights = (const int32_t *)(const void *)set->weights.bytes;
    size_t bands = set->layout.interleave == CCSDS123_BSQ ? 1 : set->params.bands, row = set->params.columns * bands * set->layout.bytes, at;
    struct edge file = edge_of(set->file.length), less = edge_of(set->file.length - 1);
    uint64_t length = 9;
    int well = ccsds123_encoder_begin(&encoder, &set->params, weights, set->weights.length / sizeof(int32_t), set->accumulators.bytes,
        set->accumulators.length, &set->layout, &fault) == 0;
    well = well && ccsds123_encoder_begin(&other, &set->params, weights, set->weights.length / sizeof(int32_t), set->accumulators.bytes,
        set->accumulators.length, &set->layout, &fault) == 0;
    for (at = 0; well && at < set->raw.length; at += row) {
        struct edge bytes = copy_of(set->raw.bytes + at, row);
        well = ccsds123_encoder_rows(&encoder, bytes.bytes, row, &fault) == 0 && ccsds123_encoder_rows(&other, bytes.bytes, row, &fault) == 0;
        drop(bytes);
    }
    well = well && ccsds123_encoder_end(&encoder, less.bytes, less.length, &length, &fault) == CCSDS123_ROOM && length == 0;
    well = well && fault.first == (int64_t)file.length && ccsds123_encoder_end(&encoder, file.bytes, file.length, &length, &fault) == 0;
    well = well && length == set->file.length && memcmp(file.bytes, set->file.bytes, length) == 0;
    well = well && ccsds123_encoder_rows(&encoder, NULL, 0, &fault) == CCSDS123_USAGE && encoder.is_open == 0;
    ccsds123_encoder_free(&encoder);
    ccsds123_encoder_free(&other);
    drop(file);
    drop(less);
    return well;
}

/* Returns whether a set is coded to its file, and decoded to its raw bytes; its file is no longer than the bound. Where its order and its
 * layout both interleave the bands, or neither does, rows are coded to it, too. */
static int is_well(const struct set *set)
{
    ccsds123_fault fault;
    uint64_t bound = 0, length = 0, again = 0;
    int well = ccsds123_bound(&set->params, &bound, &fault) == 0 && set->file.length <= bound;
    struct edge file = edge_of(bound), raw = edge_of(set->raw.length);
    const int32_t *weights = (const int32_t *)(const void *)set->weights.bytes;
    well = well && ccsds123_encode(&set->params, weights, set->weights.length / sizeof(int32_t), set->accumulators.bytes, set->accumulators.length,
        &set->layout, set->raw.bytes, set->raw.length, file.bytes, file.length, &length, &fault) == 0;
    well = well && length == set->file.length && memcmp(file.bytes, set->file.bytes, length) == 0;
    well = well && ccsds123_decode(set->file.bytes, set->file.length, &set->layout, raw.bytes, raw.length, &again, &fault) == 0;
    well = well && again == raw.length && memcmp(raw.bytes, set->raw.bytes, again) == 0;
    if ((set->params.order == CCSDS123_ORDER_BSQ) == (set->layout.interleave == CCSDS123_BSQ))
        well = well && is_well_by_rows(set);
    drop(file);
    drop(raw);
    return well;
}

struct worker {
    struct cases cases;
    unsigned sets, wrong;
    pthread_t thread;
};

static void *work(void *given)
{
    struct worker *worker = (struct worker *)given;
    while (worker->cases.at < worker->cases.length) {
        struct set set = take_set(&worker->cases);
        worker->wrong += !is_well(&set);
        worker->sets++;
        drop_set(set);
    }
    return NULL;
}

static int run_sets(struct cases cases, unsigned threads)
{
    static struct worker workers[MOST_THREADS];
    unsigned i, wrong = 0;
    for (i = 0; i < threads; i++) {
        workers[i].cases = cases;
        if (pthread_create(&workers[i].thread, NULL, work, &workers[i]) != 0)
            return 3;
    }
    for (i = 0; i < threads; i++) {
        pthread_join(workers[i].thread, NULL);
        wrong += workers[i].wrong;
    }
    printf("%u sets, %u threads, %u wrong\n", workers[0].sets, threads, wrong);
    return wrong != 0;
}

/* ---- damaged files */

/* Returns how many raw bytes a file announces, at most MOST_RAW, or none where its header is refused. */
static size_t room_for(struct edge file)
{
    static int32_t weights[65536 * 18];
    static uint8_t accumulators[65536];
    const ccsds123_layout layout = { CCSDS123_BSQ, 2, 0 };
    ccsds123_params params;
    ccsds123_fault fault;
    uint64_t counts[3], wanted;
    ccsds123_params_init(&params);
    if (ccsds123_read_header(file.bytes, file.length, &params, weights, sizeof weights / sizeof weights[0], &counts[0], accumulators,
            sizeof accumulators, &counts[1], &counts[2], &fault) != 0
        || ccsds123_raw_length(&params, &layout, &wanted, &fault) != 0)
        return 0;
    return wanted < MOST_RAW ? (size_t)wanted : MOST_RAW;
}

static int run_damaged(struct cases cases)
{
    const ccsds123_layout layout = { CCSDS123_BSQ, 2, 0 };
    while (cases.at < cases.length) {
        char text[CCSDS123_TEXT_ROOM];
        struct edge file = take_slice(&cases, 1), raw = edge_of(room_for(file));
        ccsds123_fault fault;
        uint64_t length, i;
        if (ccsds123_decode(file.bytes, file.length, &layout, raw.bytes, raw.length, &length, &fault) != 0) {
            ccsds123_fault_text(&fault, text, sizeof text);
            printf("fault %s", text);
        } else {
            printf("raw ");
            for (i = 0; i < length; i++)
                printf("%02x", raw.bytes[i]);
        }
        putchar('\n');
        drop(file);
        drop(raw);
    }
    return 0;
}

int main(int count, char **words)
{
    int threads = count == 4 && strcmp(words[1], "sets") == 0 ? atoi(words[3]) : 0, status;
    struct cases cases;
    if (threads > MOST_THREADS || (threads < 1 && (count != 3 || strcmp(words[1], "damaged") != 0))) {
        fprintf(stderr, "clibrary: wrong words\n");
        return 2;
    }
    cases = read_cases(words[2]);
    status = threads ? run_sets(cases, (unsigned)threads) : run_damaged(cases);
    free(cases.bytes);
    return status;
}
