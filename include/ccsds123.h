/* ccsds123.h: lossless compression of image cubes, as CCSDS 123.0-B-1 defines it, with the sample-adaptive coder of that
 * standard and the block-adaptive coder of CCSDS 121.0-B.
 *
 *     ccsds123_params params;
 *     ccsds123_layout layout = { CCSDS123_BSQ, 2, 1 };
 *     ccsds123_fault fault;
 *     uint64_t bound, length;
 *
 *     ccsds123_params_init(&params);
 *     params.columns = 614; params.rows = 512; params.bands = 224; params.bits = 16; params.is_signed = 1;
 *     if (ccsds123_bound(&params, &bound, &fault) != 0) ..
 *     file = malloc(bound);
 *     if (ccsds123_encode(&params, NULL, 0, NULL, 0, &layout, raw, raw_length, file, bound, &length, &fault) != 0) ..
 *
 * A call that can be refused returns 0 where it did what it says, and otherwise the number of the fault, which `*fault` then tells
 * whole. Each call lists its faults, without the prefix CCSDS123_, in the order in which they are tested: the first one is told.
 *
 * Every call is proved to return, and to read and write nothing but what its arguments give it: whatever bytes and numbers they hold,
 * no call overruns a buffer, overflows or stops the program. This holds where
 *   - each pointer to a struct or number is valid, aligned and not null;
 *   - each pointer to a table, to bytes or to text has as many readable (where written: writable) items behind it as the number after it
 *     says. Such a pointer may be null where that number is 0;
 *   - nothing that a call writes overlaps anything else that it is given.
 * There is no state between calls but that of a ccsds123_encoder: any number of threads may call at once, and one thread makes all calls
 * of an encoder. Memory comes from malloc, two bytes for each sample, and where a scene is coded its file, too, at most two rows of all
 * bands, and by band eight of one; it is given back before a call returns, and what an encoder keeps once that is ended or freed. No
 * call may be made from a signal handler, nor in the forked child of a process with threads. */
#ifndef CCSDS123_H
#define CCSDS123_H

#include <stddef.h>
#include <stdint.h>

#ifdef __cplusplus
extern "C" {
#endif

/* ---- Version */

#define CCSDS123_VERSION_MAJOR 0
#define CCSDS123_VERSION_MINOR 9
#define CCSDS123_VERSION_PATCH 0
#define CCSDS123_VERSION "0.9.0"

/* Returns the version of the library that runs: 10000 * major + 100 * minor + patch. */
uint32_t ccsds123_version(void);

/* ---- What a scene is, and how it is coded */

/* Encoding orders. */
enum ccsds123_order {
    CCSDS123_ORDER_BSQ = 0, /* band sequential */
    CCSDS123_ORDER_BI = 1   /* band interleaved, with `depth` */
};

/* Entropy coders. */
enum ccsds123_coder {
    CCSDS123_CODER_SAMPLE = 0, /* sample-adaptive (CCSDS 123.0-B-1) */
    CCSDS123_CODER_BLOCK = 1   /* block-adaptive (CCSDS 121.0-B) */
};

/* How raw samples follow one another. */
enum ccsds123_interleave {
    CCSDS123_BSQ = 0, /* band after band, in each row after row */
    CCSDS123_BIL = 1, /* row after row, in each band after band */
    CCSDS123_BIP = 2  /* row after row, in each column after column, its bands together */
};

/* The parameters of a coded image: all that a header holds but its tables, which are given beside this struct.
 *
 * `ccsds123_params_init` sets every member. A member that a coder or an order doesn't use is not looked at. A flag is 0 for no, and any
 * other number for yes; `ccsds123_read_header` writes 1 for yes. */
typedef struct ccsds123_params {
    uint32_t size;              /* sizeof(ccsds123_params): later versions of this struct are longer */
    uint32_t columns;           /* N_x, 1 to 65536 */
    uint32_t rows;              /* N_y, 1 to 65536 */
    uint32_t bands;             /* N_z, 1 to 65536 */
    uint32_t bits;              /* D, the bits of a sample, 2 to 16 */
    uint32_t is_signed;         /* whether samples are signed */
    uint32_t order;             /* enum ccsds123_order */
    uint32_t depth;             /* sub-frame interleaving depth M, 1 to `bands`; of CCSDS123_ORDER_BI */
    uint32_t user;              /* a byte of your own, 0 to 255 */
    uint32_t word;              /* B, the bytes of an output word, 1 to 8 */
    uint32_t previous;          /* P, the previous bands used for prediction, 0 to 15 */
    uint32_t reduced;           /* whether prediction is by central differences alone; else full mode */
    uint32_t column_sums;       /* whether local sums are column-oriented; else neighbour-oriented */
    uint32_t register_bits;     /* R, 32 to 64; at least `bits` + `omega` + 2 */
    uint32_t omega;             /* weight component resolution, 4 to 19 */
    uint32_t interval_log;      /* log2 of t_inc, 4 to 11 */
    int32_t vmin;               /* the first weight update scaling exponent, -6 to 9 */
    int32_t vmax;               /* the last one, `vmin` to 9 */
    uint32_t weight_table;      /* whether the weights start from a table; else from the standard's default */
    uint32_t weight_bits;       /* Q, the resolution of that table, 3 to `omega` + 3 */
    uint32_t coder;             /* enum ccsds123_coder */
    uint32_t umax;              /* unary length limit, 8 to 32; this and the next four of CCSDS123_CODER_SAMPLE */
    uint32_t gamma_star;        /* rescaling counter size, 4 to 9 */
    uint32_t gamma_zero;        /* initial count exponent, 1 to 8, below `gamma_star` */
    uint32_t k;                 /* accumulator initialization constant K, 0 to `bits` - 2; without an accumulator table */
    uint32_t accumulator_table; /* whether each band has a constant of its own, in a table */
    uint32_t block;             /* J, the residuals in a block, 8, 16, 32 or 64; this and the next two of CCSDS123_CODER_BLOCK */
    uint32_t reference;         /* r, the reference sample interval, 1 to 4096 blocks */
    uint32_t restricted;        /* whether the set of code options is the restricted one, for samples of at most 4 bits */
} ccsds123_params;

/* How the samples of a scene lie in raw bytes: whole numbers of 1 or 2 bytes, in two's complement where samples are signed, with
 * nothing before, between or after them. */
typedef struct ccsds123_layout {
    uint32_t interleave; /* enum ccsds123_interleave */
    uint32_t bytes;      /* bytes of a raw sample, 1 or 2 */
    uint32_t little;     /* whether the low byte comes first */
} ccsds123_layout;

/* ---- Faults */

/* The numbers of faults. Behind each is what `name`, `first` and `second` of a ccsds123_fault hold; what isn't named is 0. A bit, place,
 * block, index or band counts from 0. */
enum ccsds123_fault_number {
    CCSDS123_SHORT_HEADER = 1,      /* the bytes end inside the header */
    CCSDS123_RESERVED = 2,          /* first: this bit of the header must be 0 and is 1 */
    CCSDS123_FIELD_RANGE = 3,       /* name: this enum ccsds123_field is out of its range; first: its value, which may be negative */
    CCSDS123_DISAGREE = 4,          /* name: parameters break this enum ccsds123_rule */
    CCSDS123_TABLE_ELSEWHERE = 5,   /* the file's weights start from a table that isn't in it */
    CCSDS123_TRUNCATED = 6,         /* the file ends too early; first: its length in bits */
    CCSDS123_BAD_CODE = 7,          /* first: at this place in encoding order the bits are no lawful code word */
    CCSDS123_BAD_OPTION = 8,        /* first: this block holds a value out of range */
    CCSDS123_RUN_PAST_SEGMENT = 9,  /* first: a run of zero blocks from this block on is longer than the rest of its segment */
    CCSDS123_BAD_FILL = 10,         /* a bit after the last code word is 1 */
    CCSDS123_TOO_LONG = 11,         /* an output word or more follows the last code word; first: how many bits do */
    CCSDS123_WANT_OF_MEMORY = 12,   /* memory could not be allocated */
    CCSDS123_SAMPLE_RANGE = 13,     /* first: the raw sample with this index, in the order of the layout, needs more bits than there are */
    CCSDS123_RAW_LENGTH = 14,       /* first: how many raw bytes the sizes ask for; second: how many there are */
    CCSDS123_BAD_DEAL = 15,         /* of the program's threads; no call of this library is refused for it */
    CCSDS123_SPAWN_REFUSED = 16,    /* the same */
    CCSDS123_STOPPED = 17,          /* the same */
    CCSDS123_READ = 18,             /* a file of more than 2^60 bytes */
    CCSDS123_WRITE = 19,            /* of the program's devices; no call of this library is refused for it */
    CCSDS123_USAGE = 20,            /* rows or the end of an encoder that wasn't begun, or is ended */
    CCSDS123_ROOM = 21,             /* a room is too small; name: which enum ccsds123_room; first: how much is wanted; second: how much there is */
    CCSDS123_STRUCT_SIZE = 22,      /* `size` of the parameters is not one that this library knows; first: the one that it knows; second: `size` */
    CCSDS123_CHOICE = 23            /* name: this enum ccsds123_member has no such value; first: the value */
};

/* What has a range of its own: `name` of CCSDS123_FIELD_RANGE. */
enum ccsds123_field {
    CCSDS123_FIELD_COLUMNS = 1,
    CCSDS123_FIELD_ROWS = 2,
    CCSDS123_FIELD_BANDS = 3,
    CCSDS123_FIELD_DYNAMIC_RANGE = 4,      /* `bits` */
    CCSDS123_FIELD_USER = 5,
    CCSDS123_FIELD_DEPTH = 6,
    CCSDS123_FIELD_WORD_SIZE = 7,          /* `word` */
    CCSDS123_FIELD_PREVIOUS = 8,
    CCSDS123_FIELD_REGISTER = 9,           /* `register_bits` */
    CCSDS123_FIELD_OMEGA = 10,
    CCSDS123_FIELD_INTERVAL = 11,          /* `interval_log` */
    CCSDS123_FIELD_V_MIN = 12,
    CCSDS123_FIELD_V_MAX = 13,
    CCSDS123_FIELD_WEIGHT_START = 14,
    CCSDS123_FIELD_RESOLUTION = 15,        /* `weight_bits` */
    CCSDS123_FIELD_WEIGHT_ENTRY = 16,      /* an entry of the weight table */
    CCSDS123_FIELD_UMAX = 17,
    CCSDS123_FIELD_GAMMA_STAR = 18,
    CCSDS123_FIELD_GAMMA_ZERO = 19,
    CCSDS123_FIELD_ACCUMULATOR_TABLE = 20,
    CCSDS123_FIELD_BLOCK_SIZE = 21,        /* `block` */
    CCSDS123_FIELD_RESTRICTED = 22,
    CCSDS123_FIELD_REFERENCE = 23,
    CCSDS123_FIELD_PREDICTORS = 24,        /* of the program's threads */
    CCSDS123_FIELD_SLOTS = 25              /* of the program's threads */
};

/* Rules between parameters: `name` of CCSDS123_DISAGREE. */
enum ccsds123_rule {
    CCSDS123_RULE_DEPTH_OVER_BANDS = 1,         /* `depth` is above `bands` */
    CCSDS123_RULE_FULL_ONE_COLUMN = 2,          /* one column needs `reduced` */
    CCSDS123_RULE_NEIGHBOUR_ONE_COLUMN = 3,     /* one column needs `column_sums` */
    CCSDS123_RULE_REGISTER_TOO_SMALL = 4,       /* `register_bits` is below `bits` + `omega` + 2 */
    CCSDS123_RULE_EXPONENT_ORDER = 5,           /* `vmin` is above `vmax` */
    CCSDS123_RULE_DEFAULT_WITH_TABLE = 6,       /* there are weights without `weight_table` */
    CCSDS123_RULE_DEFAULT_WITH_RESOLUTION = 7,  /* the same in a header, of the resolution */
    CCSDS123_RULE_RESOLUTION_OVER_OMEGA = 8,    /* `weight_bits` is above `omega` + 3 */
    CCSDS123_RULE_WEIGHT_TABLE_LENGTH = 9,      /* a weight table hasn't one entry for each weight */
    CCSDS123_RULE_COUNTER_ORDER = 10,           /* `gamma_star` isn't above `gamma_zero` */
    CCSDS123_RULE_START_CONSTANT = 11,          /* `k` is above `bits` - 2 */
    CCSDS123_RULE_CONSTANT_WITH_TABLE = 12,     /* a header has a constant beside an accumulator table */
    CCSDS123_RULE_ACCUMULATOR_TABLE_LENGTH = 13, /* there isn't one accumulator for each band; or there are some where none are used */
    CCSDS123_RULE_ACCUMULATOR_ENTRY = 14,       /* an accumulator is above `bits` - 2 */
    CCSDS123_RULE_RESTRICTED_OVER_FOUR = 15     /* `restricted` is for samples of at most 4 bits */
};

/* Rooms that a caller gives: `name` of CCSDS123_ROOM. */
enum ccsds123_room {
    CCSDS123_ROOM_FILE = 1,        /* bytes of `file` */
    CCSDS123_ROOM_RAW = 2,         /* bytes of `raw` */
    CCSDS123_ROOM_WEIGHTS = 3,     /* entries of `weights` */
    CCSDS123_ROOM_ACCUMULATORS = 4 /* entries of `accumulators` */
};

/* Members that are one of a few constants: `name` of CCSDS123_CHOICE. */
enum ccsds123_member {
    CCSDS123_MEMBER_ORDER = 1,
    CCSDS123_MEMBER_CODER = 2,
    CCSDS123_MEMBER_INTERLEAVE = 3,
    CCSDS123_MEMBER_BYTES = 4
};

/* Why a call was refused. A call that isn't refused sets all members to 0. */
typedef struct ccsds123_fault {
    uint32_t number; /* enum ccsds123_fault_number, or 0 */
    uint32_t name;   /* which field, rule, room or member; else 0 */
    int64_t first;   /* values as listed at the numbers; one above INT64_MAX is told as INT64_MAX */
    int64_t second;
} ccsds123_fault;

/* The most bytes of a fault's text, with its zero at the end. */
#define CCSDS123_TEXT_ROOM 96

/* Writes the text of a fault, as the program `ccsds` prints it after its name: the number, the name, and its values, as in
 * "14 RawLength 6 0". A zero follows it. Where `room` is too small, as much as fits is written, and a zero; where it is 0, nothing.
 * Returns the length of the whole text, without the zero. The text of a number that is no fault is that number; that of want of
 * memory stands for any fault where no memory can be had for the text. */
size_t ccsds123_fault_text(const ccsds123_fault *fault, char *text, size_t room);

/* ---- Parameters */

/* Sets every member to the defaults of the program's command `compress`: band sequential order, full mode and neighbour-oriented sums
 * with 3 previous bands, 64 bits of register, the default weights, and the sample-adaptive coder. `columns`, `rows`, `bands` and `bits`
 * are set to 0, for the caller to fill in, and `is_signed` to 0. */
void ccsds123_params_init(ccsds123_params *params);

/* Checks parameters with their tables. Without a table pass NULL and 0.
 *
 * `weights` are the initial weights, each a signed number of `weight_bits` bits, band after band. In full mode a band has three, of the north,
 * the west and the north-west difference; then, in either mode, one for each band before it, the nearest first, up to `previous` of them.
 * `accumulators` has an initialization constant for each band, 0 to `bits` - 2.
 *
 * Faults: STRUCT_SIZE; CHOICE of the order, of the coder; FIELD_RANGE of columns, rows, bands, bits; DISAGREE where there are weights without
 * `weight_table` (DEFAULT_WITH_TABLE), or accumulators where none are used (ACCUMULATOR_TABLE_LENGTH); WANT_OF_MEMORY where there is a table; FIELD_RANGE
 * and DISAGREE of the other parameters, in the order of a header's fields. */
int32_t ccsds123_params_check(const ccsds123_params *params,
    const int32_t *weights, size_t weight_count, const uint8_t *accumulators, size_t accumulator_count,
    ccsds123_fault *fault);

/* Stores in `*bytes` a length that no file of these parameters exceeds, whatever its samples and tables. The other numbers are not
 * checked.
 *
 * Faults: STRUCT_SIZE; CHOICE of the order, of the coder; FIELD_RANGE of columns, rows, bands, bits. `*bytes` is then 0. */
int32_t ccsds123_bound(const ccsds123_params *params, uint64_t *bytes, ccsds123_fault *fault);

/* Stores in `*bytes` the number of raw bytes of a scene with these sizes: columns * rows * bands * the layout's bytes.
 *
 * Faults: STRUCT_SIZE; FIELD_RANGE of columns, rows, bands; CHOICE of the interleave, of the bytes. `*bytes` is then 0. */
int32_t ccsds123_raw_length(const ccsds123_params *params, const ccsds123_layout *layout, uint64_t *bytes, ccsds123_fault *fault);

/* ---- Encoding */

/* Codes the scene whose raw bytes are given. Its file is written to the front of `file`, and its length stored in `*file_length`.
 *
 * Faults: those of `ccsds123_params_check`; CHOICE of the interleave, of the bytes; RAW_LENGTH; WANT_OF_MEMORY; SAMPLE_RANGE; WANT_OF_MEMORY;
 * ROOM of the file. In each case nothing is written to `file`, and `*file_length` is 0. */
int32_t ccsds123_encode(const ccsds123_params *params,
    const int32_t *weights, size_t weight_count, const uint8_t *accumulators, size_t accumulator_count,
    const ccsds123_layout *layout, const uint8_t *raw, size_t raw_length,
    uint8_t *file, size_t file_room, uint64_t *file_length, ccsds123_fault *fault);

/* ---- Encoding row by row */

/* A scene that is coded while its raw bytes come, for scenes that are larger than memory. Order and layout both interleave the bands, or neither
 * does, so that rows come as they are coded:
 *
 *   - both interleave them: a row is one of all bands, columns * bands samples, and `rows` of these make the scene;
 *   - both are band sequential: a row is one of a single band, `columns` samples, and `rows` of each band in turn make the scene.
 *
 * What is kept is the state of the coder, the file so far, and a row in the first case. In the second it is `previous` + 8 planes of two bytes
 * a sample, and two rows of all bands: the planes of the bands that the next ones are predicted from, and those of eight bands that are
 * predicted together, whose residuals take their place. So it pays for scenes that have many more bands.
 *
 *     ccsds123_encoder encoder = CCSDS123_ENCODER_NONE;
 *
 *     if (ccsds123_encoder_begin(&encoder, &params, NULL, 0, NULL, 0, &layout, &fault) != 0) ..
 *     while (.. read some rows ..)
 *         if (ccsds123_encoder_rows(&encoder, raw, raw_length, &fault) != 0) ..
 *     if (ccsds123_encoder_end(&encoder, NULL, 0, &length, &fault) != CCSDS123_ROOM) ..
 *     file = malloc(fault.first);
 *     if (ccsds123_encoder_end(&encoder, file, fault.first, &length, &fault) != 0) ..
 *
 * Before its first call it has to be CCSDS123_ENCODER_NONE, which is all zeros. After that only these calls write it, and a copy of it may
 * not be used. One thread makes all calls of an encoder. */
typedef struct ccsds123_encoder {
    void *state;      /* the library's own */
    uint32_t is_open; /* 1 where an encoder was begun and not ended, else 0 */
} ccsds123_encoder;

#define CCSDS123_ENCODER_NONE { NULL, 0 }

/* Begins a scene with these parameters, whose raw bytes will come in this layout: CCSDS123_ORDER_BI, of any depth, with CCSDS123_BIL or
 * CCSDS123_BIP, or CCSDS123_ORDER_BSQ with CCSDS123_BSQ. An encoder that was begun before and not ended is freed.
 *
 * Faults: those of `ccsds123_params_check`; CHOICE of the interleave, of the bytes; CHOICE of the order, where it is band sequential and the
 * layout isn't; CHOICE of the interleave, where it is band sequential and the order isn't; WANT_OF_MEMORY. There is then no encoder. */
int32_t ccsds123_encoder_begin(ccsds123_encoder *encoder, const ccsds123_params *params,
    const int32_t *weights, size_t weight_count, const uint8_t *accumulators, size_t accumulator_count,
    const ccsds123_layout *layout, ccsds123_fault *fault);

/* Takes the raw bytes of the scene's next rows: any number of whole rows, none included.
 *
 * Faults: USAGE where there is no encoder; RAW_LENGTH, of the whole scene and of all bytes that have come with these, where they aren't whole
 * rows or are more than the scene still wants; WANT_OF_MEMORY; SAMPLE_RANGE, with the index in the whole scene. Each of them frees the
 * encoder, which is then CCSDS123_ENCODER_NONE. */
int32_t ccsds123_encoder_rows(ccsds123_encoder *encoder, const uint8_t *raw, size_t raw_length, ccsds123_fault *fault);

/* Ends a scene of which all rows have come. Its file, the one that `ccsds123_encode` writes of all raw bytes together, is written to the
 * front of `file`, and its length stored in `*file_length`. The encoder is freed, and is then CCSDS123_ENCODER_NONE.
 *
 * Faults: USAGE where there is no encoder; RAW_LENGTH where rows are missing; WANT_OF_MEMORY; ROOM of the file. In each case nothing is
 * written to `file`, and `*file_length` is 0. After ROOM, which tells how much is wanted, the encoder is as it was, and the call can be made
 * again with more room; each other fault frees the encoder. */
int32_t ccsds123_encoder_end(ccsds123_encoder *encoder, uint8_t *file, size_t file_room, uint64_t *file_length, ccsds123_fault *fault);

/* Frees an encoder that isn't ended, which is then CCSDS123_ENCODER_NONE. Where there is none, it does nothing. */
void ccsds123_encoder_free(ccsds123_encoder *encoder);

/* ---- Decoding */

/* Reads the header that the bytes begin with; more bytes may follow, or be left out. A header has at least 19 bytes; without tables it
 * has no more, and with the largest tables about 3,300,000. `params->size` has to be set before (as `ccsds123_params_init` does). Every
 * other member is set; those that the file's coder or order doesn't use are 0. The header's tables are written to the front of
 * `weights` and `accumulators`, their lengths are stored in `*weight_count` and `*accumulator_count` (0 where the header has no such table),
 * and the header's length in bytes in `*header_length`.
 *
 * Faults: STRUCT_SIZE; READ; SHORT_HEADER, RESERVED, FIELD_RANGE, DISAGREE and TABLE_ELSEWHERE, the first in the order of the header's
 * fields; WANT_OF_MEMORY where there is a table; ROOM of the weights, of the accumulators. In each case nothing is written to the tables
 * and to `params`; the two counts and `*header_length` are 0. */
int32_t ccsds123_read_header(const uint8_t *file, size_t file_length, ccsds123_params *params,
    int32_t *weights, size_t weight_room, uint64_t *weight_count,
    uint8_t *accumulators, size_t accumulator_room, uint64_t *accumulator_count,
    uint64_t *header_length, ccsds123_fault *fault);

/* Decodes a whole file. The raw bytes of its scene are written to the front of `raw`, in this layout, which may differ from that which
 * was encoded, and their number is stored in `*raw_length`.
 *
 * Faults: CHOICE of the interleave, of the bytes; READ; those of the header, as of `ccsds123_read_header`; WANT_OF_MEMORY where the header
 * has a table; TRUNCATED where fewer bits follow the header than any body has; WANT_OF_MEMORY; TRUNCATED, BAD_CODE, BAD_OPTION or
 * RUN_PAST_SEGMENT, the first in the order of the bits; TOO_LONG; BAD_FILL; SAMPLE_RANGE of the first sample that doesn't fit in one
 * byte; ROOM of the raw bytes. In each case nothing is written to `raw`, and `*raw_length` is 0. To know the room beforehand,
 * read the header and call `ccsds123_raw_length`. */
int32_t ccsds123_decode(const uint8_t *file, size_t file_length, const ccsds123_layout *layout,
    uint8_t *raw, size_t raw_room, uint64_t *raw_length, ccsds123_fault *fault);

#ifdef __cplusplus
}
#endif

#endif
