/* Codes a scene through the library for C, for bench/library.py.
 *
 *     encode COLUMNS ROWS BANDS BITS RAW FILE     samples of two bytes, the low one first, band after band */
#include <ccsds123.h>

#include <stdio.h>
#include <stdlib.h>

int main(int count, char **words)
{
    const ccsds123_layout layout = { CCSDS123_BSQ, 2, 1 };
    ccsds123_params params;
    ccsds123_fault fault;
    uint64_t wanted, bound, length;
    uint8_t *raw, *file;
    FILE *in, *out;
    if (count != 7)
        return 2;
    ccsds123_params_init(&params);
    params.columns = (uint32_t)atoi(words[1]);
    params.rows = (uint32_t)atoi(words[2]);
    params.bands = (uint32_t)atoi(words[3]);
    params.bits = (uint32_t)atoi(words[4]);
    if (ccsds123_raw_length(&params, &layout, &wanted, &fault) != 0 || ccsds123_bound(&params, &bound, &fault) != 0)
        return 2;
    raw = (uint8_t *)malloc(wanted);
    file = (uint8_t *)malloc(bound);
    in = fopen(words[5], "rb");
    out = fopen(words[6], "wb");
    if (raw == NULL || file == NULL || in == NULL || out == NULL || fread(raw, 1, wanted, in) != wanted)
        return 3;
    if (ccsds123_encode(&params, NULL, 0, NULL, 0, &layout, raw, wanted, file, bound, &length, &fault) != 0)
        return 2;
    return fwrite(file, 1, length, out) != length || fclose(out) != 0;
}
