/* Codes a small scene, decodes it again, and compares. Build it against an installed library:
 *
 *     cc -o roundtrip roundtrip.c $(pkg-config --cflags --libs ccsds123) */
#include <ccsds123.h>

#include <stdio.h>
#include <stdlib.h>
#include <string.h>

static int refused(const ccsds123_fault *fault)
{
    char text[CCSDS123_TEXT_ROOM];
    ccsds123_fault_text(fault, text, sizeof text);
    fprintf(stderr, "roundtrip: %s\n", text);
    return 1;
}

int main(void)
{
    const ccsds123_layout layout = { CCSDS123_BSQ, 2, 1 }; /* two bytes a sample, the low one first */
    ccsds123_params params;
    ccsds123_fault fault;
    uint64_t raw_length, bound, file_length, again_length;

    ccsds123_params_init(&params);
    params.columns = 64;
    params.rows = 48;
    params.bands = 8;
    params.bits = 12;
    if (ccsds123_raw_length(&params, &layout, &raw_length, &fault) != 0 || ccsds123_bound(&params, &bound, &fault) != 0)
        return refused(&fault);

    uint8_t *raw = (uint8_t *)malloc(raw_length), *again = (uint8_t *)malloc(raw_length), *file = (uint8_t *)malloc(bound);
    if (raw == NULL || again == NULL || file == NULL)
        return 1;
    for (uint64_t i = 0; i < raw_length / 2; i++) {
        unsigned sample = 1000 + (unsigned)(i % 64) * 3 + (unsigned)(i * 2654435761u >> 13 & 15);
        raw[2 * i] = (uint8_t)(sample & 255);
        raw[2 * i + 1] = (uint8_t)(sample >> 8);
    }

    if (ccsds123_encode(&params, NULL, 0, NULL, 0, &layout, raw, raw_length, file, bound, &file_length, &fault) != 0)
        return refused(&fault);
    if (ccsds123_decode(file, file_length, &layout, again, raw_length, &again_length, &fault) != 0)
        return refused(&fault);
    if (again_length != raw_length || memcmp(raw, again, raw_length) != 0)
        return 1;
    printf("%u raw bytes, %u in the file, restored\n", (unsigned)raw_length, (unsigned)file_length);
    free(raw);
    free(again);
    free(file);
    return 0;
}
