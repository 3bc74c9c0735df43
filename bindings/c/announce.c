/* Shapes a second of noise from a line vector, with the functions of filters alone:
 *     announce OUT.raw [LINE ..]
 * LINE .. are 10 or 16 line frequencies, Q15; without them it has 10 of its own. OUT.raw gets samples of 16 bits,
 * low byte first, at 8 kHz for 10 lines and at 16 kHz for 16. */
#include "post.h"

#include <stdio.h>
#include <stdlib.h>

#define FADE 128

static int16_t lines[16] = {1100, 3600, 5200, 8900, 11800, 14700, 18300, 21900, 25600, 29300};

/* A number of 16 bits, or 0 if the text is none. */
static int line_of(const char *text, int16_t *line) {
    char *end;
    long number = strtol(text, &end, 10);
    *line = (int16_t)number;
    return end != text && *end == 0 && number >= INT16_MIN && number <= INT16_MAX;
}

/* Noise through the filter, with the cosine table's fade at both ends. */
static void shaped(int16_t *samples, int count, const int16_t *filter, int order) {
    double past[16] = {0};
    uint32_t seed = 1;
    for (int n = 0; n < count; n++) {
        seed = 907633515u + seed * 196314165u;
        double sample = (double)(int32_t)seed / (1 << 22);
        for (int k = 0; k < order; k++)
            sample += filter[k] * past[k] / 4096;
        for (int k = order - 1; k > 0; k--)
            past[k] = past[k - 1];
        past[0] = sample;
        int from_end = n < count - 1 - n ? n : count - 1 - n;
        int32_t cosine;
        post_cosine(from_end < FADE ? (size_t)from_end : FADE, &cosine, POST_VALUE);
        sample *= (8192 - cosine) / 16384.0;
        samples[n] = (int16_t)(sample > 32767 ? 32767 : sample < -32768 ? -32768 : sample);
    }
}

static int written(const char *name, const int16_t *samples, int count) {
    FILE *file = fopen(name, "wb");
    if (file == NULL)
        return 0;
    int good = 1;
    for (int n = 0; n < count && good; n++)
        good = fputc(samples[n] & 255, file) != EOF && fputc(samples[n] >> 8 & 255, file) != EOF;
    good = fclose(file) == 0 && good;
    if (!good)
        remove(name);
    return good;
}

int main(int count, char **words) {
    size_t order = count == 2 ? 10 : (size_t)count - 2;
    int usable = count == 2 || count == 12 || count == 18;
    for (int k = 2; k < count && usable; k++)
        usable = line_of(words[k], &lines[k - 2]);
    if (!usable) {
        fprintf(stderr, "usage: announce OUT.raw [LINE ..]\n10 or 16 line frequencies, whole numbers of 16 bits\n");
        return 2;
    }
    int32_t rising, refusal;
    int16_t filter[16];
    uint8_t text[POST_TEXT + 1] = {0};
    if (post_rising(lines, order, order, &rising, POST_VALUE) != 0)
        return 1;
    refusal = post_filter(filter, order, lines, order, order, POST_RFC_8251);
    if (refusal != 0) {
        fprintf(stderr, "the lines are refused by %d: one of them is negative\n", refusal);
        return 1;
    }
    if (post_sentence(filter, order, order, POST_RFC_8251, text, POST_TEXT) != 0)
        return 1;
    static int16_t samples[16000];
    int length = order == 10 ? 8000 : 16000;
    shaped(samples, length, filter, (int)order);
    if (!written(words[1], samples, length)) {
        fprintf(stderr, "%s: cannot be written\n", words[1]);
        return 1;
    }
    printf("%s: %d samples; the lines %s; the filter is %s\n", words[1], length, rising ? "rise" : "do not rise", (const char *)text);
    return 0;
}
