/* Sets a post up with a squelch, plays a frame and a run of losses, the later ones at another rate, and asks for a wrong one. */
#include "post.h"

#include <stdio.h>

enum { SQUELCH = 40, LOSSES = 100, LOSSES_AT_16_KHZ = 50 };

int main(void) {
    int32_t words[POST_WORDS], frame[POST_FRAME] = {0};
    int16_t halves[POST_HALVES], coefs[POST_COEFS] = {0};
    int16_t pulses[POST_LONGEST_FRAME] = {0}, output[POST_LONGEST_FRAME];
    int32_t answer = post_set_up_with(16, 4, SQUELCH, POST_RFC_8251, words, POST_WORDS, halves, POST_HALVES);
    if (answer != POST_PLAYED) {
        fprintf(stderr, "set-up: %d\n", answer);
        return 1;
    }
    frame[POST_FRAME_RECEIVED] = 1;
    frame[POST_FRAME_RATE] = 16;
    frame[POST_FRAME_SUBFRAMES] = 4;
    frame[POST_FRAME_INTERPOLATION] = 4;
    frame[POST_FRAME_SEED] = 1;
    for (int k = 0; k < 4; k++)
        frame[POST_FRAME_GAINS + k] = 81920000;
    for (int i = 0; i < 16; i++)
        coefs[POST_COEFS_LINES + i] = (int16_t)(1927 * (i + 1));
    answer = post_frame(words, POST_WORDS, halves, POST_HALVES, frame, POST_FRAME, coefs, POST_COEFS,
                        pulses, POST_LONGEST_FRAME, output, POST_LONGEST_FRAME);
    frame[POST_FRAME_RECEIVED] = 0;
    int silent = 0;
    for (int loss = 0; answer == POST_PLAYED && loss < LOSSES; loss++) {
        if (loss == LOSSES_AT_16_KHZ) {
            frame[POST_FRAME_RATE] = 8;
            frame[POST_FRAME_SUBFRAMES] = 2;
        }
        answer = post_frame(words, POST_WORDS, halves, POST_HALVES, frame, POST_FRAME, coefs, POST_COEFS,
                            pulses, POST_LONGEST_FRAME, output, POST_LONGEST_FRAME);
        int32_t played = post_played(frame[POST_FRAME_RATE], frame[POST_FRAME_SUBFRAMES], output, POST_LONGEST_FRAME);
        int32_t zeros = 0;
        while (zeros < played && output[zeros] == 0)
            zeros++;
        silent += zeros == played;
    }
    if (answer != POST_PLAYED) {
        fprintf(stderr, "a frame: %d\n", answer);
        return 1;
    }
    frame[POST_FRAME_RATE] = 48;
    answer = post_frame(words, POST_WORDS, halves, POST_HALVES, frame, POST_FRAME, coefs, POST_COEFS,
                        pulses, POST_LONGEST_FRAME, output, POST_LONGEST_FRAME);
    printf("of %d losses %d are silent; a rate of 48 kHz is refused by %d\n", LOSSES, silent, answer);
    return answer == POST_RATE && silent == LOSSES - SQUELCH + 1 ? 0 : 1;
}
