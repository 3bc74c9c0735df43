/* Two sites make the same frames of a load: one from frame 0 on, one that begins a million frames later. */
#include "post.h"

#include <stdio.h>
#include <string.h>

enum { SEED = 2026, LATER = 1000000 };

int main(void) {
    int32_t frame[POST_FRAME], same[POST_FRAME];
    int16_t coefs[POST_COEFS], same_coefs[POST_COEFS], pulses[POST_RECORD_PULSES], same_pulses[POST_RECORD_PULSES];
    const uint64_t draws = (uint64_t)POST_LOAD_DRAWS * LATER;
    int32_t seed = post_load_leap(SEED, draws);
    int lost = 0;
    for (uint32_t number = 0; number < 100; number++) {
        if (post_load_frame(16, 4, SEED, LATER + number, frame, POST_FRAME, coefs, POST_COEFS, pulses, POST_RECORD_PULSES) != 0 ||
            post_load_frame(16, 4, seed, number, same, POST_FRAME, same_coefs, POST_COEFS, same_pulses, POST_RECORD_PULSES) != 0)
            return 1;
        if (memcmp(frame, same, sizeof frame) != 0 || memcmp(coefs, same_coefs, sizeof coefs) != 0 ||
            memcmp(pulses, same_pulses, sizeof pulses) != 0) {
            fprintf(stderr, "frame %u differs\n", LATER + number);
            return 1;
        }
        lost += frame[POST_FRAME_RECEIVED] == 0;
    }
    int32_t back = post_load_leap(seed, post_load_undoing(draws));
    printf("100 frames are the same at both sites, %d of them lost; the leap back comes to seed %d\n", lost, back);
    return back == SEED ? 0 : 1;
}
