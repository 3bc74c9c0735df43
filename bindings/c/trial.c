/* How much of an hour sixteen listeners hear behind poor links, without a squelch and with some. */
#include "post.h"

#include <stdio.h>

enum { FRAMES = 180000 }; /* an hour of 20 ms */

int main(void) {
    int32_t seeds[POST_LISTENERS];
    uint32_t counts[POST_COUNTS];
    for (int i = 0; i < POST_LISTENERS; i++)
        seeds[i] = i;
    for (int32_t squelch = 0; squelch <= 100; squelch += 25) {
        if (post_trial(16, 4, 2026, squelch, FRAMES, 655, 655, seeds, POST_LISTENERS, counts, POST_COUNTS) != 0)
            return 1;
        uint64_t sums[3] = {0, 0, 0};
        for (int i = 0; i < POST_COUNTS; i++)
            sums[i / POST_LISTENERS] += counts[i];
        printf("squelch %3d: %llu received, %llu concealed, %llu squelched\n", squelch, (unsigned long long)sums[0],
               (unsigned long long)sums[1], (unsigned long long)sums[2]);
        if (sums[0] + sums[1] + sums[2] != (uint64_t)POST_LISTENERS * FRAMES)
            return 1;
    }
    return 0;
}
