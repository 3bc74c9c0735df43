/* Tells of four filters whether they are stable, or why not, under both editions. */
#include "post.h"

#include <stdio.h>

int main(void) {
    const int16_t filters[4][2] = {{1024, 512}, {0, -4095}, {4000, 96}, {-512, 4094}};
    const int32_t editions[2] = {POST_RFC_6716, POST_RFC_8251};
    for (int k = 0; k < 8; k++) {
        const int16_t *filter = filters[k / 2];
        int32_t edition = editions[k % 2], answer[POST_ANSWER];
        uint8_t text[POST_TEXT + 1] = {0};
        if (post_stability(filter, 2, 2, edition, answer, POST_ANSWER) != 0 || post_sentence(filter, 2, 2, edition, text, POST_TEXT) != 0)
            return 1;
        printf("%d, %d by RFC %d: %s (%d, %d)\n", filter[0], filter[1], edition, (const char *)text, answer[0], answer[1]);
    }
    return post_stability(filters[0], 2, 17, POST_RFC_8251, NULL, 0) == POST_SHORT ? 0 : 1;
}
