/* Writes a recording of two frames, plays it, asks for the frame whose loss would be loud, and plays it again with a broken chain:
 *     recording [OUT.yard]
 * OUT.yard gets the recording, which ./play plays. */
#include "post.h"

#include <stdio.h>

enum { RECORDS = 3, LIMIT = 32767 };

int main(int count, char **words) {
    static uint8_t bytes[RECORDS * POST_RECORD_BYTES];
    static int16_t output[(RECORDS - 1) * POST_RECORD_PULSES], pulses[POST_RECORD_PULSES] = {1, -1};
    int32_t head[POST_HEAD], played = 0, number = 0, frame[POST_FRAME] = {1, 8, 2};
    int16_t coefs[POST_COEFS] = {0};
    frame[POST_FRAME_INTERPOLATION] = 4;
    frame[POST_FRAME_GAINS] = frame[POST_FRAME_GAINS + 1] = 81920000;
    for (int i = 0; i < 10; i++)
        coefs[POST_COEFS_LINES + i] = (int16_t)(2978 * (i + 1));

    int32_t answer = post_recording_begin(bytes, sizeof bytes, 8, 2);
    for (uint32_t frames = 0; answer == POST_PLAYED && frames < RECORDS - 1; frames++) {
        frame[POST_FRAME_RECEIVED] = frames == 0; /* the second one is lost */
        answer = post_recording_append(bytes, sizeof bytes, frames, frame, POST_FRAME, coefs, POST_COEFS,
                                       pulses, POST_RECORD_PULSES);
    }
    if (answer == POST_PLAYED)
        answer = post_recording_read(bytes, sizeof bytes, head, POST_HEAD);
    if (answer == POST_PLAYED)
        answer = post_recording_play(bytes, sizeof bytes, output, sizeof output / sizeof *output, &played, POST_VALUE);
    if (answer == POST_PLAYED)
        answer = post_single_loss(bytes, sizeof bytes, LIMIT, &number, POST_VALUE);
    if (answer != POST_PLAYED) {
        fprintf(stderr, "the recording is refused by %d\n", answer);
        return 1;
    }
    printf("%d frames at %d kHz: %d samples\n", head[POST_HEAD_FRAMES], head[POST_HEAD_RATE], played);
    printf("the frame whose loss alone brings a sample beyond %d, 0 for none: %d\n", LIMIT, number);
    if (count > 1) {
        FILE *file = fopen(words[1], "wb");
        size_t put = file == NULL ? 0 : fwrite(bytes, 1, sizeof bytes, file);
        if (file == NULL || fclose(file) != 0 || put != sizeof bytes) {
            fprintf(stderr, "%s: cannot be written\n", words[1]);
            return 1;
        }
    }

    bytes[(RECORDS - 1) * POST_RECORD_BYTES] = 1; /* the last record leads back to record 1 */
    answer = post_recording_play(bytes, sizeof bytes, output, sizeof output / sizeof *output, &played, POST_VALUE);
    printf("with a chain that comes back to a record it is refused by %d\n", answer);
    return answer == POST_CHAIN && head[POST_HEAD_FRAMES] == RECORDS - 1 && played == 160 ? 0 : 1;
}
