/* The yard post's SILK back end: a frame's decoded parameters in, its samples out.
 *
 * `tools/staticlib post` builds it (target/staticlib/libpost.a), `tools/staticlib post_filters` the
 * functions of filters (target/staticlib/libpost_filters.a), `tools/staticlib post_load` those of the
 * load (target/staticlib/libpost_load.a) and `tools/staticlib post_recording` those of recordings
 * (target/staticlib/libpost_recording.a); any of the archives may be linked, alone or with others. They
 * are for x86-64 Linux alone. They call memcpy and memset and nothing else, and have no variables
 * of their own: calls on different states may run at the same time. A call takes up to
 * 22,944 bytes of stack (docs/BENCHMARKS.md), post_recording_play up to 69,536 and
 * post_single_loss up to 85,824.
 *
 * A slice is a pointer and the count of its elements. The slices of one call may not overlap, not
 * even pulses and output: the proofs rest on it.
 *
 * Every function but post_played, post_load_leap and post_load_undoing answers one of
 *     0           done
 *    -1           a slice is shorter than its POST_ size below; the functions of recordings answer
 *                 21 in its place
 *     1 to 23     the first refusal that applies (enum post_refusal)
 * of which -1 comes first. Pulses that a frame is played with, output, buffer, coefficients, lines and
 * bytes have no such size: 10 to 13, 17 of post_rising, or 21 of the functions of recordings, say that
 * they are too short. A call that does not answer 0 writes nothing. One that does leaves what lies past a slice's size, past a frame's samples,
 * past a length or past an order as it was.
 *
 * r is the rate in kHz and n the count of subframes: in post_frame those that the frame brings, in
 * the stages alone those that the state holds, which are post_set_up's or the last played frame's. A
 * frame has 5rn samples. The order is 10 at 8 and 12 kHz, 16 at 16 kHz. Qk is a number times 2^k.
 *
 * words, halves  the state. Plain numbers: they may be copied, stored and compared. Fields have the
 *                names of opus-pure's SilkDecoderState, and one after the other these places:
 *     words      0 prev_gain_q16; 1 exc_q14 (320); 321 s_lpc_q14_buf (16); 337 lag_prev, fs_khz,
 *                nb_subfr, frame_length, subfr_length, ltp_mem_length, lpc_order,
 *                first_frame_after_reset; 345 loss_cnt; 346 prev_signal_type;
 *                s_plc: 347 pitch_l_q8, last_frame_lost, rand_seed, conc_energy,
 *                conc_energy_shift, prev_gain_q16 (2, the later at 353), fs_khz, nb_subfr,
 *                subfr_length;
 *                s_cng: 357 cng_exc_buf_q14 (320), cng_synth_state (16), cng_smth_gain_q16,
 *                rand_seed, fs_khz;
 *                settings, which set-up names and no call changes after it: 696 squelch, edition
 *     halves     0 out_buf (480); 480 prev_nlsf_q15 (16);
 *                s_plc: 496 ltp_coef_q14 (5), prev_lpc_q12 (16), rand_scale_q14,
 *                prev_ltp_scale_q14;
 *                s_cng: 519 cng_smth_nlsf_q15 (16)
 * frame, coefs   a frame in numbers; the places are POST_FRAME_ and POST_COEFS_ below. Of four
 *                lags, gains or groups of taps the first n count. A call that answers 0 writes of
 *                frame only the lags and of coefs only the taps.
 * pulses         the excitation's, 5rn or more */
#ifndef POST_H
#define POST_H

#include <stddef.h>
#include <stdint.h>

#ifdef __cplusplus
extern "C" {
#endif

/* The least elements of these slices. */
enum {
    POST_WORDS = 698,
    POST_HALVES = 535,
    POST_FRAME = 16,
    POST_COEFS = 68,
    POST_ANSWER = 2,
    POST_VALUE = 1,
    POST_TEXT = 64,
    POST_HEAD = 62,
    POST_LISTENERS = 16,
    POST_COUNTS = 48
};

/* The samples of the longest frame; pulses and output need no more, and 5rn are enough. */
enum { POST_LONGEST_FRAME = 320 };

/* A frame's numbers of 32 bits. */
enum {
    POST_FRAME_RECEIVED = 0,      /* 0 lost, any other received. The stages do not read it */
    POST_FRAME_RATE = 1,          /* the coming one, 8, 12 or 16 kHz. Where the state holds another, out_buf
                                     and s_lpc_q14_buf are cleared, lag_prev is 100, prev_signal_type 0 and
                                     first_frame_after_reset 1 before the frame is played; all else is kept.
                                     The stages do not read it */
    POST_FRAME_SUBFRAMES = 2,     /* the coming count, 2 or 4; another keeps all history. The stages do not
                                     read it */
    POST_FRAME_SIGNAL = 3,        /* 0 inactive, 1 unvoiced, 2 voiced */
    POST_FRAME_OFFSET = 4,        /* quantisation offset type, 0 or 1 */
    POST_FRAME_INTERPOLATION = 5, /* of the lines, Q2, 0 to 4; 4 is none */
    POST_FRAME_SEED = 6,          /* of the excitation's generator; the low 8 bits count */
    POST_FRAME_LAGS = 7,          /* 4, in samples; 2r to 18r if the signal is 2 */
    POST_FRAME_GAINS = 11,        /* 4, Q16, 81,920 to 1,686,110,208 */
    POST_FRAME_SCALE = 15         /* LTP scale, Q14, 0 to 16,384 */
};

/* A frame's numbers of 16 bits. */
enum {
    POST_COEFS_TAPS = 0,  /* five for each of four subframes, Q14 */
    POST_COEFS_ROWS = 20, /* two rows of coefficients, Q12, the second from 36 on at every order.
                             Subframes 0 and 1 are played with the first, 2 and 3 with the second;
                             concealment keeps the second of every frame. So both are to be filled,
                             also where n is 2 */
    POST_COEFS_LINES = 52 /* the frame's line frequencies, Q15, none negative; the first 10 or 16 count */
};

enum post_refusal {
    POST_SHORT = -1,
    POST_PLAYED = 0,
    POST_RATE = 1,         /* a rate, the frame's or the state's, is not 8, 12 or 16 */
    POST_SIZE = 2,         /* a count of subframes, the frame's or the state's, is not 2 or 4, or a
                              length or order in the state is not that of its own shape */
    POST_HISTORY = 3,      /* a field of the state, as the frame's rate leaves it, is outside its
                              range; never after set-up and whole frames alone (README.md, "What
                              is proved") */
    POST_RUN_FULL = 4,     /* the frame is lost, and loss_cnt is 2,147,483,647 */
    POST_SIGNAL = 5,       /* signal not 0 to 2, offset not 0 or 1, or interpolation not 0 to 4 */
    POST_GAIN = 6,         /* a gain is not in 81,920 to 1,686,110,208 */
    POST_LAG = 7,          /* signal is 2, and a lag is not in 2r to 18r */
    POST_TAPS_REFUSED = 8, /* the LTP scale is not in 0 to 16,384; or signal is 2, and a subframe's
                              five taps add up to more than 32,767 or less than -32,768 */
    POST_LINE = 9,         /* a line frequency is negative */
    POST_PULSES = 10,      /* fewer than 5rn pulses */
    POST_SPEAKER = 11,     /* fewer than 5rn samples of output */
    POST_LENGTH = 12,      /* gluing or noise alone: length 0, above 320 or above the buffer; load:
                              number above 2,147,483,646; trial: more than 2,147,483,647 frames */
    POST_ORDER = 13,       /* stability: order not 1 to 16; filter: not 10 or 16; or a slice of
                              coefficients or lines is shorter than it */
    POST_SQUELCH = 14,     /* set-up, trial: squelch not in 0 to 10,000; in a state it is 3 */
    POST_PLACE = 17,       /* cosine: place above 128; rising check: order not 10 or 16, or fewer lines */
    POST_CHAIN = 20,       /* recording: a next number is past the end or met before, or there is no
                              frame of the number */
    POST_RECORD = 21,      /* recording: not 1 to 60 whole records, as read or as they would be
                              written; a slice is too short; no YARD; a kind or zeros are wrong */
    POST_EDITION = 22,     /* set-up, stability, filter: edition not 6716 or 8251; in a state it is 3 */
    POST_LIMIT = 23        /* single loss: limit not in 1 to 32,767, or the call as recorded already has
                              a sample beyond it */
};

/* Editions of the standard, by the number of their RFC. In the stability test under RFC 6716 as first
 * published, a step that leaves 32 bits keeps its low 32 and the test goes on; with RFC 8251 the filter
 * is unstable. They differ in nothing else. Under the older one the comfort noise of lines in no order
 * may be loud and stay so; no rising lines are known to do it, and concealment never does. */
enum post_edition { POST_RFC_6716 = 6716, POST_RFC_8251 = 8251 };

/* A state for 8, 12 or 16 kHz and 2 or 4 subframes, with a squelch of 50 and the edition 8251. Refused by
 * 1, 2. */
int32_t post_set_up(int32_t rate, int32_t subframes,
                    int32_t *words, size_t words_len, int16_t *halves, size_t halves_len);

/* The same with a squelch of 0 to 10,000 and an edition. From the loss on that makes loss_cnt the
 * squelch, post_frame plays zeros for a lost frame, until one is received; the state and the lags change
 * as without it, and the stages alone do not go by it. 0 means never. Refused by 1, 2, 14, 22. */
int32_t post_set_up_with(int32_t rate, int32_t subframes, int32_t squelch, int32_t edition,
                         int32_t *words, size_t words_len, int16_t *halves, size_t halves_len);

/* A frame: 5rn samples into output; the state then holds its rate and its count of subframes. A
 * received one may have its first two lags and its first ten taps changed: after the loss of a voiced
 * frame at the same rate, where it is not voiced itself. Refused by 1 to 3 and 5 to 11. A lost one is
 * concealed, or plays zeros by the squelch. Of its frame only the first three places are read, and of
 * coefs and pulses nothing, but coefs must have its size; all four lags become the last concealed one.
 * Refused by 1 to 4 and 11. */
int32_t post_frame(int32_t *words, size_t words_len, int16_t *halves, size_t halves_len,
                   int32_t *frame, size_t frame_len, int16_t *coefs, size_t coefs_len,
                   const int16_t *pulses, size_t pulses_len, int16_t *output, size_t output_len);

/* The count of samples of output that a frame fills, 0 for no shape or a short output. */
int32_t post_played(int32_t rate, int32_t subframes, const int16_t *output, size_t output_len);

/* The stages alone, on the state of a frame: the synthesis of a received one (refused by 1 to 3, 5
 * to 8, 10, 11); what concealment keeps of it (1 to 3, 5 to 8); concealment of a lost one (1 to 4,
 * 11); gluing (1 to 3, 12) and comfort noise (1 to 3, 12, and 6 where loss_cnt is 0) of a buffer's
 * first length samples. */
int32_t post_core(int32_t *words, size_t words_len, int16_t *halves, size_t halves_len,
                  int32_t *frame, size_t frame_len, int16_t *coefs, size_t coefs_len,
                  const int16_t *pulses, size_t pulses_len, int16_t *output, size_t output_len);
int32_t post_plc_received(int32_t *words, size_t words_len, int16_t *halves, size_t halves_len,
                          const int32_t *frame, size_t frame_len, const int16_t *coefs, size_t coefs_len);
int32_t post_plc_lost(int32_t *words, size_t words_len, int16_t *halves, size_t halves_len,
                      int32_t *frame, size_t frame_len, int16_t *output, size_t output_len);
int32_t post_glue(int32_t *words, size_t words_len, int16_t *halves, size_t halves_len,
                  int16_t *buffer, size_t buffer_len, size_t length);
int32_t post_noise(int32_t *words, size_t words_len, int16_t *halves, size_t halves_len,
                   const int32_t *frame, size_t frame_len,
                   int16_t *buffer, size_t buffer_len, size_t length);

/* The functions of filters, in libpost_filters.a. */

/* The stability test of a filter's first order coefficients, Q12, under an edition. Its answer is one of
 * these and a value: the inverse gain, Q30, or the number of the step, which is the place of its
 * coefficient, from 0. The sum is tested first; then, from the last coefficient to the first, a step's
 * coefficient, its gain, and whether the step leaves 32 bits. */
enum post_stability_answer {
    POST_STABLE = 0,            /* the value is the inverse gain, 107,374 to 1,073,741,824 */
    POST_SUM_LARGE = 1,         /* the coefficients add up to 4,096 or more; the value is 0 */
    POST_COEFFICIENT_LARGE = 2, /* a step's coefficient, Q24, is above 16,773,022 in size */
    POST_GAIN_SMALL = 3,        /* the gain, Q30, is below 107,374 after a step */
    POST_STEP_OVERFLOW = 4      /* a step leaves 32 bits; never under POST_RFC_6716 */
};

/* The answer's number and its value. Refused by 13, 22. */
int32_t post_stability(const int16_t *coefficients, size_t coefficients_len, size_t order, int32_t edition,
                       int32_t *answer, size_t answer_len);

/* The answer as a sentence in ASCII, with zeros behind it up to POST_TEXT bytes: fixed words, and but
 * for the sum one number. No two answers share a sentence. Refused by 13, 22. */
int32_t post_sentence(const int16_t *coefficients, size_t coefficients_len, size_t order, int32_t edition,
                      uint8_t *text, size_t text_len);

/* The first order coefficients, Q12, of the filter from as many line frequencies, Q15, rising or not; it
 * passes the stability test of its edition. A post's comfort noise has this filter from the lines in s_cng,
 * where its fs_khz is the post's, under the post's edition. Refused by 13, then by 9, then by 22. */
int32_t post_filter(int16_t *coefficients, size_t coefficients_len,
                    const int16_t *lines, size_t lines_len, size_t order, int32_t edition);

/* Entry place, 0 to 128, of the table from which that filter comes: twice the cosine of place/128 of half
 * a turn, Q12, 8,192 to -8,192. Refused by 17. */
int32_t post_cosine(size_t place, int32_t *value, size_t value_len);

/* Whether the first order line frequencies, Q15, rise: 1 if the first is at least 3, each next one at
 * least 3 above the last, and the last at most 32,765; else 0, also for a negative line. post_filter
 * never refuses rising lines by 9. Refused by 17. */
int32_t post_rising(const int16_t *lines, size_t lines_len, size_t order, int32_t *answer, size_t answer_len);

/* The functions of the load, in libpost_load.a: frames that are drawn from a seed with the step of
 * silk_rand, so that anyone can make them again. A draw is the generator's value after the step. A frame
 * takes POST_LOAD_DRAWS draws, lost or not, one for each of its numbers, in the order of a record: received,
 * signal, offset, interpolation, seed, lags, gains, rows, taps, scale, lines, 320 pulses. Each is scaled
 * into its range: from a, with s values, it is a plus the unsigned draw times s over 2^32, rounded down.
 * Received has 0 and 1; lags have 2r to 18r, whatever the signal; taps have -6,553 to 6,553; seed, rows and
 * pulses have every value of 8 or 16 bits. */
enum { POST_LOAD_DRAWS = 402 };

/* Frame number of a load, from 0, where the generator was at seed before frame 0. A lost one has its numbers
 * too. pulses has 320 places. post_frame refuses none of the frames 0 to 2,147,483,646 in their order, nor
 * from any of them on, if the post was set up for the shape and output has 5rn samples. Refused by 1, 2, 12;
 * by -1 for a slice that is shorter. */
int32_t post_load_frame(int32_t rate, int32_t subframes, int32_t seed, uint32_t number,
                        int32_t *frame, size_t frame_len, int16_t *coefs, size_t coefs_len,
                        int16_t *pulses, size_t pulses_len);

/* The generator after so many draws from seed on: the value itself, and no refusal. The load that begins at
 * frame k of a seed is that of the seed post_load_leap(seed, 402 k). */
int32_t post_load_leap(int32_t seed, uint64_t draws);

/* The count of draws, 1 to 2^32, that undoes as many: after both the generator is where it was. */
uint64_t post_load_undoing(uint64_t draws);

/* A trial: sixteen listeners, each with a seed, follow the first frames of the load of a shape and a seed,
 * its losses replaced by those of a two-state link: good at first, lost while bad. After each frame a state
 * is left if the top 16 bits of the listener's next draw are below its number, leave_good or leave_bad.
 * counts     each listener's frames received, 16; those concealed, 16; those squelched, 16, by a post that
 *            is set up with the squelch. The three of a listener add up to frames
 * No frame is decoded: 2,147,483,647 frames take about two minutes. Refused by 1, 2, 12, 14; by -1 for
 * fewer than 16 seeds or 48 counts. */
int32_t post_trial(int32_t rate, int32_t subframes, int32_t seed, int32_t squelch, uint32_t frames,
                   uint16_t leave_good, uint16_t leave_bad, const int32_t *seeds, size_t seeds_len,
                   uint32_t *counts, size_t counts_len);

/* The functions of recordings, in libpost_recording.a. docs/RECORDINGS.md has the form of the bytes and
 * what to do about each refusal. They refuse in this order: 21 for a length or a slice that is too
 * short, 20, the rest of 21, 1, 2, then the least of 5 to 9 that any frame of the chain meets, and last,
 * of post_single_loss, 23. Bytes are lent whole and stay the caller's; nothing is kept between two
 * calls. */
enum {
    POST_RECORD_BYTES = 1024, /* of each record */
    POST_RECORDS = 60,        /* the most of a recording: record 0 and 59 frames */
    POST_RECORD_PULSES = 320  /* of every received frame, also where 5rn is less */
};

/* What is told of a recording, POST_HEAD numbers. */
enum {
    POST_HEAD_RATE = 0,
    POST_HEAD_SUBFRAMES = 1,
    POST_HEAD_FRAMES = 2, /* how many there are, 0 to 59 */
    POST_HEAD_RECORDS = 3 /* the record of each frame, in the chain's order, then zeros */
};

/* Reads a recording. Refused by 21, 20, 1, 2, 5 to 9. */
int32_t post_recording_read(const uint8_t *bytes, size_t bytes_len, int32_t *head, size_t head_len);

/* Frame number of a recording, counted from 1 along the chain: as it was lent to the call that played it.
 * Of a lost one received is 0, rate and subframes are the recording's, and all else is 0. frame and coefs
 * have their sizes, pulses has POST_RECORD_PULSES. Refused as post_recording_read, then by 20 for a number
 * that is 0 or past the last. */
int32_t post_recording_frame(const uint8_t *bytes, size_t bytes_len, uint32_t number,
                             int32_t *frame, size_t frame_len, int16_t *coefs, size_t coefs_len,
                             int16_t *pulses, size_t pulses_len);

/* Makes the first POST_RECORD_BYTES a recording without frames. Refused by 21, 1, 2. */
int32_t post_recording_begin(uint8_t *bytes, size_t bytes_len, int32_t rate, int32_t subframes);

/* Writes a frame behind the first `frames` ones: record `frames` leads to the new record, which ends the
 * chain. bytes must have room for frames + 2 records; the first frames + 2 records are then a recording,
 * if the first frames + 1 were one that is in order. The frame brings record 0's rate and subframes. Of a
 * lost one nothing else is read or kept, and pulses may be empty; a received one has POST_RECORD_PULSES.
 * What stands in the records of earlier frames is not judged. Refused by 21, 1, 2, 5 to 9. */
int32_t post_recording_append(uint8_t *bytes, size_t bytes_len, uint32_t frames,
                              const int32_t *frame, size_t frame_len, const int16_t *coefs, size_t coefs_len,
                              const int16_t *pulses, size_t pulses_len);

/* Plays a recording by a post that is set up for its shape, with a squelch of 0 and the edition 8251. The
 * first 5rn samples of output are those of the first frame, and so on; *played is their count. output must
 * have 320 samples for every record of the file but the first, on the chain or not. Refused as
 * post_recording_read. */
int32_t post_recording_play(const uint8_t *bytes, size_t bytes_len, int16_t *output, size_t output_len,
                            int32_t *played, size_t played_len);

/* Number of the one frame that mattered, counted from 1 along the chain: the first received frame of a
 * recording whose loss alone, all else as recorded, brings a played sample beyond limit in size, or 0 if
 * no single loss does. Frames are played as by post_recording_play, at most 1,888 of them. number has
 * POST_VALUE. Refused as post_recording_read, then by 23. */
int32_t post_single_loss(const uint8_t *bytes, size_t bytes_len, int32_t limit,
                         int32_t *number, size_t number_len);

#ifdef __cplusplus
}
#endif

#endif
