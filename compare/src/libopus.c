/* libopus' C as a side of compare/bench (side.rs): silk_decode_frame from the decoded parameters on. */
#include <stdbool.h>
#include "main.h"
#include "PLC.h"
#include "post.h"

struct shape {
    int32_t fs_khz, nb_subfr, frame_length, subfr_length, ltp_mem_length, lpc_order;
};

struct player {
    silk_decoder_state dec;
    silk_decoder_control control;
    const int16_t *pulses;
    int16_t output[POST_LONGEST_FRAME];
};

static void set_up(struct player *player, const struct shape *shape)
{
    silk_decoder_state *dec = &player->dec;
    silk_init_decoder(dec);
    dec->lagPrev = 100;
    dec->fs_kHz = shape->fs_khz;
    dec->nb_subfr = shape->nb_subfr;
    dec->frame_length = shape->frame_length;
    dec->subfr_length = shape->subfr_length;
    dec->ltp_mem_length = shape->ltp_mem_length;
    dec->LPC_order = shape->lpc_order;
}

/* Places behind the order are 0 in a recorded frame, and are not read. */
static void bring(struct player *player, const int32_t *frame, const int16_t *coefs, const int16_t *pulses, size_t count)
{
    silk_decoder_state *dec = &player->dec;
    silk_decoder_control *control = &player->control;
    if (frame[POST_FRAME_RECEIVED]) {
        dec->indices.signalType = frame[POST_FRAME_SIGNAL];
        dec->indices.quantOffsetType = frame[POST_FRAME_OFFSET];
        dec->indices.NLSFInterpCoef_Q2 = frame[POST_FRAME_INTERPOLATION];
        dec->indices.Seed = frame[POST_FRAME_SEED];
        memcpy(dec->prevNLSF_Q15, coefs + POST_COEFS_LINES, sizeof dec->prevNLSF_Q15);
    }
    memcpy(control->pitchL, frame + POST_FRAME_LAGS, sizeof control->pitchL);
    memcpy(control->Gains_Q16, frame + POST_FRAME_GAINS, sizeof control->Gains_Q16);
    memcpy(control->PredCoef_Q12, coefs + POST_COEFS_ROWS, sizeof control->PredCoef_Q12);
    memcpy(control->LTPCoef_Q14, coefs + POST_COEFS_TAPS, sizeof control->LTPCoef_Q14);
    control->LTP_scale_Q14 = frame[POST_FRAME_SCALE];
    player->pulses = pulses;
    (void)count;
}

static const int16_t *output(const struct player *player)
{
    return player->output;
}

/* What a received and a lost frame share: the history, noise, gluing and the last lag. */
static int32_t end(struct player *player)
{
    silk_decoder_state *dec = &player->dec;
    int length = dec->frame_length, kept = dec->ltp_mem_length - length;
    memmove(dec->outBuf, dec->outBuf + length, kept * sizeof *dec->outBuf);
    memcpy(dec->outBuf + kept, player->output, length * sizeof *dec->outBuf);
    silk_CNG(dec, &player->control, player->output, length);
    silk_PLC_glue_frames(dec, player->output, length);
    dec->lagPrev = player->control.pitchL[dec->nb_subfr - 1];
    return 0;
}

int32_t side_core(struct player *player)
{
    silk_decode_core(&player->dec, &player->control, player->output, player->pulses, player->dec.arch);
    return 0;
}

int32_t side_plc_lost(struct player *player)
{
    silk_PLC(&player->dec, &player->control, player->output, 1, player->dec.arch);
    return 0;
}

int32_t side_noise(struct player *player)
{
    silk_CNG(&player->dec, &player->control, player->output, player->dec.frame_length);
    return 0;
}

int32_t side_received(struct player *player)
{
    silk_decoder_state *dec = &player->dec;
    silk_decode_core(dec, &player->control, player->output, player->pulses, dec->arch);
    silk_PLC(dec, &player->control, player->output, 0, dec->arch);
    dec->lossCnt = 0;
    dec->prevSignalType = dec->indices.signalType;
    dec->first_frame_after_reset = 0;
    return end(player);
}

int32_t side_lost(struct player *player)
{
    silk_decoder_state *dec = &player->dec;
    dec->indices.signalType = dec->prevSignalType;
    silk_PLC(dec, &player->control, player->output, 1, dec->arch);
    return end(player);
}

__attribute__((visibility("default"))) const struct {
    size_t size, state;
    bool recorded;
    void (*set_up)(struct player *, const struct shape *);
    void (*bring)(struct player *, const int32_t *, const int16_t *, const int16_t *, size_t);
    const int16_t *(*output)(const struct player *);
    int32_t (*frames[2])(struct player *), (*stages[3])(struct player *);
} SIDE = {
    sizeof(struct player), sizeof(silk_decoder_state), true, set_up, bring, output,
    {side_received, side_lost}, {side_core, side_plc_lost, side_noise}};
