/* What a call costs, in nanoseconds of processor time: `./c_examples cost` runs it five times and takes the least of each. */
#define _POSIX_C_SOURCE 200809L
#include "harness.h"
#include <time.h>

enum { TURNS = 400, CALLS = 1000000 };

static char session[160];

static double now(void)
{
    struct timespec at;
    clock_gettime(CLOCK_PROCESS_CPUTIME_ID, &at);
    return (double)at.tv_sec * 1e9 + (double)at.tv_nsec;
}

/* nonces that cost nothing, for what is measured here is the peer */
static int choose_at_once(lethwyrn *peer, uint32_t turn)
{
    uint8_t nonce[32] = { (uint8_t)turn, (uint8_t)(turn >> 8), 1 };
    lethwyrn_track own;
    if (lethwyrn_next(peer, &own) != LETHWYRN_OK) return 0;
    lethwyrn_move move = { own.x, own.y, 0, 0, false };
    return lethwyrn_choose(peer, &move, nonce) == LETHWYRN_OK;
}

static void match(void)
{
    uint8_t made;
    for (int moved = 1; moved;) {
        moved = 0;
        for (unsigned p = 0; p < 2; p++) {
            moved |= hear(p);
            moved |= choose_at_once(&players[p].peer, players[p].due);
            moved |= lethwyrn_advance(&players[p].peer, &made) == LETHWYRN_MADE;
            players[p].disk.len = 0; /* the log goes nowhere, but its bytes are named */
            uint8_t entry[LETHWYRN_LOG_ROOM];
            size_t len;
            static uint64_t all[2];
            if (!players[p].due) all[p] = 0;
            while (lethwyrn_take_log(&players[p].peer, entry, &len) == LETHWYRN_OK) all[p] += len;
            want(lethwyrn_stored(&players[p].peer, all[p]), LETHWYRN_OK, "stored");
            moved |= send_out(p);
        }
    }
    for (unsigned p = 0; p < 2; p++) want(lethwyrn_advance(&players[p].peer, &made), LETHWYRN_DONE, "done");
}

#define COST(name, call) do { \
        double from = now(); \
        for (int i = 0; i < CALLS; i++) call; \
        printf("%s %.1f\n", name, (now() - from) / CALLS); \
    } while (0)

int main(void)
{
    lethwyrn_track track;
    lethwyrn_wait wait;
    lethwyrn_greeting greet;
    uint8_t made, frame[LETHWYRN_FRAME_ROOM];
    size_t len, used;
    sprintf(session, "playout 1\ngrid 12 12\nrules 1 2 1\ncharge 1 3 2\nturns %d\nplayers 2\nplayer 0 2 5\nplayer 1 9 6\nend\n", TURNS);
    text = session, count = 2;
    for (unsigned p = 0; p < 2; p++) want(make(&players[p].peer, p), LETHWYRN_OK, "make");
    double from = now();
    match();
    printf("a turn of both peers, logs and frames included, %.0f\n", (now() - from) / TURNS);
    lethwyrn *peer = &players[0].peer, *other = &players[1].peer;
    want(lethwyrn_send_from(other, 0), LETHWYRN_OK, "send_from");
    want(lethwyrn_take_frame(other, frame, &len), LETHWYRN_OK, "take_frame");
    want(lethwyrn_hear(peer, 1, frame, len, &used, &greet), LETHWYRN_SAME, "hear");
    COST("next", lethwyrn_next(peer, &track));
    COST("player", lethwyrn_player(peer, 1, &track));
    COST("need", lethwyrn_need(peer, 0, &wait));
    COST("advance with nothing to do", lethwyrn_advance(peer, &made));
    COST("stored with nothing new", lethwyrn_stored(peer, 1));
    COST("take_frame with nothing to send", lethwyrn_take_frame(peer, frame, &len));
    want(lethwyrn_send_from(other, 0), LETHWYRN_OK, "send_from");
    want(lethwyrn_take_frame(other, frame, &len), LETHWYRN_OK, "take_frame");
    COST("hear a frame that is there already", lethwyrn_hear(peer, 1, frame, len, &used, &greet));
    for (unsigned p = 0; p < 2; p++) lethwyrn_free(&players[p].peer);
    from = now();
    for (int i = 0; i < 1000; i++) {
        want(make(peer, 0), LETHWYRN_OK, "make");
        lethwyrn_free(peer);
    }
    printf("make and free %.0f\n", (now() - from) / 1000);
    return 0;
}
