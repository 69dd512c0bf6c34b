/* Two peers in one program play a match of 20 turns over two queues of bytes. Each stores its log before it sends. One is lost twice, the first
 * time while an entry was being written, and goes on from what its disk has. In the end a forged frame is caught. */
#include "lethwyrn.h"
#include <stdio.h>
#include <stdlib.h>
#include <string.h>

enum { SIDE = 12, PIECE = 7, NO_CRASH = 99 };

static const char TEXT[] = "playout 1\ngrid 12 12\nrules 1 2 1\ncharge 1 3 2\nturns 20\nplayers 2\nplayer 0 2 5\nplayer 1 9 6\n"
                           "wall 5 3\nwall 6 3\nwall 5 8\nwall 6 8\nend\n";

typedef struct { uint8_t bytes[1 << 16]; size_t len, at; } queue;

static lethwyrn peer[2] = { LETHWYRN_NONE, LETHWYRN_NONE };
static queue inbox[2], disk[2];
static unsigned strikes, waited;

static void want(int32_t code, int32_t wanted, const char *what)
{
    if (code != wanted) {
        fprintf(stderr, "%s: code %d in place of %d\n", what, code, wanted);
        exit(1);
    }
}

static void put(queue *to, const uint8_t *bytes, size_t count)
{
    if (count > sizeof to->bytes - to->len) exit(1);
    memcpy(to->bytes + to->len, bytes, count);
    to->len += count;
}

static void draw(uint8_t nonce[32])
{
    FILE *source = fopen("/dev/urandom", "rb");
    if (!source || fread(nonce, 1, 32, source) != 32) exit(1);
    fclose(source);
}

static uint16_t beside(uint16_t at, uint32_t step)
{
    int to = (int)at + (int)(step % 3) - 1;
    return to < 0 ? 0 : (uint16_t)to;
}

/* a step to a cell around, with a strike now and then; where that isn't legal the player stays */
static int choose(int me)
{
    lethwyrn_track own;
    if (lethwyrn_next(&peer[me], &own) != LETHWYRN_OK) return 0;
    uint32_t dice = own.turns * 2654435761u + (uint32_t)me * 1779033703u;
    lethwyrn_move move = { beside(own.x, dice >> 16), beside(own.y, dice >> 24), 0, 0, own.charge >= 3 };
    if (move.strikes) { move.strike_x = beside(move.x, dice >> 20); move.strike_y = move.y; }
    uint8_t nonce[32];
    draw(nonce);
    int32_t code = lethwyrn_choose(&peer[me], &move, nonce);
    if (code == LETHWYRN_OK) { strikes += move.strikes; return 1; }
    printf("player %d may not go there in turn %u (code %d); it stays\n", me, own.turns, code);
    lethwyrn_move stay = { own.x, own.y, 0, 0, false };
    draw(nonce);
    want(lethwyrn_choose(&peer[me], &stay, nonce), LETHWYRN_OK, "stay");
    return 1;
}

/* what is allowed is made, the log is stored, and only then frames go out */
static int step(int me)
{
    uint8_t entry[LETHWYRN_LOG_ROOM], frame[LETHWYRN_FRAME_ROOM], made;
    size_t count;
    int did = 0;
    /* frames that were lost on the way, and are wanted again */
    while (lethwyrn_take_frame(&peer[me], frame, &count) == LETHWYRN_OK) { put(&inbox[1 - me], frame, count); did = 1; }
    did |= choose(me);
    int32_t code = lethwyrn_advance(&peer[me], &made);
    while (lethwyrn_take_log(&peer[me], entry, &count) == LETHWYRN_OK) { put(&disk[me], entry, count); did = 1; }
    if (code == LETHWYRN_MADE) {
        want(lethwyrn_take_frame(&peer[me], frame, &count), LETHWYRN_STORE_FIRST, "a frame whose entry isn't stored");
        waited++;
    }
    /* here a real program calls fsync */
    want(lethwyrn_stored(&peer[me], disk[me].len), LETHWYRN_OK, "stored");
    while (lethwyrn_take_frame(&peer[me], frame, &count) == LETHWYRN_OK) { put(&inbox[1 - me], frame, count); did = 1; }
    return did;
}

static void hear(int me)
{
    queue *from = &inbox[me];
    while (from->at < from->len) {
        size_t piece = from->len - from->at < PIECE ? from->len - from->at : PIECE, used;
        lethwyrn_greeting greet;
        int32_t code = lethwyrn_hear(&peer[me], (uint8_t)(1 - me), from->bytes + from->at, piece, &used, &greet);
        if (code == LETHWYRN_HELLO) {
            if (!greet.same_session) exit(1);
            want(lethwyrn_send_from(&peer[me], greet.next), LETHWYRN_OK, "send_from");
        } else if (code != LETHWYRN_MORE && code != LETHWYRN_SAME) {
            want(code, LETHWYRN_TAKEN, "hear");
        }
        from->at += used;
    }
}

static void show(uint32_t turn)
{
    char board[SIDE][SIDE + 1];
    for (int y = 0; y < SIDE; y++) { memset(board[y], '.', SIDE); board[y][SIDE] = 0; }
    board[3][5] = board[3][6] = board[8][5] = board[8][6] = '#';
    for (uint8_t p = 0; p < 2; p++) {
        lethwyrn_track track;
        want(lethwyrn_player(&peer[0], p, &track), LETHWYRN_OK, "player");
        board[track.y][track.x] = (char)('0' + p);
    }
    printf("turn %u\n", turn);
    for (int y = 0; y < SIDE; y++) puts(board[y]);
}

static int32_t resume(int me, lethwyrn_refusal *why)
{
    return lethwyrn_resume(&peer[me], (const uint8_t *)TEXT, sizeof TEXT - 1, (uint8_t)me, disk[me].bytes, disk[me].len, why);
}

/* all but the disk is lost, on which an entry was being written, and both meet over a new link */
static void lose(int me, size_t torn)
{
    static const uint8_t part[5] = { 0, 45, 2, 2, 0 }, pass[16] = { 7 };
    lethwyrn_refusal why = { 0, 0, 0, 0, false };
    put(&disk[me], part, torn);
    lethwyrn_free(&peer[me]);
    want(resume(me, &why), LETHWYRN_OK, "resume");
    if (why.dropped) disk[me].len = why.at;
    printf("player %d was lost, and goes on from %zu bytes of its log%s\n", me, disk[me].len, why.dropped ? ", behind which an entry was torn" : "");
    want(lethwyrn_link(&peer[1 - me], (uint8_t)me), LETHWYRN_OK, "link");
    for (int p = 0; p < 2; p++) {
        uint8_t hello[LETHWYRN_FRAME_ROOM];
        size_t count;
        inbox[p].len = inbox[p].at = 0;
        want(lethwyrn_greet(&peer[1 - p], (uint8_t)p, pass, hello, &count), LETHWYRN_OK, "greet");
        put(&inbox[p], hello, count);
    }
}

static void play(uint32_t first_crash, uint32_t second_crash)
{
    uint32_t shown = 0;
    for (int moved = 1; moved;) {
        moved = 0;
        for (int p = 0; p < 2; p++) { hear(p); moved |= step(p); }
        lethwyrn_track a, b;
        lethwyrn_player(&peer[0], 0, &a);
        lethwyrn_player(&peer[0], 1, &b);
        uint32_t both = a.turns < b.turns ? a.turns : b.turns;
        if (both > shown) {
            show(shown = both);
            if (shown == first_crash) { lose(0, 5); moved = 1; }
            if (shown == second_crash) { lose(0, 0); moved = 1; }
        }
    }
}

static void end_of_match(void)
{
    uint8_t made;
    lethwyrn_wait wait;
    lethwyrn_found found;
    for (int p = 0; p < 2; p++) {
        lethwyrn_hits hits;
        want(lethwyrn_advance(&peer[p], &made), LETHWYRN_DONE, "done");
        want(lethwyrn_need(&peer[p], 0, &wait), LETHWYRN_NOTHING, "need");
        want(lethwyrn_finding(&peer[p], &found), LETHWYRN_NOTHING, "finding");
        want(lethwyrn_score(&peer[p], &hits), LETHWYRN_OK, "score");
        printf("player %d: %u turns settled, %u hits given, %u taken, a log of %zu bytes\n", p, hits.settled, hits.given, hits.taken, disk[p].len);
    }
    printf("%u strikes\n", strikes);
    if (!waited) exit(1);
}

/* player 1 answers its own first commitment with another one */
static void cheat(void)
{
    uint8_t frame[LETHWYRN_FRAME_ROOM], made, text[LETHWYRN_EVIDENCE_ROOM];
    size_t count, used;
    lethwyrn_greeting greet;
    lethwyrn_found found;
    lethwyrn_refusal why = { 0, 0, 0, 0, false };
    for (int p = 0; p < 2; p++) {
        lethwyrn_free(&peer[p]);
        disk[p].len = inbox[p].len = inbox[p].at = 0;
        want(lethwyrn_make(&peer[p], (const uint8_t *)TEXT, sizeof TEXT - 1, (uint8_t)p, &why), LETHWYRN_OK, "make");
    }
    step(1);
    memcpy(frame, inbox[0].bytes, 40);
    frame[39] ^= 1;
    hear(0);
    want(lethwyrn_hear(&peer[0], 1, frame, 40, &used, &greet), LETHWYRN_CAUGHT, "two commitments");
    want(lethwyrn_finding(&peer[0], &found), LETHWYRN_OK, "finding");
    printf("caught: player %u, turn %u, kind %u, entries %u and %u\n", found.player, found.turn, found.kind, found.first, found.second);
    want(lethwyrn_advance(&peer[0], &made), LETHWYRN_CAUGHT, "advance behind a finding");
    want(lethwyrn_evidence(&peer[0], text, 10, &count), LETHWYRN_NO_ROOM, "evidence without room");
    want(lethwyrn_evidence(&peer[0], text, sizeof text, &count), LETHWYRN_OK, "evidence");
    printf("evidence of %zu bytes, which begins\n%.40s\n", count, text);
}

/* what is refused */
static void refusals(void)
{
    static const char bad[] = "playout 1\ngrid 0 12\n";
    lethwyrn none = LETHWYRN_NONE;
    lethwyrn_refusal why = { 0, 0, 0, 0, false };
    uint8_t made, zero[48] = { 0 };
    want(lethwyrn_advance(&none, &made), LETHWYRN_NO_PEER, "a handle of zeros");
    want(lethwyrn_make(&none, (const uint8_t *)bad, sizeof bad - 1, 0, &why), LETHWYRN_BAD_SESSION, "bad session");
    printf("refused: line %u, rule %u\n", why.line, why.rule);
    want(lethwyrn_make(&none, (const uint8_t *)TEXT, sizeof TEXT - 1, 2, &why), LETHWYRN_BAD_PLAYER, "bad player");
    want(lethwyrn_make(&none, (const uint8_t *)TEXT, sizeof TEXT - 1, 0, &why), LETHWYRN_OK, "make");
    want(lethwyrn_make(&none, (const uint8_t *)TEXT, sizeof TEXT - 1, 0, &why), LETHWYRN_IN_USE, "make twice");
    lethwyrn_greeting greet;
    size_t used;
    want(lethwyrn_hear(&none, 2, zero, 1, &used, &greet), LETHWYRN_BAD_PLAYER, "hear of nobody");
    want(lethwyrn_hear(&none, 1, zero, 48, &used, &greet), LETHWYRN_BAD_BYTE, "bad byte");
    printf("a bad byte behind %zu\n", used);
    lethwyrn_free(&none);
    lethwyrn_free(&none);
    want(lethwyrn_advance(&none, &made), LETHWYRN_NO_PEER, "a handle that was freed");
}

int main(void)
{
    lethwyrn_refusal why = { 0, 0, 0, 0, false };
    refusals();
    for (int p = 0; p < 2; p++)
        want(lethwyrn_make(&peer[p], (const uint8_t *)TEXT, sizeof TEXT - 1, (uint8_t)p, &why), LETHWYRN_OK, "make");
    play(7, 14);
    end_of_match();
    cheat();
    for (int p = 0; p < 2; p++) lethwyrn_free(&peer[p]);
    return 0;
}
