/* What the examples share: players in one program, each with a peer, a disk, and a queue of bytes from each other player. */
#ifndef HARNESS_H
#define HARNESS_H

#include "lethwyrn.h"
#include <stdio.h>
#include <stdlib.h>
#include <string.h>

enum { PIECE = 7, MOST = 4 };

typedef struct { uint8_t bytes[1 << 16]; size_t len, at; } queue;

/* `due`: the place of the own frame that is handed out next */
typedef struct { lethwyrn peer; queue disk, from[MOST]; uint32_t due; } player;

static player players[MOST];
static unsigned count; /* of players */
static const char *text;
static unsigned same, strikes[MOST]; /* frames that came again, strikes by player */

static inline void want(int32_t code, int32_t wanted, const char *what)
{
    if (code == wanted) return;
    fprintf(stderr, "%s: %d in place of %d\n", what, code, wanted);
    exit(1);
}

static inline void put(queue *to, const uint8_t *bytes, size_t len)
{
    want(len <= sizeof to->bytes - to->len, 1, "room in a queue");
    memcpy(to->bytes + to->len, bytes, len);
    to->len += len;
}

static inline void draw(uint8_t nonce[32])
{
    FILE *source = fopen("/dev/urandom", "rb");
    want(source && fread(nonce, 1, 32, source) == 32, 1, "random bytes");
    fclose(source);
}

static inline int32_t make(lethwyrn *peer, unsigned me)
{
    lethwyrn_refusal why = { 0, 0, 0, 0, false };
    return lethwyrn_make(peer, (const uint8_t *)text, strlen(text), (uint8_t)me, &why);
}

static inline int32_t resume(lethwyrn *peer, unsigned me, const queue *disk, lethwyrn_refusal *why)
{
    return lethwyrn_resume(peer, (const uint8_t *)text, strlen(text), (uint8_t)me, disk->bytes, disk->len, why);
}

static inline uint16_t beside(uint16_t at, uint32_t step)
{
    int to = (int)at + (int)(step % 3) - 1;
    return to < 0 ? 0 : (uint16_t)to;
}

/* a step to a cell around, with a strike where there is charge for it; where that isn't legal the player stays */
static inline int choose(unsigned me, uint8_t cost)
{
    player *p = &players[me];
    lethwyrn_track own;
    uint8_t nonce[32];
    if (lethwyrn_next(&p->peer, &own) != LETHWYRN_OK) return 0;
    uint32_t dice = own.turns * 2654435761u + me * 1779033703u;
    lethwyrn_move move = { beside(own.x, dice >> 16), beside(own.y, dice >> 24), 0, 0, own.charge >= cost };
    if (move.strikes) { move.strike_x = beside(move.x, dice >> 20); move.strike_y = move.y; }
    draw(nonce);
    if (lethwyrn_choose(&p->peer, &move, nonce) == LETHWYRN_OK) { strikes[me] += move.strikes; return 1; }
    lethwyrn_move stay = { own.x, own.y, 0, 0, false };
    want(lethwyrn_choose(&p->peer, &stay, nonce), LETHWYRN_OK, "stay");
    return 1;
}

static inline void send_back_to(unsigned me, uint32_t place)
{
    if (place >= players[me].due) return;
    want(lethwyrn_send_from(&players[me].peer, place), LETHWYRN_OK, "send_from");
    players[me].due = place;
}

/* what came for a player, in pieces */
static inline int hear(unsigned me)
{
    int did = 0;
    for (unsigned q = 0; q < count; q++) {
        queue *from = &players[me].from[q];
        while (from->at < from->len) {
            size_t piece = from->len - from->at < PIECE ? from->len - from->at : (size_t)PIECE, used;
            lethwyrn_greeting greet;
            int32_t code = lethwyrn_hear(&players[me].peer, (uint8_t)q, from->bytes + from->at, piece, &used, &greet);
            if (code == LETHWYRN_HELLO) {
                want(greet.same_session && greet.player == q, 1, "a hello of this session");
                send_back_to(me, greet.next);
            } else if (code == LETHWYRN_SAME) {
                same++;
            } else if (code != LETHWYRN_MORE && code != LETHWYRN_STASHED) {
                want(code, LETHWYRN_TAKEN, "hear");
            }
            from->at += used;
            did = 1;
        }
        from->at = from->len = 0;
    }
    return did;
}

/* the own frames that may go out, to all others */
static inline int send_out(unsigned me)
{
    uint8_t frame[LETHWYRN_FRAME_ROOM];
    size_t len;
    int did = 0;
    while (lethwyrn_take_frame(&players[me].peer, frame, &len) == LETHWYRN_OK) {
        players[me].due++;
        for (unsigned q = 0; q < count; q++)
            if (q != me) put(&players[q].from[me], frame, len);
        did = 1;
    }
    return did;
}

/* what is new in the log goes to the disk */
static inline int store(unsigned me)
{
    uint8_t entry[LETHWYRN_LOG_ROOM];
    size_t len;
    int did = 0;
    while (lethwyrn_take_log(&players[me].peer, entry, &len) == LETHWYRN_OK) { put(&players[me].disk, entry, len); did = 1; }
    /* here a real program calls fsync */
    want(lethwyrn_stored(&players[me].peer, players[me].disk.len), LETHWYRN_OK, "stored");
    return did;
}

/* all but the disk is lost, and the player goes on from that; the others meet it over new links */
static inline void lose(unsigned me)
{
    static const uint8_t pass[16] = { 7 };
    lethwyrn_refusal why = { 0, 0, 0, 0, false };
    player *p = &players[me];
    lethwyrn_free(&p->peer);
    want(resume(&p->peer, me, &p->disk, &why), LETHWYRN_OK, "resume");
    printf("player %u goes on from %u of %zu bytes of its log%s\n", me, why.at, p->disk.len, why.dropped ? ", behind which an entry was torn" : "");
    if (why.dropped) p->disk.len = why.at;
    p->due = 0;
    for (unsigned q = 0; q < count; q++) {
        uint8_t hello[LETHWYRN_FRAME_ROOM];
        size_t len;
        if (q == me) continue;
        want(lethwyrn_link(&players[q].peer, (uint8_t)me), LETHWYRN_OK, "link");
        p->from[q].len = p->from[q].at = players[q].from[me].len = players[q].from[me].at = 0;
        want(lethwyrn_greet(&p->peer, (uint8_t)q, pass, hello, &len), LETHWYRN_OK, "greet");
        put(&players[q].from[me], hello, len);
        want(lethwyrn_greet(&players[q].peer, (uint8_t)me, pass, hello, &len), LETHWYRN_OK, "greet");
        put(&p->from[q], hello, len);
    }
}

#endif
