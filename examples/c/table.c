/* Three players of a session of version 2, who commit three turns ahead and differ in speed and reach, play over queues of bytes. One is lost
 * while the first entry of its log was being written, another one twice in the match. Where a folder is named, the session and the logs are left
 * there. */
#include "harness.h"

enum { TURNS = 12, COST = 2 };

static const char TEXT[] = "playout 2\ngrid 20 9\nrules 2 2 1\ncharge 1 4 2\nturns 12\nahead 3\nplayers 3\nplayer 0 8 4 3 1\nplayer 1 10 4 1 6\nplayer 2 12 4\n"
                           "wall 5 3\nwall 5 4\nwall 5 5\nend\n";

/* the first entry of player 2 is torn behind 40 bytes, the owner's first byte among them */
static void lose_the_first_entry(void)
{
    uint8_t entry[LETHWYRN_LOG_ROOM], frame[LETHWYRN_FRAME_ROOM], made;
    size_t len;
    want(choose(2, COST), 1, "a first choice");
    strikes[2] = 0;
    want(lethwyrn_advance(&players[2].peer, &made), LETHWYRN_MADE, "a first frame");
    want(lethwyrn_take_log(&players[2].peer, entry, &len), LETHWYRN_OK, "a first entry");
    want((int32_t)len, 77, "the owner's byte and a choice without a strike");
    put(&players[2].disk, entry, 40);
    want(lethwyrn_stored(&players[2].peer, 40), LETHWYRN_OK, "stored");
    want(lethwyrn_take_frame(&players[2].peer, frame, &len), LETHWYRN_STORE_FIRST, "a frame whose entry is torn");
    lose(2);
    want((int32_t)players[2].disk.len, 0, "bytes of a log without a whole entry");
}

static uint32_t turns_of(unsigned me)
{
    lethwyrn_track own;
    want(lethwyrn_player(&players[me].peer, (uint8_t)me, &own), LETHWYRN_OK, "player");
    return own.turns;
}

static void play(void)
{
    unsigned lost = 0;
    for (int moved = 1; moved;) {
        moved = 0;
        for (unsigned p = 0; p < count; p++) {
            uint8_t made;
            moved |= hear(p);
            moved |= choose(p, COST);
            moved |= lethwyrn_advance(&players[p].peer, &made) == LETHWYRN_MADE;
            moved |= store(p);
            moved |= send_out(p);
        }
        if (lost < 2 && turns_of(1) >= 4 * (lost + 1)) {
            static const uint8_t part[5] = { 0, 41, 1, 0, 0 };
            if (!lost++) put(&players[1].disk, part, sizeof part);
            lose(1);
            moved = 1;
        }
    }
}

/* the bytes of a log: a choice, a commitment and a reveal of each own turn, a commitment and a reveal of each other one, and four bytes for
   each strike in a choice or reveal */
static size_t log_len(unsigned me)
{
    size_t len = 1 + TURNS * (76 + 75 + 80) + 8 * strikes[me];
    for (unsigned q = 0; q < count; q++)
        if (q != me) len += TURNS * (76 + 81) + 4 * strikes[q];
    return len;
}

/* the session's text and the logs, for whoever reads them without the library */
static void save(const char *folder, const char *name, const void *bytes, size_t len)
{
    char path[512];
    want(snprintf(path, sizeof path, "%s/%s", folder, name) < (int)sizeof path, 1, "a path");
    FILE *file = fopen(path, "wb");
    want(file && fwrite(bytes, 1, len, file) == len && !fclose(file), 1, path);
}

int main(int words, char **word)
{
    text = TEXT, count = 3;
    for (unsigned p = 0; p < count; p++) want(make(&players[p].peer, p), LETHWYRN_OK, "make");
    lose_the_first_entry();
    play();
    for (unsigned p = 0; p < count; p++) {
        lethwyrn again = LETHWYRN_NONE;
        lethwyrn_refusal why = { 0, 0, 0, 0, false };
        lethwyrn_hits hits;
        lethwyrn_track at, seen;
        lethwyrn_wait wait;
        uint8_t made;
        want(lethwyrn_advance(&players[p].peer, &made), LETHWYRN_DONE, "done");
        want(lethwyrn_need(&players[p].peer, 0, &wait), LETHWYRN_NOTHING, "need");
        want(lethwyrn_score(&players[p].peer, &hits), LETHWYRN_OK, "score");
        want((int32_t)hits.settled, TURNS, "settled turns");
        want(lethwyrn_player(&players[p].peer, (uint8_t)p, &at), LETHWYRN_OK, "player");
        for (unsigned q = 0; q < count; q++) {
            want(lethwyrn_player(&players[q].peer, (uint8_t)p, &seen), LETHWYRN_OK, "player");
            want(seen.x == at.x && seen.y == at.y && seen.charge == at.charge && seen.turns == TURNS, 1, "what the others see");
        }
        want((int32_t)players[p].disk.len, (int32_t)log_len(p), "bytes of the log");
        want(resume(&again, p, &players[p].disk, &why), LETHWYRN_OK, "the whole log");
        want(!why.dropped && why.at == players[p].disk.len, 1, "a log without a fault");
        want(lethwyrn_advance(&again, &made), LETHWYRN_DONE, "done");
        printf("player %u: at %u %u, charge %u, %u strikes, %u hits given, %u taken, a log of %zu bytes\n", p, at.x, at.y, at.charge, strikes[p], hits.given,
               hits.taken, players[p].disk.len);
        lethwyrn_free(&again);
    }
    want(same > 0, 1, "frames that came again");
    if (words > 1) {
        static const char *const LOGS[] = { "log0", "log1", "log2" };
        save(word[1], "session", TEXT, sizeof TEXT - 1);
        for (unsigned p = 0; p < count; p++) save(word[1], LOGS[p], players[p].disk.bytes, players[p].disk.len);
    }
    for (unsigned p = 0; p < count; p++) lethwyrn_free(&players[p].peer);
    return 0;
}
