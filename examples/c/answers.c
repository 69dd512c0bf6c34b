/* The answers of each call, what it tells, that no call takes memory but those that make something, and that the calls that free give all of
 * it back. It is linked with --wrap=malloc, --wrap=realloc and --wrap=free. */
#define _DEFAULT_SOURCE
#include "harness.h"
#include <sys/mman.h>

static const char TEXT[] = "playout 1\ngrid 12 12\nrules 1 2 1\ncharge 1 3 2\nturns 6\nplayers 2\nplayer 0 2 5\nplayer 1 4 5\nwall 1 5\nend\n";
enum { UNLIMITED = 1000000 };

static int left = UNLIMITED; /* how many blocks of memory may still be taken */
static int taken;            /* how many are */

void *__real_malloc(size_t size);
void *__real_realloc(void *at, size_t size);
void *__wrap_malloc(size_t size);
void *__wrap_realloc(void *at, size_t size);
void __real_free(void *at);
void __wrap_free(void *at);

void *__wrap_malloc(size_t size)
{
    void *at = left > 0 && left-- ? __real_malloc(size) : NULL;
    taken += at != NULL;
    return at;
}

void *__wrap_realloc(void *at, size_t size)
{
    void *to = left > 0 && left-- ? __real_realloc(at, size) : NULL;
    taken += to && !at;
    return to;
}

void __wrap_free(void *at)
{
    taken -= at != NULL;
    __real_free(at);
}

static lethwyrn_refusal why;
static uint8_t made, zero[48];
static size_t len, used;
static lethwyrn_greeting greet;

static int32_t make_of(lethwyrn *peer, const char *session, uint8_t me)
{
    why = (lethwyrn_refusal) { 91, 92, 93, 94, false };
    return lethwyrn_make(peer, (const uint8_t *)session, strlen(session), me, &why);
}

static void told(uint32_t line, uint32_t rule, uint32_t at, uint32_t cause, bool dropped)
{
    want(why.line == line && why.rule == rule && why.at == at && why.why == cause && why.dropped == dropped, 1, "why");
}

/* a peer is refused, and made */
static void refusals(void)
{
    lethwyrn peer = LETHWYRN_NONE;
    want(make_of(&peer, "", 0), LETHWYRN_BAD_SESSION, "an empty text");
    told(1, 1, 93, 94, false);
    want(make_of(&peer, "playout 3\n", 0), LETHWYRN_BAD_SESSION, "another version");
    told(1, 2, 93, 94, false);
    want(make_of(&peer, "playout 1\ngrid 257 1\n", 0), LETHWYRN_BAD_SESSION, "a grid that is too wide");
    told(2, 3, 93, 94, false);
    want(make_of(&peer, TEXT, 2), LETHWYRN_BAD_PLAYER, "a third of two players");
    told(91, 92, 93, 94, false);
    want(make_of(&peer, TEXT, 0), LETHWYRN_OK, "make");
    told(91, 92, 93, 94, false);
    want(make_of(&peer, "", 0), LETHWYRN_IN_USE, "make twice");
    told(91, 92, 93, 94, false);
    want(lethwyrn_resume(&peer, zero, 0, 0, zero, 0, &why), LETHWYRN_IN_USE, "resume twice");
    lethwyrn_free(&peer);
    lethwyrn_free(&peer);
}

/* without a peer */
static void nobody(void)
{
    lethwyrn none = LETHWYRN_NONE;
    lethwyrn_move move = { 0, 0, 0, 0, false };
    lethwyrn_wait wait;
    lethwyrn_found found;
    lethwyrn_track track;
    lethwyrn_hits hits;
    uint8_t out[LETHWYRN_LOG_ROOM];
    made = 9, len = used = 9;
    want(lethwyrn_choose(&none, &move, zero), LETHWYRN_NO_PEER, "choose");
    want(lethwyrn_hear(&none, 0, zero, 1, &used, &greet), LETHWYRN_NO_PEER, "hear");
    want(lethwyrn_link(&none, 0), LETHWYRN_NO_PEER, "link");
    want(lethwyrn_greet(&none, 0, zero, out, &len), LETHWYRN_NO_PEER, "greet");
    want(lethwyrn_advance(&none, &made), LETHWYRN_NO_PEER, "advance");
    want(lethwyrn_take_log(&none, out, &len), LETHWYRN_NO_PEER, "take_log");
    want(lethwyrn_stored(&none, 1), LETHWYRN_NO_PEER, "stored");
    want(lethwyrn_take_frame(&none, out, &len), LETHWYRN_NO_PEER, "take_frame");
    want(lethwyrn_send_from(&none, 0), LETHWYRN_NO_PEER, "send_from");
    want(lethwyrn_need(&none, 0, &wait), LETHWYRN_NO_PEER, "need");
    want(lethwyrn_finding(&none, &found), LETHWYRN_NO_PEER, "finding");
    want(lethwyrn_evidence(&none, out, sizeof out, &len), LETHWYRN_NO_PEER, "evidence");
    want(lethwyrn_player(&none, 0, &track), LETHWYRN_NO_PEER, "player");
    want(lethwyrn_next(&none, &track), LETHWYRN_NO_PEER, "next");
    want(lethwyrn_score(&none, &hits), LETHWYRN_NO_PEER, "score");
    want(!made && !len && !used, 1, "what was written");
}

/* a peer is refused wherever memory is wanting, and nothing is lost then */
static void no_memory(const queue *log)
{
    lethwyrn peer = LETHWYRN_NONE;
    int32_t code = LETHWYRN_NO_MEMORY;
    for (int room = 0; code != LETHWYRN_OK; room++) {
        left = room;
        code = make_of(&peer, TEXT, 0);
        told(91, 92, 93, 94, false);
        if (code != LETHWYRN_OK) want(code, LETHWYRN_NO_MEMORY, "make");
        if (code != LETHWYRN_OK) want(lethwyrn_advance(&peer, &made), LETHWYRN_NO_PEER, "a handle that was refused a peer");
    }
    left = UNLIMITED;
    lethwyrn_free(&peer);
    code = LETHWYRN_NO_MEMORY;
    for (int room = 0; code != LETHWYRN_OK; room++) {
        why = (lethwyrn_refusal) { 91, 92, 93, 94, false };
        left = room;
        code = lethwyrn_resume(&peer, (const uint8_t *)TEXT, sizeof TEXT - 1, 0, log->bytes, log->len, &why);
        if (code != LETHWYRN_OK) want(code, LETHWYRN_NO_MEMORY, "resume");
        if (code != LETHWYRN_OK) told(91, 92, 93, 94, false);
    }
    told(91, 92, (uint32_t)log->len, 94, false);
    left = UNLIMITED;
    lethwyrn_free(&peer);
}

/* logs that can't be gone on from, and those that can up to a fault */
static void logs(const queue *log)
{
    static uint8_t other[1 << 16];
    lethwyrn peer = LETHWYRN_NONE;
    size_t whole = log->len;
    why = (lethwyrn_refusal) { 91, 92, 93, 94, false };
    want(lethwyrn_resume(&peer, (const uint8_t *)TEXT, sizeof TEXT - 1, 1, log->bytes, whole, &why), LETHWYRN_BAD_LOG, "another player's log");
    told(91, 92, 1, 5, false);
    want(lethwyrn_resume(&peer, (const uint8_t *)TEXT, sizeof TEXT - 1, 2, log->bytes, whole, &why), LETHWYRN_BAD_PLAYER, "a third player");
    uint8_t *most = mmap(NULL, 67108865, PROT_READ, MAP_PRIVATE | MAP_ANONYMOUS | MAP_NORESERVE, -1, 0);
    want(most != MAP_FAILED, 1, "a longest log");
    want(lethwyrn_resume(&peer, (const uint8_t *)TEXT, sizeof TEXT - 1, 0, most, 67108865, &why), LETHWYRN_BAD_LOG, "a log that is too long");
    told(91, 92, 67108864, 1, false);
    munmap(most, 67108865);
    why = (lethwyrn_refusal) { 91, 92, 93, 94, false };
    /* the last byte of an entry is another: the log is kept up to it. The first entry has 77 bytes, the others 75 or more */
    memcpy(other, log->bytes, whole);
    other[76] ^= 1;
    want(lethwyrn_resume(&peer, (const uint8_t *)TEXT, sizeof TEXT - 1, 0, other, whole, &why), LETHWYRN_OK, "a first entry that is changed");
    told(91, 92, 0, 94, true);
    lethwyrn_free(&peer);
    memcpy(other, log->bytes, whole);
    other[whole - 1] ^= 1;
    want(lethwyrn_resume(&peer, (const uint8_t *)TEXT, sizeof TEXT - 1, 0, other, whole, &why), LETHWYRN_OK, "a last entry that is changed");
    want(why.dropped && why.at < whole && why.at + 85 >= whole, 1, "where the last entry begins");
    lethwyrn_free(&peer);
    why = (lethwyrn_refusal) { 91, 92, 93, 94, true };
    want(lethwyrn_resume(&peer, (const uint8_t *)TEXT, sizeof TEXT - 1, 0, zero, 0, &why), LETHWYRN_OK, "an empty log");
    told(91, 92, 0, 94, false);
    lethwyrn_free(&peer);
}

static int32_t choose_of(lethwyrn *peer, uint16_t x, uint16_t y, int strike_x, int strike_y)
{
    lethwyrn_move move = { x, y, 0, 0, strike_x >= 0 };
    uint8_t nonce[32];
    draw(nonce);
    if (move.strikes) { move.strike_x = (uint16_t)strike_x; move.strike_y = (uint16_t)strike_y; }
    return lethwyrn_choose(peer, &move, nonce);
}

static int32_t hear_of(lethwyrn *peer, uint8_t from, const void *bytes, size_t size)
{
    greet = (lethwyrn_greeting) { 71, 72, false, { 73 } };
    return lethwyrn_hear(peer, from, bytes, size, &used, &greet);
}

static void greeted(uint32_t next, uint8_t from, bool session, uint8_t pass)
{
    want(greet.next == next && greet.player == from && greet.same_session == session, 1, "greet");
    want(greet.pass[0] == pass && greet.pass[15] == (from == 1 ? 9 : 0), 1, "pass");
}

/* what may be chosen, and what is told before and behind it */
static void choices(lethwyrn *peer)
{
    lethwyrn_track own;
    lethwyrn_wait wait;
    lethwyrn_found found;
    lethwyrn_hits hits;
    uint8_t out[LETHWYRN_LOG_ROOM];
    want(lethwyrn_next(peer, &own), LETHWYRN_OK, "next");
    want(own.turns == 0 && own.next == 0 && own.x == 2 && own.y == 5 && own.charge == 1, 1, "the own track");
    want(lethwyrn_advance(peer, &made), LETHWYRN_CHOOSE, "advance");
    want(choose_of(peer, 12, 5, -1, -1), LETHWYRN_OUTSIDE, "a target outside");
    want(choose_of(peer, 1, 5, -1, -1), LETHWYRN_WALL, "a wall");
    want(choose_of(peer, 4, 5, -1, -1), LETHWYRN_TOO_FAR, "too far");
    want(choose_of(peer, 2, 5, 2, 12), LETHWYRN_STRIKE_OUTSIDE, "a strike outside");
    want(choose_of(peer, 2, 5, 5, 5), LETHWYRN_STRIKE_FAR, "a strike too far");
    want(choose_of(peer, 2, 5, 4, 5), LETHWYRN_NO_CHARGE, "a strike without charge");
    want(lethwyrn_take_log(peer, out, &len), LETHWYRN_NOTHING, "nothing is logged");
    want(choose_of(peer, 2, 5, -1, -1), LETHWYRN_OK, "choose");
    want(choose_of(peer, 2, 5, -1, -1), LETHWYRN_NOT_NOW, "choose twice");
    want(lethwyrn_next(peer, &own), LETHWYRN_NOT_NOW, "next");
    want(own.turns == 1 && own.next == 0 && own.charge == 2, 1, "the track behind the choice");
    want(lethwyrn_advance(peer, &made), LETHWYRN_MADE, "advance");
    want(made, 1, "frames made");
    want(lethwyrn_advance(peer, &made), LETHWYRN_WAITS, "advance");
    want(made, 0, "frames made");
    want(lethwyrn_need(peer, 0, &wait), LETHWYRN_OK, "need");
    want(wait.player == 1 && wait.turn == 0 && wait.what == 0 && wait.next == 0, 1, "the need");
    want(lethwyrn_need(peer, 1, &wait), LETHWYRN_NOTHING, "a second need");
    want(lethwyrn_player(peer, 1, &own), LETHWYRN_OK, "player");
    want(own.turns == 0 && own.next == 0 && own.x == 4 && own.y == 5 && own.charge == 1, 1, "the other's track");
    want(lethwyrn_player(peer, 2, &own), LETHWYRN_BAD_PLAYER, "a third player");
    want(lethwyrn_score(peer, &hits), LETHWYRN_OK, "score");
    want(!hits.settled && !hits.given && !hits.taken, 1, "the hits");
    want(lethwyrn_finding(peer, &found), LETHWYRN_NOTHING, "finding");
    want(lethwyrn_evidence(peer, out, sizeof out, &len), LETHWYRN_NOTHING, "evidence");
}

/* a frame waits for the bytes of its own entries, and no longer */
static void storing(lethwyrn *peer, uint8_t frame[LETHWYRN_FRAME_ROOM])
{
    uint8_t entry[LETHWYRN_LOG_ROOM];
    want(lethwyrn_take_frame(peer, frame, &len), LETHWYRN_STORE_FIRST, "before anything is stored");
    want(lethwyrn_stored(peer, 1000), LETHWYRN_OK, "more is named than was handed out");
    want(lethwyrn_take_frame(peer, frame, &len), LETHWYRN_STORE_FIRST, "before anything was handed out");
    want(lethwyrn_take_log(peer, entry, &len), LETHWYRN_OK, "the choice");
    want((int32_t)len, 77, "its bytes");
    want(lethwyrn_stored(peer, 77), LETHWYRN_OK, "stored");
    want(lethwyrn_take_frame(peer, frame, &len), LETHWYRN_STORE_FIRST, "before the commitment was handed out");
    want(lethwyrn_take_log(peer, entry, &len), LETHWYRN_OK, "the commitment");
    want((int32_t)len, 75, "its bytes");
    want(lethwyrn_take_log(peer, entry, &len), LETHWYRN_NOTHING, "the log");
    want(lethwyrn_stored(peer, 151), LETHWYRN_OK, "one byte lacks");
    want(lethwyrn_take_frame(peer, frame, &len), LETHWYRN_STORE_FIRST, "with one byte lacking");
    want(lethwyrn_stored(peer, 152), LETHWYRN_OK, "stored");
    want(lethwyrn_stored(peer, 0), LETHWYRN_OK, "what is stored stays so");
    want(lethwyrn_take_frame(peer, frame, &len), LETHWYRN_OK, "the frame");
    want((int32_t)len, 40, "its bytes");
    want(memcmp(frame, entry + 3, 40), 0, "the frame is the one in the log");
    want(lethwyrn_take_frame(peer, frame, &len), LETHWYRN_NOTHING, "a second frame");
    want(lethwyrn_send_from(peer, 0), LETHWYRN_OK, "send_from");
    want(lethwyrn_take_frame(peer, frame, &len), LETHWYRN_OK, "the frame again");
}

/* what comes over a link */
static void links(lethwyrn *peer, lethwyrn *other)
{
    static const uint8_t wanted[7] = { 4, 0, 4, 0, 0, 0, 3 }, bad[2] = { 4, 9 }, pass[16] = { 8, 0, 0, 0, 0, 0, 0, 0, 0, 0, 0, 0, 0, 0, 0, 9 };
    uint8_t hello[LETHWYRN_FRAME_ROOM], far[40] = { 2, 0, 37, 1, 0, 0, 0, 5 }, foreign[40] = { 2, 0, 37, 0, 0, 0, 0, 0 };
    want(hear_of(peer, 2, wanted, 7), LETHWYRN_BAD_PLAYER, "hear of nobody");
    want((int32_t)used, 0, "bytes used");
    want(hear_of(peer, 1, wanted, 3), LETHWYRN_MORE, "a part");
    want((int32_t)used, 3, "bytes used");
    greeted(71, 72, false, 73);
    want(hear_of(peer, 1, wanted + 3, 4), LETHWYRN_WANT, "a want");
    greeted(3, 72, false, 73);
    want(lethwyrn_greet(other, 0, pass, hello, &len), LETHWYRN_OK, "greet");
    want((int32_t)len, 56, "a hello's bytes");
    want(hear_of(peer, 1, hello, len), LETHWYRN_HELLO, "a hello");
    greeted(0, 1, true, 8);
    hello[3] ^= 1;
    want(hear_of(peer, 1, hello, len), LETHWYRN_HELLO, "a hello of another session");
    greeted(0, 1, false, 8);
    want(lethwyrn_greet(peer, 2, zero, hello, &len), LETHWYRN_BAD_PLAYER, "greet");
    want((int32_t)len, 0, "bytes");
    want(hear_of(peer, 1, far, 40), LETHWYRN_FAR, "past the window");
    want(hear_of(peer, 1, foreign, 40), LETHWYRN_FOREIGN, "another's frame");
    want(hear_of(peer, 1, bad, 2), LETHWYRN_BAD_BYTE, "a bad byte");
    want((int32_t)used, 1, "bytes before it");
    want(hear_of(peer, 1, wanted, 7), LETHWYRN_BAD_BYTE, "behind a bad byte");
    want(lethwyrn_link(peer, 2), LETHWYRN_BAD_PLAYER, "link");
    want(lethwyrn_link(peer, 1), LETHWYRN_OK, "link");
    want(hear_of(peer, 1, wanted, 7), LETHWYRN_WANT, "over a new link");
    size_t much = (size_t)1 << 32;
    uint8_t *most = mmap(NULL, much, PROT_READ, MAP_PRIVATE | MAP_ANONYMOUS | MAP_NORESERVE, -1, 0);
    want(most != MAP_FAILED, 1, "4 GiB of zeros");
    want(hear_of(peer, 1, most, much), LETHWYRN_TOO_MANY, "too many at once");
    want((int32_t)used, 0, "bytes used");
    munmap(most, much);
}

static size_t spell(char *out, const char *head, const uint8_t *frame, size_t size)
{
    size_t at = (size_t)sprintf(out, "%s", head);
    for (size_t i = 0; i < size; i++) at += (size_t)sprintf(out + at, "%02x", frame[i]);
    return at + (size_t)sprintf(out + at, "\n");
}

/* player 1 commits twice to turn 0 */
static void cheat(void)
{
    lethwyrn own = LETHWYRN_NONE, twin[2] = { LETHWYRN_NONE, LETHWYRN_NONE };
    uint8_t frame[2][LETHWYRN_FRAME_ROOM], out[LETHWYRN_EVIDENCE_ROOM];
    char due[LETHWYRN_EVIDENCE_ROOM];
    lethwyrn_found found;
    left = UNLIMITED;
    want(make_of(&own, TEXT, 0), LETHWYRN_OK, "make");
    for (int i = 0; i < 2; i++) {
        uint8_t entry[LETHWYRN_LOG_ROOM];
        want(make_of(&twin[i], TEXT, 1), LETHWYRN_OK, "make");
        want(choose_of(&twin[i], 4, 5, -1, -1), LETHWYRN_OK, "choose");
        want(lethwyrn_advance(&twin[i], &made), LETHWYRN_MADE, "advance");
        while (lethwyrn_take_log(&twin[i], entry, &len) == LETHWYRN_OK) {}
        want(lethwyrn_stored(&twin[i], 152), LETHWYRN_OK, "stored");
        want(lethwyrn_take_frame(&twin[i], frame[i], &len), LETHWYRN_OK, "the commitment");
    }
    left = 0;
    want(hear_of(&own, 1, frame[0], 40), LETHWYRN_TAKEN, "a commitment");
    want(hear_of(&own, 1, frame[0], 40), LETHWYRN_SAME, "the same again");
    want(hear_of(&own, 1, frame[1], 40), LETHWYRN_CAUGHT, "another one");
    want(hear_of(&own, 1, frame[0], 40), LETHWYRN_CLOSED, "behind a finding");
    want(lethwyrn_finding(&own, &found), LETHWYRN_OK, "finding");
    want(found.player == 1 && found.turn == 0 && found.kind == 1 && found.first == 0 && found.second == 1, 1, "the finding");
    want(lethwyrn_advance(&own, &made), LETHWYRN_CAUGHT, "advance");
    want(choose_of(&own, 2, 5, -1, -1), LETHWYRN_NOT_NOW, "choose");
    size_t size = spell(due, "evidence 1\nplayer 1\nturn 0\nkind two-commits\nframe ", frame[0], 40);
    size += spell(due + size, "frame ", frame[1], 40);
    size += (size_t)sprintf(due + size, "end\n");
    len = 9;
    want(lethwyrn_evidence(&own, out, size - 1, &len), LETHWYRN_NO_ROOM, "evidence without room");
    want((int32_t)len, 0, "bytes");
    want(lethwyrn_evidence(&own, out, size, &len), LETHWYRN_OK, "evidence");
    want(len == size && !memcmp(out, due, size), 1, "the text");
    left = UNLIMITED;
    for (int i = 0; i < 2; i++) lethwyrn_free(&twin[i]);
    lethwyrn_free(&own);
}

static void step(unsigned me, uint32_t turns)
{
    lethwyrn_track own;
    hear(me);
    if (lethwyrn_next(&players[me].peer, &own) == LETHWYRN_OK && own.turns < turns) choose(me, 2);
    lethwyrn_advance(&players[me].peer, &made);
    store(me);
    send_out(me);
}

/* in the third turn, where the numbers that are told differ from each other: for whom player 1 waits, and a cheat of player 0 */
static void third_turn(void)
{
    lethwyrn *peer = &players[1].peer;
    lethwyrn_wait wait;
    lethwyrn_found found;
    left = UNLIMITED;
    for (unsigned p = 0; p < 2; p++) {
        memset(&players[p], 0, sizeof players[p]);
        want(make(&players[p].peer, p), LETHWYRN_OK, "make");
    }
    left = 0;
    for (int i = 0; i < 20; i++) step((unsigned)i % 2, 2);
    step(0, 3);
    queue commit = players[1].from[0];
    want((int32_t)commit.len, 40, "the third commitment");
    step(1, 3);
    want(lethwyrn_advance(peer, &made), LETHWYRN_WAITS, "advance");
    want(lethwyrn_need(peer, 0, &wait), LETHWYRN_OK, "need");
    want(wait.player == 0 && wait.turn == 2 && wait.what == 1 && wait.next == 5, 1, "the need of a reveal");
    commit.bytes[39] ^= 1;
    want(hear_of(peer, 0, commit.bytes, 40), LETHWYRN_CAUGHT, "another commitment");
    want(lethwyrn_finding(peer, &found), LETHWYRN_OK, "finding");
    want(found.player == 0 && found.turn == 2 && found.kind == 1, 1, "the finding");
    /* two turns have ten entries; behind the commitment stand an own choice, commitment and reveal */
    want(found.first == 10 && found.second == 14, 1, "its entries");
    left = UNLIMITED;
    for (unsigned p = 0; p < 2; p++) lethwyrn_free(&players[p].peer);
}

static int32_t keys_of(lethwyrn_seals *s, const char *session, uint8_t me)
{
    static const uint8_t seed[32] = { 5 };
    why = (lethwyrn_refusal) { 91, 92, 93, 94, false };
    return lethwyrn_seals_keys(s, (const uint8_t *)session, strlen(session), me, seed, &why);
}

static int32_t judge_of(lethwyrn_seals *s, const char *session)
{
    why = (lethwyrn_refusal) { 91, 92, 93, 94, false };
    return lethwyrn_seals_make(s, (const uint8_t *)session, strlen(session), &why);
}

/* handles of seals are refused, and made */
static void seal_refusals(void)
{
    lethwyrn_seals s = LETHWYRN_NONE;
    want(judge_of(&s, ""), LETHWYRN_BAD_SESSION, "an empty text");
    told(1, 1, 93, 94, false);
    want(keys_of(&s, "playout 1\ngrid 257 1\n", 0), LETHWYRN_BAD_SESSION, "a grid that is too wide");
    told(2, 3, 93, 94, false);
    want(keys_of(&s, TEXT, 2), LETHWYRN_BAD_PLAYER, "a third of two players");
    told(91, 92, 93, 94, false);
    want(judge_of(&s, TEXT), LETHWYRN_OK, "seals_make");
    told(91, 92, 93, 94, false);
    want(judge_of(&s, ""), LETHWYRN_IN_USE, "seals_make twice");
    want(keys_of(&s, "", 0), LETHWYRN_IN_USE, "keys for a handle that has a session");
    told(91, 92, 93, 94, false);
    lethwyrn_seals_free(&s);
    lethwyrn_seals_free(&s);
}

/* what is sealed and judged without memory: it is that of the handle */
static void seals_of(lethwyrn_seals *keys, lethwyrn_seals *judge)
{
    static uint8_t seal[LETHWYRN_SEAL_ROOM], blank[LETHWYRN_SEAL_ROOM];
    uint8_t frame[40] = { 2, 0, 37, 0, 0, 0, 0, 5, 1 }, root[32] = { 9 };
    want(lethwyrn_seal_len(judge, &len), LETHWYRN_OK, "seal_len");
    want((int32_t)len, 16384 + 32 * 4, "for twelve places");
    want(lethwyrn_root(judge, root), LETHWYRN_NO_KEYS, "the root of no keys");
    want(root[0], 9, "the root");
    want(lethwyrn_seal(judge, frame, 40, seal, sizeof seal, &len), LETHWYRN_NO_KEYS, "seal without keys");
    want(lethwyrn_root(keys, root), LETHWYRN_OK, "root");
    want(lethwyrn_seal(keys, frame, 39, seal, 0, &len), LETHWYRN_NO_FRAME, "a frame without its last byte");
    want(lethwyrn_seal(keys, frame, 40, seal, 16511, &len), LETHWYRN_NO_ROOM, "room for all bytes but one");
    frame[3] = 1;
    want(lethwyrn_seal(keys, frame, 40, seal, 16511, &len), LETHWYRN_NO_ROOM, "the other player's frame without room");
    want(lethwyrn_seal(keys, frame, 40, seal, 16512, &len), LETHWYRN_FOREIGN, "the other player's frame");
    frame[3] = 0, frame[7] = 6;
    want(lethwyrn_seal(keys, frame, 40, seal, 16512, &len), LETHWYRN_FOREIGN, "a turn that isn't played");
    frame[7] = 5;
    want((int32_t)len, 0, "bytes of a seal");
    want(memcmp(seal, blank, sizeof seal), 0, "what was written");
    want(lethwyrn_seal(keys, frame, 40, seal, sizeof seal, &len), LETHWYRN_OK, "seal");
    want((int32_t)len, 16512, "its bytes");
    want(memcmp(seal + len, blank, sizeof seal - len), 0, "what stands behind it");
    want(lethwyrn_valid(judge, root, frame, 40, seal, len), LETHWYRN_OK, "valid");
    want(lethwyrn_valid(keys, root, frame, 40, seal, len), LETHWYRN_OK, "valid for whoever has keys");
    want(lethwyrn_valid(judge, root, frame, 40, seal, 0), LETHWYRN_NOT_VALID, "a seal of no bytes");
    want(lethwyrn_valid(judge, root, frame, 41, seal, len), LETHWYRN_NO_FRAME, "a frame and a byte");
    frame[8] = 2;
    want(lethwyrn_valid(judge, root, frame, 40, seal, len), LETHWYRN_NOT_VALID, "another frame");
    want(lethwyrn_seal(keys, frame, 40, seal, sizeof seal, &len), LETHWYRN_USED, "another frame of the turn");
    frame[0] = 3;
    want(lethwyrn_seal(keys, frame, 40, seal, sizeof seal, &len), LETHWYRN_NO_FRAME, "no frame");
    frame[0] = 2, frame[8] = 1;
    want(lethwyrn_valid(judge, root, frame, 40, seal, 16512), LETHWYRN_OK, "the seal is still there");
}

/* handles of seals without a session, wherever memory is wanting, and with one */
static void seals(void)
{
    lethwyrn_seals s = LETHWYRN_NONE, judge = LETHWYRN_NONE;
    int32_t code = LETHWYRN_NO_MEMORY;
    uint8_t out[32] = { 0 };
    seal_refusals();
    len = 9;
    want(lethwyrn_seal_len(&s, &len), LETHWYRN_NO_SEALS, "seal_len");
    want((int32_t)len, 0, "the length");
    want(lethwyrn_root(&s, out), LETHWYRN_NO_SEALS, "root");
    want(lethwyrn_seal(&s, zero, 1, out, sizeof out, &len), LETHWYRN_NO_SEALS, "seal");
    want(lethwyrn_valid(&s, zero, zero, 1, zero, 1), LETHWYRN_NO_SEALS, "valid");
    for (int room = 0; code != LETHWYRN_OK; room++) {
        left = room;
        code = keys_of(&s, TEXT, 0);
        told(91, 92, 93, 94, false);
        if (code != LETHWYRN_OK) want(code, LETHWYRN_NO_MEMORY, "seals_keys");
        if (code != LETHWYRN_OK) want(lethwyrn_seal_len(&s, &len), LETHWYRN_NO_SEALS, "a handle that was refused keys");
    }
    code = LETHWYRN_NO_MEMORY;
    for (int room = 0; code != LETHWYRN_OK; room++) {
        left = room;
        code = judge_of(&judge, TEXT);
        told(91, 92, 93, 94, false);
        if (code != LETHWYRN_OK) want(code, LETHWYRN_NO_MEMORY, "seals_make");
    }
    left = 0;
    seals_of(&s, &judge);
    left = UNLIMITED;
    lethwyrn_seals_free(&s);
    lethwyrn_seals_free(&judge);
}

int main(void)
{
    uint8_t frame[LETHWYRN_FRAME_ROOM];
    text = TEXT, count = 2;
    refusals();
    nobody();
    for (unsigned p = 0; p < 2; p++) want(make(&players[p].peer, p), LETHWYRN_OK, "make");
    left = 0;
    choices(&players[0].peer);
    storing(&players[0].peer, frame);
    links(&players[0].peer, &players[1].peer);
    /* the same peers then play to the end: player 1 hears a reveal before its commitment at first */
    want(hear_of(&players[1].peer, 0, frame, 40), LETHWYRN_TAKEN, "the commitment");
    left = UNLIMITED;
    for (unsigned p = 0; p < 2; p++) {
        lethwyrn_free(&players[p].peer);
        want(make(&players[p].peer, p), LETHWYRN_OK, "make");
    }
    left = 0;
    for (int moved = 1; moved;) {
        moved = 0;
        for (unsigned p = 0; p < 2; p++) {
            moved |= hear(p);
            moved |= choose(p, 2);
            moved |= lethwyrn_advance(&players[p].peer, &made) == LETHWYRN_MADE;
            moved |= store(p);
            moved |= send_out(p);
        }
    }
    for (unsigned p = 0; p < 2; p++) want(lethwyrn_advance(&players[p].peer, &made), LETHWYRN_DONE, "done");
    left = UNLIMITED;
    no_memory(&players[0].disk);
    logs(&players[0].disk);
    for (unsigned p = 0; p < 2; p++) lethwyrn_free(&players[p].peer);
    cheat();
    third_turn();
    seals();
    want(taken, 0, "blocks that weren't given back");
    puts("all answers are as they are due");
    return 0;
}
