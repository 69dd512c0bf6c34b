/* Two players of a session seal the commitments that their peers hand out. A referee, who has no keys
 * and no peer, judges the seals by the two roots. The program is built as C and as C++. */
#include "harness.h"

static const char TEXT[] = "playout 1\ngrid 8 8\nrules 1 2 1\ncharge 1 3 2\nturns 10\nplayers 2\nplayer 0 1 4\nplayer 1 6 4\nend\n";

/* a frame with its seal, and the root under which it is to be valid */
typedef struct {
    uint8_t root[32], frame[LETHWYRN_FRAME_ROOM], seal[LETHWYRN_SEAL_ROOM];
    size_t frame_len, seal_len;
} sealed;

static lethwyrn_seals keys[2] = { LETHWYRN_NONE, LETHWYRN_NONE }, referee = LETHWYRN_NONE;
static sealed commitments[2];

static const char *said(int32_t code)
{
    switch (code) {
    case LETHWYRN_OK: return "yes";
    case LETHWYRN_NOT_VALID: return "no";
    case LETHWYRN_NO_FRAME: return "no frame";
    case LETHWYRN_USED: return "used";
    case LETHWYRN_FOREIGN: return "foreign";
    default: return "?";
    }
}

static int32_t valid(const sealed *s)
{
    return lethwyrn_valid(&referee, s->root, s->frame, s->frame_len, s->seal, s->seal_len);
}

static int32_t seal(unsigned me, sealed *s)
{
    return lethwyrn_seal(&keys[me], s->frame, s->frame_len, s->seal, sizeof s->seal, &s->seal_len);
}

/* keys by a seed, and their root. The seeds here are no secret: a real program draws each */
static void make_keys(unsigned me)
{
    static const uint8_t seeds[2][32] = { { 11, 22, 33 }, { 44, 55, 66 } };
    lethwyrn_refusal why = { 0, 0, 0, 0, false };
    sealed *s = &commitments[me];
    want(lethwyrn_seals_keys(&keys[me], (const uint8_t *)text, strlen(text), (uint8_t)me, seeds[me], &why), LETHWYRN_OK, "keys");
    want(lethwyrn_root(&keys[me], s->root), LETHWYRN_OK, "root");
    printf("root %u ", me);
    for (size_t i = 0; i < 32; i++) printf("%02x", s->root[i]);
    printf("\n");
}

/* the commitment to the peer's first move, once the log up to it is stored, and its seal */
static void commit(unsigned me)
{
    uint8_t made;
    sealed *s = &commitments[me];
    want(make(&players[me].peer, me), LETHWYRN_OK, "make");
    want(choose(me, 2), 1, "a choice");
    want(lethwyrn_advance(&players[me].peer, &made), LETHWYRN_MADE, "advance");
    want(store(me), 1, "entries of the log");
    want(lethwyrn_take_frame(&players[me].peer, s->frame, &s->frame_len), LETHWYRN_OK, "take_frame");
    want(seal(me, s), LETHWYRN_OK, "seal");
    printf("player %u's commitment and its seal of %zu bytes: %s\n", me, s->seal_len, said(valid(s)));
}

/* one byte is another */
static void flip(uint8_t *byte, const char *what)
{
    *byte ^= 1;
    printf("%s: %s\n", what, said(valid(&commitments[0])));
    *byte ^= 1;
}

static void flips(void)
{
    sealed *s = &commitments[0];
    flip(&s->seal[0], "the first disclosed value changed");
    flip(&s->seal[8191], "the last disclosed value changed");
    flip(&s->seal[8192], "the first other public value changed");
    flip(&s->seal[16383], "the last other public value changed");
    flip(&s->seal[16384], "the first sibling changed");
    flip(&s->seal[s->seal_len - 1], "the last sibling changed");
    flip(&s->root[31], "the root changed");
    flip(&s->frame[8], "the digest changed");
    flip(&s->frame[3], "the frame as one of the other player");
    flip(&s->frame[7], "the frame as one of the next turn");
    flip(&s->frame[0], "the frame as one of another kind");
    s->seal_len--;
    printf("a seal without its last byte: %s\n", said(valid(s)));
    s->seal_len += 2;
    printf("a seal with a byte behind it: %s\n", said(valid(s)));
    s->seal_len--;
    s->frame_len--;
    printf("a frame without its last byte: %s\n", said(valid(s)));
    s->frame_len++;
    printf("nothing changed: %s\n", said(valid(s)));
}

/* what is sealed, and what is not */
static void wishes(void)
{
    static sealed copy;
    copy = commitments[0];
    want(seal(0, &commitments[0]), LETHWYRN_OK, "the same frame once more");
    want(memcmp(copy.seal, commitments[0].seal, copy.seal_len), 0, "the same bytes");
    printf("the same frame is sealed again: yes\n");
    copy.frame[39] ^= 1;
    printf("another commitment to the turn is sealed: %s\n", said(seal(0, &copy)));
    want((int32_t)copy.seal_len, 0, "bytes of its seal");
    copy.frame[3] = 1;
    printf("a frame of the other player is sealed: %s\n", said(seal(0, &copy)));
    copy.frame[3] = 0, copy.frame[7] = 10;
    printf("a frame of the eleventh of ten turns is sealed: %s\n", said(seal(0, &copy)));
    copy.frame[7] = 9;
    printf("one of the tenth is sealed: %s\n", said(seal(0, &copy)));
    copy.frame[0] = 9;
    printf("a frame of no kind is sealed: %s\n", said(seal(0, &copy)));
}

int main(void)
{
    lethwyrn_refusal why = { 0, 0, 0, 0, false };
    text = TEXT, count = 2;
    want(lethwyrn_seals_make(&referee, (const uint8_t *)text, strlen(text), &why), LETHWYRN_OK, "a referee");
    for (unsigned p = 0; p < 2; p++) make_keys(p);
    for (unsigned p = 0; p < 2; p++) commit(p);
    flips();
    wishes();
    for (unsigned p = 0; p < 2; p++) {
        lethwyrn_seals_free(&keys[p]);
        lethwyrn_free(&players[p].peer);
    }
    lethwyrn_seals_free(&referee);
    return 0;
}
