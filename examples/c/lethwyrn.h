/* lethwyrn: a proved peer of a commit/reveal game, for C and C++.
 *
 * Link the archive liblethwyrn_c.a and the toolchain's liblibc_c.a (its way to malloc, realloc and free).
 *
 * A handle is one peer. Begin with LETHWYRN_NONE. Nobody but these calls writes its fields, and a handle that has a peer is never copied:
 * pass it by its address. A handle of zeros is recognized (LETHWYRN_NO_PEER); other bytes that no call wrote are not.
 *
 * A handle of seals is a session, and perhaps one player's keys for it. By keys the player's frames
 * are sealed. Whoever has the session and the player's root can judge a seal, without keys and
 * without a peer. It is held as a peer's handle is (of zeros: LETHWYRN_NO_SEALS).
 *
 * Pointers are valid for what they point to, and for as many bytes as the length behind them says. Nothing that a call writes overlaps
 * anything else that it is given. All else that comes in is tested when the call runs, and refused with a code.
 *
 * Threads: one call on a handle at a time, and a handle stays on the thread that made it. Calls on different handles have nothing to do
 * with each other. Don't call from a signal handler, or from the forked child of a process with threads.
 *
 * Memory: lethwyrn_make and lethwyrn_resume take all that the peer will need, and lethwyrn_free gives
 * it back. lethwyrn_seals_make and lethwyrn_seals_keys take all that a handle of seals will need, and
 * lethwyrn_seals_free gives it back. No other call takes any. What is handed out is written to memory of the caller. Where a call is refused, what it would have written is unchanged, but for the counts
 * `*count`, `*used` and `*made`, which are 0 then.
 *
 * Turns, places, entries and bytes are counted from 0, lines from 1. A place is a frame's number in the stream of its player: where players
 * commit one turn ahead, 2 * turn for a commitment and 2 * turn + 1 for a reveal.
 */
#ifndef LETHWYRN_H
#define LETHWYRN_H

#include <stdbool.h>
#include <stddef.h>
#include <stdint.h>

#define LETHWYRN_VERSION 1
#define LETHWYRN_HAS_STORED 1   /* lethwyrn_stored: a frame waits for its own entries alone */
#define LETHWYRN_HAS_EVIDENCE 1 /* lethwyrn_evidence */
#define LETHWYRN_HAS_SEALS 1    /* handles of seals */

#define LETHWYRN_MOST_PLAYERS 64
#define LETHWYRN_LOG_ROOM 96    /* bytes of room for an entry of the log */
#define LETHWYRN_FRAME_ROOM 64  /* bytes of room for a frame */
#define LETHWYRN_EVIDENCE_ROOM 512 /* bytes of room for the text of two frames that convict */
#define LETHWYRN_SEAL_ROOM 16832 /* bytes of room for a seal, whatever the session */

#ifdef __cplusplus
extern "C" {
#endif

typedef struct lethwyrn { void *at; bool live; } lethwyrn;
typedef struct lethwyrn_seals { void *at; bool live; } lethwyrn_seals;
#define LETHWYRN_NONE { 0, false } /* of both kinds */

enum lethwyrn_code {
    LETHWYRN_OK = 0,
    LETHWYRN_NO_PEER = 1,        /* the handle has no peer */
    LETHWYRN_NO_MEMORY = 2,      /* the calls that make: memory is wanting, and nothing was made */
    LETHWYRN_BAD_SESSION = 3,    /* why.line, and why.rule: 1 .. 12 */
    LETHWYRN_BAD_PLAYER = 4,     /* the session has no such player */
    LETHWYRN_BAD_LOG = 5,        /* why.at: the byte from which on the log can't be used; why.why: 1 too long, 5 an entry that this player's peer can't have logged there */
    LETHWYRN_IN_USE = 6,         /* the calls that make: the handle has a peer or a session already */
    LETHWYRN_NOTHING = 7,        /* no entry, frame, need or finding (left) */
    LETHWYRN_STORE_FIRST = 8,    /* take_frame: the log's entries up to the frame aren't named as stored */
    LETHWYRN_TOO_MANY = 9,       /* hear: 2^32 bytes or more at once, or 2^63 in all */
    LETHWYRN_NOT_NOW = 10,       /* choose and next: no move may be chosen now */
    LETHWYRN_OUTSIDE = 11,       /* choose: the target is outside the grid */
    LETHWYRN_WALL = 12,          /* .. is a wall */
    LETHWYRN_TOO_FAR = 13,       /* .. is farther than the player's speed */
    LETHWYRN_STRIKE_OUTSIDE = 14,/* choose: the cell struck is outside the grid */
    LETHWYRN_STRIKE_FAR = 15,    /* .. is past the player's reach */
    LETHWYRN_NO_CHARGE = 16,     /* choose: the charge is below the cost of a strike */
    LETHWYRN_NO_ROOM = 17,       /* evidence, seal: the text or seal is longer than its room */
    LETHWYRN_WHOLE_LOG = 18,     /* evidence: an illegal move, of which no text is given: the log shows it */
    LETHWYRN_NO_SEALS = 19,      /* the handle of seals has no session */
    LETHWYRN_NO_KEYS = 20,       /* root and seal: the handle of seals has no keys */
    LETHWYRN_NO_FRAME = 21,      /* seal and valid: the bytes aren't one whole commitment or reveal */
    LETHWYRN_USED = 22,          /* seal: another frame was sealed at its place */
    LETHWYRN_NOT_VALID = 23,     /* valid: the seal isn't one of this frame under this root */
    /* hear */
    LETHWYRN_MORE = 30,          /* all bytes are used, and they end no frame */
    LETHWYRN_HELLO = 31,         /* a hello came: greet says whose, whether it names this session, its pass, and the place wanted next */
    LETHWYRN_WANT = 32,          /* a want came: greet.next is the place wanted */
    LETHWYRN_BAD_BYTE = 33,      /* the next byte begins no frame: close the link */
    LETHWYRN_TAKEN = 40,         /* the player's next frame: it is in the log */
    LETHWYRN_STASHED = 41,       /* frames before it are missing; it is in the log and counts once they come */
    LETHWYRN_SAME = 42,          /* the log has it already */
    LETHWYRN_FAR = 43,           /* its place is past the player's window: ask for the missing frames */
    LETHWYRN_FOREIGN = 44,       /* no frame of the player over whose link it came; seal: .. of the
                                    player of the keys. A turn that isn't played has no frames */
    LETHWYRN_CLOSED = 45,        /* the log had a finding before, and takes nothing more */
    /* hear and advance */
    LETHWYRN_CAUGHT = 46,        /* the log has a finding: see lethwyrn_finding */
    /* advance */
    LETHWYRN_MADE = 50,          /* frames were made */
    LETHWYRN_CHOOSE = 51,        /* a move may be chosen */
    LETHWYRN_WAITS = 52,         /* others are waited for: see lethwyrn_need */
    LETHWYRN_DONE = 53           /* all turns are played */
};

/* why a session or a log was refused, or how much of the log is kept */
typedef struct { uint32_t line, rule, at, why; bool dropped; } lethwyrn_refusal;
/* a track behind `turns` turns, and the next place of the player's stream */
typedef struct { uint32_t turns, next; uint16_t x, y; uint8_t charge; } lethwyrn_track;
/* what: 0 the commitment of the turn, 1 its reveal; next: the next place of the player's stream */
typedef struct { uint32_t turn, next, what; uint8_t player; } lethwyrn_wait;
/* kind: 1 two commitments, 2 a bad opening, 3 a collision, 4 an illegal move; first, second: the entries of the log that show it */
typedef struct { uint32_t turn, kind, first, second; uint8_t player; } lethwyrn_found;
/* `strikes` is 0 or 1 */
typedef struct { uint16_t x, y, strike_x, strike_y; bool strikes; } lethwyrn_move;
/* how many own turns are settled, and the hits given and taken in them: what comes later changes nothing of it */
typedef struct { uint32_t settled, given, taken; } lethwyrn_hits;
/* a hello or a want: the place wanted next; and of a hello whose it is, whether it names this session, and the pass that it shows */
typedef struct { uint32_t next; uint8_t player; bool same_session; uint8_t pass[16]; } lethwyrn_greeting;

/* Makes a peer for this player of the session with this text. OK, NO_MEMORY, BAD_SESSION, BAD_PLAYER, IN_USE. */
int32_t lethwyrn_make(lethwyrn *h, const uint8_t *text, size_t text_len, uint8_t player, lethwyrn_refusal *why);

/* Makes a peer that goes on from the bytes of its log, up to the first entry that is torn or changed. On OK `why.at` says how many bytes are
   kept, and `why.dropped` whether others follow: cut the file at `why.at` then, before anything is stored behind it. The entries kept count as
   handed out and stored. Frames are handed out from place 0 again: lethwyrn_send_from skips those that the other has. OK, NO_MEMORY, BAD_SESSION,
   BAD_PLAYER, BAD_LOG (of a log that is too long, is another player's, or has an entry that this player can't have logged there), IN_USE. */
int32_t lethwyrn_resume(lethwyrn *h, const uint8_t *text, size_t text_len, uint8_t player, const uint8_t *log, size_t log_len, lethwyrn_refusal *why);

/* Chooses the move of the next turn. The nonce is 32 fresh bytes of a cryptographic source, for each choice. OK, NOT_NOW, OUTSIDE .. NO_CHARGE:
   where it isn't OK nothing changed. */
int32_t lethwyrn_choose(lethwyrn *h, const lethwyrn_move *move, const uint8_t nonce[32]);

/* Reads on in the bytes that came over the link of player `from`, in whatever pieces, up to the end of the first frame in them, and writes how
   many bytes were used: call again with the rest until MORE or BAD_BYTE. `greet` is written by a hello (all of it) and by a want (`next`). Frames
   are taken as that player's, so be sure of who is at the link. MORE .. CAUGHT, BAD_PLAYER, TOO_MANY. */
int32_t lethwyrn_hear(lethwyrn *h, uint8_t from, const uint8_t *bytes, size_t len, size_t *used, lethwyrn_greeting *greet);

/* The link of this player begins anew, as where a connection was lost and made again: what came of a frame that was cut is forgotten. OK,
   BAD_PLAYER. */
int32_t lethwyrn_link(lethwyrn *h, uint8_t player);

/* Writes a hello for this player: the first frame over a new link. It shows the pass that both agreed on, and names the place wanted next. OK,
   BAD_PLAYER. */
int32_t lethwyrn_greet(lethwyrn *h, uint8_t player, const uint8_t pass[16], uint8_t out[64], size_t *count);

/* Makes every frame that is allowed by now, and writes how many. MADE, CHOOSE, WAITS, DONE, CAUGHT. */
int32_t lethwyrn_advance(lethwyrn *h, uint8_t *made);

/* Hands out the bytes of the log's next entry, to be appended to the file. OK, NOTHING. */
int32_t lethwyrn_take_log(lethwyrn *h, uint8_t out[96], size_t *count);

/* Tells how many bytes of the log are durable, from its first byte on: for a peer that goes on from a log those that it kept, too. Those entries
   count as stored that were handed out and end within these bytes. What is stored stays so. OK. */
int32_t lethwyrn_stored(lethwyrn *h, uint64_t bytes);

/* Hands out the bytes of the next own frame, where the log's entries up to it are stored. OK, NOTHING, STORE_FIRST. */
int32_t lethwyrn_take_frame(lethwyrn *h, uint8_t out[64], size_t *count);

/* From now on frames are handed out from this place on, as where another player wants it. OK. */
int32_t lethwyrn_send_from(lethwyrn *h, uint32_t place);

/* For whom the peer waits: the need with this number, from 0, by rising player. OK, NOTHING. */
int32_t lethwyrn_need(lethwyrn *h, size_t number, lethwyrn_wait *out);

/* The first finding of the log. OK, NOTHING. */
int32_t lethwyrn_finding(lethwyrn *h, lethwyrn_found *out);

/* The text of the two frames of the finding, as `lethwyrn judge` reads it: anyone who has the session can judge it. LETHWYRN_EVIDENCE_ROOM bytes
   are enough. OK, NOTHING, NO_ROOM, WHOLE_LOG. */
int32_t lethwyrn_evidence(lethwyrn *h, uint8_t *out, size_t room, size_t *count);

/* What the log shows of a player: its turns that are resolved, and its track after them. OK, BAD_PLAYER. */
int32_t lethwyrn_player(lethwyrn *h, uint8_t player, lethwyrn_track *out);

/* The turn that is to be chosen next, the place of the next own frame, and the own track before that turn. Written where it is NOT_NOW, too.
   OK, NOT_NOW. */
int32_t lethwyrn_next(lethwyrn *h, lethwyrn_track *out);

/* The hits of the settled turns. OK. */
int32_t lethwyrn_score(lethwyrn *h, lethwyrn_hits *out);

/* Gives the peer's memory back. A handle without a peer stays so. */
void lethwyrn_free(lethwyrn *h);

/* Reads the session with this text, and makes room for a seal: the handle then judges seals, and
   has no keys. OK, NO_MEMORY, BAD_SESSION, IN_USE. */
int32_t lethwyrn_seals_make(lethwyrn_seals *s, const uint8_t *text, size_t text_len, lethwyrn_refusal *why);

/* The same, with the keys of this player by this seed. The seed is 32 fresh bytes of a cryptographic
   source, for one player of one session, and nobody else may know it. All keys are made at once,
   which takes some 10 seconds in the longest sessions, and at most 2 MB. What was sealed is forgotten
   with the handle: keys that are made anew of the same seed don't know of it. OK, NO_MEMORY,
   BAD_SESSION, BAD_PLAYER, IN_USE. */
int32_t lethwyrn_seals_keys(lethwyrn_seals *s, const uint8_t *text, size_t text_len, uint8_t player, const uint8_t seed[32], lethwyrn_refusal *why);

/* How many bytes a seal of the session has: 16,384, and 32 for each height of the tree of keys. OK. */
int32_t lethwyrn_seal_len(lethwyrn_seals *s, size_t *count);

/* The root of the player's keys, which the others have to know before the match. OK, NO_KEYS. */
int32_t lethwyrn_root(lethwyrn_seals *s, uint8_t out[32]);

/* Seals the frame that these bytes spell, as lethwyrn_take_frame hands it out, and writes its seal to
   the front of `out`. A handle never seals two frames at one place; the same frame it seals again, with the
   same bytes. Whether the frame is a legal one isn't asked. Where several codes are due, the
   first of these is answered: NO_KEYS, NO_FRAME, NO_ROOM, FOREIGN, USED, OK. */
int32_t lethwyrn_seal(lethwyrn_seals *s, const uint8_t *frame, size_t frame_len, uint8_t *out, size_t room, size_t *count);

/* Whether the seal is valid under this root for the frame that these bytes spell: it has the length
   of the session's seals, the frame's turn is played, and the seal leads to the root. Take the root of
   the player that the frame names: whose frame it is isn't asked. OK where it is valid, else
   NOT_VALID; NO_FRAME. */
int32_t lethwyrn_valid(lethwyrn_seals *s, const uint8_t root[32], const uint8_t *frame, size_t frame_len, const uint8_t *seal, size_t seal_len);

/* Gives the memory of the session and the keys back. A handle without them stays so. */
void lethwyrn_seals_free(lethwyrn_seals *s);

#ifdef __cplusplus
}
#endif
#endif
