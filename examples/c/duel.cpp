// The header serves C++ as it is: a class holds a peer, and two of them play a match.
#include "lethwyrn.h"
#include <array>
#include <cstdio>
#include <random>
#include <stdexcept>
#include <string>
#include <vector>

namespace {

const std::string TEXT = "playout 1\ngrid 8 8\nrules 1 2 1\ncharge 1 3 2\nturns 10\nplayers 2\nplayer 0 1 4\nplayer 1 6 4\nend\n";

using bytes = std::vector<uint8_t>;

void must(int32_t code, int32_t wanted, const char *what)
{
    if (code != wanted) throw std::runtime_error(std::string(what) + ": " + std::to_string(code));
}

// A peer may be moved, and is never copied.
class Peer {
public:
    explicit Peer(uint8_t me) : me(me)
    {
        lethwyrn_refusal why{};
        must(lethwyrn_make(&peer, reinterpret_cast<const uint8_t *>(TEXT.data()), TEXT.size(), me, &why), LETHWYRN_OK, "make");
    }
    Peer(const Peer &) = delete;
    Peer &operator=(const Peer &) = delete;
    Peer(Peer &&other) noexcept : me(other.me), disk(std::move(other.disk)), peer(other.peer) { other.peer = LETHWYRN_NONE; }
    ~Peer() { lethwyrn_free(&peer); }

    void hear(const bytes &from)
    {
        for (size_t at = 0, used; at < from.size(); at += used) {
            lethwyrn_greeting greet{};
            int32_t code = lethwyrn_hear(&peer, static_cast<uint8_t>(1 - me), from.data() + at, from.size() - at, &used, &greet);
            must(code == LETHWYRN_MORE || code == LETHWYRN_TAKEN, true, "hear");
        }
    }

    // chooses where it may, makes and stores, and gives the frames that may go out
    bytes step()
    {
        lethwyrn_track own{};
        if (lethwyrn_next(&peer, &own) == LETHWYRN_OK) choose(own);
        uint8_t made = 0;
        code = lethwyrn_advance(&peer, &made);
        std::array<uint8_t, LETHWYRN_LOG_ROOM> entry;
        std::array<uint8_t, LETHWYRN_FRAME_ROOM> frame;
        bytes out;
        size_t count = 0;
        while (lethwyrn_take_log(&peer, entry.data(), &count) == LETHWYRN_OK) disk.insert(disk.end(), entry.begin(), entry.begin() + count);
        must(lethwyrn_stored(&peer, disk.size()), LETHWYRN_OK, "stored");
        while (lethwyrn_take_frame(&peer, frame.data(), &count) == LETHWYRN_OK) out.insert(out.end(), frame.begin(), frame.begin() + count);
        return out;
    }

    bool done() const { return code == LETHWYRN_DONE; }

    void tell()
    {
        lethwyrn_hits hits{};
        lethwyrn_track at{};
        must(lethwyrn_score(&peer, &hits), LETHWYRN_OK, "score");
        must(lethwyrn_player(&peer, me, &at), LETHWYRN_OK, "player");
        std::printf("player %d: %u turns settled, at %u %u, %u hits given, %u taken, a log of %zu bytes\n", me, hits.settled, at.x, at.y, hits.given, hits.taken, disk.size());
    }

private:
    // towards the other player, and a strike in front where there is charge for it
    void choose(const lethwyrn_track &own)
    {
        std::array<uint8_t, 32> nonce;
        for (auto &byte : nonce) byte = static_cast<uint8_t>(random());
        lethwyrn_move move{static_cast<uint16_t>(me ? own.x - 1 : own.x + 1), own.y, own.x, own.y, own.charge >= 2};
        if (own.turns >= 3) move.x = own.x;
        must(lethwyrn_choose(&peer, &move, nonce.data()), LETHWYRN_OK, "choose");
    }

    uint8_t me;
    bytes disk;
    int32_t code = LETHWYRN_OK;
    std::random_device random;
    lethwyrn peer = LETHWYRN_NONE;
};

}

int main()
{
    Peer left(0), first(1);
    Peer right(std::move(first));
    bytes to_left, to_right;
    for (int i = 0; i < 100 && !(left.done() && right.done()); i++) {
        left.hear(to_left);
        to_right = left.step();
        right.hear(to_right);
        to_left = right.step();
    }
    must(left.done() && right.done(), true, "done");
    left.tell();
    right.tell();
}
