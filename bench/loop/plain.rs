// The same design in plain Rust, for `rustc -O`: matches of two players who wait for each other in every turn, each by a loop over a station in
// memory. The loop keeps the rules that the proved one keeps: it reads what its sockets bring through a reader of frames, handles the frames one
// by one, keeps each entry in a log whose digests chain it, syncs before it writes, greets and is greeted with passes, obeys wants, and polls
// only where nothing is left to do. It makes each check that the proved loop makes on what comes in. Each player's roster is written out, where
// the proved program reads a text of four lines for it once a match.
#![allow(dead_code)]

include!("../plain/peer.rs");

// ---- limits ----

const MOST_BYTES: u32 = 16_777_216;
const HELLO_BYTES: u32 = 56;
const MOST_ACCEPTED: u32 = 256;
const MOST_WANTS: u32 = 64;
const MOST_TAKEN: usize = 1024;
const MOST_LINES: usize = 576;
const MOST_READY: usize = 64;

// of the matches
const SESSION: &[u8] =
    b"playout 1\ngrid 12 12\nrules 1 2 0\ncharge 1 3 2\nturns 4096\nplayers 2\nplayer 0 4 5\nplayer 1 7 5\nend\n";
const MOST_ROUNDS: u32 = 50_000;
const MOST_READ: usize = 4096;

// ---- chance ----

impl Pcg32 {
    fn fill_bytes(&mut self, out: &mut [u8; 32]) {
        for bytes in out.chunks_exact_mut(4) {
            bytes.copy_from_slice(&self.word().to_le_bytes());
        }
    }
}

// ---- frames ----

type Pass = [u8; 16];

#[derive(Clone, Copy)]
enum Frame {
    Hello { id: Digest, player: PlayerId, pass: Pass, next: Place },
    Turn(TurnFrame),
    Want { place: Place },
}

/// Writes the bytes from this place on, and gives the place behind them.
fn put(out: &mut [u8], at: usize, from: &[u8]) -> usize {
    out[at..at + from.len()].copy_from_slice(from);
    at + from.len()
}

fn put_cell(out: &mut [u8], at: usize, cell: Cell) -> usize {
    let at = put(out, at, &cell.x.to_be_bytes());
    put(out, at, &cell.y.to_be_bytes())
}

/// Writes what stands of a move in a frame.
fn put_move(out: &mut [u8], at: usize, mv: &Move) -> usize {
    let at = put_cell(out, at, mv.to);
    match mv.strike {
        None => put(out, at, &[0]),
        Some(cell) => {
            let at = put(out, at, &[1]);
            put_cell(out, at, cell)
        }
    }
}

fn put_turn(out: &mut [u8], at: usize, frame: &TurnFrame) -> usize {
    match frame {
        TurnFrame::Commit { player, turn, digest } => {
            let at = put(out, at, &[2, 0, 37, *player]);
            let at = put(out, at, &turn.to_be_bytes());
            put(out, at, digest)
        }
        TurnFrame::Reveal { player, turn, mv, nonce } => {
            let length = if mv.strike.is_some() { 46 } else { 42 };
            let at = put(out, at, &[3, 0, length, *player]);
            let at = put(out, at, &turn.to_be_bytes());
            let at = put_move(out, at, mv);
            put(out, at, nonce)
        }
    }
}

fn put_frame(out: &mut [u8; 64], frame: &Frame) -> usize {
    match frame {
        Frame::Hello { id, player, pass, next } => {
            let at = put(out, 0, &[1, 0, 53]);
            let at = put(out, at, id);
            let at = put(out, at, &[*player]);
            let at = put(out, at, pass);
            put(out, at, &next.to_be_bytes())
        }
        Frame::Turn(frame) => put_turn(out, 0, frame),
        Frame::Want { place } => {
            let at = put(out, 0, &[4, 0, 4]);
            put(out, at, &place.to_be_bytes())
        }
    }
}

enum FedWhat {
    More,
    Whole(Frame),
    Bad(u64),
}

/// What stands at the front of some bytes: a part of a frame, a whole one of this length, or a bad byte at a place.
enum End {
    Part,
    Whole(usize),
    Bad(usize),
}

fn short_at(bytes: &[u8], at: usize) -> u16 {
    u16::from_be_bytes([bytes[at], bytes[at + 1]])
}

fn word_at(bytes: &[u8], at: usize) -> u32 {
    u32::from_be_bytes(bytes[at..at + 4].try_into().unwrap())
}

fn array_at<const N: usize>(bytes: &[u8], at: usize) -> [u8; N] {
    bytes[at..at + N].try_into().unwrap()
}

fn cell_at(bytes: &[u8], at: usize) -> Cell {
    Cell { x: short_at(bytes, at), y: short_at(bytes, at + 2) }
}

fn has_payload(kind: u8, payload: u8) -> bool {
    match kind {
        1 => payload == 53,
        2 => payload == 37,
        3 => payload == 42 || payload == 46,
        4 => payload == 4,
        _ => false,
    }
}

/// Writes the frame at the front of the bytes to `out`, if it is whole.
fn front_of(bytes: &[u8], out: &mut FedWhat) -> End {
    if !bytes.is_empty() && !(1..=4).contains(&bytes[0]) {
        return End::Bad(0);
    }
    if bytes.len() > 1 && bytes[1] != 0 {
        return End::Bad(1);
    }
    if bytes.len() > 2 && !has_payload(bytes[0], bytes[2]) {
        return End::Bad(2);
    }
    if bytes.len() > 12 && bytes[0] == 3 && bytes[12] != u8::from(bytes[2] == 46) {
        return End::Bad(12);
    }
    if bytes.len() < 3 || bytes.len() < usize::from(bytes[2]) + 3 {
        return End::Part;
    }
    let count = usize::from(bytes[2]) + 3;
    *out = FedWhat::Whole(match bytes[0] {
        1 => Frame::Hello { id: array_at(bytes, 3), player: bytes[35], pass: array_at(bytes, 36), next: word_at(bytes, 52) },
        2 => Frame::Turn(TurnFrame::Commit { player: bytes[3], turn: word_at(bytes, 4), digest: array_at(bytes, 8) }),
        3 => {
            let strike = if bytes[12] == 1 { Some(cell_at(bytes, 13)) } else { None };
            Frame::Turn(TurnFrame::Reveal {
                player: bytes[3],
                turn: word_at(bytes, 4),
                mv: Move { to: cell_at(bytes, 8), strike },
                nonce: array_at(bytes, count - 32),
            })
        }
        _ => Frame::Want { place: word_at(bytes, 3) },
    });
    End::Whole(count)
}

/// Finds the frames of a stream of bytes, and holds the bytes of the frame begun.
struct FrameReader {
    held: [u8; 64],
    len: usize,
    place: u64,
    bad: bool,
}

impl FrameReader {
    fn new() -> FrameReader {
        FrameReader { held: [0; 64], len: 0, place: 0, bad: false }
    }

    /// Reads on up to the end of the first frame, and says how many bytes were used.
    fn feed(&mut self, bytes: &[u8]) -> (usize, FedWhat) {
        if self.bad {
            return (0, FedWhat::Bad(self.place));
        }
        let before = self.len;
        let mut what = FedWhat::More;
        let end = if before == 0 {
            front_of(bytes, &mut what)
        } else {
            let count = bytes.len().min(64 - before);
            self.held[before..before + count].copy_from_slice(&bytes[..count]);
            front_of(&self.held[..before + count], &mut what)
        };
        let used = match end {
            End::Part => {
                if before == 0 {
                    self.held[..bytes.len()].copy_from_slice(bytes);
                }
                self.len = before + bytes.len();
                bytes.len()
            }
            End::Whole(end) => {
                self.len = 0;
                end - before
            }
            End::Bad(at) => {
                self.len = 0;
                self.bad = true;
                what = FedWhat::Bad(self.place + (at - before) as u64);
                at - before
            }
        };
        self.place += used as u64;
        (used, what)
    }
}

// ---- the log ----

/// Writes the entries of a player's log, each with the digest that chains it to those before.
struct LogWriter {
    owner: PlayerId,
    begun: bool,
    chain: Digest,
}

/// Writes what an entry says: its length, its kind and its body.
fn put_entry(out: &mut [u8; 96], at: usize, entry: &Entry) -> usize {
    let body = at + 3;
    let (kind, end) = match entry {
        Entry::Chose { turn, mv, nonce } => {
            let end = put(out, body, &turn.to_be_bytes());
            let end = put_move(out, end, mv);
            (1, put(out, end, nonce))
        }
        Entry::Made(frame) => (2, put_turn(out, body, frame)),
        Entry::Got(from, frame) => {
            let end = put(out, body, &[*from]);
            (3, put_turn(out, end, frame))
        }
    };
    put(out, at, &((end - body) as u16).to_be_bytes());
    out[at + 2] = kind;
    end
}

fn chained(chain: &[u8], text: &[u8]) -> Digest {
    let mut hasher = Sha256::new();
    hasher.update(chain);
    hasher.update(text);
    hasher.finish()
}

impl LogWriter {
    fn new(session: &Session, owner: PlayerId) -> LogWriter {
        LogWriter { owner, begun: false, chain: session.id }
    }

    /// Writes the next entry, in front of the first one the owner's byte, and says how many bytes there are.
    fn put(&mut self, entry: &Entry, out: &mut [u8; 96]) -> usize {
        let end;
        if self.begun {
            end = put_entry(out, 0, entry);
            self.chain = chained(&self.chain, &out[..end]);
        } else {
            self.begun = true;
            out[0] = self.owner;
            end = put_entry(out, 1, entry);
            let mut first = [self.owner; 33];
            first[..32].copy_from_slice(&self.chain);
            self.chain = chained(&first, &out[1..end]);
        }
        put(out, end, &self.chain)
    }
}

// ---- the outside ----

type SocketId = u32;

#[derive(Clone, Copy)]
struct Addr {
    ip: [u8; 4],
    port: u16,
}

#[derive(Clone, Copy, PartialEq, Eq)]
enum Did {
    Done,
    Failed,
}

enum Dial {
    Socket(SocketId),
    Failed,
}

#[derive(Clone, Copy)]
enum Ready {
    Opened(SocketId),
    Socket(SocketId),
}

#[derive(Clone, Copy)]
enum SocketRead {
    Took(usize),
    NotYet,
    Ended,
    Failed,
}

enum SocketWrite {
    Gave(usize),
    NotYet,
    Failed,
}

/// What a poll lists.
struct ReadyList {
    items: [Ready; MOST_READY],
    len: usize,
}

impl ReadyList {
    fn new() -> ReadyList {
        ReadyList { items: [Ready::Socket(0); MOST_READY], len: 0 }
    }

    fn as_slice(&self) -> &[Ready] {
        &self.items[..self.len]
    }

    fn clear(&mut self) {
        self.len = 0;
    }

    fn push(&mut self, item: Ready) {
        self.items[self.len] = item;
        self.len += 1;
    }
}

/// Sockets and a log.
trait Station {
    fn listen(&mut self, addr: Addr) -> Did;
    fn log_to(&mut self, name: &[u8]) -> Did;
    fn dial(&mut self, player: PlayerId, addr: Addr) -> Dial;
    fn poll(&mut self, ready: &mut ReadyList) -> Did;
    fn read(&mut self, socket: SocketId, buf: &mut [u8]) -> SocketRead;
    fn write(&mut self, socket: SocketId, bytes: &[u8]) -> SocketWrite;
    fn shut(&mut self, socket: SocketId);
    fn keep(&mut self, bytes: &[u8]) -> Did;
    fn sync(&mut self) -> Did;
}

/// Chooses the moves of a player.
trait Pilot {
    fn choose(&mut self, track: &Track, turn: Turn) -> Move;
}

// ---- lines and seats ----

#[derive(Clone, Copy)]
struct Link {
    player: PlayerId,
    addr: Addr,
    shows: Pass,
    wants: Pass,
}

struct Roster {
    me: Addr,
    links: Vec<Link>,
}

/// What is left of a frame that is given in part.
#[derive(Clone, Copy)]
struct Unsent {
    bytes: [u8; 64],
    from: usize,
    to: usize,
}

impl Unsent {
    fn new() -> Unsent {
        Unsent { bytes: [0; 64], from: 0, to: 0 }
    }

    fn bytes(&self) -> &[u8] {
        &self.bytes[self.from..self.to]
    }

    fn is_empty(&self) -> bool {
        self.from == self.to
    }
}

/// The places that a player is to be asked for, each greater than the one before.
struct Asks {
    places: Vec<Place>,
    from: usize,
    last: Option<Place>,
}

impl Asks {
    fn new(most: Place) -> Asks {
        Asks { places: Vec::with_capacity(most as usize + 1), from: 0, last: None }
    }

    fn ask(&mut self, place: Place) {
        if self.last.is_none_or(|last| place > last) {
            self.places.push(place);
            self.last = Some(place);
        }
    }

    fn first(&self) -> Option<Place> {
        self.places.get(self.from).copied()
    }

    fn take_first(&mut self) {
        if self.from < self.places.len() {
            self.from += 1;
        }
    }

    fn clear(&mut self) {
        self.from = self.places.len();
    }
}

/// An open socket, up to the first poll behind its end.
struct Line {
    socket: SocketId,
    is_open: bool,
    dialled: Option<PlayerId>,
    name: Option<PlayerId>,
    reader: FrameReader,
    // how many bytes were taken before it was named
    taken: u32,
    is_quiet: bool,
    is_blocked: bool,
    is_wrong: bool,
    // the place that its greeting asks for, where that is due
    hello: Option<Place>,
    unsent: Unsent,
    // the place of the own frame that is given in part, that of the next one, and where a want sends that behind the one in part
    sending: Option<Place>,
    cursor: Place,
    jump: Option<Place>,
}

impl Line {
    fn accepted(socket: SocketId, is_wrong: bool) -> Line {
        Line {
            socket,
            is_open: true,
            dialled: None,
            name: None,
            reader: FrameReader::new(),
            taken: 0,
            is_quiet: false,
            is_blocked: false,
            is_wrong,
            hello: None,
            unsent: Unsent::new(),
            sending: None,
            cursor: 0,
            jump: None,
        }
    }

    fn dialled(socket: SocketId, player: PlayerId, next: Place) -> Line {
        Line { dialled: Some(player), hello: Some(next), ..Line::accepted(socket, false) }
    }

    fn player(&self) -> Option<PlayerId> {
        self.name.or(self.dialled)
    }

    fn serves(&self, player: PlayerId) -> bool {
        self.is_open && (self.dialled == Some(player) || self.name == Some(player))
    }

    fn take_name(&mut self, player: PlayerId, from: Place, next: Place) {
        self.name = Some(player);
        self.cursor = from;
        if self.dialled.is_none() {
            self.hello = Some(next);
        }
    }

    fn move_to(&mut self, place: Place) {
        if self.sending.is_some() {
            self.jump = Some(place);
        } else {
            self.cursor = place;
        }
    }

    fn wake(&mut self) {
        self.is_quiet = false;
        self.is_blocked = false;
    }
}

/// What is known of another player, whichever sockets it had.
struct PeerSeat {
    link: Link,
    spent: u32,
    wants: u32,
    // how many own frames it has, as far as is known
    given: Place,
    asks: Asks,
    is_dialled: bool,
}

impl PeerSeat {
    fn new(link: Link, most: Place) -> PeerSeat {
        PeerSeat { link, spent: 0, wants: 0, given: 0, asks: Asks::new(most), is_dialled: false }
    }

    fn room(&self) -> u32 {
        MOST_BYTES.saturating_sub(self.spent)
    }

    fn is_spent(&self) -> bool {
        self.spent >= MOST_BYTES
    }

    fn reach(&mut self, place: Place) {
        if self.given < place {
            self.given = place;
        }
    }

    fn name(&mut self, taken: u32, place: Place) {
        self.spent += taken;
        self.reach(place);
        self.asks.clear();
    }
}

/// What goes out next on a socket.
enum Due {
    Nothing,
    Hello(Place),
    Want(Place),
    Own(TurnFrame),
}

fn due_on(line: &Line, seat: &PeerSeat, own: Option<TurnFrame>) -> Due {
    if let Some(next) = line.hello {
        return Due::Hello(next);
    }
    if line.name.is_none() {
        return Due::Nothing;
    }
    match (seat.asks.first(), own) {
        (Some(place), _) => Due::Want(place),
        (None, Some(frame)) => Due::Own(frame),
        (None, None) => Due::Nothing,
    }
}

/// The bytes that go out next on the socket: what is left of the frame begun, or the frame that is to be begun.
fn due_bytes(line: &Line, seat: &PeerSeat, id: &Digest, me: PlayerId, own: Option<TurnFrame>) -> Unsent {
    if !line.unsent.is_empty() {
        return line.unsent;
    }
    let frame = match due_on(line, seat, own) {
        Due::Nothing => return Unsent::new(),
        Due::Hello(next) => Frame::Hello { id: *id, player: me, pass: seat.link.shows, next },
        Due::Want(place) => Frame::Want { place },
        Due::Own(frame) => Frame::Turn(frame),
    };
    let mut due = Unsent::new();
    due.to = put_frame(&mut due.bytes, &frame);
    due
}

/// So many of the bytes that go out next were given.
fn give(line: &mut Line, seat: &mut PeerSeat, own: Option<TurnFrame>, due: Unsent, count: usize) {
    if line.unsent.is_empty() {
        match due_on(line, seat, own) {
            Due::Nothing => {}
            Due::Hello(_) => line.hello = None,
            Due::Want(_) => seat.asks.take_first(),
            Due::Own(_) => line.sending = Some(line.cursor),
        }
    }
    line.unsent = due;
    line.unsent.from += count;
    if !line.unsent.is_empty() {
        return;
    }
    if let Some(place) = line.sending.take() {
        line.cursor = line.jump.take().unwrap_or(place + 1);
        seat.reach(place + 1);
    }
}

fn has_due(line: &Line, seat: &PeerSeat, made: Place) -> bool {
    if !line.unsent.is_empty() || line.hello.is_some() {
        return true;
    }
    line.name.is_some() && (seat.asks.first().is_some() || line.cursor < made)
}

// ---- the table of sockets ----

/// A frame that came whole on a socket of this player's name.
#[derive(Clone, Copy)]
struct Arrival {
    player: PlayerId,
    frame: TurnFrame,
}

/// The sockets, the other players, and the frames that came and aren't handled yet.
struct Sockets {
    lines: Vec<Line>,
    seats: Vec<PeerSeat>,
    accepted: u32,
    waiting: Vec<Arrival>,
}

impl Sockets {
    fn new(links: &[Link], most: Place) -> Sockets {
        Sockets {
            lines: Vec::with_capacity(MOST_LINES + links.len()),
            seats: links.iter().map(|link| PeerSeat::new(*link, most)).collect(),
            accepted: 0,
            waiting: Vec::with_capacity(MOST_TAKEN),
        }
    }

    fn seat_index(&self, player: PlayerId) -> Option<usize> {
        self.seats.iter().position(|seat| seat.link.player == player)
    }

    // -- questions --

    /// How many bytes may be taken on the socket.
    fn room(&self, place: usize) -> u32 {
        let line = &self.lines[place];
        match line.name {
            None => HELLO_BYTES.saturating_sub(line.taken),
            Some(player) => self.seat_index(player).map_or(0, |seat| self.seats[seat].room()),
        }
    }

    fn asks_shut(&self, place: usize) -> bool {
        let line = &self.lines[place];
        line.is_open && (line.is_wrong || self.room(place) == 0)
    }

    fn wants_read(&self, place: usize) -> bool {
        let line = &self.lines[place];
        line.is_open && !line.is_quiet && !self.asks_shut(place)
    }

    fn wants_dial(&self, me: PlayerId, seat: usize) -> bool {
        let seat = &self.seats[seat];
        let player = seat.link.player;
        me < player && !self.lines.iter().any(|line| line.serves(player)) && !seat.is_dialled && !seat.is_spent()
    }

    fn lacks(&self, made: Place) -> bool {
        self.seats.iter().any(|seat| seat.given < made)
    }

    fn desk_seat(&self, place: usize) -> Option<usize> {
        self.seat_index(self.lines[place].player()?)
    }

    fn has_due(&self, place: usize, made: Place) -> bool {
        self.desk_seat(place).is_some_and(|seat| has_due(&self.lines[place], &self.seats[seat], made))
    }

    fn due(&self, place: usize, id: &Digest, me: PlayerId, own: Option<TurnFrame>) -> Unsent {
        match self.desk_seat(place) {
            None => Unsent::new(),
            Some(seat) => due_bytes(&self.lines[place], &self.seats[seat], id, me, own),
        }
    }

    // -- changes --

    fn give(&mut self, place: usize, own: Option<TurnFrame>, due: Unsent, count: usize) {
        if let Some(seat) = self.desk_seat(place) {
            let line = &mut self.lines[place];
            give(line, &mut self.seats[seat], own, due, count);
            line.is_blocked = false;
        }
    }

    fn ask(&mut self, player: PlayerId, next: Place) {
        if let Some(seat) = self.seat_index(player) {
            self.seats[seat].asks.ask(next);
        }
    }

    /// The place of the seat of the player, if its greeting names the socket.
    fn naming_seat(&self, place: usize, session: &Digest, id: &Digest, player: PlayerId, pass: &Pass) -> Option<usize> {
        let seat = self.seat_index(player)?;
        let known = &self.seats[seat];
        let line = &self.lines[place];
        let names = id == session
            && *pass == known.link.wants
            && !known.is_spent()
            && line.dialled.is_none_or(|dialled| dialled == player);
        names.then_some(seat)
    }

    /// A greeting named the socket. An older socket of the name is to be shut.
    fn name(&mut self, place: usize, player: PlayerId, seat: usize, from: Place, next: Place) {
        for line in &mut self.lines {
            if line.is_open && line.name == Some(player) {
                line.is_wrong = true;
            }
        }
        let line = &mut self.lines[place];
        line.take_name(player, from, next);
        self.seats[seat].name(line.taken, from);
    }

    fn hear_first(&mut self, place: usize, frame: &Frame, peer: &Peer) {
        match frame {
            Frame::Hello { id, player, pass, next } => match self.naming_seat(place, &peer.session.id, id, *player, pass) {
                None => self.lines[place].is_wrong = true,
                Some(seat) => self.name(place, *player, seat, *next, peer.next_of(*player)),
            },
            Frame::Turn(_) | Frame::Want { .. } => self.lines[place].is_wrong = true,
        }
    }

    fn hear_want(&mut self, place: usize, player: PlayerId, want: Place) {
        if let Some(seat) = self.seat_index(player) {
            let seat = &mut self.seats[seat];
            if seat.wants < MOST_WANTS {
                self.lines[place].move_to(want);
                seat.wants += 1;
            }
            seat.reach(want);
        }
    }

    fn hear_named(&mut self, place: usize, player: PlayerId, frame: &Frame) {
        match frame {
            Frame::Turn(frame) if frame.player() == player => self.waiting.push(Arrival { player, frame: *frame }),
            Frame::Hello { .. } | Frame::Turn(_) => self.lines[place].is_wrong = true,
            Frame::Want { place: want } => self.hear_want(place, player, *want),
        }
    }

    /// A frame on the socket. Behind one for which it is to be shut none counts.
    fn hear(&mut self, place: usize, frame: &Frame, peer: &Peer) {
        let line = &self.lines[place];
        if line.is_wrong {
            return;
        }
        match line.name {
            None => self.hear_first(place, frame, peer),
            Some(player) => self.hear_named(place, player, frame),
        }
    }

    /// Bytes came on the socket: their frames are heard, and those of turns wait.
    fn take(&mut self, place: usize, bytes: &[u8], frames: &mut Vec<Frame>, peer: &Peer) {
        frames.clear();
        match self.lines[place].name {
            None => self.lines[place].taken += bytes.len() as u32,
            Some(player) => {
                if let Some(seat) = self.seat_index(player) {
                    self.seats[seat].spent += bytes.len() as u32;
                }
            }
        }
        let bad = feed_all(&mut self.lines[place].reader, bytes, frames);
        for frame in frames.iter() {
            self.hear(place, frame, peer);
        }
        if bad {
            self.lines[place].is_wrong = true;
        }
    }

    fn add(&mut self, line: Line) {
        self.lines.push(line);
    }

    fn dialled(&mut self, seat: usize, player: PlayerId, socket: SocketId, next: Place) {
        self.seats[seat].is_dialled = true;
        self.add(Line::dialled(socket, player, next));
    }

    fn open(&mut self, socket: SocketId) {
        if self.accepted < MOST_ACCEPTED {
            self.add(Line::accepted(socket, false));
            self.accepted += 1;
        } else {
            self.add(Line::accepted(socket, true));
        }
    }

    /// A poll was made and listed this.
    fn polled(&mut self, ready: &[Ready]) {
        self.lines.retain(|line| line.is_open);
        for seat in &mut self.seats {
            seat.is_dialled = false;
        }
        for item in ready {
            match *item {
                Ready::Opened(socket) => self.open(socket),
                Ready::Socket(socket) => {
                    for line in &mut self.lines {
                        if line.socket == socket {
                            line.wake();
                        }
                    }
                }
            }
        }
    }
}

/// Reads on in a stream, and adds the frames that end in these bytes. It says whether one of them is bad.
fn feed_all(reader: &mut FrameReader, bytes: &[u8], frames: &mut Vec<Frame>) -> bool {
    let mut rest = bytes;
    loop {
        let (used, what) = reader.feed(rest);
        rest = &rest[used..];
        match what {
            FedWhat::More => return false,
            FedWhat::Bad(_) => return true,
            FedWhat::Whole(frame) => frames.push(frame),
        }
    }
}

// ---- the loop ----

#[derive(Clone, Copy, PartialEq, Eq)]
enum Phase {
    Fresh,
    Logged,
    Running,
    KeepFault,
    PollFault,
}

#[derive(Clone, Copy)]
enum Settled {
    Idle,
    Done,
    Caught(Finding),
    KeepFault,
    OwnMove(Turn, MoveFault),
}

#[derive(Clone, Copy)]
enum Round {
    On,
    Done,
    Caught(Finding),
    PollFault,
    KeepFault,
    OwnMove(Turn, MoveFault),
}

enum Played {
    On,
    KeepFault,
    OwnMove(Turn, MoveFault),
}

/// The loop of a peer over sockets and a log.
struct Loop {
    peer: Peer,
    roster: Roster,
    over: usize,
    kept: usize,
    synced: usize,
    phase: Phase,
    sockets: Sockets,
    handled: usize,
    writer: LogWriter,
    buffer: [u8; MOST_TAKEN],
    frames: Vec<Frame>,
    ready: ReadyList,
}

impl Loop {
    fn new(peer: Peer, roster: Roster) -> Loop {
        Loop {
            sockets: Sockets::new(&roster.links, 2 * peer.session.turns),
            writer: LogWriter::new(&peer.session, peer.me),
            over: peer.entries.len(),
            peer,
            roster,
            kept: 0,
            synced: 0,
            phase: Phase::Fresh,
            handled: 0,
            buffer: [0; MOST_TAKEN],
            frames: Vec::with_capacity(MOST_TAKEN),
            ready: ReadyList::new(),
        }
    }

    // -- the log --

    fn keep_next<S: Station>(&mut self, station: &mut S) -> bool {
        let entry = &self.peer.entries[self.kept];
        let mut out = [0; 96];
        let count = self.writer.put(entry, &mut out);
        match station.keep(&out[..count]) {
            Did::Done => {
                self.kept += 1;
                true
            }
            Did::Failed => {
                self.phase = Phase::KeepFault;
                false
            }
        }
    }

    fn keep_to<S: Station>(&mut self, station: &mut S, count: usize) -> bool {
        while self.kept < count {
            if !self.keep_next(station) {
                return false;
            }
        }
        true
    }

    /// Syncs the log, if there is something to sync.
    fn sync<S: Station>(&mut self, station: &mut S) -> bool {
        if self.synced == self.kept {
            return true;
        }
        match station.sync() {
            Did::Done => {
                self.synced = self.kept;
                true
            }
            Did::Failed => {
                self.phase = Phase::KeepFault;
                false
            }
        }
    }

    /// Begins the log, keeps and syncs the entries that the peer had, and listens.
    fn begin<S: Station>(&mut self, station: &mut S, name: &[u8]) -> bool {
        if station.log_to(name) == Did::Failed {
            self.phase = Phase::KeepFault;
            return false;
        }
        self.phase = Phase::Logged;
        if !self.keep_to(station, self.over) || !self.sync(station) {
            return false;
        }
        if station.listen(self.roster.me) == Did::Failed {
            self.phase = Phase::PollFault;
            return false;
        }
        self.phase = Phase::Running;
        true
    }

    // -- what comes --

    /// Makes the own frames that the protocol lets be made, and keeps them.
    fn advance<S: Station>(&mut self, station: &mut S) -> bool {
        self.peer.advance();
        self.keep_to(station, self.peer.entries.len())
    }

    /// Handles the first frame that waits.
    fn hear<S: Station>(&mut self, station: &mut S) -> bool {
        let arrival = self.sockets.waiting[self.handled];
        let answer = self.peer.got(arrival.player, &arrival.frame);
        self.handled += 1;
        if answer.is_logged() {
            return self.keep_next(station) && self.advance(station);
        }
        if let GotAnswer::Far = answer {
            self.sockets.ask(arrival.player, self.peer.next_of(arrival.player));
        }
        true
    }

    /// Handles the frames that wait, up to the first that makes a finding.
    fn handle<S: Station>(&mut self, station: &mut S) -> bool {
        while self.handled < self.sockets.waiting.len() && self.peer.found.is_none() {
            if !self.hear(station) {
                return false;
            }
        }
        self.sockets.waiting.clear();
        self.handled = 0;
        self.peer.found.is_none()
    }

    fn read_once<S: Station>(&mut self, station: &mut S, place: usize, socket: SocketId) {
        let most = MOST_TAKEN.min(self.sockets.room(place) as usize);
        match station.read(socket, &mut self.buffer[..most]) {
            SocketRead::Took(count) => self.sockets.take(place, &self.buffer[..count], &mut self.frames, &self.peer),
            SocketRead::NotYet => self.sockets.lines[place].is_quiet = true,
            SocketRead::Ended | SocketRead::Failed => self.sockets.lines[place].is_open = false,
        }
    }

    /// Reads of each socket until nothing is there, and handles what came.
    fn read_all<S: Station>(&mut self, station: &mut S) -> bool {
        for place in 0..self.sockets.lines.len() {
            let socket = self.sockets.lines[place].socket;
            while self.sockets.wants_read(place) {
                self.read_once(station, place, socket);
                if !self.handle(station) {
                    return false;
                }
            }
        }
        true
    }

    // -- own moves --

    fn choose<S: Station, P: Pilot>(&mut self, station: &mut S, pilot: &mut P, chance: &mut Pcg32) -> Played {
        let choice = self.peer.choice();
        let mv = pilot.choose(&choice.track, choice.turn);
        let mut nonce = [0; 32];
        chance.fill_bytes(&mut nonce);
        if let Err(OwnFault::Illegal(fault)) = self.peer.choose(mv, nonce) {
            return Played::OwnMove(choice.turn, fault);
        }
        if !self.keep_next(station) || !self.advance(station) {
            return Played::KeepFault;
        }
        Played::On
    }

    /// Chooses own moves as long as one may be chosen.
    fn choose_all<S: Station, P: Pilot>(&mut self, station: &mut S, pilot: &mut P, chance: &mut Pcg32) -> Played {
        while self.peer.may_choose() {
            match self.choose(station, pilot, chance) {
                Played::On => {}
                played => return played,
            }
        }
        Played::On
    }

    // -- what goes out --

    fn shut_all<S: Station>(&mut self, station: &mut S) {
        for place in 0..self.sockets.lines.len() {
            if self.sockets.asks_shut(place) {
                let line = &mut self.sockets.lines[place];
                station.shut(line.socket);
                line.is_open = false;
            }
        }
    }

    fn wants_write(&self, place: usize) -> bool {
        let line = &self.sockets.lines[place];
        line.is_open && !line.is_blocked && self.sockets.has_due(place, self.peer.made_count())
    }

    fn write<S: Station>(&mut self, station: &mut S, place: usize, socket: SocketId) {
        let own = self.peer.made(self.sockets.lines[place].cursor);
        let due = self.sockets.due(place, &self.peer.session.id, self.peer.me, own);
        match station.write(socket, due.bytes()) {
            SocketWrite::Gave(count) => self.sockets.give(place, own, due, count),
            SocketWrite::NotYet => self.sockets.lines[place].is_blocked = true,
            SocketWrite::Failed => self.sockets.lines[place].is_open = false,
        }
    }

    /// Writes on each socket until nothing is due, or no more can be given.
    fn write_all<S: Station>(&mut self, station: &mut S) {
        for place in 0..self.sockets.lines.len() {
            let socket = self.sockets.lines[place].socket;
            while self.wants_write(place) {
                self.write(station, place, socket);
            }
        }
    }

    fn has_bytes(&self, place: usize) -> bool {
        let line = &self.sockets.lines[place];
        let due = self.sockets.has_due(place, self.peer.made_count());
        line.is_open && (!line.unsent.is_empty() || line.name.is_some() && due)
    }

    /// Whether a frame of another player is missed, or own bytes wait.
    fn is_waited_for(&self) -> bool {
        !self.peer.needs.is_empty()
            || (0..self.sockets.lines.len()).any(|place| self.has_bytes(place))
            || self.sockets.lacks(self.peer.made_count())
    }

    fn next_dial(&self) -> Option<usize> {
        (0..self.sockets.seats.len()).find(|&seat| self.sockets.wants_dial(self.peer.me, seat))
    }

    fn dial<S: Station>(&mut self, station: &mut S, seat: usize) {
        let link = self.sockets.seats[seat].link;
        let next = self.peer.next_of(link.player);
        match station.dial(link.player, link.addr) {
            Dial::Socket(socket) => self.sockets.dialled(seat, link.player, socket, next),
            Dial::Failed => self.sockets.seats[seat].is_dialled = true,
        }
    }

    // -- rounds --

    /// Ends with the finding of the log, once all is synced, or with the fault of a keep that failed.
    fn stop<S: Station>(&mut self, station: &mut S) -> Settled {
        if self.phase != Phase::Running || !self.sync(station) {
            return Settled::KeepFault;
        }
        match self.peer.found {
            Some(finding) => Settled::Caught(finding),
            None => Settled::KeepFault,
        }
    }

    /// Shuts and writes what is to be, and dials one player. It goes on where a player was dialled.
    fn serve<S: Station>(&mut self, station: &mut S) -> Option<Settled> {
        self.shut_all(station);
        self.write_all(station);
        if !self.is_waited_for() {
            return Some(Settled::Done);
        }
        match self.next_dial() {
            None => Some(Settled::Idle),
            Some(seat) => {
                self.dial(station, seat);
                None
            }
        }
    }

    fn pass<S: Station, P: Pilot>(&mut self, station: &mut S, pilot: &mut P, chance: &mut Pcg32) -> Option<Settled> {
        if !self.read_all(station) {
            return Some(self.stop(station));
        }
        let played = self.choose_all(station, pilot, chance);
        if let Played::KeepFault = played {
            return Some(Settled::KeepFault);
        }
        if !self.sync(station) {
            return Some(Settled::KeepFault);
        }
        if let Played::OwnMove(turn, fault) = played {
            return Some(Settled::OwnMove(turn, fault));
        }
        self.serve(station)
    }

    /// Handles everything that is there, until a poll may be made or the run is over.
    fn settle<S: Station, P: Pilot>(&mut self, station: &mut S, pilot: &mut P, chance: &mut Pcg32) -> Settled {
        if !self.advance(station) {
            return Settled::KeepFault;
        }
        if self.peer.found.is_some() {
            return self.stop(station);
        }
        loop {
            if let Some(settled) = self.pass(station, pilot, chance) {
                return settled;
            }
        }
    }

    fn round<S: Station, P: Pilot>(&mut self, station: &mut S, pilot: &mut P, chance: &mut Pcg32) -> Round {
        match self.settle(station, pilot, chance) {
            Settled::Idle => {}
            Settled::Done => return Round::Done,
            Settled::Caught(finding) => return Round::Caught(finding),
            Settled::KeepFault => return Round::KeepFault,
            Settled::OwnMove(turn, fault) => return Round::OwnMove(turn, fault),
        }
        match station.poll(&mut self.ready) {
            Did::Done => {
                self.sockets.polled(self.ready.as_slice());
                Round::On
            }
            Did::Failed => {
                self.phase = Phase::PollFault;
                Round::PollFault
            }
        }
    }

    fn given(&self, player: PlayerId) -> Place {
        self.sockets.seat_index(player).map_or(0, |seat| self.sockets.seats[seat].given.min(self.peer.made_count()))
    }

    fn spent(&self, player: PlayerId) -> u32 {
        self.sockets.seat_index(player).map_or(0, |seat| self.sockets.seats[seat].spent)
    }
}

// ---- the station in memory ----

#[derive(Clone, Copy, PartialEq, Eq)]
enum Wire {
    New,
    Open,
    Over,
}

/// A queue of one call that nobody took yet, the bytes that came and how many of them were read, those that are to go out, and the log, of
/// which so many bytes are synced.
struct Memory {
    wire: Wire,
    calls: bool,
    called: bool,
    came: Vec<u8>,
    read: usize,
    sent: Vec<u8>,
    log: Vec<u8>,
    synced: usize,
}

impl Memory {
    fn new() -> Memory {
        Memory {
            wire: Wire::New,
            calls: false,
            called: false,
            came: Vec::new(),
            read: 0,
            sent: Vec::new(),
            log: Vec::new(),
            synced: 0,
        }
    }
}

impl Station for Memory {
    fn listen(&mut self, _addr: Addr) -> Did {
        Did::Done
    }

    fn log_to(&mut self, _name: &[u8]) -> Did {
        Did::Done
    }

    fn dial(&mut self, _player: PlayerId, _addr: Addr) -> Dial {
        if self.wire != Wire::New {
            return Dial::Failed;
        }
        self.wire = Wire::Open;
        self.calls = true;
        Dial::Socket(0)
    }

    fn poll(&mut self, ready: &mut ReadyList) -> Did {
        ready.clear();
        if self.wire == Wire::New {
            if self.called {
                ready.push(Ready::Opened(0));
                self.wire = Wire::Open;
            }
        } else if self.read < self.came.len() {
            ready.push(Ready::Socket(0));
        }
        Did::Done
    }

    fn read(&mut self, _socket: SocketId, buf: &mut [u8]) -> SocketRead {
        let rest = &self.came[self.read..];
        let count = rest.len().min(buf.len()).min(MOST_READ);
        buf[..count].copy_from_slice(&rest[..count]);
        self.read += count;
        if count == 0 {
            SocketRead::NotYet
        } else {
            SocketRead::Took(count)
        }
    }

    fn write(&mut self, _socket: SocketId, bytes: &[u8]) -> SocketWrite {
        self.sent.extend_from_slice(bytes);
        SocketWrite::Gave(bytes.len())
    }

    fn shut(&mut self, _socket: SocketId) {
        self.wire = Wire::Over;
    }

    fn keep(&mut self, bytes: &[u8]) -> Did {
        self.log.extend_from_slice(bytes);
        Did::Done
    }

    fn sync(&mut self) -> Did {
        self.synced = self.log.len();
        Did::Done
    }
}

/// What goes out of one station comes to the other, and so does a call.
fn carry(from: &mut Memory, to: &mut Memory) {
    if from.calls {
        from.calls = false;
        to.called = true;
    }
    if to.read == to.came.len() {
        to.came.clear();
        to.read = 0;
    }
    to.came.extend_from_slice(&from.sent);
    from.sent.clear();
}

// ---- the matches ----

/// Chooses to stay.
struct Still;

impl Pilot for Still {
    fn choose(&mut self, track: &Track, _turn: Turn) -> Move {
        Move { to: track.at, strike: None }
    }
}

struct Player {
    it: Loop,
    station: Memory,
    chance: Pcg32,
}

impl Player {
    fn new(session: &Session, me: PlayerId, roster: Roster, seed: u64) -> Option<Player> {
        let mut it = Loop::new(Peer::new(session, me), roster);
        let mut station = Memory::new();
        it.begin(&mut station, b"log").then(|| Player { it, station, chance: Pcg32::of(seed) })
    }

    fn round(&mut self) -> Round {
        self.it.round(&mut self.station, &mut Still, &mut self.chance)
    }
}

/// The roster of one of two players.
fn roster_of(me: PlayerId) -> Roster {
    let addr = |player: PlayerId| Addr { ip: [127, 0, 0, 1], port: 7000 + u16::from(player) };
    let pass = |from: PlayerId| [if from == 0 { 0x01 } else { 0x10 }; 16];
    let other = 1 - me;
    Roster { me: addr(me), links: vec![Link { player: other, addr: addr(other), shows: pass(me), wants: pass(other) }] }
}

/// Plays the match by rounds in turn, and says whether both players are done.
fn play(zero: &mut Player, one: &mut Player) -> bool {
    let mut left = Round::On;
    let mut right = Round::On;
    for _ in 0..MOST_ROUNDS {
        if matches!(left, Round::On) {
            left = zero.round();
        }
        if matches!(right, Round::On) {
            right = one.round();
        }
        if !matches!(left, Round::On) && !matches!(right, Round::On) {
            return matches!((left, right), (Round::Done, Round::Done));
        }
        carry(&mut zero.station, &mut one.station);
        carry(&mut one.station, &mut zero.station);
    }
    false
}

/// The front of the digest that ends the log.
fn weight(log: &[u8]) -> u64 {
    let at = log.len() - 32;
    u64::from_be_bytes(log[at..at + 8].try_into().unwrap())
}

fn main() {
    let matches: u32 = std::env::args().nth(1).unwrap().parse().unwrap();
    let session = read_session(SESSION).expect("the text is of a session");
    let (mut frames, mut bytes, mut sum) = (0u64, 0u64, 0u64);
    for number in 0..matches {
        let seed = 2 * u64::from(number);
        let mut zero = Player::new(&session, 0, roster_of(0), seed).expect("player 0 begins");
        let mut one = Player::new(&session, 1, roster_of(1), seed + 1).expect("player 1 begins");
        assert!(play(&mut zero, &mut one), "the match comes to its end");
        for (player, other) in [(&zero, 1), (&one, 0)] {
            frames += u64::from(player.it.given(other));
            bytes += u64::from(player.it.spent(other));
            sum = sum.wrapping_add(weight(&player.station.log));
        }
    }
    println!("{frames} {bytes} {sum}");
}
