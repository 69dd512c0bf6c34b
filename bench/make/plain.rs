// The match of a number in plain Rust, for `rustc -O`, by the same design: eight peers with their windows and sets of cells, bots that
// choose, links that lose and repeat frames, and the audit of all logs. It makes each check that the proved program makes on what comes in.
// What a match of a number never asks for is left out: hostile players, peers that stop and go on, session texts of version 2, and what an
// audit does about a player of whom logs show more than one legal play. Where that is found, the program ends.
#![allow(dead_code)]

use std::collections::{BTreeMap, HashMap};
use std::fmt::Write;
use std::hash::{BuildHasherDefault, Hash, Hasher};

include!("../plain/peer.rs");

// ---- limits ----

const MOST_LOGS: usize = 64;

// of the sessions that are made
const SIDE: u16 = 64;
const CELLS: u16 = SIDE * SIDE;
const CELLS_A_WALL: u32 = 8;
const PLAYERS: u8 = 8;
const TURNS: u32 = 200;

// the most steps of a match
const MOST_STEPS: u32 = 46_400;

// ---- the session of a number ----

impl Pcg32 {
    fn nonce(&mut self) -> [u8; 32] {
        let mut nonce = [0; 32];
        for bytes in nonce.chunks_exact_mut(4) {
            bytes.copy_from_slice(&self.word().to_be_bytes());
        }
        nonce
    }
}

fn cell_at(place: u16) -> Cell {
    Cell { x: place % SIDE, y: place / SIDE }
}

fn draw_walls(chance: &mut Pcg32) -> Vec<Cell> {
    let mut walls = Vec::new();
    for place in 0..CELLS {
        if chance.draw(CELLS_A_WALL) == 0 && place != 0 {
            walls.push(cell_at(place));
        }
    }
    walls
}

fn draw_start(walls: &[Cell], chance: &mut Pcg32) -> Cell {
    let mut place = chance.draw(CELLS.into()) as u16;
    while walls.contains(&cell_at(place)) {
        place = (place + 1) % CELLS;
    }
    cell_at(place)
}

fn put_line(out: &mut String, name: &str, numbers: &[u32]) {
    out.push_str(name);
    for number in numbers {
        write!(out, " {number}").unwrap();
    }
    out.push('\n');
}

/// The session of the number, which is written as a text and read again.
fn make_session(number: u64) -> Session {
    let mut chance = Pcg32::of(number);
    let walls = draw_walls(&mut chance);
    let starts: Vec<Cell> = (0..PLAYERS).map(|_| draw_start(&walls, &mut chance)).collect();
    let mut text = String::new();
    put_line(&mut text, "playout", &[1]);
    put_line(&mut text, "grid", &[SIDE.into(), SIDE.into()]);
    put_line(&mut text, "rules", &[2, 2, 1]);
    put_line(&mut text, "charge", &[2, 6, 3]);
    put_line(&mut text, "turns", &[TURNS]);
    put_line(&mut text, "players", &[PLAYERS.into()]);
    for (player, start) in starts.iter().enumerate() {
        put_line(&mut text, "player", &[player as u32, start.x.into(), start.y.into()]);
    }
    for wall in &walls {
        put_line(&mut text, "wall", &[wall.x.into(), wall.y.into()]);
    }
    put_line(&mut text, "end", &[]);
    read_session(text.as_bytes()).expect("the text is of a session")
}

// ---- the table ----

enum Step {
    Choose { player: PlayerId, mv: Move, nonce: [u8; 32] },
    Deliver { from: PlayerId, to: PlayerId, place: Place },
}

enum StepAnswer {
    Chosen(Turn),
    Refused(OwnFault),
    Got(GotAnswer),
    NotHonest,
    NoFrame,
}

#[derive(Clone, Copy, Default)]
struct Tally {
    taken: u32,
    stashed: u32,
    same: u32,
    far: u32,
    foreign: u32,
    caught: u32,
    closed: u32,
}

impl Tally {
    fn count(&mut self, answer: &GotAnswer) {
        let count = match answer {
            GotAnswer::Taken => &mut self.taken,
            GotAnswer::Stashed => &mut self.stashed,
            GotAnswer::Same => &mut self.same,
            GotAnswer::Far => &mut self.far,
            GotAnswer::Foreign => &mut self.foreign,
            GotAnswer::Caught(_) => &mut self.caught,
            GotAnswer::Closed => &mut self.closed,
        };
        *count = count.saturating_add(1);
    }
}

enum Stand {
    Caught(PlayerId),
    Moving(PlayerId),
    Behind(PlayerId, PlayerId, Place),
    Held(PlayerId),
    Finished,
}

/// The peers of all honest players.
struct Table {
    session: Session,
    seats: Vec<Option<Peer>>,
    tallies: Vec<Tally>,
}

impl Table {
    /// Bit `q` of `hostile` says that player `q` has no peer.
    fn new(session: &Session, hostile: u64) -> Table {
        let seat = |player| ((hostile >> player) & 1 == 0).then(|| Peer::new(session, player));
        Table {
            session: session.clone(),
            seats: (0..session.players()).map(seat).collect(),
            tallies: vec![Tally::default(); usize::from(session.players())],
        }
    }

    fn peer(&self, player: PlayerId) -> Option<&Peer> {
        self.seats[usize::from(player)].as_ref()
    }

    fn choose(&mut self, player: PlayerId, mv: Move, nonce: [u8; 32]) -> StepAnswer {
        let Some(peer) = &mut self.seats[usize::from(player)] else {
            return StepAnswer::NotHonest;
        };
        let turn = peer.choice().turn;
        match peer.choose(mv, nonce) {
            Err(fault) => StepAnswer::Refused(fault),
            Ok(()) => {
                peer.advance();
                StepAnswer::Chosen(turn)
            }
        }
    }

    fn deliver(&mut self, from: PlayerId, to: PlayerId, place: Place) -> StepAnswer {
        let Some(sender) = self.peer(from) else {
            return StepAnswer::NotHonest;
        };
        if self.peer(to).is_none() {
            return StepAnswer::NotHonest;
        }
        let Some(frame) = sender.made(place) else {
            return StepAnswer::NoFrame;
        };
        let at = usize::from(to);
        let Some(peer) = &mut self.seats[at] else {
            return StepAnswer::NotHonest;
        };
        let answer = peer.got(from, &frame);
        if answer.is_logged() {
            peer.advance();
        }
        self.tallies[at].count(&answer);
        StepAnswer::Got(answer)
    }

    fn step(&mut self, step: &Step) -> StepAnswer {
        match *step {
            Step::Choose { player, mv, nonce } => self.choose(player, mv, nonce),
            Step::Deliver { from, to, place } => self.deliver(from, to, place),
        }
    }

    fn has_made(&self, player: PlayerId, place: Place) -> bool {
        self.peer(player).is_some_and(|peer| place < peer.made_count())
    }

    /// The first frame that the player lacks and another one made.
    fn gap_of(&self, player: PlayerId) -> Option<(PlayerId, Place)> {
        let peer = self.peer(player)?;
        let whose = (0..self.session.players()).find(|&other| self.has_made(other, peer.next_of(other)))?;
        Some((whose, peer.next_of(whose)))
    }

    /// Whether a peer waits for this hostile player.
    fn is_holding(&self, player: PlayerId) -> bool {
        let waits = |peer: &Peer| peer.needs.as_slice().iter().any(|need| need.player == player);
        self.peer(player).is_none() && self.seats.iter().flatten().any(waits)
    }

    /// How the match stands: the first of these that holds, and of those the one with the least numbers.
    fn stand(&self) -> Stand {
        let mut players = 0..self.session.players();
        let is_caught = |&player: &u8| self.peer(player).is_some_and(|peer| peer.found.is_some());
        if let Some(player) = players.clone().find(is_caught) {
            return Stand::Caught(player);
        }
        let is_moving = |&player: &u8| self.peer(player).is_some_and(Peer::may_choose);
        if let Some(player) = players.clone().find(is_moving) {
            return Stand::Moving(player);
        }
        for player in players.clone() {
            if let Some((whose, place)) = self.gap_of(player) {
                return Stand::Behind(player, whose, place);
            }
        }
        match players.find(|&player| self.is_holding(player)) {
            Some(player) => Stand::Held(player),
            None => Stand::Finished,
        }
    }
}

// ---- bots and links ----

/// Draws its choices: a step to a neighbour or none, and perhaps a strike.
struct Bot<'a> {
    session: &'a Session,
    chance: Pcg32,
    // the least reach of all players
    reach: u8,
}

/// The number moved by what was drawn less the reach, and then the nearest to it of those below the side.
fn aimed(side: u16, reach: u8, from: u16, drawn: u32) -> u16 {
    (u32::from(from) + drawn).saturating_sub(reach.into()).min(u32::from(side) - 1) as u16
}

impl<'a> Bot<'a> {
    fn new(number: u64, session: &'a Session) -> Bot<'a> {
        let reach = session.seats.iter().map(|seat| seat.reach).min().unwrap();
        Bot { session, chance: Pcg32::of(number), reach }
    }

    fn target(&self, at: Cell, drawn: u32) -> Cell {
        let grid = &self.session.grid;
        let x = u32::from(at.x) + drawn % 3;
        let y = u32::from(at.y) + drawn / 3;
        if x == 0 || y == 0 || x > grid.width.into() || y > grid.height.into() {
            return at;
        }
        let wished = Cell { x: (x - 1) as u16, y: (y - 1) as u16 };
        if grid.open(wished) {
            wished
        } else {
            at
        }
    }

    fn strike(&mut self, charge: u8, to: Cell) -> Option<Cell> {
        if charge < self.session.rules.cost || self.chance.draw(2) != 0 {
            return None;
        }
        let drift = 2 * u32::from(self.reach) + 1;
        let across = self.chance.draw(drift);
        let down = self.chance.draw(drift);
        let grid = &self.session.grid;
        Some(Cell { x: aimed(grid.width, self.reach, to.x, across), y: aimed(grid.height, self.reach, to.y, down) })
    }

    fn choose(&mut self, track: &Track) -> Move {
        let drawn = self.chance.draw(9);
        let to = self.target(track.at, drawn);
        let strike = self.strike(track.charge, to);
        Move { to, strike }
    }
}

#[derive(Default)]
struct Counts {
    chosen: u32,
    delivered: u32,
    lost: u32,
    repeated: u32,
}

/// A match that bots play.
struct Playing<'a> {
    table: Table,
    bots: Bot<'a>,
    rest: Pcg32,
    counts: Counts,
    was_lost: bool,
}

impl<'a> Playing<'a> {
    fn new(session: &'a Session, number: u64) -> Playing<'a> {
        Playing {
            table: Table::new(session, 0),
            bots: Bot::new(number.wrapping_add(1), session),
            rest: Pcg32::of(number.wrapping_add(2)),
            counts: Counts::default(),
            was_lost: false,
        }
    }

    fn choose(&mut self, player: PlayerId) {
        let Some(peer) = self.table.peer(player) else {
            return;
        };
        let mv = self.bots.choose(&peer.choice().track);
        let nonce = self.rest.nonce();
        self.table.step(&Step::Choose { player, mv, nonce });
        self.counts.chosen += 1;
    }

    fn deliver(&mut self, from: PlayerId, to: PlayerId, place: Place) {
        self.table.step(&Step::Deliver { from, to, place });
        self.counts.delivered += 1;
        self.was_lost = false;
    }

    /// Delivers a frame up to this place, which the player may have.
    fn repeat(&mut self, from: PlayerId, to: PlayerId, place: Place) {
        let place = self.rest.draw(place + 1);
        self.table.step(&Step::Deliver { from, to, place });
        self.counts.repeated += 1;
    }

    /// Brings a frame to a player that lacks it, or loses it, as is drawn. No two behind each other are lost.
    fn bring(&mut self, from: PlayerId, to: PlayerId, place: Place) {
        let drawn = self.rest.draw(4);
        if drawn == 0 && !self.was_lost {
            self.counts.lost += 1;
            self.was_lost = true;
            return;
        }
        if drawn == 1 {
            self.repeat(from, to, place);
        }
        self.deliver(from, to, place);
    }

    fn play(&mut self) {
        for _ in 0..MOST_STEPS {
            match self.table.stand() {
                Stand::Moving(player) => self.choose(player),
                Stand::Behind(player, whose, place) => self.bring(whose, player, place),
                Stand::Caught(_) | Stand::Held(_) | Stand::Finished => return,
            }
        }
    }
}

// ---- the audit ----

/// Folds what is hashed by multiplication, with a fixed seed.
#[derive(Default)]
struct FoldHasher(u64);

impl FoldHasher {
    fn fold(&mut self, word: u64) {
        let product = u128::from(self.0 ^ word ^ 0x243f_6a88_85a3_08d3) * 0x9e37_79b9_7f4a_7c15_u128;
        self.0 = product as u64 ^ (product >> 64) as u64;
    }
}

impl Hasher for FoldHasher {
    fn write(&mut self, bytes: &[u8]) {
        for byte in bytes {
            self.fold(u64::from(*byte));
        }
    }

    fn write_u8(&mut self, word: u8) {
        self.fold(u64::from(word));
    }

    fn write_u32(&mut self, word: u32) {
        self.fold(u64::from(word));
    }

    fn finish(&self) -> u64 {
        self.0
    }
}

#[derive(Clone, Copy, PartialEq, Eq, Hash)]
struct TurnKey {
    player: PlayerId,
    turn: Turn,
}

/// A frame that logs got, its digest, and its first spot in each log that got it.
struct KeptFrame {
    frame: TurnFrame,
    digest: Digest,
    spots: Vec<Spot>,
}

#[derive(Clone, Copy, PartialEq, Eq, PartialOrd, Ord)]
struct FrameKey {
    commits: bool,
    digest: Digest,
}

/// The different frames of a player's turn.
#[derive(Default)]
struct TurnFrames {
    kept: Vec<KeptFrame>,
    // of each frame but the first few, where it stands
    places: BTreeMap<FrameKey, usize>,
}

// as many frames of a turn as are looked through one by one
const FEW: usize = 4;

fn has_log(spots: &[Spot], log: u32) -> bool {
    spots.iter().any(|spot| spot.log == log)
}

impl TurnFrames {
    fn note(&mut self, at: usize, spot: Spot) {
        let spots = &mut self.kept[at].spots;
        if !has_log(spots, spot.log) {
            spots.push(spot);
        }
    }

    /// The place of the frame behind the first few.
    fn late_place(&self, frame: &TurnFrame, digest: Digest) -> Option<usize> {
        let at = *self.places.get(&FrameKey { commits: frame.is_commit(), digest })?;
        if self.kept[at].frame == *frame {
            return Some(at);
        }
        // another frame of the kind has the same digest
        self.kept.iter().position(|one| one.frame == *frame)
    }

    fn take(&mut self, session: &Session, frame: &TurnFrame, spot: Spot) {
        if let Some(at) = self.kept.iter().take(FEW).position(|one| one.frame == *frame) {
            return self.note(at, spot);
        }
        let digest = frame.digest(session);
        if let Some(at) = self.late_place(frame, digest) {
            return self.note(at, spot);
        }
        let count = self.kept.len();
        if count >= FEW {
            self.places.insert(FrameKey { commits: frame.is_commit(), digest }, count);
        }
        self.kept.push(KeptFrame { frame: *frame, digest, spots: vec![spot] });
    }
}

/// Of each player's turn the different frames, found by the turn and kept in the order in which they came.
#[derive(Default)]
struct FrameIndex {
    places: HashMap<TurnKey, usize, BuildHasherDefault<FoldHasher>>,
    turns: Vec<TurnFrames>,
}

impl FrameIndex {
    fn take(&mut self, session: &Session, frame: &TurnFrame, spot: Spot) {
        let key = TurnKey { player: frame.player(), turn: frame.turn() };
        let at = *self.places.entry(key).or_insert(self.turns.len());
        if at == self.turns.len() {
            self.turns.push(TurnFrames::default());
        }
        self.turns[at].take(session, frame, spot);
    }

    fn kept(&self, player: PlayerId, turn: Turn) -> &[KeptFrame] {
        match self.places.get(&TurnKey { player, turn }) {
            None => &[],
            Some(&at) => &self.turns[at].kept,
        }
    }
}

/// Whether at most one commitment and one reveal are kept of a turn, and they have one digest.
fn is_plain(kept: &[KeptFrame]) -> bool {
    match kept {
        [] | [_] => true,
        [one, other] => one.frame.is_commit() != other.frame.is_commit() && one.digest == other.digest,
        _ => false,
    }
}

fn move_in(kept: &[KeptFrame]) -> Option<Move> {
    kept.iter().find_map(|one| match one.frame {
        TurnFrame::Reveal { mv, .. } => Some(mv),
        TurnFrame::Commit { .. } => None,
    })
}

/// The track after the turn of which these frames are kept; none where the reveal that is kept isn't legal.
fn track_behind(session: &Session, player: PlayerId, track: &Track, kept: &[KeptFrame]) -> Option<Track> {
    match move_in(kept) {
        None => Some(*track),
        Some(mv) => judge_move(session, player, track, &mv).ok(),
    }
}

/// Whether all that is kept of the player is one legal play: then no log shows anything against it.
fn is_plain_player(index: &FrameIndex, session: &Session, player: PlayerId) -> bool {
    let mut track = session.start_track(player);
    for turn in 0..session.turns {
        let kept = index.kept(player, turn);
        if !is_plain(kept) {
            return false;
        }
        match track_behind(session, player, &track, kept) {
            None => return false,
            Some(next) => track = next,
        }
    }
    true
}

/// By the log's number, whether it is looked at.
type Chosen = [bool; MOST_LOGS];

/// Where the one commitment or the one reveal that is kept stands.
fn spots_of(kept: &[KeptFrame], is_commit: bool) -> &[Spot] {
    match kept.iter().find(|one| one.frame.is_commit() == is_commit) {
        None => &[],
        Some(one) => &one.spots,
    }
}

/// Leaves those of the logs that have one of the spots.
fn leave(chosen: &mut Chosen, spots: &[Spot]) {
    for (log, chosen) in chosen.iter_mut().enumerate() {
        *chosen = *chosen && has_log(spots, log as u32);
    }
}

/// The moves by which the chosen logs resolve the player's turns; none where what is kept of it isn't one legal play.
fn common_moves(index: &FrameIndex, session: &Session, player: PlayerId, mut chosen: Chosen) -> Option<Vec<Move>> {
    let mut moves = Vec::new();
    let mut track = session.start_track(player);
    for turn in 0..session.ahead.min(session.turns) {
        let kept = index.kept(player, turn);
        if !is_plain(kept) {
            return None;
        }
        leave(&mut chosen, spots_of(kept, true));
    }
    for turn in 0..session.turns {
        let kept = index.kept(player, turn);
        if !is_plain(kept) {
            return None;
        }
        track = track_behind(session, player, &track, kept)?;
        leave(&mut chosen, spots_of(kept, false));
        if !chosen.contains(&true) {
            return Some(moves);
        }
        moves.push(move_in(kept)?);
        let commits = turn + session.ahead;
        if commits < session.turns {
            let kept = index.kept(player, commits);
            if !is_plain(kept) {
                return None;
            }
            leave(&mut chosen, spots_of(kept, true));
        }
    }
    Some(moves)
}

#[derive(Clone, Copy)]
struct WorldLine {
    track: Track,
    score: Score,
}

struct Auditor {
    session: Session,
    // the frames that logs got, and those that their owners made
    index: FrameIndex,
    made: FrameIndex,
    counts: [u32; MOST_LOGS],
    owners: [Option<PlayerId>; MOST_LOGS],
}

struct Report {
    findings: Vec<Finding>,
    lines: Vec<WorldLine>,
}

impl Auditor {
    fn new(session: &Session) -> Auditor {
        Auditor {
            session: session.clone(),
            index: FrameIndex::default(),
            made: FrameIndex::default(),
            counts: [0; MOST_LOGS],
            owners: [None; MOST_LOGS],
        }
    }

    fn take(&mut self, log: u32, entry: &Entry) {
        let count = &mut self.counts[log as usize];
        let spot = Spot { log, entry: *count };
        match entry {
            Entry::Got(_, frame) => self.index.take(&self.session, frame, spot),
            Entry::Made(frame) => self.made.take(&self.session, frame, spot),
            Entry::Chose { .. } => {}
        }
        *count += 1;
    }

    /// What logs show against players.
    fn findings(&self) -> Vec<Finding> {
        for player in 0..self.session.players() {
            assert!(is_plain_player(&self.index, &self.session, player), "logs show more of player {player} than one legal play");
        }
        Vec::new()
    }

    /// The player's moves on which the logs agree: by what others got of it, and by what it made.
    fn agreed_moves(&self, player: PlayerId) -> Vec<Move> {
        let others = self.owners.map(|owner| owner != Some(player));
        let own = self.owners.map(|owner| owner == Some(player));
        let got = common_moves(&self.index, &self.session, player, others).expect("logs got one legal play");
        let made = common_moves(&self.made, &self.session, player, own).expect("logs made one legal play");
        let mut moves = Vec::new();
        for turn in 0..self.session.turns as usize {
            let mv = match (got.get(turn), made.get(turn)) {
                (Some(mv), Some(second)) => (mv == second).then_some(*mv),
                (mv, second) => mv.or(second).copied(),
            };
            moves.extend(mv);
        }
        moves
    }

    /// Plays the turns of all players by these moves, up to the first turn that can't be played.
    fn play(&self, moves: &[Vec<Move>]) -> Playout {
        let session = &self.session;
        let mut playout = Playout::new(session);
        let mut now = Vec::with_capacity(moves.len());
        for turn in 0..session.turns as usize {
            now.clear();
            now.extend(moves.iter().map(|own| own[turn]));
            for player in 0..session.players() {
                let at = usize::from(player);
                if judge_move(session, player, &playout.standings[at].track, &now[at]).is_err() {
                    return playout;
                }
            }
            playout.turn(session, &now);
        }
        playout
    }

    /// Each player's line after the play of these moves over all turns; no lines where they aren't moves of all turns.
    fn world(&self, moves: &[Vec<Move>]) -> Vec<WorldLine> {
        if moves.iter().any(|own| own.len() != self.session.turns as usize) {
            return Vec::new();
        }
        let playout = self.play(moves);
        playout.standings.iter().map(|standing| WorldLine { track: standing.track, score: standing.score }).collect()
    }

    fn report(&self) -> Report {
        let findings = self.findings();
        let moves: Vec<Vec<Move>> = (0..self.session.players()).map(|player| self.agreed_moves(player)).collect();
        Report { findings, lines: self.world(&moves) }
    }
}

/// What the logs of all honest players show together.
fn audit(table: &Table) -> Report {
    let mut auditor = Auditor::new(&table.session);
    for player in 0..table.session.players() {
        if let Some(peer) = table.peer(player) {
            auditor.owners[usize::from(player)] = Some(player);
            for entry in &peer.entries {
                auditor.take(player.into(), entry);
            }
        }
    }
    auditor.report()
}

// ---- the command ----

fn put_summary(counts: &Counts, report: &Report) {
    println!("players {PLAYERS} turns {TURNS}");
    println!("chosen {}", counts.chosen);
    println!("delivered {}", counts.delivered);
    println!("lost {}", counts.lost);
    println!("repeated {}", counts.repeated);
    println!("findings {}", report.findings.len());
    if report.lines.is_empty() {
        println!("world none");
    }
    for (player, WorldLine { track, score }) in report.lines.iter().enumerate() {
        let (at, charge) = (track.at, track.charge);
        println!("world {player} at {} {} charge {charge} given {} taken {}", at.x, at.y, score.given, score.taken);
    }
    println!("end");
}

fn number_said(words: &[String]) -> Option<u64> {
    match words {
        [command, word] if command == "make" => word.parse().ok().filter(|number: &u64| number.to_string() == *word),
        _ => None,
    }
}

fn main() {
    let words: Vec<String> = std::env::args().skip(1).collect();
    let Some(number) = number_said(&words) else {
        eprintln!("plain make N");
        std::process::exit(2);
    };
    let session = make_session(number);
    let mut playing = Playing::new(&session, number);
    playing.play();
    let report = audit(&playing.table);
    put_summary(&playing.counts, &report);
}
