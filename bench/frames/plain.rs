// The same design in plain Rust, for `rustc -O`: a stream of frames, split by the same rules in pieces, each of which is written to a
// place that is given, and a sum over all bytes of the frames.
#![allow(dead_code)]

const FRAMES: u32 = 400_000;
const PIECE: usize = 1_500;

#[derive(Clone, Copy)]
struct Cell {
    x: u16,
    y: u16,
}

#[derive(Clone, Copy)]
struct Move {
    to: Cell,
    strike: Option<Cell>,
}

#[derive(Clone, Copy)]
enum Frame {
    Hello { id: [u8; 32], player: u8, pass: [u8; 16], next: u32 },
    Commit { player: u8, turn: u32, digest: [u8; 32] },
    Reveal { player: u8, turn: u32, mv: Move, nonce: [u8; 32] },
    Want { place: u32 },
}

enum What {
    More,
    Whole(Frame),
    Bad(u64),
}

// what stands at the front of the bytes: a part of a frame, a whole one of this length, or a bad byte at a place
enum End {
    Part,
    Whole(usize),
    Bad(usize),
}

fn short_at(bytes: &[u8], at: usize) -> u16 {
    u16::from_be_bytes([bytes[at], bytes[at + 1]])
}

fn word_at(bytes: &[u8], at: usize) -> u32 {
    u32::from_be_bytes(bytes[at..at + 4].try_into().unwrap())
}

fn array_at<const N: usize>(bytes: &[u8], at: usize) -> [u8; N] {
    bytes[at..at + N].try_into().unwrap()
}

fn cell_at(bytes: &[u8], at: usize) -> Cell {
    Cell { x: short_at(bytes, at), y: short_at(bytes, at + 2) }
}

fn has_payload(kind: u8, payload: u8) -> bool {
    match kind {
        1 => payload == 53,
        2 => payload == 37,
        3 => payload == 42 || payload == 46,
        4 => payload == 4,
        _ => false,
    }
}

fn front_of(bytes: &[u8], out: &mut What) -> End {
    if !bytes.is_empty() && !(1..=4).contains(&bytes[0]) {
        return End::Bad(0);
    }
    if bytes.len() > 1 && bytes[1] != 0 {
        return End::Bad(1);
    }
    if bytes.len() > 2 && !has_payload(bytes[0], bytes[2]) {
        return End::Bad(2);
    }
    if bytes.len() > 12 && bytes[0] == 3 && bytes[12] != u8::from(bytes[2] == 46) {
        return End::Bad(12);
    }
    if bytes.len() < 3 || bytes.len() < usize::from(bytes[2]) + 3 {
        return End::Part;
    }
    let count = usize::from(bytes[2]) + 3;
    *out = What::Whole(match bytes[0] {
        1 => Frame::Hello { id: array_at(bytes, 3), player: bytes[35], pass: array_at(bytes, 36), next: word_at(bytes, 52) },
        2 => Frame::Commit { player: bytes[3], turn: word_at(bytes, 4), digest: array_at(bytes, 8) },
        3 => {
            let strike = if bytes[12] == 1 { Some(cell_at(bytes, 13)) } else { None };
            Frame::Reveal {
                player: bytes[3],
                turn: word_at(bytes, 4),
                mv: Move { to: cell_at(bytes, 8), strike },
                nonce: array_at(bytes, count - 32),
            }
        }
        _ => Frame::Want { place: word_at(bytes, 3) },
    });
    End::Whole(count)
}

struct Reader {
    held: [u8; 64],
    len: usize,
    place: u64,
    bad: bool,
}

impl Reader {
    fn feed(&mut self, bytes: &[u8]) -> (usize, What) {
        if self.bad {
            return (0, What::Bad(self.place));
        }
        let before = self.len;
        let mut what = What::More;
        let end = if before == 0 {
            front_of(bytes, &mut what)
        } else {
            let count = bytes.len().min(64 - before);
            self.held[before..before + count].copy_from_slice(&bytes[..count]);
            front_of(&self.held[..before + count], &mut what)
        };
        let used = match end {
            End::Part => {
                if before == 0 {
                    self.held[..bytes.len()].copy_from_slice(bytes);
                }
                self.len = before + bytes.len();
                bytes.len()
            }
            End::Whole(end) => {
                self.len = 0;
                end - before
            }
            End::Bad(at) => {
                self.len = 0;
                self.bad = true;
                what = What::Bad(self.place + (at - before) as u64);
                at - before
            }
        };
        self.place += used as u64;
        (used, what)
    }
}

fn add_cell(out: &mut Vec<u8>, cell: Cell) {
    out.extend_from_slice(&cell.x.to_be_bytes());
    out.extend_from_slice(&cell.y.to_be_bytes());
}

fn add_frame(out: &mut Vec<u8>, i: u32) {
    let cell = Cell { x: (i % 256) as u16, y: (i / 256 % 256) as u16 };
    if i % 2 == 0 {
        out.extend_from_slice(&[2, 0, 37, (i % 16) as u8]);
        out.extend_from_slice(&i.to_be_bytes());
    } else {
        let strikes = i % 4 == 1;
        out.extend_from_slice(&[3, 0, if strikes { 46 } else { 42 }, (i % 16) as u8]);
        out.extend_from_slice(&i.to_be_bytes());
        add_cell(out, cell);
        out.push(u8::from(strikes));
        if strikes {
            add_cell(out, cell);
        }
    }
    out.extend_from_slice(&[(i % 251) as u8; 32]);
}

fn bytes_weight(bytes: &[u8; 32]) -> u64 {
    let mut sum = 0u8;
    for byte in bytes {
        sum = sum.wrapping_add(*byte);
    }
    u64::from(sum)
}

fn cell_weight(cell: Cell) -> u64 {
    u64::from(cell.x) + u64::from(cell.y)
}

// a sum over all that the frame says; not inlined, so that the whole frame has to be made
#[inline(never)]
fn weight(frame: &Frame) -> u64 {
    match frame {
        Frame::Commit { player, turn, digest } => u64::from(*player) + u64::from(*turn) + bytes_weight(digest),
        Frame::Reveal { player, turn, mv, nonce } => {
            let strike = mv.strike.map_or(0, |cell| 1 + cell_weight(cell));
            u64::from(*player) + u64::from(*turn) + cell_weight(mv.to) + strike + bytes_weight(nonce)
        }
        _ => 0,
    }
}

fn read_stream(stream: &[u8]) -> u64 {
    let mut reader = Reader { held: [0; 64], len: 0, place: 0, bad: false };
    let mut sum = 0u64;
    for piece in stream.chunks(PIECE) {
        let mut rest = piece;
        while !rest.is_empty() {
            let (used, what) = reader.feed(rest);
            let What::Whole(frame) = what else {
                break;
            };
            sum = sum.wrapping_add(weight(&frame));
            rest = &rest[used..];
        }
    }
    sum
}

fn main() {
    let rounds: u32 = std::env::args().nth(1).unwrap().parse().unwrap();
    let mut stream = Vec::new();
    for i in 0..FRAMES {
        add_frame(&mut stream, i);
    }
    let mut sum = 0u64;
    for _ in 0..rounds {
        sum = sum.wrapping_add(read_stream(&stream));
    }
    println!("{FRAMES} {} {sum}", stream.len());
}
