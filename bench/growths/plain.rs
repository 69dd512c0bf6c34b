// The same design in plain Rust, for `rustc -O`: a set of cells as rows of words, grown in one pass that says whether a bit changed.

const SIDE: usize = 256;
const WORDS: usize = SIDE / 64;
type Row = [u64; WORDS];
type Rows = [Row; SIDE];

/// Whether the labyrinth has a wall there.
fn is_wall(x: usize, y: usize) -> bool {
    let end = if x % 4 == 1 { SIDE - 1 } else { 0 };
    x % 2 == 1 && y != end
}

/// The row with each bit set that is set or lies beside one.
fn wide(row: &Row) -> Row {
    let mut out = [0; WORDS];
    for k in 0..WORDS {
        let before = if k > 0 { row[k - 1] >> 63 } else { 0 };
        let after = if k + 1 < WORDS { row[k + 1] << 63 } else { 0 };
        out[k] = row[k] | row[k] << 1 | row[k] >> 1 | before | after;
    }
    out
}

/// Grows the set by a step, and says whether that changed a bit.
fn step(rows: &mut Rows, walls: &Rows) -> bool {
    let mut above = [0; WORDS];
    let mut here = wide(&rows[0]);
    let mut change = 0;
    for y in 0..SIDE {
        let below = if y + 1 < SIDE { wide(&rows[y + 1]) } else { [0; WORDS] };
        for k in 0..WORDS {
            let word = (above[k] | here[k] | below[k]) & !walls[y][k];
            change |= rows[y][k] ^ word;
            rows[y][k] = word;
        }
        above = here;
        here = below;
    }
    change != 0
}

fn main() {
    let words: Vec<String> = std::env::args().skip(1).collect();
    let walled = words[0] == "labyrinth";
    let rounds: u32 = words[1].parse().unwrap();
    let mut walls: Box<Rows> = Box::new([[0; WORDS]; SIDE]);
    for y in 0..SIDE {
        for x in 0..SIDE {
            if walled && is_wall(x, y) {
                walls[y][x / 64] |= 1 << (x % 64);
            }
        }
    }
    let mut rows: Box<Rows> = Box::new([[0; WORDS]; SIDE]);
    let mut growths = 0u64;
    for _ in 0..rounds {
        rows.iter_mut().for_each(|row| row.fill(0));
        rows[0][0] = 1;
        for _ in 0..4096 * 8 {
            growths += 1;
            if !step(&mut rows, &walls) {
                break;
            }
        }
    }
    println!("{growths}");
}
