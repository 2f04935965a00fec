//! Looks for refusals on a Beneš card of 16 lines that take the program `bench` long: random plans with holds on innermost
//! cells, then small changes, kept where the search takes no fewer steps. It counts the steps of a search in plain
//! Rust, so that no other program on the machine disturbs it, and writes each case that is longer than all before it.
//! That search passes over each first column with a cell at 1 that has no hold and two idle inputs; the program tries them.
//!   rustc --edition 2021 -O tests/bench/longest.rs -o longest && ./longest STARTS SEED
const NONE: u8 = 255;
const INNERMOST: [usize; 8] = [28, 29, 34, 35, 48, 49, 54, 55];

#[derive(Clone, Copy)]
struct Case {
    pairs: [u8; 16],
    holds: [u8; 56],
}

fn cells(level: usize) -> usize {
    if level == 0 { 1 } else { 2 * (2 << (level - 1)) + 2 * cells(level - 1) }
}

/// Whether a setting fits; a step is a cell, a pair or a line that is handled, or a call.
fn settle(level: usize, pairs: &[u8; 16], holds: &[u8], setting: &mut [u8], steps: &mut u64) -> bool {
    *steps += 1;
    if level == 0 {
        return (0..2).any(|q| (holds[0] == NONE || holds[0] == q) && (0..2).all(|i| pairs[i] == NONE || pairs[i] == (i as u8) ^ q));
    }
    let h = 2usize << (level - 1);
    let m = cells(level - 1);
    'columns: for n in 0..1usize << h {
        for c in (0..h).rev() {
            *steps += 1;
            let q = (n >> (h - 1 - c) & 1) as u8;
            let idle = pairs[2 * c] == NONE && pairs[2 * c + 1] == NONE;
            if if holds[c] == NONE { q == 1 && idle } else { q != holds[c] } {
                continue 'columns;
            }
            setting[c] = q;
        }
        setting[h..2 * h].copy_from_slice(&holds[h..2 * h]);
        for i in 0..2 * h {
            *steps += 1;
            if pairs[i] != NONE {
                let q = (pairs[i] & 1) ^ setting[i / 2] ^ (i as u8 & 1);
                let cell = &mut setting[h + pairs[i] as usize / 2];
                if *cell != NONE && *cell != q {
                    continue 'columns;
                }
                *cell = q;
            }
        }
        let settled = (0..2).all(|b| {
            let mut half = [NONE; 16];
            for c in 0..h {
                *steps += 1;
                let output = pairs[2 * c + (setting[c] as usize + b) % 2];
                half[c] = if output == NONE { NONE } else { output / 2 };
            }
            let start = 2 * h + b * m;
            settle(level - 1, &half, &holds[start..start + m], &mut setting[start..start + m], steps)
        });
        if settled {
            return true;
        }
    }
    false
}

/// The steps of a refusal, and 0 where a setting fits.
fn steps(case: &Case) -> u64 {
    let mut steps = 0;
    if settle(3, &case.pairs, &case.holds, &mut [0; 56], &mut steps) { 0 } else { steps }
}

struct Random(u64);

impl Random {
    fn below(&mut self, n: usize) -> usize {
        self.0 ^= self.0 << 13;
        self.0 ^= self.0 >> 7;
        self.0 ^= self.0 << 17;
        (self.0 >> 11) as usize % n
    }
}

/// One pair from each first cell to a last cell of its own, and all innermost cells held.
fn start(random: &mut Random) -> Case {
    let mut case = Case { pairs: [NONE; 16], holds: [NONE; 56] };
    let mut last: Vec<usize> = (0..8).collect();
    for i in (1..8).rev() {
        last.swap(i, random.below(i + 1));
    }
    for c in 0..8 {
        case.pairs[2 * c + random.below(2)] = (2 * last[c] + random.below(2)) as u8;
    }
    for cell in INNERMOST {
        case.holds[cell] = random.below(2) as u8;
    }
    case
}

/// Two inputs changed for one another, a pair dropped or added, or a hold changed, most often of an innermost cell.
fn change(mut case: Case, random: &mut Random) -> Case {
    match random.below(3) {
        0 => case.pairs.swap(random.below(16), random.below(16)),
        1 => {
            let (input, output) = (random.below(16), random.below(16) as u8);
            if random.below(4) == 0 {
                case.pairs[input] = NONE;
            } else if !case.pairs.contains(&output) {
                case.pairs[input] = output;
            }
        }
        _ => {
            let cell = if random.below(4) > 0 { INNERMOST[random.below(8)] } else { random.below(56) };
            case.holds[cell] = [0, 1, NONE][random.below(3)];
        }
    }
    case
}

fn main() {
    let mut words = std::env::args().skip(1).map(|word| word.parse::<u64>().unwrap());
    let starts = words.next().unwrap_or(50);
    let mut random = Random(words.next().unwrap_or(1).wrapping_mul(0x9E37_79B9_7F4A_7C15) | 1);
    let mut longest = 0;
    for _ in 0..starts {
        let mut case = start(&mut random);
        let mut here = steps(&case);
        let mut without_gain = 0;
        while without_gain < 400 {
            let next = change(case, &mut random);
            let there = steps(&next);
            without_gain = if there > here { 0 } else { without_gain + 1 };
            if there >= here {
                (case, here) = (next, there);
            }
        }
        if here > longest {
            longest = here;
            let held: Vec<String> = (0..56).filter(|c| case.holds[*c] != NONE).map(|c| format!("{c}: {}", case.holds[c])).collect();
            println!("{here} steps: plan {:?}, held {{{}}}", case.pairs, held.join(", "));
        }
    }
}
