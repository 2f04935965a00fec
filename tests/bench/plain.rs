//! The same search for a Beneš card of 16 lines in plain Rust, and the classical looping algorithm, timed on the
//! cases of a file: two bytes of kind and lines, 16 of plan, 56 of holds, four of rounds, as the program `bench` takes them.
//!   rustc --edition 2021 -O tests/bench/plain.rs -o plain && plain search < case ; plain looping < case
use std::hint::black_box;
use std::io::Read;
use std::time::Instant;

const NONE: u8 = 255;

fn cells(level: usize) -> usize {
    if level == 0 { 1 } else { 2 * (2 << (level - 1)) + 2 * cells(level - 1) }
}

fn settle(level: usize, pairs: &[u8; 16], holds: &[u8], setting: &mut [u8]) -> bool {
    if level == 0 {
        for q in 0..2u8 {
            let held = holds[0] == NONE || holds[0] == q;
            if held && (0..2).all(|i| pairs[i] == NONE || pairs[i] == (i as u8) ^ q) {
                setting[0] = q;
                return true;
            }
        }
        return false;
    }
    let h = 2usize << (level - 1);
    let m = cells(level - 1);
    'columns: for n in 0..1usize << h {
        for c in 0..h {
            let q = (n >> (h - 1 - c) & 1) as u8;
            if holds[c] != NONE && holds[c] != q {
                continue 'columns;
            }
            setting[c] = q;
        }
        setting[h..2 * h].copy_from_slice(&holds[h..2 * h]);
        for i in 0..2 * h {
            let o = pairs[i];
            if o != NONE {
                let side = setting[i / 2] ^ (i as u8 & 1);
                let q = (o & 1) ^ side;
                let cell = &mut setting[h + o as usize / 2];
                if *cell == NONE {
                    *cell = q;
                } else if *cell != q {
                    continue 'columns;
                }
            }
        }
        for cell in &mut setting[h..2 * h] {
            if *cell == NONE {
                *cell = 0;
            }
        }
        let mut half = [[NONE; 16]; 2];
        for i in 0..2 * h {
            if pairs[i] != NONE {
                half[(setting[i / 2] ^ (i as u8 & 1)) as usize][i / 2] = pairs[i] / 2;
            }
        }
        let (a, b) = (2 * h, 2 * h + m);
        if settle(level - 1, &half[0], &holds[a..b], &mut setting[a..b])
            && settle(level - 1, &half[1], &holds[b..b + m], &mut setting[b..b + m])
        {
            return true;
        }
    }
    false
}

/// The looping algorithm: a setting for a full plan without holds, not the first one.
fn looping(level: usize, pairs: &[u8; 16], setting: &mut [u8]) {
    if level == 0 {
        setting[0] = pairs[0];
        return;
    }
    let h = 2usize << (level - 1);
    let m = cells(level - 1);
    let n = 2 * h;
    let mut inverse = [0u8; 16];
    for i in 0..n {
        inverse[pairs[i] as usize] = i as u8;
    }
    let mut side = [NONE; 16];
    for start in (0..n).step_by(2) {
        let mut i = start;
        while side[i] == NONE {
            side[i] = 0;
            side[i ^ 1] = 1;
            let o = pairs[i ^ 1];
            i = inverse[(o ^ 1) as usize] as usize;
        }
    }
    let mut half = [[0u8; 16]; 2];
    for i in 0..n {
        half[side[i] as usize][i / 2] = pairs[i] / 2;
        if i % 2 == 0 {
            setting[i / 2] = side[i];
        }
        let o = pairs[i] as usize;
        if o % 2 == 0 {
            setting[h + o / 2] = side[i];
        }
    }
    let (a, b) = (2 * h, 2 * h + m);
    looping(level - 1, &half[0], &mut setting[a..b]);
    looping(level - 1, &half[1], &mut setting[b..b + m]);
}

fn main() {
    let what = std::env::args().nth(1).unwrap_or_default();
    let mut input = vec![];
    std::io::stdin().read_to_end(&mut input).unwrap();
    let pairs: [u8; 16] = input[2..18].try_into().unwrap();
    let holds = &input[18..74];
    let rounds = u32::from_be_bytes(input[74..78].try_into().unwrap());
    let mut setting = [0u8; 56];
    let mut scratch = [0u8; 56];
    let start = Instant::now();
    let mut done = 0u32;
    for _ in 0..rounds {
        let ok = if what == "looping" {
            looping(3, black_box(&pairs), &mut scratch);
            true
        } else {
            settle(3, black_box(&pairs), black_box(holds), &mut scratch)
        };
        if ok {
            setting.copy_from_slice(&scratch);
            done += 1;
        }
        black_box(&mut setting);
    }
    println!("{} {}", start.elapsed().as_nanos(), done);
}
