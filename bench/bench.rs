//! The proved code beside the same in Rust: one run, the same inputs, medians.
#[allow(dead_code)]
mod typed;

use std::hint::black_box;
use std::time::Instant;

unsafe extern "C" {
    fn vestruga_check_word(bytes: *const u8, len: usize) -> u32;
    fn vestruga_load(image: *const u8, len: usize) -> u32;
    fn vestruga_reads(image: *const u8, len: usize, work: *mut u8, work_len: usize, rounds: u32) -> u32;
}

const BLOCK: usize = 512;
const PAYLOAD: usize = 496;

fn check_word(bytes: &[u8]) -> u32 {
    bytes.iter().fold(0, |word: u32, byte| word.rotate_left(5) ^ u32::from(*byte))
}

fn seal(kind: u8, number: u16, payload: &[u8]) -> Vec<u8> {
    let mut block = vec![kind, 1];
    block.extend(number.to_be_bytes());
    block.extend([0; 8]);
    block.extend(payload);
    let word = check_word(&block);
    block.extend(word.to_be_bytes());
    block
}

fn is_sound(block: &[u8], kind: u8, place: usize) -> bool {
    block[0] == kind
        && block[1] == 1
        && usize::from(u16::from_be_bytes([block[2], block[3]])) == place
        && block[4..12].iter().all(|byte| *byte == 0)
        && u32::from_be_bytes([block[508], block[509], block[510], block[511]]) == check_word(&block[..508])
}

trait Memory {
    fn size(&self) -> usize;
    fn read(&mut self, at: usize) -> Result<u8, u16>;
}

struct Book<'a> {
    image: &'a [u8],
    sound: Vec<bool>,
}

impl Memory for Book<'_> {
    fn size(&self) -> usize {
        self.image.len() / BLOCK * PAYLOAD
    }

    fn read(&mut self, at: usize) -> Result<u8, u16> {
        let block = at / PAYLOAD;
        match self.sound.get(block) {
            None => Err(31),
            Some(false) => Err(32),
            Some(true) => Ok(self.image[BLOCK * block + 12 + at % PAYLOAD]),
        }
    }
}

struct Work<'a>(&'a mut [u8]);

impl Memory for Work<'_> {
    fn size(&self) -> usize {
        self.0.len().min(4_194_304)
    }

    fn read(&mut self, at: usize) -> Result<u8, u16> {
        if at < self.size() { Ok(self.0[at]) } else { Err(31) }
    }
}

struct Join<F, B> {
    front: F,
    back: B,
}

impl<F: Memory, B: Memory> Memory for Join<F, B> {
    fn size(&self) -> usize {
        (self.front.size() + self.back.size()).min(4_194_304)
    }

    fn read(&mut self, at: usize) -> Result<u8, u16> {
        if at >= 4_194_304 {
            return Err(31);
        }
        let front = self.front.size();
        if at < front { self.front.read(at) } else { self.back.read(at - front) }
    }
}

#[inline(never)]
fn reads(image: &[u8], work: &mut [u8], rounds: u32) -> u32 {
    let sound = image.chunks_exact(BLOCK).enumerate().map(|(place, block)| is_sound(block, 2, place)).collect();
    let mut memory = Join { front: Book { image, sound }, back: Work(work) };
    let size = memory.size();
    let (mut sum, mut at) = (0u32, 0usize);
    for _ in 0..rounds {
        if let Ok(byte) = memory.read(at) {
            sum = sum.wrapping_add(u32::from(byte));
        }
        at += 7919;
        if at >= size {
            at = 0;
        }
    }
    sum
}

#[inline(never)]
fn load(image: &[u8]) -> Option<Vec<typed::Bundle>> {
    let mut bytes = Vec::new();
    for (place, block) in image.chunks_exact(BLOCK).enumerate() {
        if !is_sound(block, 1, place) {
            return None;
        }
        bytes.extend_from_slice(&block[12..508]);
    }
    let mut bundles = Vec::with_capacity(bytes.len() / 16);
    for bytes in bytes.as_chunks::<16>().0 {
        bundles.push(typed::decode(bytes)?);
    }
    Some(bundles)
}

/// The median of eleven runs, in seconds.
fn median(mut run: impl FnMut()) -> f64 {
    let mut times: Vec<f64> = (0..11)
        .map(|_| {
            let start = Instant::now();
            run();
            start.elapsed().as_secs_f64()
        })
        .collect();
    times.sort_by(f64::total_cmp);
    times[5]
}

fn random(count: usize) -> Vec<u8> {
    let mut state = 1u32;
    (0..count)
        .map(|_| {
            state = state.wrapping_mul(1_664_525).wrapping_add(1_013_904_223);
            (state >> 24) as u8
        })
        .collect()
}

fn check_words() {
    let image = random(8192 * BLOCK);
    let proved = |bytes: &[u8]| unsafe { vestruga_check_word(bytes.as_ptr(), bytes.len()) };
    assert!(image.chunks_exact(BLOCK).all(|block| proved(&block[..508]) == check_word(&block[..508])));
    let ours = median(|| image.chunks_exact(BLOCK).for_each(|block| { black_box(proved(black_box(&block[..508]))); }));
    let theirs = median(|| image.chunks_exact(BLOCK).for_each(|block| { black_box(check_word(black_box(&block[..508]))); }));
    println!("check words a second over 4 MB: proved {:.0}, Rust {:.0}, ratio {:.2}", 8192.0 / ours, 8192.0 / theirs, theirs / ours);
}

fn memory_reads() {
    let image: Vec<u8> = random(256 * PAYLOAD).chunks_exact(PAYLOAD).enumerate().flat_map(|(i, p)| seal(2, i as u16, p)).collect();
    let mut work = random(1 << 17);
    let rounds = 20_000_000u32;
    let ours = median(|| {
        black_box(unsafe { vestruga_reads(image.as_ptr(), image.len(), work.as_mut_ptr(), work.len(), black_box(rounds)) });
    });
    let mut work = random(1 << 17);
    let theirs = median(|| {
        black_box(reads(black_box(&image), &mut work, black_box(rounds)));
    });
    let ns = |seconds: f64| seconds * 1e9 / f64::from(rounds);
    println!("a read through a join of book and work: proved {:.2} ns, Rust {:.2} ns, ratio {:.2}", ns(ours), ns(theirs), ours / theirs);
}

fn loading() {
    let bundles: Vec<u8> = (0..63_488u32)
        .flat_map(|i| {
            let mut bundle = [0u8; 16];
            bundle[0] = 3 + (i % 12) as u8;
            bundle[1] = (i % 28) as u8;
            bundle[2] = 17 + (i % 34) as u8;
            bundle[9] = 2 + (i % 8) as u8;
            bundle[10] = (i % 7 * 16 + i % 8) as u8;
            bundle
        })
        .collect();
    let image: Vec<u8> = bundles.chunks_exact(PAYLOAD).enumerate().flat_map(|(i, p)| seal(1, i as u16, p)).collect();
    let proved = || unsafe { vestruga_load(image.as_ptr(), image.len()) };
    assert_eq!(proved(), 63_488);
    assert_eq!(load(&image).unwrap().len(), 63_488);
    let ours = median(|| {
        black_box(proved());
    });
    let theirs = median(|| drop(black_box(load(black_box(&image)))));
    let speed = |seconds: f64| image.len() as f64 / 1e6 / seconds;
    println!("loading a program: proved {:.0} MB/s, Rust {:.0} MB/s, ratio {:.2}", speed(ours), speed(theirs), theirs / ours);
}

fn main() {
    check_words();
    memory_reads();
    loading();
}
