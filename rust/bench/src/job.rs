//! A job: the same work by the archive and by the reference.

use crate::orders::orders;
use reference::{in_place, length};
use std::hint::black_box;
use std::time::Instant;

/// The numbers of ports that each job is done at.
pub const SIZES: [u64; 4] = [1, 4, 16, 64];

/// What a job works on.
pub struct Task {
    /// D, the number of ports.
    pub d: u64,
    /// Pairs of port and event.
    pub orders: Vec<u64>,
    /// The image of the fresh table.
    pub fresh: Vec<u8>,
    /// The image after each order, one behind the other, where the job reads them.
    pub images: Vec<u8>,
}

/// What a job gives.
pub struct Answers {
    /// An answer for each order.
    pub numbers: Vec<u64>,
    /// Room for one image of D ports.
    pub image: Vec<u8>,
    /// Room for the image after it, where an event leaves the first as it is.
    pub next: Vec<u8>,
}

/// One side of a job, all orders once.
pub type Work = fn(&Task, &mut Answers);

/// A job and both sides of it.
#[derive(Clone, Copy)]
pub struct Job {
    /// What is done.
    pub what: &'static str,
    /// D.
    pub d: u64,
    /// Whether it reads the images along the way.
    pub reads: bool,
    /// By the proved archive.
    pub ours: Work,
    /// By the reference.
    pub reference: Work,
}

impl Job {
    /// The same work at each size.
    pub fn at_each_size(
        what: &'static str,
        reads: bool,
        ours: Work,
        reference: Work,
    ) -> [Job; SIZES.len()] {
        SIZES.map(|d| Job {
            what,
            d,
            reads,
            ours,
            reference,
        })
    }

    /// Its name on the command line.
    pub fn name(&self) -> String {
        format!("{}-{}", self.what, self.d)
    }
}

impl Task {
    /// `count` orders at `d` ports, and the images along the way if they are read.
    pub fn new(d: u64, count: usize, reads: bool) -> Task {
        let orders = orders(d, count);
        let mut fresh = vec![0; length(d as usize)];
        in_place::fresh(d, &mut fresh);
        let mut images = Vec::new();
        if reads {
            let mut image = fresh.clone();
            for order in orders.chunks_exact(2) {
                in_place::event(&mut image, order[0], order[1]);
                images.extend_from_slice(&image);
            }
        }
        Task {
            d,
            orders,
            fresh,
            images,
        }
    }

    /// Room for the answers.
    pub fn answers(&self) -> Answers {
        Answers {
            numbers: vec![0; self.orders.len() / 2],
            image: vec![0; self.fresh.len()],
            next: vec![0; self.fresh.len()],
        }
    }
}

impl Answers {
    /// One number that differs where any answer or byte of the image does.
    pub fn checksum(&self) -> u64 {
        let bytes = self.image.iter().map(|&byte| u64::from(byte));
        (self.numbers.iter().copied().chain(bytes)).fold(0xCBF2_9CE4_8422_2325, |sum, number| {
            (sum ^ number)
                .wrapping_mul(0x0000_0100_0000_01B3)
                .rotate_left(29)
        })
    }
}

/// Does the work again and again on the same orders. Only what a round takes grows with the rounds.
fn repeat(work: Work, rounds: usize, task: &Task, answers: &mut Answers) {
    for _ in 0..rounds {
        work(black_box(task), answers);
        black_box(&mut *answers);
    }
}

/// The checksum of the answers of `rounds` rounds.
pub fn checksum(work: Work, rounds: usize, task: &Task) -> u64 {
    let mut answers = task.answers();
    repeat(work, rounds, task, &mut answers);
    answers.checksum()
}

/// Times both sides in turn, `pairs` times: the median of the ratios.
pub fn ratio(job: &Job, rounds: usize, pairs: usize, task: &Task) -> f64 {
    let mut answers = task.answers();
    let mut nanoseconds = |work: Work| {
        let start = Instant::now();
        repeat(work, rounds, task, &mut answers);
        start.elapsed().as_nanos() as f64
    };
    let mut ratios: Vec<f64> = (0..pairs)
        .map(|_| nanoseconds(job.ours) / nanoseconds(job.reference))
        .collect();
    ratios.sort_by(f64::total_cmp);
    ratios[pairs / 2]
}
