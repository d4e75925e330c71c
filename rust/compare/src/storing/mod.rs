//! Stores, run and made into patches in one call, compared with an independent model on random
//! inputs; and what that call has to do with applying a patch.

pub mod aim;
pub mod arm;
mod bits;
#[cfg(test)]
mod cases;
pub mod classes;
pub mod counters;
#[cfg(test)]
mod editions;
mod effect;
mod faulting;
mod faults;
pub mod generate;
mod groups;
pub mod input;
mod joints;
pub mod shapes;
mod sharing;
mod spaced;
mod spoil;
mod stretched;
mod subject;
mod tally;
#[cfg(test)]
mod wrong;

use crate::patches::model_apply;
use crate::random::Random;
use crate::reference::Outcome;
use crate::report::{answers, first_difference, Report};
use crate::verdicts::DONE;
use crate::workers::spread;
use crate::GARBAGE;
use effect::Effect;
use input::Input;
use starshackle::{Machine, Window};
pub use subject::Subject;
use subject::{Filling, MARGIN};
use tally::Tally;

/// An implementation of the call: machine, window, word, patch buffer, answer.
pub type Store = dyn Fn(&Machine, Window, u32, &mut [u8], &mut [u64; 6]) -> u64 + Sync;

/// Stores that are compared where no number is given.
pub const STORES: u64 = 800_000;
/// Bytes from which patch buffers are taken.
const NOISE: usize = 8192;

/// The input with this number, in one of eight cases strided, whole or with gaps, in one with its
/// elements in stretches, and in one with an element that faults.
fn input(number: u64) -> Input {
    match number % 8 {
        5 => spaced::input(number),
        6 => stretched::input(number),
        7 => faulting::input(number),
        _ => shapes::input(number),
    }
}

/// Compares the model on so many stores, which have to hit everything that is counted.
pub fn run(report: &Report, stores: u64, threads: usize) {
    compare(report, &starshackle::store_numbers, stores, threads).print(report);
}

/// Compares the model on the store with this number.
pub fn one(report: &Report, number: u64) {
    Comparison::new(report, &starshackle::store_numbers).store(number, &mut Default::default());
}

/// Compares an implementation on so many stores, and the model's elements of these.
pub fn compare(report: &Report, store: &Store, stores: u64, threads: usize) -> Tally {
    let work = |first| {
        let (mut comparison, mut fillings) = (Comparison::new(report, store), Default::default());
        for number in (first..stores).step_by(threads) {
            if report.is_full() {
                break;
            }
            comparison.store(number, &mut fillings);
        }
        comparison.tally
    };
    let mut total = Tally::new();
    spread(threads, work).iter().for_each(|tally| total.add(tally));
    total
}

struct Comparison<'a> {
    report: &'a Report,
    store: &'a Store,
    noise: Vec<u8>,
    /// What the last call has left, with margins.
    memory: Vec<u8>,
    buffer: Vec<u8>,
    tally: Tally,
}

impl<'a> Comparison<'a> {
    fn new(report: &'a Report, store: &'a Store) -> Comparison<'a> {
        let noise = Random::new(1).bytes(NOISE);
        let (memory, buffer) = (Vec::new(), Vec::new());
        Comparison { report, store, noise, memory, buffer, tally: Tally::new() }
    }

    /// Compares the store with this number; the fillings are only room for those that it gets.
    fn store(&mut self, number: u64, fillings: &mut [Filling; 4]) {
        let mut random = Random::new(!number);
        let subject = Subject::new(number, input(number));
        self.tally.count(&subject);
        let (z, p) = (subject.input.z.clone(), subject.input.p.clone());
        let machine = Machine { z: &z, p: &p, ..subject.input.machine() };
        self.elements(&mut random, &subject, &machine);
        fillings[0].fill(&subject, |byte| byte);
        fillings[1].fill(&subject, |byte| !byte);
        let right = self.rooms(&mut random, &subject, &machine, &fillings[..2]);
        self.kept(&subject, &machine);
        if let (true, Ok(effect)) = (right, &subject.right) {
            fillings[2].fill(&subject, |_| 0);
            fillings[3].fill(&subject, |_| 0xFF);
            self.patches(&mut random, &subject, effect, fillings);
            self.permuted(&mut random, &subject, effect, fillings);
        }
    }

    /// Compares what is said of elements: the first, one inside, those around the last, and numbers
    /// that a narrower one would take for one inside.
    fn elements(&self, random: &mut Random, subject: &Subject, machine: &Machine) {
        let Subject { input, inspected, .. } = subject;
        let count = inspected.as_ref().map_or(1, Vec::len) as u64;
        let inside = random.below(count as usize) as u64;
        let far = inside | 1 << (32 + random.below(32));
        for e in [0, inside, count - 1, count, count + 1, far, u64::MAX] {
            let mut numbers = [GARBAGE; 5];
            let verdict = starshackle::element_numbers(machine, input.word, e, &mut numbers);
            let model = Outcome { verdict, numbers };
            self.report.compare(&model, &arm::element(inspected, e), || {
                format!("element {e:X} of {}", subject.text())
            });
        }
    }

    /// Calls the store in buffers of different lengths, on each of the fillings, and tells whether it
    /// is right.
    fn rooms(
        &mut self,
        random: &mut Random,
        subject: &Subject,
        machine: &Machine,
        fillings: &[Filling],
    ) -> bool {
        let rooms = match &subject.right {
            Err(_) => vec![0, random.below(64), 6_660 + random.below(800)],
            Ok(Effect { patch, .. }) => {
                let exact = patch.len();
                let (short, long) = (random.below(exact), exact + 1 + random.below(40));
                vec![0, short, exact - 1, exact, long, exact + 1_000]
            }
        };
        let mut agreed = true;
        for room in rooms {
            for filling in fillings {
                agreed &= self.call(random, subject, machine, filling, room);
            }
        }
        agreed
    }

    /// Calls the store in a buffer of this length, on this filling, and compares what it answers and
    /// leaves, the margins included; tells whether it is right.
    fn call(
        &mut self,
        random: &mut Random,
        subject: &Subject,
        machine: &Machine,
        filling: &Filling,
        room: usize,
    ) -> bool {
        let from = random.below(NOISE - room - 2 * MARGIN);
        let mut buffer = self.noise[from..][..room + 2 * MARGIN].to_vec();
        let model = self.perform(subject, machine, filling, &buffer);
        let right = subject.outcome(room);
        let mut memory = &filling.before;
        if let (DONE, Ok(effect)) = (right.verdict, &subject.right) {
            memory = &filling.after;
            buffer[MARGIN..][..effect.patch.len()].copy_from_slice(&effect.patch);
        }
        let same = model.is(&right) && self.memory == *memory && self.buffer == buffer;
        if !same {
            self.report.tell(|| {
                let answers = answers(&model, &right);
                let memory = first_difference("memory", &self.memory, memory, MARGIN);
                let buffer = first_difference("buffer", &self.buffer, &buffer, MARGIN);
                let text = subject.text();
                format!("in a buffer of {room} bytes, {text}\n{answers}{memory}{buffer}")
            });
        }
        self.tally.call(subject, room);
        same
    }

    /// Calls the store on a filling, in a buffer that holds this, its margins included; the answer is
    /// filled with garbage beforehand.
    fn perform(
        &mut self,
        subject: &Subject,
        machine: &Machine,
        filling: &Filling,
        buffer: &[u8],
    ) -> Outcome<6> {
        let Input { base, word, ref memory, .. } = subject.input;
        self.memory.clone_from(&filling.before);
        self.buffer.clear();
        self.buffer.extend_from_slice(buffer);
        let mut numbers = [GARBAGE; 6];
        let window = Window { base, memory: &mut self.memory[MARGIN..][..memory.len()] };
        let patch = &mut self.buffer[MARGIN..buffer.len() - MARGIN];
        let verdict = (self.store)(machine, window, word, patch, &mut numbers);
        Outcome { verdict, numbers }
    }

    /// Compares the registers after the calls with those before.
    fn kept(&self, subject: &Subject, machine: &Machine) {
        let Subject { input, .. } = subject;
        if machine.z != input.z || machine.p != input.p || machine.x != input.x {
            self.report.tell(|| {
                let z = first_difference("z", machine.z, &input.z, 0);
                let p = first_difference("p", machine.p, &input.p, 0);
                format!("registers changed by {}{z}{p}", subject.text())
            });
        }
    }

    /// The patch of a done store that was made on one filling, applied to another, leaves what the
    /// store leaves there (`after`, as each call is compared with it).
    fn patches(
        &mut self,
        random: &mut Random,
        subject: &Subject,
        effect: &Effect,
        fillings: &[Filling],
    ) {
        let Input { base, ref memory, .. } = subject.input;
        let (length, machine) = (effect.patch.len(), subject.input.machine());
        let [runs, payload] = [effect.runs, effect.payload()].map(|number| number as u64);
        let right = Outcome { verdict: DONE, numbers: [0, 0, runs, payload, 0] };
        let others = fillings.iter().cycle().skip(1);
        for (filling, other) in fillings.iter().zip(others) {
            if !self.call(random, subject, &machine, filling, length + 1) {
                return;
            }
            self.memory.clone_from(&other.before);
            let patch = &self.buffer[MARGIN..][..length];
            let model = model_apply(base, &mut self.memory[MARGIN..][..memory.len()], patch);
            if !model.is(&right) || self.memory != other.after {
                self.report.tell(|| {
                    let answers = answers(&model, &right);
                    let memory = first_difference("memory", &self.memory, &other.after, MARGIN);
                    let text = subject.text();
                    format!("applied (model) and stored (right), {text}\n{answers}{memory}")
                });
            }
            self.tally.applied();
        }
    }

    /// A done store and its permuted form have the same patch exactly when they leave the same memory
    /// from two fillings that differ in every byte. The fillings from the third on are overwritten.
    fn permuted(
        &mut self,
        random: &mut Random,
        one: &Subject,
        effect: &Effect,
        fillings: &mut [Filling; 4],
    ) {
        let other = shapes::permuted(random, &one.input, one.elements());
        let other = Subject::new(one.number, other);
        let [first, second, other_first, other_second] = fillings;
        other_first.fill(&other, |byte| byte);
        other_second.fill(&other, |byte| !byte);
        let (machine, room) = (other.input.machine(), effect.patch.len());
        if !self.call(random, &other, &machine, other_first, room)
            || !self.call(random, &other, &machine, other_second, room)
        {
            return;
        }
        let same_memory = first.after == other_first.after && second.after == other_second.after;
        let same_patch = self.buffer[MARGIN..][..room] == effect.patch;
        if same_memory != same_patch {
            self.report.tell(|| {
                let [one, other] = [one, &other].map(Subject::text);
                format!("same memory {same_memory}, same patch {same_patch}: {one}\nand {other}")
            });
        }
        self.tally.pair(one, &other, same_patch);
    }
}

#[cfg(test)]
mod tests {
    use super::*;

    #[test]
    fn inputs_are_the_same_again() {
        let text = |number| input(number).text();
        assert!((0..20).all(|number| text(number) == text(number)));
    }
}
