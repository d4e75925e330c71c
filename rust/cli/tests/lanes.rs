//! The ranges that `run` says an element wrote, against the memory that the store left.

mod parser;

use parser::Value;
use std::io::Write;
use std::process::{Command, Stdio};
use std::thread;

/// How many stores are run.
const STORES: usize = 3_000;

/// Numbers that look random, the same each time.
struct Random(u64);

impl Random {
    fn next(&mut self) -> u64 {
        self.0 = self.0.wrapping_mul(6_364_136_223_846_793_005).wrapping_add(1);
        (self.0 ^ self.0 >> 29).wrapping_mul(0x9E37_79B9_7F4A_7C15) ^ self.0 >> 32
    }

    fn below(&mut self, bound: u64) -> u64 {
        (self.next() >> 11) % bound
    }

    /// A word of a class.
    fn word(&mut self) -> u32 {
        loop {
            let top = [0xE4, 0xE5, 0xA1][self.below(3) as usize];
            let word = top << 24 | self.below(1 << 24) as u32;
            if starshackle::decode(word).is_ok() {
                return word;
            }
        }
    }

    /// A list of numbers in JSON.
    fn list(&mut self, length: u64, below: u64) -> String {
        let numbers: Vec<String> = (0..length).map(|_| self.below(below).to_string()).collect();
        format!("[{}]", numbers.join(", "))
    }

    /// A store whose addresses are mostly in its window, as a line less its end and its memory.
    fn store(&mut self) -> String {
        let (word, vb) = (self.word(), [16, 32, 64][self.below(3) as usize]);
        let store = starshackle::decode(word).unwrap();
        let mut line = format!("{{\"word\": \"0x{word:08X}\", \"vb\": {vb}");
        line += ", \"flags\": \"sve sme2 sve2p1 streaming fa64\", \"sp\": 512, \"length\": 2048";
        for number in 0..31 {
            line += &format!(", \"x{number}\": {}", self.below(64));
        }
        for number in 0..32 {
            // A vector of addresses or offsets has small ones, which often meet.
            let is_address = [store.index, store.base].contains(&number);
            let below = if is_address { [8, 64, 200][self.below(3) as usize] } else { 1 << 52 };
            line += &format!(", \"z{number}.d\": {}", self.list(vb / 8, below));
        }
        for number in 0..16 {
            line += &format!(", \"p{number}.b\": {}", self.list(vb, 2));
        }
        line
    }
}

/// What `run --jsonl` says of stores whose memory is full of a byte.
fn answers(stores: &[String], fill: &str) -> Vec<Value> {
    let line = |store: &String| format!("{store}, \"memory\": \"{fill} ...\"}}\n");
    let input: String = stores.iter().map(line).collect();
    let mut command = Command::new(env!("CARGO_BIN_EXE_starshackle"));
    command.args(["run", "--jsonl"]).stdin(Stdio::piped()).stdout(Stdio::piped());
    let mut child = command.spawn().unwrap();
    let mut pipe = child.stdin.take().unwrap();
    let writer = thread::spawn(move || pipe.write_all(input.as_bytes()).unwrap());
    let output = child.wait_with_output().unwrap();
    writer.join().unwrap();
    let text = String::from_utf8(output.stdout).unwrap();
    let answers: Vec<Value> = text.lines().map(|line| parser::parse(line).unwrap()).collect();
    assert_eq!(answers.len(), stores.len());
    answers
}

/// The window's bytes.
fn memory(answer: &Value) -> Vec<u8> {
    answer.get("window").unwrap().get("memory").unwrap().bytes()
}

/// An element with its first byte in the window and its bytes, if it is active.
fn element(element: &Value) -> Option<(usize, Vec<u8>)> {
    let place = element.get("address").unwrap().number() as usize;
    let is_active = matches!(element.get("active"), Some(Value::Bool(true)));
    is_active.then(|| (place, element.get("bytes").unwrap().bytes()))
}

/// For each byte of the window the element that is said to have written it.
fn writers(answer: &Value, length: usize) -> Vec<Option<usize>> {
    let mut writers = vec![None; length];
    let mut end = (0, usize::MAX);
    for range in answer.get("written").unwrap().get("ranges").unwrap().items() {
        let number = |key: &str| range.get(key).unwrap().number() as usize;
        let (element, start, length) = (number("element"), number("address"), number("length"));
        assert!(length > 0 && start >= end.0 && (start, element) != end, "whole and ascending");
        writers[start..start + length].fill(Some(element));
        end = (start + length, element);
    }
    writers
}

#[test]
fn ranges_are_what_the_store_left() {
    let mut random = Random(7);
    let stores: Vec<String> = (0..STORES).map(|_| random.store()).collect();
    let (mut done, mut covered) = (0, 0);
    for (zeros, ones) in answers(&stores, "00").iter().zip(answers(&stores, "FF")) {
        if zeros.get("verdict").unwrap().number() != 0 {
            assert!(matches!(zeros.get("written"), Some(Value::Null)));
            continue;
        }
        done += 1;
        let (low, high) = (memory(zeros), memory(&ones));
        let elements: Vec<_> = zeros.get("elements").unwrap().items().iter().map(element).collect();
        let has = |number: usize, byte: usize| match &elements[number] {
            Some((place, bytes)) => byte.checked_sub(*place).and_then(|at| bytes.get(at)).copied(),
            None => None,
        };
        let said = writers(zeros, low.len());
        assert_eq!(said, writers(&ones, low.len()));
        for (byte, writer) in said.iter().enumerate() {
            let left = match writer {
                Some(number) => {
                    let later =
                        (number + 1..elements.len()).find(|later| has(*later, byte).is_some());
                    assert_eq!(later, None, "a later element wins");
                    covered += usize::from((0..*number).any(|lower| has(lower, byte).is_some()));
                    [has(*number, byte).expect("an active element's byte"); 2]
                }
                None => [0x00, 0xFF],
            };
            assert_eq!([low[byte], high[byte]], left, "byte {byte}");
        }
    }
    assert!(done > STORES / 4, "{done} are done");
    assert!(covered > 1_000, "{covered} bytes are written twice");
}
