//! Scripts for the C host that lends slices beside guard pages (host/tests/guard_test.c): what it is to
//! call on which cards, with the answers that the reference gives.

use std::fs;
use std::process::Command;

use crate::calls::answers::Answers;
use crate::calls::pulls::{reference_pull, Call, Outcome};
use crate::calls::segments::reported;
use crate::cards::image::Image;
use crate::tools::published::{run, Scratch};

pub struct Script {
    text: String,
    scratch: Scratch,
    cards: usize,
    answers: Answers,
    /// Of segment reports, with lists that are long enough.
    reports: Answers,
}

impl Script {
    pub fn new() -> Script {
        Script {
            text: String::new(),
            scratch: Scratch::new(),
            cards: 0,
            answers: Answers::default(),
            reports: Answers::default(),
        }
    }

    fn line(&mut self, line: String) {
        self.text += &line;
        self.text.push('\n');
    }

    /// Goes on with this card, as it is without damage.
    pub fn card(&mut self, sound: &Image) {
        let name = format!("card{}", self.cards);
        self.cards += 1;
        sound.save(&self.scratch.path(&name));
        self.line(format!("card {name}"));
    }

    /// A pull from the card with the damage that this image has, also by a reader, runs from its block on, and compares with the
    /// sound card, also by keep files of both. Returns the pull's answer.
    pub fn pull(&mut self, sound: &Image, image: &Image, name: &[u8], index: u32) -> u32 {
        self.damage(image);
        let cards = [image, sound];
        let [kept, fresh] = cards.map(|card| pulled(&Call::new(card, name, index)));
        let answer = kept.pulled.answer;
        let as_kept = compared(image, sound, &kept);
        let as_fresh = compared(sound, image, &fresh);
        let name = hex(name);
        self.line(format!("pull {name} {index} {answer} {as_kept} {as_fresh}"));
        self.report(image);
        self.line("undo".to_string());
        self.answers.note(answer);
        answer
    }

    /// A segment report on the card with the damage that this image has. Returns its answer.
    pub fn segments(&mut self, image: &Image) -> u32 {
        self.damage(image);
        let answer = self.report(image);
        self.line("undo".to_string());
        answer
    }

    /// A report on the card as it was damaged.
    fn report(&mut self, image: &Image) -> u32 {
        let (segments, answer) = reported(image);
        self.line(format!("segments {segments} {answer}"));
        self.reports.note(answer);
        answer
    }

    fn damage(&mut self, image: &Image) {
        for (at, bytes) in image.written() {
            self.line(format!("put {at} {}", hex(bytes)));
        }
    }

    /// A pull from the first bytes of the card.
    pub fn cut(&mut self, sound: &Image, len: usize, name: &[u8], index: u32) {
        let bytes = &sound.bytes()[..len];
        let call = Call {
            bytes,
            ..Call::new(sound, name, index)
        };
        let answer = pulled(&call).pulled.answer;
        self.line(format!("cut {len} {} {index} {answer}", hex(name)));
        self.answers.note(answer);
    }

    pub fn node(&mut self, sound: &Image, number: u32) {
        let found = reference::lookup::node_lookup(sound.bytes(), number);
        let answer = found.err().unwrap_or(0);
        self.line(format!("node {number} {answer}"));
    }

    /// A pull of data, or its keep file, that is told more of a slice than there is.
    pub fn plant(&mut self, slice: &str, name: &[u8], index: u32) {
        self.line(format!("plant {slice} {} {index}", hex(name)));
    }

    /// A run of one block of data that is told more of a slice than there is.
    pub fn plant_run(&mut self, slice: &str, name: &[u8], index: u32) {
        self.line(format!("plant_run {slice} {} {index}", hex(name)));
    }

    /// A reader's pull of data that is told more of a slice than there is.
    pub fn plant_reader(&mut self, slice: &str, name: &[u8], index: u32) {
        self.line(format!("plant_reader {slice} {} {index}", hex(name)));
    }

    /// A report, of a card with a segment that is off, that is told more of a slice than there is.
    pub fn plant_report(&mut self, slice: &str) {
        self.line(format!("plant_report {slice}"));
    }

    /// A compare with lists that were never written.
    pub fn unset(&mut self) {
        self.line("unset".to_string());
    }

    /// The command with the script behind it, in the script's folder.
    pub fn given_to<'a>(&self, command: &'a mut Command) -> &'a mut Command {
        let path = self.scratch.path("script");
        fs::write(path, &self.text).expect("a script");
        command.arg("script").current_dir(self.scratch.path("."))
    }

    /// Runs a command that has to pass at least so many tests, after pulls with each of these answers and
    /// after reports.
    pub fn pass(&self, command: &mut Command, at_least: u64, answers: &[u32]) {
        let output = run(self.given_to(command));
        let output = String::from_utf8_lossy(&output);
        let last = output.lines().last().unwrap_or_default();
        println!("guard_test: {last}");
        let passed = last.strip_suffix(" passed, 0 failed");
        let passed: Option<u64> = passed.and_then(|passed| passed.parse().ok());
        assert!(passed >= Some(at_least), "fewer than {at_least}: {output}");
        self.answers.finish(answers);
        self.reports.finish(&[0, 5, 6, 7, 8]);
    }
}

/// Bytes in a word of the script.
fn hex(bytes: &[u8]) -> String {
    let digits: String = bytes.iter().map(|byte| format!("{byte:02x}")).collect();
    format!("x{digits}")
}

fn pulled(call: &Call) -> Outcome {
    Outcome::of(reference_pull, call, call.least())
}

/// The answer to a compare with the lists of a pull.
fn compared(kept: &Image, fresh: &Image, pull: &Outcome) -> u32 {
    let (nodes, blocks) = (pull.lent.nodes.bytes(), pull.lent.blocks.bytes());
    let (node_count, block_count) = (pull.pulled.node_count, pull.pulled.block_count);
    let [kept, fresh] = [kept.bytes(), fresh.bytes()];
    reference::compare::compare(kept, fresh, nodes, node_count, blocks, block_count).answer
}
