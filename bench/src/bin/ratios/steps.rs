//! Pulls by a reader that is fed one block at a time, beside whole-image pulls and beside reading the same blocks.

use std::cell::RefCell;
use std::fs::File;
use std::hint::black_box;
use std::os::unix::fs::FileExt;

use harptimber_bench::agreed::Agreed;
use harptimber_bench::grid::{contender, Contender, Grid, Often};
use harptimber_bench::pulls::{Lent, BLOCK_SIZE};
use harptimber_tests::cards::deep_folders::DeepFolders;
use harptimber_tests::cards::folders::{Folders, Shape};
use harptimber_tests::cards::image::Image;
use harptimber_tests::cards::on_disk::OnDisk;
use harptimber_tests::trial::Random;
use harptimber_tests::{pull, reader_result, reader_start, reader_step, Pulled};

const OFTEN: Often = Often {
    rounds: 64,
    warm: 1,
    calls: 8,
};

/// The sides.
pub const READER: usize = 0;
pub const PULL: usize = 1;
pub const PREADS: usize = 2;

/// The columns: how many names a path has, and the block of its file. In deep folders each name is sought in as many
/// blocks as can be.
const FILES: [(&str, usize, u32); 4] = [
    ("inode", 1, 0),
    ("direct", 1, 1000),
    ("double indirect", 1, 2_075_607),
    ("8 names", 8, 0),
];
const DEEP: [(&str, usize); 2] = [("deep folder", 1), ("8 deep folders", 8)];

/// A file on a card, in memory and on a disk.
struct Question {
    head: &'static str,
    disk: OnDisk,
    file: File,
    path: Vec<u8>,
    index: u32,
    asked: Vec<u32>,
}

impl Question {
    fn new(head: &'static str, image: Image, path: Vec<u8>, index: u32) -> Question {
        let disk = OnDisk::new(image);
        let file = File::open(disk.path()).expect("a card");
        let mut question = Question {
            head,
            disk,
            file,
            path,
            index,
            asked: Vec::new(),
        };
        let mut asked = Vec::new();
        question.read(&mut Lent::default(), |block| asked.push(block));
        question.asked = asked;
        question
    }

    fn all() -> Vec<Question> {
        let random = &mut Random::new(1);
        let mut all = Vec::new();
        for (head, names, index) in FILES {
            let folders = Folders::new(random, &vec![Shape::PLAIN; names], index);
            let path = folders.path();
            all.push(Question::new(head, folders.card.image, path, index));
        }
        for (head, names) in DEEP {
            let deep = DeepFolders::new(random, names, 0);
            let image = deep.card.image;
            all.push(Question::new(head, image, deep.path, deep.index));
        }
        all
    }

    /// By a reader, which is fed from memory.
    fn read(&self, lent: &mut Lent, mut see: impl FnMut(u32)) -> Pulled {
        let image = black_box(self.disk.image.bytes());
        let blocks = (image.len() / BLOCK_SIZE) as u32;
        let mut reader = reader_start(blocks, &self.path, self.index);
        while reader.asks == 1 {
            let (block, at) = (reader.block, reader.block as usize * BLOCK_SIZE);
            see(block);
            reader = reader_step(reader, &image[at..at + BLOCK_SIZE]);
        }
        reader_result(reader, &mut lent.block, &mut lent.nodes, &mut lent.blocks)
    }

    fn pull(&self, lent: &mut Lent) -> Pulled {
        let image = black_box(self.disk.image.bytes());
        let (block, nodes, blocks) = (&mut lent.block, &mut lent.nodes, &mut lent.blocks);
        pull(image, &self.path, self.index, block, nodes, blocks)
    }

    /// Reads the blocks that the reader asks for from the file.
    fn pread(&self, lent: &mut Lent) {
        for &block in &self.asked {
            let at = u64::from(block) * BLOCK_SIZE as u64;
            let read = self.file.read_exact_at(&mut lent.block, at);
            read.expect("a block of the file");
        }
    }

    /// Whether reader and pull give the same in the same memory, and the file is the card.
    fn is_same(&self) -> bool {
        let [mut read, mut pulled, mut last] = [(); 3].map(|_| Lent::default());
        let answers = [self.read(&mut read, |_| ()), self.pull(&mut pulled)];
        self.pread(&mut last);
        let wanted = self.asked.last().map(|&block| self.disk.image.block(block));
        answers[0] == answers[1]
            && answers[0].answer == 0
            && read == pulled
            && wanted == Some(&last.block)
    }

    fn sides<'a>(&'a self, lent: &'a RefCell<Lent>) -> Vec<Contender<'a>> {
        vec![
            contender(move || self.read(&mut lent.borrow_mut(), |_| ())),
            contender(move || self.pull(&mut lent.borrow_mut())),
            contender(move || self.pread(&mut lent.borrow_mut())),
        ]
    }
}

/// The times, and what there is beside them.
pub struct Steps {
    pub grid: Grid,
    pub heads: Vec<String>,
    /// In each column, how many blocks are asked for.
    pub asked: Vec<usize>,
}

impl Steps {
    pub fn timed(agreed: &mut Agreed) -> Steps {
        let questions = Question::all();
        for question in &questions {
            agreed.see(question.is_same(), &format!("a reader, {}", question.head));
        }
        let lent = RefCell::new(Lent::default());
        let columns = questions.iter().map(|question| question.sides(&lent));
        Steps {
            grid: Grid::of(OFTEN, columns.collect()),
            heads: questions.iter().map(|it| it.head.to_string()).collect(),
            asked: questions.iter().map(|it| it.asked.len()).collect(),
        }
    }

    /// In each column, what a step takes, its part of start and result included.
    pub fn nanoseconds(&self) -> Vec<f64> {
        let times = self.grid.medians(READER).into_iter().zip(&self.asked);
        times
            .map(|(time, &asked)| time * 1e9 / (OFTEN.calls * asked) as f64)
            .collect()
    }
}
