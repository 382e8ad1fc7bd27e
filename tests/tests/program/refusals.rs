//! Images that don't open, for every command that takes one: answers 4 to 8.

use std::fs;
use std::path::PathBuf;
use std::sync::Arc;

use harptimber_tests::cards::image::Image;
use harptimber_tests::cards::knobs::Knobs;
use harptimber_tests::cards::layout::checkpoint::{CHECKSUM, CKPT_FLAGS, CP_LARGE_NAT_BITMAP_FLAG};
use harptimber_tests::cards::layout::journal::N_NATS;
use harptimber_tests::cards::layout::superblock::{
    BLOCK_COUNT, CP_PAYLOAD, FEATURE, LOG_BLOCKSIZE, MAGIC,
};
use harptimber_tests::cards::layout::{Field, BLOCK_SIZE};
use harptimber_tests::cards::lengths::lengths;
use harptimber_tests::cards::on_disk::{OnDisk, Shared};
use harptimber_tests::program::json::Json;
use harptimber_tests::program::keeps::kept_beside;
use harptimber_tests::program::page::{
    counted, expect_head, expect_name, meaning_with_reason, with_commas,
};
use harptimber_tests::program::{run, Words};
use harptimber_tests::sizes::CARD_BLOCKS_MOST;
use harptimber_tests::system::resize;
use harptimber_tests::tools::published::{formatted, Scratch};

const NAME: &[u8] = b"road.bin";

/// An image file, and the answer that each command gives.
struct Unopened {
    path: PathBuf,
    answer: u32,
    /// What is said behind the answer.
    why: String,
}

/// A card that opens.
fn sound() -> Image {
    Image::new(&Knobs::sound())
}

/// Images in a folder, each under a name that tells what is wrong with it.
struct Images {
    scratch: Scratch,
    unopened: Vec<Unopened>,
}

impl Images {
    /// Those that the tests share.
    fn shared() -> Arc<Images> {
        static IMAGES: Shared<Images> = Shared::empty();
        IMAGES.get(|| {
            let mut images = Images {
                scratch: Scratch::new(),
                unopened: Vec::new(),
            };
            images.add_lengths();
            images.add_volumes();
            images.add_damaged();
            images.add_without_superblock();
            images.add_published();
            images
        })
    }

    fn add(&mut self, name: &str, answer: u32, why: &str, image: &Image) {
        let path = self.scratch.path(name);
        image.save(&path);
        let why = why.to_string();
        self.unopened.push(Unopened { path, answer, why });
    }

    /// The sound card cut or made longer.
    fn add_length(&mut self, len: u64, answer: u32, why: &str) {
        self.add(&format!("{len} bytes"), answer, why, &sound());
        self.set_len(len);
    }

    /// Of the last one.
    fn set_len(&self, len: u64) {
        resize(&self.unopened.last().unwrap().path, len);
    }

    fn add_lengths(&mut self) {
        let block = BLOCK_SIZE as u64;
        let whole = sound().bytes().len() as u64;
        let most = u64::from(CARD_BLOCKS_MOST) * block;
        for len in [1, 2 * block - 1, whole - 1, whole + 1, most + 1] {
            let bytes = counted(len as usize, "byte");
            let not_whole = "which isn't a whole number of 4,096-byte blocks";
            self.add_length(len, 4, &format!(": the image has {bytes}, {not_whole}"));
        }
        let few = ": the image has 1 block of 4,096 bytes; a card has at least 2";
        self.add_length(block, 4, few);
        let larger = [
            (most + block, "16 GiB (17,179,873,280 bytes)"),
            (33 << 29, "16.5 GiB (17,716,740,096 bytes)"),
            ((17 << 30) - block, "16.9 GiB (18,253,606,912 bytes)"),
            (2 * most, "32 GiB"),
            (5 * most / 2, "40 GiB"),
        ];
        for (len, size) in larger {
            self.add_length(
                len,
                4,
                &format!(
                    ": the image has {size}; at most 16 GiB is read; \
                     --offset 0 takes the volume, which is shorter"
                ),
            );
        }
        let [count, left] = [whole, whole - block].map(|len| len / block);
        let counts = [count, left].map(|blocks| with_commas(blocks as usize));
        let why = format!(
            ": each copy: a volume of {} blocks, but the image has only {}",
            counts[0], counts[1]
        );
        self.add_length(whole - block, 5, &why);
    }

    /// In an image with one block too many, a volume that could be read without it, and one that couldn't.
    fn add_volumes(&mut self) {
        let shorter = "; --offset 0 takes the volume, which is shorter";
        for (count, shorter) in [(4_194_304, shorter), (4_194_305, "")] {
            let size = "16 GiB (17,179,873,280 bytes)";
            let why = format!(": the image has {size}; at most 16 GiB is read{shorter}");
            let fields = [0, 1].map(|copy| (copy, BLOCK_COUNT, count));
            self.add_changed(&format!("a volume of {count}"), 4, &why, &fields);
            self.set_len(17_179_873_280);
        }
    }

    fn add_changed(&mut self, name: &str, answer: u32, why: &str, fields: &[(u32, Field, u64)]) {
        let mut image = sound();
        for &(block, field, value) in fields {
            image.set(block, field, value);
        }
        self.add(name, answer, why, &image);
    }

    fn add_damaged(&mut self) {
        let pack = sound().first_block(0);
        let flags = sound().get(pack, CKPT_FLAGS) | u64::from(CP_LARGE_NAT_BITMAP_FLAG);
        let why = ": features: encrypt";
        self.add_changed("a feature", 6, why, &[(0, FEATURE, 1)]);
        let why = ": cp_payload is 1";
        self.add_changed("a payload", 6, why, &[(0, CP_PAYLOAD, 1)]);
        let sum = sound().get(pack, CHECKSUM);
        let why = format!(
            ": pack 1: the checksum of its first block is 00000001, its bytes make {sum:08x}; \
             pack 2: its first block is all zeros"
        );
        self.add_changed("no checksum", 7, &why, &[(pack, CHECKSUM, 1)]);
        let why = ": the NAT journal counts 39 entries, at most 38 fit";
        self.add_changed("39 in the journal", 8, why, &[(pack + 1, N_NATS, 39)]);
        let mut image = sound();
        image.set_sealed(pack, CKPT_FLAGS, flags);
        let why = ": large_nat_bitmap is set, which isn't read";
        self.add("a large map", 8, why, &image);
    }

    /// With and without a mark, and with more blocks than there are in the one copy or the other.
    fn add_without_superblock(&mut self) {
        let no_mark = ": each copy: no F2FS mark; perhaps it is another file system";
        let fields = [(0, MAGIC, 0), (1, MAGIC, 0)];
        self.add_changed("no mark", 5, no_mark, &fields);
        let fields = [(0, LOG_BLOCKSIZE, 13), (1, LOG_BLOCKSIZE, 13)];
        let why = ": each copy: log_blocksize is 13, not 12";
        self.add_changed("larger blocks", 5, why, &fields);
        let blocks = with_commas(sound().bytes().len() / BLOCK_SIZE);
        let few = format!("but the image has only {blocks}");
        let more = "at most 4,194,304 are read";
        let counts = [
            (4_194_304, format!("a volume of 4,194,304 blocks, {few}")),
            (4_194_305, format!("a volume of 4,194,305 blocks; {more}")),
            (
                (1 << 33) + 9,
                format!("a volume of 8,589,934,601 blocks; {more}"),
            ),
        ];
        for ((count, words), (copy, other)) in counts
            .iter()
            .flat_map(|count| [(count, (0, 1)), (count, (1, 0))])
        {
            let mut whys = ["no F2FS mark"; 2];
            whys[copy as usize] = words;
            let why = format!(": copy 1: {}; copy 2: {}", whys[0], whys[1]);
            let name = format!("{count} blocks by copy {copy}");
            let fields = [(copy, BLOCK_COUNT, *count), (other, MAGIC, 0)];
            self.add_changed(&name, 5, &why, &fields);
        }
    }

    fn add_published(&mut self) {
        let large = "each pack: its first block has checksum_offset 192, not 4092 \
                     (large_nat_bitmap, by mkfs.f2fs -i)";
        for (options, answer, why) in [
            ("-O extra_attr", 6, "features: extra_attr"),
            ("-i", 7, large),
        ] {
            self.add(
                options,
                answer,
                &format!(": {why}"),
                &formatted(64, options),
            );
        }
    }

    fn path_with(&self, answer: u32) -> PathBuf {
        let mut unopened = self.unopened.iter();
        let found = unopened.find(|unopened| unopened.answer == answer);
        found.unwrap().path.clone()
    }
}

/// Runs for a JSON object with this answer.
fn refused(command: &'static str, words: Words, answer: u32) -> Json {
    let ran = run(&[&[&command as _, &"--json" as _], words].concat()).expect(2);
    assert_eq!(ran.err, "", "of {ran:?}");
    let json = ran.json();
    expect_head(&json, command, answer);
    json
}

#[test]
fn as_json() {
    let images = Images::shared();
    let sound = OnDisk::new(sound());
    let file = kept_beside(&sound, "road.keep", NAME, 7);
    let output = images.scratch.path("output");
    for Unopened { path, answer, why } in &images.unopened {
        let refused = |command, words: Words, answer| {
            let json = refused(command, words, answer);
            assert_eq!(json["reason"].text(), &why[2..], "in {json:?}");
            json
        };
        refused("info", &[path], *answer);
        let json = refused("pull", &[path, &NAME, &"7"], *answer);
        assert_eq!(json["byte_count"].number(), 0);
        assert_eq!(json["nodes"].list().len() + json["blocks"].list().len(), 0);
        refused("pull", &[&"-o", &output, path, &NAME, &"7"], *answer);
        let json = refused("keep", &[&"-o", &output, path, &NAME, &"7"], *answer);
        assert_eq!(json["nodes"].list().len() + json["blocks"].list().len(), 0);
        let json = refused("check", &[&file, path], *answer);
        assert_eq!(json["side"].number(), 2, "side in {json:?}");
        assert_eq!(json["runs"].list().len(), 0, "runs in {json:?}");
        let json = refused("cat", &[&"-o", &output, path, &NAME], *answer);
        assert_eq!(json["index"].number() + json["bytes"].number(), 0);
        let json = refused("node", &[path, &"3"], *answer);
        let numbers = ["number", "inode", "address"].map(|key| json[key].number());
        assert_eq!(numbers, [3, 0, 0]);
        assert_eq!(json["image"].text(), path.to_str().unwrap());
        let json = refused("segments", &[path], *answer);
        assert_eq!(json["count"].number() + json["valid_blocks"].number(), 0);
        assert_eq!(json["off"].list().len(), 0);
        assert_eq!(json["image"].text(), path.to_str().unwrap());
        assert!(!output.exists(), "output of a refused image");
    }
    let answers: Vec<u32> = images.unopened.iter().map(|image| image.answer).collect();
    assert!((4..=8).all(|answer| answers.contains(&answer)));
}

#[test]
fn in_words() {
    let images = Images::shared();
    let sound = OnDisk::new(sound());
    let good = sound.path();
    let file = kept_beside(&sound, "road.keep", NAME, 0);
    let output = sound.scratch.path("output");
    for Unopened { path, answer, why } in &images.unopened {
        let lines: [Words; 10] = [
            &[&"info", path],
            &[&"segments", path],
            &[&"pull", path, &NAME, &"0"],
            &[&"pull", &"--lists", path, &NAME, &"0"],
            &[&"node", path, &"3"],
            &[&"compare", path, &good, &NAME],
            &[&"cat", path, &NAME],
            &[&"keep", &"-o", &output, path, &NAME],
            &[&"check", &file, path],
            &[&"check", &file, &file, path],
        ];
        for line in lines {
            let ran = run(line).expect(2);
            let text = format!("{}{}", ran.words(), ran.err);
            let meaning = meaning_with_reason("pull", *answer);
            let part = format!(": {meaning} (answer {answer}){why}");
            let first = text.lines().next().unwrap();
            let behind = first.split_once(&part).map(|(_, behind)| behind);
            let ends = ["", "; nothing was written"].map(Some);
            assert!(ends.contains(&behind), "no '{part}' in {ran:?}");
            // A card is refused once, whatever it was to be asked of.
            assert_eq!(text.matches(&part).count(), 1, "{ran:?}");
            assert!(!output.exists(), "output of a refused image");
        }
    }
}

/// Each length around the bounds is in shape or isn't. The blocks that the image has behind its volume change no answer.
#[test]
fn bounds() {
    let disk = OnDisk::new(sound());
    let path = disk.path();
    let lines: [Words; 4] = [
        &[&"pull", &"--json", &path, &NAME, &"0"],
        &[&"node", &"--json", &path, &"3"],
        &[&"segments", &"--json", &path],
        &[&"ls", &"--json", &path],
    ];
    let answers = || lines.map(|line| run(line).out);
    let alone = answers();
    for (len, in_shape) in lengths() {
        resize(&path, len as u64);
        let (answer, status) = if in_shape { (0, 0) } else { (4, 2) };
        let info = run(&[&"info", &"--json", &path]).expect(status).json();
        expect_head(&info, "info", answer);
        assert_eq!(info["bytes"].number(), len as u64);
        for (now, alone) in answers().iter().zip(&alone) {
            assert_eq!(now == alone, in_shape, "an answer with {len} bytes");
        }
    }
}

/// With the side, and no runs.
fn expect_side(kept: &PathBuf, new: &PathBuf, answer: u32, side: u64) {
    let lines: [Words; 2] = [&[kept, new, &NAME], &[&"--index=7", kept, new, &NAME]];
    for line in lines {
        let json = refused("compare", line, answer);
        expect_name(&json, NAME);
        assert_eq!(json["side"].number(), side, "side in {json:?}");
        assert_eq!(json["runs"].list().len(), 0, "runs in {json:?}");
        assert_eq!(json["same"].number() + json["changed"].number(), 0);
        assert!(json.get("end").is_none(), "an end in {json:?}");
        let ran = run(&[&[&"compare" as _], line].concat()).expect(2);
        let named = [kept, new].map(|path| ran.words().contains(path.to_str().unwrap()));
        assert!(named[side as usize - 1], "not named: {ran:?}");
        assert!(named[0] != named[1], "both named: {ran:?}");
    }
}

#[test]
fn sides() {
    let images = Images::shared();
    let sound = OnDisk::new(sound());
    let good = sound.path();
    for Unopened { path, answer, .. } in &images.unopened {
        expect_side(path, &good, *answer, 1);
        expect_side(&good, path, *answer, 2);
    }
}

/// If neither opens, it is the kept one that is named.
#[test]
fn both_sides() {
    let images = Images::shared();
    for kept in 4..=8 {
        let path = images.path_with(kept);
        for new in (4..=8).filter(|&new| new != kept) {
            expect_side(&path, &images.path_with(new), kept, 1);
        }
        let copy = images.scratch.path("copy");
        fs::copy(&path, &copy).unwrap();
        expect_side(&path, &copy, kept, 1);
    }
}

/// A name that is none, on a card that opens.
#[test]
fn bad_paths() {
    let [good, other] = [(); 2].map(|()| OnDisk::new(sound()));
    let path = good.path();
    let output = good.scratch.path("output");
    fs::write(&output, "kept").unwrap();
    for bad in [vec![], b"a//b".to_vec(), vec![b'x'; 256]] {
        let json = refused("pull", &[&path, &bad, &"0"], 4);
        expect_name(&json, &bad);
        refused("cat", &[&"-o", &output, &path, &bad], 4);
        let json = refused("compare", &[&path, &other.path(), &bad], 4);
        assert_eq!(json["side"].number(), 0, "side of a path in {json:?}");
        let json = refused("ls", &[&path, &bad], 4);
        expect_name(&json, &bad);
    }
    assert_eq!(fs::read(&output).unwrap(), b"kept");
}
