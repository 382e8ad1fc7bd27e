//! Volumes that start far out on a card: packs, tables and journals too are beyond byte 2^32. Where a reader looks that
//! counts bytes in fewer bits there is a whole other volume.

use harptimber_tests::calls::compares::{changed, Compares, Kept, SAME};
use harptimber_tests::calls::lookups::{found, Lookups};
use harptimber_tests::calls::pulls::{Call, Pulls};
use harptimber_tests::calls::segments::{Report, Reports};
use harptimber_tests::cards::card::{Card, ROOT};
use harptimber_tests::cards::image::Image;
use harptimber_tests::cards::knobs::{Knobs, Pack};
use harptimber_tests::cards::layout::nat::{self, NatEntry};
use harptimber_tests::cards::layout::sit::VER_BITMAP_BYTES;
use harptimber_tests::cards::layout::{BLOCK_SIZE, SEGMENT_BLOCKS};
use harptimber_tests::cards::one_file::{Scene, Setting, NAME};
use harptimber_tests::cards::random::shuffle;
use harptimber_tests::cards::random_segments::{sit_entry, sit_journal};
use harptimber_tests::cards::segments::Sit;
use harptimber_tests::node_lookup;
use harptimber_tests::trial::Random;

const MAIN_SEGMENTS: u32 = 2;
/// All segments of such a volume: two each of checkpoint, SIT and NAT, one of SSA.
const SEGMENTS: u32 = 7 + MAIN_SEGMENTS;

/// Where segment 0 starts: behind block 2^20; shortly before it, so that only the tables are behind; where each number
/// of bits in which bytes can be counted leads to another place; and so that the volume ends with the largest card.
const STARTS: [u32; 5] = [
    (1 << 20) + 600,
    (1 << 20) - 700,
    (2 << 20) - 700,
    (3 << 20) + (1 << 19) + (1 << 18) + 1029,
    4_194_304 - SEGMENTS * SEGMENT_BLOCKS,
];

/// Which superblock copies are there.
const COPIES: [[bool; 2]; 3] = [[true, true], [true, false], [false, true]];

/// A block behind the first indirect node of 923 addresses.
const INDEX: u32 = 2959;
const SETTING: Setting = Setting {
    root_inline: 0,
    file_inline: 0,
    size: (INDEX as u64 + 1) * BLOCK_SIZE as u64 - 1,
};

/// How a volume is laid out.
#[derive(Clone, Debug)]
struct Form {
    segment0: u32,
    which: usize,
    pack: Pack,
    copies: [bool; 2],
}

impl Form {
    fn all() -> Vec<Form> {
        let mut forms = Vec::new();
        for segment0 in STARTS {
            for pack in Pack::kinds() {
                for (which, copies) in [0, 1].into_iter().flat_map(|n| COPIES.map(|c| (n, c))) {
                    let pack = pack.clone();
                    forms.push(Form {
                        segment0,
                        which,
                        pack,
                        copies,
                    });
                }
            }
        }
        forms
    }
}

struct Volume {
    scene: Scene,
    data: u32,
    report: Report,
}

impl Volume {
    /// With random maps, and in both journals some of what the tables would say otherwise.
    fn new(form: &Form, random: &mut Random) -> Volume {
        Volume::within(0, form, random)
    }

    /// Another one of that form: no node is where the first has one.
    fn other(form: &Form, random: &mut Random) -> Volume {
        Volume::within(1, form, random)
    }

    /// With all of its file in this main segment.
    fn within(segment: u32, form: &Form, random: &mut Random) -> Volume {
        let journal = sit_journal(random, MAIN_SEGMENTS);
        let pack = Pack {
            nat_map: random.bytes(64),
            sit_map: random.bytes(VER_BITMAP_BYTES),
            sit_journal: Some(journal.clone()),
            ..form.pack.clone()
        };
        let card = card(form, pack, segment, random);
        let mut scene = Scene::on(card, SETTING);
        let data = scene.card.add_block(scene.ino, INDEX);
        let node = scene.card.way(scene.ino, INDEX)[1].node.nid;
        scene.card.journal(&[ROOT, node]);
        let table = [(); MAIN_SEGMENTS as usize].map(|_| sit_entry(random));
        let sit = Sit::of(&scene.card.image);
        for (segno, entry) in (0..).zip(&table) {
            let copy = sit.copy_of(segno);
            scene.card.image.set_sit_entry(segno, copy, entry);
        }
        scene.card.image.settle("a file far out");
        let report = Report::by_entries(&table, &journal);
        Volume {
            scene,
            data,
            report,
        }
    }

    fn image(&self) -> &Image {
        &self.scene.card.image
    }
}

fn card(form: &Form, pack: Pack, segment: u32, random: &mut Random) -> Card {
    let knobs = Knobs {
        segment0: form.segment0,
        copies: form.copies,
        ..Knobs::sound().with_segments(MAIN_SEGMENTS)
    };
    let first = knobs.areas().main + segment * SEGMENT_BLOCKS;
    let mut blocks: Vec<u32> = (first..first + SEGMENT_BLOCKS).collect();
    shuffle(random, &mut blocks);
    let knobs = knobs.with_pack(form.which, pack);
    Card::within(knobs, Random::new(random.number()), blocks)
}

/// The volume, with decoys of another one that is as sound.
fn with_decoys(form: &Form, random: &mut Random) -> Volume {
    let mut volume = Volume::new(form, random);
    let other = Volume::other(form, random);
    let decoys = volume.scene.card.image.put_decoys(other.image());
    assert!(decoys.len() >= 12, "too few decoys: {decoys:?}, {form:?}");
    volume.scene.card.image.settle("decoys");
    volume
}

#[test]
fn pulls() {
    let mut pulls = Pulls::new("pull from a volume far out");
    for form in Form::all() {
        let mut volume = with_decoys(&form, &mut pulls.trial.random);
        let way = volume.scene.card.way(volume.scene.ino, INDEX);
        let (nodes, mut blocks) = volume.scene.lists(&way, way.len(), way.len());
        blocks.push(volume.data);
        let image = volume.image();
        pulls.expect_data(
            image,
            NAME,
            INDEX,
            &image.block(volume.data)[..BLOCK_SIZE - 1],
        );
        pulls.expect_lists(&Call::new(image, NAME, INDEX), 0, &nodes, &blocks);
        pulls.expect_hole(image, NAME, 5, BLOCK_SIZE);
        pulls.expect(image, NAME, INDEX + 1, 3);
        pulls.expect(image, b"road", 0, 2);
    }
    pulls.finish(5 * 4 * 6 * 5, &[0, 1, 2, 3]);
}

/// Of numbers in the journal, in the table, and at its ends.
#[test]
fn lookups() {
    let mut lookups = Lookups::new("node lookup in a volume far out");
    for form in Form::all() {
        let volume = with_decoys(&form, &mut lookups.trial.random);
        lookups.expect_nodes(&volume.scene.card);
        let past = volume.scene.card.node_numbers;
        for (number, answer) in [(0, 9), (1, 0), (past - 1, 0), (past, 9)] {
            lookups.expect(volume.image(), number, answer);
        }
    }
    lookups.finish(5 * 4 * 6 * (4 + 4), &[0, 9]);
}

#[test]
fn segment_reports() {
    let mut reports = Reports::new("segment report of a volume far out");
    for form in Form::all() {
        let volume = with_decoys(&form, &mut reports.trial.random);
        reports.expect(volume.image(), &volume.report);
    }
    reports.finish(5 * 4 * 6, &[0]);
}

/// With itself but for all decoys, and but for an entry of the table; with the other volume, in the same place; and with
/// one that starts at block 2.
#[test]
fn compares() {
    let mut compares = Compares::new("compare with a volume far out");
    for form in Form::all() {
        let random = &mut compares.trial.random;
        let volume = Volume::new(&form, random);
        let other = Volume::other(&form, random);
        let near = Form {
            segment0: 2,
            ..form.clone()
        };
        let near = Volume::new(&near, random);
        let mut fresh = volume.image().clone();
        fresh.put_decoys(other.image());
        let [kept, kept_near] = [&volume, &near].map(|v| Kept::new(v.image(), NAME, INDEX));
        compares.expect(&kept, &fresh, SAME);
        let (table, at) = volume.scene.card.entry_place(volume.scene.ino);
        let mark = fresh.mark();
        fresh.set(table, nat::BLOCK_ADDR.moved(at), 0);
        compares.expect(&kept, &fresh, changed(2, volume.scene.ino));
        fresh.undo(mark);
        compares.expect(&kept, other.image(), changed(2, ROOT));
        compares.expect(&kept, near.image(), changed(1, 0));
        compares.expect(&kept_near, &fresh, changed(1, 0));
    }
    compares.finish(5 * 4 * 6 * 5, &[(15, 0, 0), (16, 0, 1), (16, 0, 2)]);
}

/// What is put in the places of decoys is a sound volume with another answer to everything.
#[test]
fn decoys_are_good() {
    let random = &mut Random::new(1);
    for form in Form::all() {
        let [volume, other] = [Volume::new, Volume::other].map(|make| make(&form, random));
        let [kept, astray] = [&volume, &other].map(|v| Kept::new(v.image(), NAME, INDEX));
        assert_eq!(astray.outcome.pulled.answer, 0, "{form:?}");
        assert!(kept.outcome.result() != astray.outcome.result(), "{form:?}");
        let entries = [&volume, &other].map(|v| node_lookup(v.image().bytes(), ROOT));
        let roots = [&volume, &other].map(|v| NatEntry {
            version: 0,
            ino: ROOT,
            block_addr: v.scene.root_block(),
        });
        assert_eq!(entries, roots.map(found), "{form:?}");
        assert_ne!(entries[0], entries[1], "{form:?}");
    }
}
