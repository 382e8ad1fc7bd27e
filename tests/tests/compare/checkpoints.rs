//! Compare over checkpoints that follow each other, each written over the older pack, and over versions
//! that wrap.

use harptimber_tests::calls::compares::{changed, Compares, Kept, SAME};
use harptimber_tests::cards::card::ROOT;
use harptimber_tests::cards::image::Image;
use harptimber_tests::cards::one_file::{Scene, NAME};
use harptimber_tests::cards::versions::{CHOSEN, HALF, PAIRS};
use harptimber_tests::trial::Random;
use harptimber_tests::Compared;

use crate::changes::{cards, pulls, INDEX};

/// A node, by its file and place.
type Key = (u32, u32);

/// A card with one pack of this version.
fn with_version(random: &mut Random, version: u64) -> Scene {
    let mut scene = cards(random).scene;
    scene.card.image.set_version(0, version);
    scene
}

/// A card whose last checkpoint has the version FFFFFFFFFFFFFFFF, and the one before it FFFFFFFFFFFFFFFE.
/// The next one is written over the older pack, which is `next`.
fn before_the_wrap(random: &mut Random, next: usize) -> Scene {
    let written = 1 + next as u64;
    let mut scene = with_version(random, u64::MAX - written);
    for left in (0..written).rev() {
        scene.rewrite(u64::MAX - left, INDEX);
    }
    scene.card.image.settle("checkpoints up to the wrap");
    let versions = scene.card.image.versions();
    assert_eq!(versions[next], Some(0xFFFF_FFFF_FFFF_FFFE));
    assert_eq!(versions[1 - next], Some(0xFFFF_FFFF_FFFF_FFFF));
    scene
}

/// What a compare says after these numbers' table answers have changed: the lowest listed one, or "same".
fn after(kept: &Kept, moved: &[u32]) -> Compared {
    let mut listed = kept.outcome.nodes().into_iter();
    let lowest = listed.find(|nid| moved.contains(nid));
    lowest.map_or(SAME, |nid| changed(2, nid))
}

/// Places on the way to the file's block.
const WAY: [u32; 3] = [0, 3, 4];

/// The nodes there.
fn way_nodes(scene: &Scene) -> Vec<u32> {
    let nodes = WAY.map(|place| scene.card.node(scene.ino, place).nid);
    nodes.to_vec()
}

const MOVES: usize = 8;

/// The nodes that a checkpoint moves: none, one that isn't listed, each that is, and several.
fn moves(ino: u32, unlisted: u32) -> [Vec<Key>; MOVES] {
    let way = WAY.map(|place| (ino, place));
    let all = [&[(ROOT, 0)], &way[..], &[(unlisted, 0)]].concat();
    [
        vec![],
        vec![(unlisted, 0)],
        vec![(ROOT, 0)],
        vec![way[0]],
        vec![way[1]],
        vec![way[2]],
        way.to_vec(),
        all,
    ]
}

/// Writes the checkpoint with version 0, after which these nodes are elsewhere, by the table or by the
/// journal, and so is the data if its address was in one of them. Returns the nodes' numbers.
fn write_version_0(scene: &mut Scene, moved: &[Key], in_journal: bool) -> Vec<u32> {
    let card = &mut scene.card;
    card.checkpoint(0, moved);
    if moved.contains(&(scene.ino, WAY[2])) {
        card.add_block(scene.ino, INDEX);
    }
    let nids = moved.iter().map(|&(ino, place)| card.node(ino, place).nid);
    let nids: Vec<u32> = nids.collect();
    if in_journal {
        card.journal(&nids);
    }
    nids
}

/// The accident, over the wrap. The kept card's packs have the versions FFFFFFFFFFFFFFFE and
/// FFFFFFFFFFFFFFFF; on the new one the checkpoint with version 0 is written over the older of them. A reader
/// for which the greater number is the newer version goes on reading the old pack, all of which is still
/// there, and says "same" of a file that has changed.
#[test]
fn version_0_is_written() {
    let mut compares = Compares::new("compare over a version that wraps");
    let cases = [0, 1].map(|next| [(next, false), (next, true)]);
    for (next, in_journal) in cases.into_iter().flatten() {
        for n in 0..MOVES {
            let mut scene = before_the_wrap(&mut compares.trial.random, next);
            let unlisted = scene.card.add_file(0, 1);
            let kept = scene.card.image.clone();
            let moved = &moves(scene.ino, unlisted)[n];
            let moved = write_version_0(&mut scene, moved, in_journal);
            for kept in &pulls(&kept) {
                compares.expect(kept, &scene.card.image, after(kept, &moved));
            }
        }
    }
    compares.finish(2 * 2 * MOVES as u64 * 4, &[(15, 0, 0), (16, 0, 2)]);
}

/// A card with two packs, each of which leads to other data; and the numbers of which their tables say
/// different things.
fn two_packs(random: &mut Random) -> (Image, Vec<u32>) {
    let scene = before_the_wrap(random, 0);
    let moved = way_nodes(&scene);
    (scene.card.image, moved)
}

fn with_versions(image: &Image, versions: [u64; 2]) -> Image {
    let mut image = image.clone();
    image.set_versions(versions);
    image
}

/// Whichever pack is in use.
#[test]
fn card_and_itself() {
    let mut compares = Compares::new("compare of a card with itself, by versions");
    let (image, _) = two_packs(&mut compares.trial.random);
    for (versions, _) in CHOSEN {
        let image = with_versions(&image, versions);
        for kept in &pulls(&image) {
            compares.expect(kept, &image, SAME);
        }
    }
    compares.finish(PAIRS * 4, &[(15, 0, 0)]);
}

/// The same packs under other versions: "same" exactly if the same one is in use.
#[test]
fn versions_of_both_cards() {
    let mut compares = Compares::new("compare by the versions of both cards");
    let (image, moved) = two_packs(&mut compares.trial.random);
    let mut fresh = image.clone();
    for (versions, in_kept) in CHOSEN {
        let kept = with_versions(&image, versions);
        let kept = Kept::new(&kept, NAME, INDEX);
        for (versions, in_fresh) in CHOSEN {
            fresh.set_versions(versions);
            let same = in_kept == in_fresh;
            let paper = if same { SAME } else { after(&kept, &moved) };
            compares.expect(&kept, &fresh, paper);
            fresh.undo(0);
        }
    }
    compares.finish(PAIRS * PAIRS, &[(15, 0, 0), (16, 0, 2)]);
}

/// Versions shortly before places where one could be taken wrongly.
const BEFORE: [u64; 4] = [u64::MAX - 2, HALF - 3, (1 << 32) - 3, (1 << 31) - 3];
const CHECKPOINTS: u64 = 6;

/// Those of the checkpoints after it, past such a place.
fn later(version: u64) -> impl Iterator<Item = u64> {
    (1..=CHECKPOINTS).map(move |n| version.wrapping_add(n))
}

/// However many checkpoints are written that don't change what was listed.
#[test]
fn another_file_is_written_again_and_again() {
    let mut compares = Compares::new("compare after checkpoints for another file");
    for before in BEFORE {
        let mut scene = with_version(&mut compares.trial.random, before);
        let unlisted = scene.card.add_file(0, 1);
        let kept = scene.card.image.clone();
        for version in later(before) {
            scene.card.checkpoint(version, &[(unlisted, 0)]);
            for kept in &pulls(&kept) {
                compares.expect(kept, &scene.card.image, SAME);
            }
        }
    }
    compares.finish(4 * CHECKPOINTS * 4, &[(15, 0, 0)]);
}

/// Each card is compared with the one before.
#[test]
fn file_is_written_again_and_again() {
    let mut compares = Compares::new("compare after checkpoints for the file");
    for before in BEFORE {
        let mut scene = with_version(&mut compares.trial.random, before);
        let moved = way_nodes(&scene);
        for version in later(before) {
            let kept = scene.card.image.clone();
            scene.rewrite(version, INDEX);
            for kept in &pulls(&kept) {
                compares.expect(kept, &scene.card.image, after(kept, &moved));
            }
        }
    }
    compares.finish(4 * CHECKPOINTS * 4, &[(15, 0, 0), (16, 0, 2)]);
}
