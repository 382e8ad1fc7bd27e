//! Pull: two packs, each of which leads to other data of the same file. The bytes and the lists are those
//! that the chosen one leads to.

use harptimber_tests::calls::pulls::{Call, Pulls};
use harptimber_tests::cards::image::Image;
use harptimber_tests::cards::layout::checkpoint::CHECKSUM;
use harptimber_tests::cards::layout::BLOCK_SIZE;
use harptimber_tests::cards::one_file::{Scene, Setting, NAME};
use harptimber_tests::cards::versions::{CHOSEN, HALF, PAIRS};

/// A block behind the first direct node of 923 addresses.
const INDEX: u32 = 1000;

/// What a pull of the block rests on.
struct Content {
    data: u32,
    nodes: Vec<u32>,
    blocks: Vec<u32>,
}

impl Content {
    /// By the last checkpoint.
    fn of(scene: &mut Scene, data: u32) -> Content {
        let way = scene.card.way(scene.ino, INDEX);
        let (nodes, mut blocks) = scene.lists(&way, way.len(), way.len());
        blocks.push(data);
        Content {
            data,
            nodes,
            blocks,
        }
    }

    fn expect(&self, pulls: &mut Pulls, image: &Image) {
        pulls.expect_data(image, NAME, INDEX, image.block(self.data));
        let call = Call::new(image, NAME, INDEX);
        pulls.expect_lists(&call, 0, &self.nodes, &self.blocks);
    }
}

/// A card with one pack, and what it leads to.
fn with_one_pack(pulls: &mut Pulls) -> (Scene, Content) {
    let setting = Setting {
        root_inline: 0,
        file_inline: 0,
        size: (u64::from(INDEX) + 1) * BLOCK_SIZE as u64,
    };
    let mut scene = Scene::new(&mut pulls.trial.random, setting);
    let data = scene.card.add_block(scene.ino, INDEX);
    let content = Content::of(&mut scene, data);
    (scene, content)
}

/// Also with one of them spoilt: then it is the other, however old that is.
#[test]
fn by_version() {
    let mut pulls = Pulls::new("pull by the packs' versions");
    let (mut scene, of_first) = with_one_pack(&mut pulls);
    let data = scene.rewrite(2, INDEX);
    let contents = [of_first, Content::of(&mut scene, data)];
    let image = &mut scene.card.image;
    image.settle("two packs");
    for (versions, chosen) in CHOSEN {
        image.set_versions(versions);
        contents[chosen].expect(&mut pulls, image);
        let sound = image.mark();
        for which in [0, 1] {
            image.set(image.last_block(which), CHECKSUM, 0);
            contents[1 - which].expect(&mut pulls, image);
            image.undo(sound);
        }
        image.undo(0);
    }
    pulls.finish(PAIRS * 3 * 2, &[0]);
}

/// One checkpoint after the other, each over the older pack, from versions before a border to some behind it.
#[test]
fn one_after_the_other() {
    let mut pulls = Pulls::new("pull after one checkpoint after the other");
    for border in [0, 1 << 31, 1 << 32, HALF] {
        let (mut scene, content) = with_one_pack(&mut pulls);
        let before = 4u64;
        let start = u64::wrapping_sub(border, before);
        scene.card.image.set_version(0, start);
        content.expect(&mut pulls, &scene.card.image);
        for n in 1..=2 * before {
            let data = scene.rewrite(start.wrapping_add(n), INDEX);
            let content = Content::of(&mut scene, data);
            content.expect(&mut pulls, &scene.card.image);
        }
    }
    pulls.finish(4 * 9 * 2, &[0]);
}
