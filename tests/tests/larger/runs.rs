//! Runs of blocks that are the last ones of the largest card.

use harptimber_tests::calls::runs::{Outcome, RunCall, Runs};
use harptimber_tests::cards::one_file::{Setting, NAME};
use harptimber_tests::sizes::RUN_MOST;

use crate::far_file::{far_scene, LAST_BLOCK};

/// From the inode to a direct node: some block of the run is the card's last one.
#[test]
fn runs_up_to_the_last_block() {
    const FIRST: u32 = 923 - 256;
    let setting = Setting {
        root_inline: 0,
        file_inline: 0,
        size: u64::from(FIRST + RUN_MOST) * 4096,
    };
    let mut runs = Runs::new("runs from the end of the largest card");
    for at_end in [4, 300, 500] {
        let mut scene = far_scene(&mut runs.trial.random, at_end, setting);
        for index in FIRST..FIRST + RUN_MOST {
            scene.card.add_block(scene.ino, index);
        }
        let image = &scene.card.image;
        let whole = RunCall::new(image, NAME, FIRST, RUN_MOST);
        runs.expect(&whole, 0, RUN_MOST);
        assert_eq!(Outcome::least(&whole).blocks().last(), Some(&LAST_BLOCK));
        runs.expect(
            &RunCall::new(image, NAME, FIRST + 1, RUN_MOST),
            3,
            RUN_MOST - 1,
        );
    }
    runs.finish(2 * 3, &[(0, true), (3, true)]);
}
