//! What a whole roll tends to: rolls that are all of one kind reach fewer states.

use crate::prng::Prng;

#[derive(Clone, Debug)]
pub(crate) struct Mood {
    /// The sandboxes that calls mostly name: this many, from 0.
    pub sandboxes: usize,
    /// Single pages apart from each other and changing rights: many areas.
    pub scattered: bool,
    /// Percentage of maps that are backed by the image.
    pub image: usize,
    /// Percentage of maps at 64.
    pub lowest_gap: usize,
    /// Small shares are soon filled.
    pub share: usize,
    /// Percentage of calls that are of requests: map, write, rewind, again and again.
    pub requests: usize,
    /// Percentage of calls before a snapshot that give it areas of each kind.
    pub building: usize,
}

impl Mood {
    pub(crate) fn random(prng: &mut Prng) -> Mood {
        let mut mood = Mood {
            sandboxes: prng.weighted(&[(4, 1), (3, 2), (2, 3), (2, 4)]),
            scattered: prng.chance(40),
            image: prng.pick(&[0, 30, 60, 90]),
            lowest_gap: prng.pick(&[20, 50, 80]),
            share: prng.pick(&[3, 8, 16, 32, 64, 128]),
            requests: 0,
            building: 0,
        };
        let kinds = [(12, (0, 0)), (3, (0, 92)), (2, (75, 0)), (3, (90, 0))];
        (mood.requests, mood.building) = prng.weighted(&kinds);
        if mood.building > 0 {
            // Enough lines for each sandbox, and pages for eight areas twice.
            mood.sandboxes = prng.weighted(&[(4, 1), (3, 2), (1, 4)]);
            mood.share = prng.pick(&[24, 40, 128]);
        }
        if mood.requests > 0 {
            // Enough lines for each sandbox, and shares that kept frames can fill.
            mood.sandboxes = prng.weighted(&[(6, 1), (2, 2), (1, 4)]);
            mood.share = prng.pick(&[4, 8, 14, 24, 40]);
            mood.lowest_gap = prng.pick(&[5, 25, 60, 90]);
            if mood.requests == 90 {
                // More runs come to be kept than maps take, and they compete.
                (mood.share, mood.lowest_gap) = (prng.pick(&[24, 40]), prng.pick(&[2, 15]));
            }
        }
        mood
    }
}
