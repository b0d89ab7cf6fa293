//! The models that several tests share: C at every edge, models that name a missing state, large ones, ones near the limits of the
//! opposite, rings, and damaged ones.

use crate::model::{bit, hand_worked, named, own_models, Model};
use crate::opposite::{counted, LIMIT};
use crate::random::Random;
use crate::tables::Tables;

/// With more profiles the search takes long.
pub const MANY: usize = 600;

/// What the library is handed: n and k may be anything, and more arrow numbers may be lent than k.
#[derive(Clone)]
pub struct Given {
    pub n: u64,
    pub k: u64,
    pub model: Model,
}

impl Given {
    /// A number of states or events beyond 255 is out of range as 255 is.
    pub fn refusal(&self) -> u8 {
        let cut = |x: u64| x.min(255) as usize;
        let mut model = self.model.clone();
        model.n = cut(self.n);
        model.k = cut(self.k);
        model.refusal()
    }

    /// Whether it is closed and has more profiles than so many.
    pub fn has_more_profiles(&self, than: usize) -> bool {
        self.refusal() == 0 && Tables::close(&self.model, None, Some(than)).refusal() != 0
    }
}

pub fn plain(model: Model) -> Given {
    Given {
        n: model.n as u64,
        k: model.k as u64,
        model,
    }
}

/// The hand-worked models and our own.
pub fn small() -> Vec<Model> {
    let small = hand_worked().into_iter().map(|row| row.model);
    small.chain(own_models()).collect()
}

/// C with one thing changed in each: every refusal at its edge, and what is not refused.
pub fn edges() -> Vec<Given> {
    let c = named("C");
    let with = |change: &dyn Fn(&mut Given)| {
        let mut given = plain(c.clone());
        change(&mut given);
        given
    };
    vec![
        with(&|given| given.n = 0),
        with(&|given| given.n = 9),
        with(&|given| given.n = 258),
        with(&|given| given.n = (1 << 32) + 2),
        with(&|given| given.n = u64::MAX),
        with(&|given| given.k = 0),
        with(&|given| {
            given.k = 17;
            given.model.arrows = vec![0; 17];
        }),
        with(&|given| given.k = 258),
        with(&|given| given.k = (1 << 32) + 2),
        with(&|given| given.k = 1 << 63),
        with(&|given| given.k = 16),
        with(&|given| given.k = 3),
        with(&|given| given.model.arrows = vec![]),
        with(&|given| {
            given.n = 9;
            given.model.arrows = vec![];
        }),
        with(&|given| {
            given.model.start = 4;
            given.model.arrows = vec![];
        }),
        with(&|given| given.model.start = 4),
        with(&|given| given.model.start = 128),
        with(&|given| given.model.home = 4),
        with(&|given| given.model.home = 130),
        with(&|given| given.model.arrows[0] |= bit(2, 0)),
        with(&|given| given.model.arrows[0] |= bit(7, 7)),
        with(&|given| given.model.arrows[1] |= bit(0, 2)),
        with(&|given| given.model.arrows[1] |= bit(1, 7)),
        with(&|given| given.model.arrows.push(u64::MAX)),
        with(&|given| {
            given.k = 1;
            given.model.k = 1;
            given.model.arrows[1] = u64::MAX;
        }),
        with(&|given| {
            given.n = 8;
            given.model.n = 8;
            given.model.start = 255;
            given.model.home = 255;
            given.model.arrows = vec![u64::MAX; 2];
        }),
        with(&|given| {
            given.n = 7;
            given.model.n = 7;
            given.model.arrows[1] = u64::MAX;
        }),
    ]
}

/// For each n the lowest missing state, named by one bit alone: in a mask, or in the last of 16 events as p or as q.
pub fn named_missing() -> Vec<Given> {
    let mut all = Vec::new();
    for n in 1..8 {
        let sound = Model {
            n,
            k: 16,
            start: 1,
            home: 1,
            arrows: vec![bit(0, 0); 16],
        };
        let mut wrong = vec![sound.clone(); 6];
        wrong[1].start |= 1 << n;
        wrong[2].home |= 1 << n;
        wrong[3].arrows[15] |= bit(0, n);
        wrong[4].arrows[15] |= bit(n - 1, n);
        wrong[5].arrows[15] |= bit(n, 0);
        all.extend(wrong.into_iter().map(plain));
    }
    all
}

/// At the limits: 2,047 profiles, 2,048 of them, more than that, more than that with 256 sets; then 50 letters for u and for v, and 256 sets
/// of which only the last rejects, with 255 profiles and with 2,041.
pub fn large() -> Vec<Model> {
    let model = |n, k, start, home, arrows: &[u64]| Model {
        n,
        k,
        start,
        home,
        arrows: arrows.to_vec(),
    };
    let more = [
        586_734_864_099_836_164,
        882_776_445_533_815_168,
        162_270_461_781_615_744,
    ];
    let loops = (0..8).fold(0, |all, p| all | bit(p, p));
    let turn = (0..8).fold(0, |all, p| all | bit(p, (p + 1) % 8));
    let without: Vec<u64> = (0..8).map(|p| loops & !bit(p, p)).collect();
    vec![
        model(4, 3, 1, 8, &[17_304_584, 16_910_337, 33_816_840]),
        model(5, 3, 1, 1, &[17_213_556_741, 8_606_843_912, 68_753_294_340]),
        model(8, 3, 1, 128, &more),
        model(8, 3, 1, 2, &[turn, loops | bit(0, 1), loops & !bit(0, 0)]),
        model(8, 1, 1, 0, &[turn | bit(7, 1)]),
        model(8, 8, 255, 255, &without),
        model(8, 9, 255, 255, &[without, vec![turn]].concat()),
    ]
}

/// One event alone: a ring of eight; rings of three and five, begun in either, home in one; a line into a loop, home in the loop or not.
pub fn rings() -> Vec<Model> {
    let model = |start, home, arrows| Model {
        n: 8,
        k: 1,
        start,
        home,
        arrows: vec![arrows],
    };
    let to = |next: &dyn Fn(usize) -> usize| (0..8).fold(0, |all, p| all | bit(p, next(p)));
    let eight = to(&|p| (p + 1) % 8);
    let three_five = to(&|p| if p < 3 { (p + 1) % 3 } else { 3 + (p - 2) % 5 });
    let line = to(&|p| (p + 1).min(7));
    vec![
        model(1, 16, eight),
        model(1, 8, three_five),
        model(8, 8, three_five),
        model(9, 64, three_five),
        model(1, 128, line),
        model(1, 64, line),
    ]
}

/// One bit anywhere in the model turned over, or arrow numbers missing, so that many of these are refused.
pub fn damaged(random: &mut Random, mut model: Model) -> Given {
    let event = random.below(model.k);
    match random.below(4) {
        0 => model.start ^= 1 << random.below(8),
        1 => model.home ^= 1 << random.below(8),
        2 => model.arrows[event] ^= 1 << random.below(64),
        _ => model.arrows.truncate(event),
    }
    plain(model)
}

/// At the limit: 65,535 arrows, and 65,536. The same four events, some of them more than once.
pub fn at_the_limit() -> [Model; 2] {
    let events = [134_284_290, 67_371_521, 134_743_041, 16_844_802];
    let with = |more: [usize; 9]| {
        let again = more.map(|event| events[event]);
        Model {
            n: 4,
            k: 13,
            start: 14,
            home: 0,
            arrows: [&events[..], &again[..]].concat(),
        }
    };
    [
        with([0, 0, 0, 0, 2, 2, 3, 3, 3]),
        with([0, 0, 0, 0, 0, 1, 2, 3, 3]),
    ]
}

/// Random models, so many for each range of the opposite's states; the last range is above the limits.
pub fn of_every_size(random: &mut Random, counts: [usize; 6]) -> Vec<Model> {
    let ranges = [
        0..100,
        100..500,
        500..2_000,
        2_000..10_000,
        10_000..LIMIT + 1,
        LIMIT + 1..usize::MAX,
    ];
    let mut left: Vec<_> = ranges.into_iter().zip(counts).collect();
    let mut models = Vec::new();
    while left.iter().any(|(_, left)| *left > 0) {
        let model = random.model_up_to(7, 5);
        let tables = Tables::close(&model, None, Some(700));
        if tables.refusal() != 0 {
            continue;
        }
        let size = counted(&tables);
        let is_above = !size.is_within_limits();
        let states = if is_above { LIMIT + 1 } else { size.states };
        for (sizes, left) in &mut left {
            if *left > 0 && sizes.contains(&states) {
                *left -= 1;
                models.push(model.clone());
            }
        }
    }
    models
}

/// Near the limits: 256 sets, 16 events, 2,042 profiles, and one block. Eight events turn all states but one; another leads only 0 to 0,
/// which no other does unmarked; the rest are repeated.
pub fn near_the_limits() -> Model {
    let turn = |without: usize| {
        let others = (0..8).filter(|&p| p != without);
        others.fold(0, |all, p| all | bit(p, (p + 1) % 8))
    };
    let mut arrows: Vec<u64> = (0..8).map(turn).collect();
    arrows.push(bit(0, 0));
    let arrows = arrows.into_iter().cycle().take(16).collect();
    Model {
        n: 8,
        k: 16,
        start: 255,
        home: 254,
        arrows,
    }
}
