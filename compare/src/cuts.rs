//! How the text of a replay is cut into parts, and how long the slices for what is printed are.

use sa110_model::random::Rng;

/// The longest slice for what is printed.
const LONGEST: usize = 65_536;

/// How a text is cut into parts.
#[derive(Clone, Copy, Debug, PartialEq, Eq)]
pub enum Parts {
    Whole,
    Bytes,
    /// One cut behind so many bytes.
    At(usize),
    /// Any lengths up to this.
    UpTo(u32),
}

/// How long the slices for what is printed are.
#[derive(Clone, Copy, Debug, PartialEq, Eq)]
pub enum Rooms {
    Of(usize),
    /// 0, 1, 33, 34, 35 and some more.
    Few,
    /// Any lengths up to this.
    UpTo(u32),
}

/// How a replay is fed; everything follows from the seed.
#[derive(Clone, Copy, Debug, PartialEq, Eq)]
pub struct Cuts {
    pub seed: u64,
    pub parts: Parts,
    pub rooms: Rooms,
    /// Parts of 0 bytes and slices of 0 bytes come now and then.
    pub empty: bool,
    /// The text's end is told by an empty part behind the last.
    pub late: bool,
}

impl Cuts {
    pub const WHOLE: Cuts = Cuts {
        seed: 0,
        parts: Parts::Whole,
        rooms: Rooms::Of(LONGEST),
        empty: false,
        late: false,
    };

    /// Random cuts of a text of so many bytes; a long one is mostly cut into longer parts.
    pub fn random(rng: &mut Rng, length: usize) -> Cuts {
        let all = length < 2_000 || length < 30_000 && rng.percent(5);
        let short = [Parts::Bytes, Parts::UpTo(3), Parts::UpTo(40)];
        let long = [Parts::Whole, Parts::UpTo(500), Parts::UpTo(70_000)];
        let parts = if all && rng.percent(60) {
            rng.pick(&short)
        } else {
            rng.pick(&long)
        };
        let few = [Rooms::Of(1), Rooms::UpTo(100)];
        let some = [
            Rooms::Of(33),
            Rooms::Of(34),
            Rooms::Of(35),
            Rooms::Few,
            Rooms::UpTo(2_000),
        ];
        let many = [Rooms::Of(LONGEST), Rooms::UpTo(LONGEST as u32)];
        let rooms = match rng.below(10) {
            0..=2 if all => rng.pick(&few),
            3..=5 if long.contains(&parts) => rng.pick(&many),
            _ => rng.pick(&some),
        };
        Cuts {
            seed: rng.draw(),
            parts,
            rooms,
            empty: rng.percent(60),
            late: rng.percent(50),
        }
    }

    /// How long the next part is, behind so many bytes and before the rest.
    pub(crate) fn part(&self, rng: &mut Rng, at: usize, rest: usize) -> usize {
        if self.empty && rng.percent(10) {
            return 0;
        }
        let length = match self.parts {
            Parts::Whole => rest,
            Parts::Bytes => 1,
            Parts::At(cut) if at < cut => cut - at,
            Parts::At(_) => rest,
            Parts::UpTo(most) => 1 + rng.below(most) as usize,
        };
        length.min(rest)
    }

    /// How long the next slice is.
    pub(crate) fn room(&self, rng: &mut Rng) -> usize {
        if self.empty && rng.percent(10) {
            return 0;
        }
        match self.rooms {
            Rooms::Of(length) => length,
            Rooms::Few => rng.pick(&[0, 1, 2, 12, 33, 34, 35, 40, 67, 68, 69, 1024 * 34]),
            Rooms::UpTo(most) => 1 + rng.below(most) as usize,
        }
    }
}
