//! Making clips.

use super::Clip;
use super::raw::tuyrashka_clip_intersect;

impl Clip {
    /// The columns from `x` on and the rows from `y` on, so many of them.
    pub const fn new(x: i32, y: i32, width: u32, height: u32) -> Clip {
        Clip { x, y, width, height }
    }

    /// A clip that every canvas lies in.
    pub const fn whole() -> Clip {
        Clip::new(0, 0, u32::MAX, u32::MAX)
    }

    /// What two clips share: the larger corner, and a side of 0 where they share nothing.
    pub fn intersect(self, other: Clip) -> Clip {
        let mut both = Clip::new(0, 0, 0, 0);
        tuyrashka_clip_intersect(&self, &other, &mut both);
        both
    }
}
