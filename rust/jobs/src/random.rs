use common::{Buffers, Rooms};

/// A small generator of repeatable random numbers (splitmix64).
#[derive(Clone, Debug)]
pub struct Random(u64);

impl Random {
    pub fn new(seed: u64) -> Random {
        Random(seed)
    }

    pub fn bits(&mut self) -> u64 {
        self.0 = self.0.wrapping_add(0x9e37_79b9_7f4a_7c15);
        let mut z = self.0;
        z = (z ^ (z >> 30)).wrapping_mul(0xbf58_476d_1ce4_e5b9);
        z = (z ^ (z >> 27)).wrapping_mul(0x94d0_49bb_1331_11eb);
        z ^ (z >> 31)
    }

    /// A number below `limit`, which is above 0.
    pub fn below(&mut self, limit: usize) -> usize {
        ((u128::from(self.bits()) * limit as u128) >> 64) as usize
    }

    /// A number from `least` to `greatest`.
    pub fn within(&mut self, least: usize, greatest: usize) -> usize {
        least + self.below(greatest - least + 1)
    }

    /// True in `percent` of 100.
    pub fn chance(&mut self, percent: usize) -> bool {
        self.below(100) < percent
    }

    pub fn pick<T: Copy>(&mut self, from: &[T]) -> T {
        from[self.below(from.len())]
    }

    /// As `pick`, and nothing if there is nothing to pick from.
    pub fn pick_any<T: Copy>(&mut self, from: &[T]) -> Option<T> {
        (!from.is_empty()).then(|| self.pick(from))
    }

    /// Bytes with anything in them.
    pub fn bytes(&mut self, room: usize) -> Vec<u8> {
        (0..room).map(|_| self.bits() as u8).collect()
    }

    /// Numbers with anything in them, also what is off the grid.
    pub fn numbers(&mut self, room: usize) -> Vec<i16> {
        (0..room).map(|_| self.bits() as i16).collect()
    }

    /// Buffers with anything in them.
    pub fn buffers(&mut self, rooms: Rooms) -> Buffers {
        let (answers, final_marks) = (self.bytes(rooms.answers), self.bytes(rooms.final_marks));
        let mut words = |room| (0..room).map(|_| self.bits() as u32).collect();
        Buffers {
            answers,
            final_marks,
            triangles: words(rooms.triangles),
            work: words(rooms.work),
        }
    }

    pub fn shuffle<T>(&mut self, items: &mut [T]) {
        for last in (1..items.len()).rev() {
            items.swap(last, self.below(last + 1));
        }
    }
}
