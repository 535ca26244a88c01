/// How the ids of each listed triangle stand, in a job with points.
#[derive(Clone, Copy, Debug, Default, PartialEq, Eq)]
pub enum Order {
    /// The inside lies behind the triangle.
    #[default]
    Outward,
    Rising,
}

impl Order {
    pub const EACH: [Order; 2] = [Order::Outward, Order::Rising];

    /// Word 7 of a job with points that asks for it.
    pub const fn word_7(self) -> u32 {
        match self {
            Order::Outward => 1,
            Order::Rising => 3,
        }
    }

    /// The order that word 7 asks for, if it says that there are points.
    pub fn told_by(word_7: u32) -> Option<Order> {
        let mut each = Order::EACH.into_iter();
        each.find(|order| order.word_7() == word_7)
    }
}

#[cfg(test)]
mod tests {
    use super::*;

    #[test]
    fn word_7_tells_it() {
        assert_eq!(Order::told_by(1), Some(Order::Outward));
        assert_eq!(Order::told_by(3), Some(Order::Rising));
        for word_7 in [0, 2, 4, 5, 1 << 8 | 1, 3 << 16, u32::MAX] {
            assert_eq!(Order::told_by(word_7), None);
        }
    }
}
