//! Sets of nodes: sixteen words of 64 bits, node n at bit n mod 64 of word n div 64.

#[derive(Clone, Copy, Debug, Default, PartialEq)]
pub struct Set(pub [u64; 16]);

impl Set {
    /// the nodes below n of which the test is true
    pub fn of(n: usize, test: impl Fn(usize) -> bool) -> Set {
        (0..n).filter(|&v| test(v)).collect()
    }

    pub fn only(v: usize) -> Set {
        std::iter::once(v).collect()
    }

    pub fn has(&self, v: usize) -> bool {
        self.0[v / 64] >> (v % 64) & 1 == 1
    }

    pub fn insert(&mut self, v: usize) {
        self.0[v / 64] |= 1 << (v % 64);
    }

    pub fn or(&self, other: &Set) -> Set {
        Set(std::array::from_fn(|i| self.0[i] | other.0[i]))
    }

    pub fn and(&self, other: &Set) -> Set {
        Set(std::array::from_fn(|i| self.0[i] & other.0[i]))
    }

    pub fn without(&self, other: &Set) -> Set {
        Set(std::array::from_fn(|i| self.0[i] & !other.0[i]))
    }

    /// how many members there are
    pub fn len(&self) -> usize {
        self.0.iter().map(|w| w.count_ones() as usize).sum()
    }

    pub fn is_empty(&self) -> bool {
        self.len() == 0
    }

    /// the members, lowest first
    pub fn iter(&self) -> impl Iterator<Item = usize> + '_ {
        let members = |i: usize| {
            let mut rest = self.0[i];
            std::iter::from_fn(move || {
                let b = rest.trailing_zeros() as usize;
                rest &= rest.wrapping_sub(1);
                (b < 64).then_some(64 * i + b)
            })
        };
        (0..16).flat_map(members)
    }
}

impl FromIterator<usize> for Set {
    fn from_iter<I: IntoIterator<Item = usize>>(members: I) -> Set {
        let mut set = Set::default();
        members.into_iter().for_each(|v| set.insert(v));
        set
    }
}
