//! Numbers that look drawn by chance and are the same in every run.

pub struct Drawn(pub u64);

impl Drawn {
    /// A number below this one, which is not 0.
    pub fn below(&mut self, bound: u16) -> u16 {
        self.0 = self
            .0
            .wrapping_mul(6_364_136_223_846_793_005)
            .wrapping_add(99);
        ((self.0 >> 33) % u64::from(bound)) as u16
    }

    pub fn one_in(&mut self, times: u16) -> bool {
        self.below(times) == 0
    }

    pub fn pick<T: Copy>(&mut self, list: &[T]) -> T {
        list[usize::from(self.below(list.len() as u16))]
    }
}
