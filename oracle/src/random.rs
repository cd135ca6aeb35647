//! Random numbers: splitmix64, so that a seed gives the same pages on every machine.

pub struct Random(u64);

impl Random {
    /// The numbers of one page. Each page has its own, so any page can be made again by itself.
    pub fn for_page(seed: u64, page: u64) -> Random {
        let mut random = Random(seed);
        let start = random.word();
        Random(start ^ page.wrapping_mul(0xd1342543de82ef95))
    }

    pub fn word(&mut self) -> u64 {
        self.0 = self.0.wrapping_add(0x9e3779b97f4a7c15);
        let mut word = self.0;
        word = (word ^ (word >> 30)).wrapping_mul(0xbf58476d1ce4e5b9);
        word = (word ^ (word >> 27)).wrapping_mul(0x94d049bb133111eb);
        word ^ (word >> 31)
    }
    pub fn below(&mut self, limit: u64) -> u64 {
        self.word() % limit
    }
    pub fn one_of<T: Copy>(&mut self, list: &[T]) -> T {
        list[self.below(list.len() as u64) as usize]
    }
    /// True in so many of a hundred cases.
    pub fn chance(&mut self, percent: u64) -> bool {
        self.below(100) < percent
    }
    /// From 0, and below 1.
    pub fn unit(&mut self) -> f32 {
        self.below(1 << 24) as f32 / (1u32 << 24) as f32
    }
}
