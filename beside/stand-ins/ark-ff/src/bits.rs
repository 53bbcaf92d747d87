/// The bit at a place of some limbs, counted from the lowest.
fn bit(limbs: &[u64], i: usize) -> bool {
    limbs[i / 64] >> (i % 64) & 1 == 1
}

/// The bits of some limbs, the highest first.
#[derive(Debug)]
pub struct BitIteratorBE<S: AsRef<[u64]>> {
    limbs: S,
    left: usize,
}

impl<S: AsRef<[u64]>> BitIteratorBE<S> {
    pub fn new(limbs: S) -> Self {
        let left = 64 * limbs.as_ref().len();
        BitIteratorBE { limbs, left }
    }

    pub fn without_leading_zeros(limbs: S) -> impl Iterator<Item = bool> {
        Self::new(limbs).skip_while(|bit| !bit)
    }
}

impl<S: AsRef<[u64]>> Iterator for BitIteratorBE<S> {
    type Item = bool;

    fn next(&mut self) -> Option<bool> {
        self.left = self.left.checked_sub(1)?;
        Some(bit(self.limbs.as_ref(), self.left))
    }
}

/// The bits of some limbs, the lowest first.
#[derive(Debug)]
pub struct BitIteratorLE<S: AsRef<[u64]>> {
    limbs: S,
    next: usize,
}

impl<S: AsRef<[u64]>> BitIteratorLE<S> {
    pub fn new(limbs: S) -> Self {
        BitIteratorLE { limbs, next: 0 }
    }
}

impl<S: AsRef<[u64]>> Iterator for BitIteratorLE<S> {
    type Item = bool;

    fn next(&mut self) -> Option<bool> {
        let i = self.next;
        if i == 64 * self.limbs.as_ref().len() {
            return None;
        }
        self.next += 1;
        Some(bit(self.limbs.as_ref(), i))
    }
}
