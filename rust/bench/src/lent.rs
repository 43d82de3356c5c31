//! What a call is lent to write in, and how it is cleared before the time is taken.

pub trait Lent: Clone {
    fn clear(&mut self);
}

/// A call that only reads.
impl Lent for () {
    fn clear(&mut self) {}
}

impl<T: Copy + Default> Lent for Vec<T> {
    fn clear(&mut self) {
        self.fill(T::default());
    }
}

impl<A: Lent, B: Lent> Lent for (A, B) {
    fn clear(&mut self) {
        self.0.clear();
        self.1.clear();
    }
}

/// The needed working bytes of an image of HFS.
pub fn work_for(image: &[u8]) -> Vec<u8> {
    vec![0; hfs_btree::needed_work(image.len())]
}
