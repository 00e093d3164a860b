/// Stand-in: Meshem pushes into it while it meshes and never reads it.
pub(crate) struct RleVec<T>(Vec<(T, usize)>);

impl<T: PartialEq> RleVec<T> {
    pub(crate) fn new() -> Self {
        RleVec(vec![])
    }

    pub(crate) fn push(&mut self, value: T, times: usize) {
        match self.0.last_mut() {
            Some((last, count)) if *last == value => *count += times,
            _ => self.0.push((value, times)),
        }
    }
}
