//! Things with a number each, the lowest free one first.

pub struct Slab<T> {
    places: Vec<Option<T>>,
    free: std::collections::BTreeSet<usize>,
}

impl<T> Default for Slab<T> {
    fn default() -> Slab<T> {
        Slab { places: Vec::new(), free: Default::default() }
    }
}

impl<T> Slab<T> {
    pub fn add(&mut self, thing: T) -> usize {
        match self.free.pop_first() {
            Some(at) => {
                self.places[at] = Some(thing);
                at
            }
            None => {
                self.places.push(Some(thing));
                self.places.len() - 1
            }
        }
    }

    pub fn next(&self) -> usize {
        self.free.first().copied().unwrap_or(self.places.len())
    }

    pub fn get(&mut self, at: usize) -> Option<&mut T> {
        self.places.get_mut(at)?.as_mut()
    }

    pub fn remove(&mut self, at: usize) -> Option<T> {
        let gone = self.places.get_mut(at)?.take();
        if gone.is_some() {
            self.free.insert(at);
        }
        gone
    }

    pub fn len(&self) -> usize {
        self.places.len() - self.free.len()
    }

    pub fn is_empty(&self) -> bool {
        self.len() == 0
    }

    pub fn iter(&self) -> impl Iterator<Item = &T> {
        self.places.iter().flatten()
    }

    pub fn numbers(&self) -> Vec<usize> {
        (0..self.places.len()).filter(|at| !self.free.contains(at)).collect()
    }
}

#[cfg(test)]
mod tests {
    use super::*;

    #[test]
    fn the_lowest_free_number() {
        let mut slab = Slab::default();
        assert_eq!([slab.add('a'), slab.add('b'), slab.add('c')], [0, 1, 2]);
        assert_eq!(slab.remove(0), Some('a'));
        assert_eq!((slab.remove(0), slab.len(), slab.next()), (None, 2, 0));
        assert_eq!((slab.add('d'), slab.numbers()), (0, vec![0, 1, 2]));
        assert_eq!(slab.get(0), Some(&mut 'd'));
    }
}
