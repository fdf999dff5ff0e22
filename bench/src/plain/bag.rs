//! Pennants and bags of 000, over node lists that all bags of a run share. Slot k of a backbone says
//! that its pennant has 2^k nodes, so no null ends a tree in the lists.

use super::NodeLists;

/// The nodes of all bags, and the free ones, chained by their left places.
pub struct Pool<'a> {
    nodes: NodeLists<'a>,
    free: u16,
}

impl<'a> Pool<'a> {
    /// A pool of all nodes but 0, all free. The three lists are equally long.
    pub fn new(nodes: NodeLists<'a>) -> Self {
        let last = nodes.left.len() - 1;
        for (node, next) in nodes.left.iter_mut().enumerate() {
            *next = node as u16 + 1;
        }
        nodes.left[last] = 0;
        let free = if last == 0 { 0 } else { 1 };
        Pool { nodes, free }
    }

    /// Leaves the lists 0.
    pub fn clear(self) {
        self.nodes.left.fill(0);
        self.nodes.right.fill(0);
        self.nodes.values.fill(0);
    }

    /// A pennant of one node that holds `number`.
    fn single(&mut self, number: u16) -> u16 {
        let node = self.free;
        self.free = self.nodes.left[usize::from(node)];
        self.nodes.values[usize::from(node)] = number;
        node
    }

    /// Frees a node and returns the number that it held.
    fn release(&mut self, node: u16) -> u16 {
        self.nodes.left[usize::from(node)] = self.free;
        self.free = node;
        self.nodes.values[usize::from(node)]
    }

    /// PENNANT-UNION: x stays the root.
    fn union(&mut self, x: u16, y: u16) -> u16 {
        let below = &mut self.nodes.left[usize::from(x)];
        self.nodes.right[usize::from(y)] = *below;
        *below = y;
        x
    }

    /// PENNANT-SPLIT: x keeps the root, the other half is returned.
    fn split(&mut self, x: u16) -> u16 {
        let below = &mut self.nodes.left[usize::from(x)];
        let y = *below;
        *below = self.nodes.right[usize::from(y)];
        y
    }

    /// FA: what stays in the slot, and the carry.
    fn add(&mut self, x: u16, y: u16, z: u16) -> (u16, u16) {
        match (x != 0, y != 0, z != 0) {
            (false, false, false) => (0, 0),
            (true, false, false) => (x, 0),
            (false, true, false) => (y, 0),
            (false, false, true) => (z, 0),
            (true, true, false) => (0, self.union(x, y)),
            (true, false, true) => (0, self.union(x, z)),
            (false, true, true) => (0, self.union(y, z)),
            (true, true, true) => (x, self.union(y, z)),
        }
    }
}

/// A backbone: slot k is 0 or the root of a pennant of 2^k nodes.
#[derive(Clone, Copy, Default)]
pub struct Bag {
    slots: [u16; 16],
}

impl Bag {
    pub fn is_empty(&self) -> bool {
        self.slots == [0; 16]
    }

    pub fn at_least_two(&self) -> bool {
        self.slots[1..] != [0; 15]
    }

    pub fn insert(&mut self, number: u16, pool: &mut Pool) {
        let single = pool.single(number);
        self.place(single, pool);
    }

    /// BAG-INSERT of a pennant of one node.
    fn place(&mut self, mut pennant: u16, pool: &mut Pool) {
        for slot in &mut self.slots {
            if *slot == 0 {
                *slot = pennant;
                return;
            }
            pennant = pool.union(*slot, pennant);
            *slot = 0;
        }
    }

    /// BAG-UNION: all of `other` comes into this bag.
    pub fn union(&mut self, other: Bag, pool: &mut Pool) {
        let mut carry = 0;
        for (slot, theirs) in self.slots.iter_mut().zip(other.slots) {
            (*slot, carry) = pool.add(*slot, theirs, carry);
        }
    }

    /// BAG-SPLIT: half of the elements, rounded down, leave this bag.
    pub fn split(&mut self, pool: &mut Pool) -> Bag {
        let mut second = Bag::default();
        let single = self.slots[0];
        self.slots[0] = 0;
        for k in 1..self.slots.len() {
            let pennant = self.slots[k];
            if pennant != 0 {
                second.slots[k - 1] = pool.split(pennant);
                self.slots[k - 1] = pennant;
                self.slots[k] = 0;
            }
        }
        if single != 0 {
            self.place(single, pool);
        }
        second
    }

    /// The number at the root of the lowest pennant; its halves fill the slots below.
    pub fn take(&mut self, pool: &mut Pool) -> Option<u16> {
        let k = self.slots.iter().position(|&slot| slot != 0)?;
        let root = self.slots[k];
        self.slots[k] = 0;
        for slot in self.slots[..k].iter_mut().rev() {
            *slot = pool.split(root);
        }
        Some(pool.release(root))
    }
}

#[cfg(test)]
mod tests {
    use super::*;

    fn drain(mut bag: Bag, pool: &mut Pool) -> Vec<u16> {
        let mut taken: Vec<u16> = std::iter::from_fn(|| bag.take(pool)).collect();
        taken.sort_unstable();
        taken
    }

    /// Case J: a split of 23 elements leaves 12 and gives 11, and loses none.
    #[test]
    fn split_of_23() {
        let (mut left, mut right, mut values) = ([9; 24], [9; 24], [9; 24]);
        let mut pool = Pool::new(NodeLists {
            left: &mut left,
            right: &mut right,
            values: &mut values,
        });
        let mut first = Bag::default();
        (100..123).for_each(|element| first.insert(element, &mut pool));
        let second = first.split(&mut pool);
        let (mut all, half) = (drain(first, &mut pool), drain(second, &mut pool));
        assert_eq!((all.len(), half.len()), (12, 11));
        all.extend(half);
        all.sort_unstable();
        assert!(all.into_iter().eq(100..123));
        pool.clear();
        assert_eq!((left, right, values), ([0; 24], [0; 24], [0; 24]));
    }
}
