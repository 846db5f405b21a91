//! The open pairs, smallest key first and among equal keys last opened first: a binary swap heap
//! with positions, and before it a stack of the pairs opened at the key just taken.

/// The queue, over slices with one entry for each pair. Keys stand outside, by pair.
pub struct Queue<'a> {
    heap: &'a mut [u32],
    /// By pair in the heap: where it stands there.
    pos: &'a mut [u32],
    stack: &'a mut [u32],
    /// Entries of the heap.
    len: usize,
    /// Entries of the stack.
    top: usize,
}

impl<'a> Queue<'a> {
    pub fn new(heap: &'a mut [u32], pos: &'a mut [u32], stack: &'a mut [u32]) -> Queue<'a> {
        Queue { heap, pos, stack, len: 0, top: 0 }
    }

    /// Opens a pair; its key is at its place in `keys`. The floor is the key of the pair just
    /// taken: no open pair has a smaller one.
    pub fn push(&mut self, keys: &[u32], floor: u32, pair: usize) {
        if keys[pair] == floor {
            self.stack[self.top] = pair as u32;
            self.top += 1;
            return;
        }
        self.heap[self.len] = pair as u32;
        self.pos[pair] = self.len as u32;
        self.len += 1;
        self.up(keys, self.len - 1);
    }

    /// Moves an open pair up whose key has just become smaller. It was above the floor, so the
    /// pair is in the heap.
    pub fn lower(&mut self, keys: &[u32], pair: usize) {
        self.up(keys, self.pos[pair] as usize);
    }

    /// Takes a pair with the smallest key.
    pub fn pop(&mut self, keys: &[u32]) -> Option<usize> {
        if self.top > 0 {
            self.top -= 1;
            return Some(self.stack[self.top] as usize);
        }
        if self.len == 0 {
            return None;
        }
        let pair = self.heap[0] as usize;
        self.len -= 1;
        self.swap(0, self.len);
        self.down(keys);
        Some(pair)
    }

    fn key(&self, keys: &[u32], at: usize) -> u32 {
        keys[self.heap[at] as usize]
    }

    fn swap(&mut self, a: usize, b: usize) {
        self.heap.swap(a, b);
        self.pos[self.heap[a] as usize] = a as u32;
        self.pos[self.heap[b] as usize] = b as u32;
    }

    /// Over equal keys too, so that the newer pair comes first.
    fn up(&mut self, keys: &[u32], from: usize) {
        let mut at = from;
        while at > 0 {
            let parent = (at - 1) / 2;
            if self.key(keys, parent) < self.key(keys, at) {
                return;
            }
            self.swap(at, parent);
            at = parent;
        }
    }

    fn down(&mut self, keys: &[u32]) {
        let mut at = 0;
        loop {
            let mut child = 2 * at + 1;
            if child >= self.len {
                return;
            }
            if child + 1 < self.len && self.key(keys, child + 1) < self.key(keys, child) {
                child += 1;
            }
            if self.key(keys, at) <= self.key(keys, child) {
                return;
            }
            self.swap(at, child);
            at = child;
        }
    }
}
