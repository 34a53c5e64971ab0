//! The server of plain.rs over hash maps: an index from ids to places in a Vec of rows, and a heap of expiries.
//! rustc -O -C target-cpu=x86-64-v2 hash.rs && ./hash CLIENTS_MAX PROFILE < script > replies
//!
//! It keeps no order of ids, so it is what a server costs that never has to answer in their order.
mod tables {
    use std::cmp::Reverse;
    use std::collections::{BinaryHeap, HashMap};
    use std::hash::{BuildHasherDefault, Hasher};

    /// Multiplies, and takes the high bits: ids come from the ledger's own clients, so nobody chooses colliding ones.
    #[derive(Default)]
    pub struct Multiplying(u64);

    impl Hasher for Multiplying {
        fn finish(&self) -> u64 {
            self.0
        }
        fn write(&mut self, _: &[u8]) {
            unreachable!()
        }
        fn write_u128(&mut self, id: u128) {
            let product =
                (id as u64 ^ (id >> 64) as u64) as u128 * 0x9E37_79B9_7F4A_7C15_F39C_C060_5CED_C835;
            self.0 = (product >> 64) as u64;
        }
    }

    /// Rows in the order in which they came, and where each one is.
    pub struct Rows<V> {
        places: HashMap<u128, u32, BuildHasherDefault<Multiplying>>,
        rows: Vec<V>,
    }

    impl<V> Rows<V> {
        pub fn new() -> Rows<V> {
            Rows {
                places: HashMap::default(),
                rows: Vec::new(),
            }
        }
        pub fn get(&self, id: &u128) -> Option<&V> {
            self.places.get(id).map(|at| &self.rows[*at as usize])
        }
        /// Adds a row, or puts another one in its place.
        pub fn insert(&mut self, id: u128, row: V) {
            let next = self.rows.len() as u32;
            let at = *self.places.entry(id).or_insert(next);
            if at == next {
                self.rows.push(row)
            } else {
                self.rows[at as usize] = row
            }
        }
        /// Removes the row that was added last, as an undo log does.
        pub fn remove(&mut self, id: &u128) {
            let at = self.places.remove(id).unwrap();
            assert!(at as usize + 1 == self.rows.len());
            self.rows.pop();
        }
    }

    /// The pending transfers with a timeout, by the time of expiry and their own. An entry whose transfer was posted or
    /// voided stays until its time, and counts for nothing then.
    pub struct Due(BinaryHeap<Reverse<((u64, u64), u128)>>);

    impl Due {
        pub fn new() -> Due {
            Due(BinaryHeap::new())
        }
        pub fn insert(&mut self, key: (u64, u64), id: u128) {
            self.0.push(Reverse((key, id)))
        }
        pub fn remove(&mut self, _: &(u64, u64)) {}
        /// Takes the first one out, if it expires until a time.
        pub fn pop_until(&mut self, t: u64) -> Option<((u64, u64), u128)> {
            if self.0.peek()?.0 .0 .0 > t {
                None
            } else {
                self.0.pop().map(|first| first.0)
            }
        }
    }
}

include!("server.rs");
