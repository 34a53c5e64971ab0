//! A plain Rust server of the same scripts, written apart from the proved one, over BTreeMaps.
//! rustc -O -C target-cpu=x86-64-v2 plain.rs && ./plain CLIENTS_MAX PROFILE < script > replies
//!
//! server.rs has all but its tables; hash.rs is such a server over hash maps.
mod tables {
    use std::collections::BTreeMap;

    pub type Rows<V> = BTreeMap<u128, V>;

    /// The open pending transfers with a timeout, by the time of expiry and their own.
    pub struct Due(BTreeMap<(u64, u64), u128>);

    impl Due {
        pub fn new() -> Due {
            Due(BTreeMap::new())
        }
        pub fn insert(&mut self, key: (u64, u64), id: u128) {
            self.0.insert(key, id);
        }
        pub fn remove(&mut self, key: &(u64, u64)) {
            self.0.remove(key);
        }
        /// Takes the first one out, if it expires until a time.
        pub fn pop_until(&mut self, t: u64) -> Option<((u64, u64), u128)> {
            let first = self.0.first_entry()?;
            if first.key().0 > t {
                None
            } else {
                Some(first.remove_entry())
            }
        }
    }
}

include!("server.rs");
