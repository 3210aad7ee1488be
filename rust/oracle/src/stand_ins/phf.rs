//! `phf`: a constant map, looked up in order.

pub struct Map<K: 'static, V: 'static>(pub &'static [(K, V)]);

impl<K: PartialEq, V> Map<K, V> {
    pub fn get(&self, key: &K) -> Option<&V> {
        self.0.iter().find(|(k, _)| k == key).map(|(_, v)| v)
    }
}

macro_rules! phf_map {
    ($($key:expr => $value:expr),* $(,)?) => {
        phf::Map(&[$(($key, $value)),*])
    };
}
pub(crate) use phf_map;
