//! Stands in for `cspuz_rs::graph`.

pub struct InnerGridEdges<T> {
    pub horizontal: T,
    pub vertical: T,
}

impl<T> InnerGridEdges<T> {
    pub fn base_shape(&self) -> (usize, usize) {
        unimplemented!()
    }
}
