//! Stand-in for `sprs`: the type that `topology.rs` names in a signature.

pub struct CsMat<N>(pub Vec<N>);
