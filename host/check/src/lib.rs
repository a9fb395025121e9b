//! What the comparison and the benchmark share: books made at random, whole and damaged, routes and questions about them, lent
//! lists that are looked at afterwards, and the pair lister.

pub mod books;
pub mod calls;
pub mod damage;
pub mod inputs;
pub mod journeys;
pub mod lent;
pub mod lister;
pub mod random;
pub mod run;
