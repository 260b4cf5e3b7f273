//! K12: how many bytes of frames an erase costs at least, counted on runs and looked for.

pub mod count;
pub mod life;
pub mod picture;
pub mod policy;
pub mod quick;
pub mod run;
pub mod seek;
pub mod start;
