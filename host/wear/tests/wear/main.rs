//! K12 on the proved library: its inequalities after each call of many runs, and stores that break them.

mod courses;
mod outside;
mod random;
mod search;
mod wrong;
