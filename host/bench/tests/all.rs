//! The tests of what is measured, all in one program: each is compiled and linked once.

mod archive;
mod compare;
mod kept;
mod measures;
mod put_back;
mod runs;
mod unproved;
