//! The library's tests, all in one program: each is compiled and linked once.

mod archive;
mod c_program;
mod common;
mod lengths;
mod lent;
mod machine;
mod python;
mod rolls;
mod servers;
