//! The player, talked with, all in one program: each is compiled and linked once.

mod image;
mod line_by_line;
mod play;
