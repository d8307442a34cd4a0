//! "Keep the frames of a finished request", by hand. Lengths stand the oldest first; "For call 9
//! the plain machine also carries run lengths and ages."

mod giving_up;
mod keeping;
mod requests;
mod taking;
