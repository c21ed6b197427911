//! Plans written back by the library and by the reference: document 02, E4.

mod buffers;
mod lengths;
mod stores;
mod texts;
mod trial;
