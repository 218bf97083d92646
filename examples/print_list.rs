//! What the Rust examples share: a list printed.

use crate::biss::{self, ENTRY_BYTES, LIST_HEADER_BYTES, LIST_LINE_BYTES};

pub fn print_list(list: &[u8]) {
    let mut text = vec![0; LIST_HEADER_BYTES + LIST_LINE_BYTES * (list.len() / ENTRY_BYTES)];
    let bytes = biss::list_to_text(list, &mut text).expect("a list that was read can be printed");
    print!("{}", String::from_utf8_lossy(&text[..bytes]));
}
