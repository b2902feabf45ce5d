//! Debian's cmark as a library: Markdown to HTML.

use std::ffi::{c_char, c_int, c_void};

extern "C" {
    fn cmark_markdown_to_html(text: *const c_char, len: usize, options: c_int) -> *mut c_char;
    fn free(memory: *mut c_void);
}

/// Converts a text and drops the HTML.
pub fn convert(text: &[u8]) {
    // SAFETY: the pointer and the length are a live slice's; what comes back is freed once.
    unsafe {
        let html = cmark_markdown_to_html(text.as_ptr().cast(), text.len(), 0);
        std::hint::black_box(html);
        free(html.cast());
    }
}
