// The calls of librissemat.a for Rust: a slice is a pointer and then a length, and an answer has 64 bits, as rissemat.h says.
unsafe extern "C" {
    pub fn rissemat_words(line: *const u8, line_len: usize, out: *mut u8, out_len: usize) -> u64;
    pub fn rissemat_quote(words: *const u8, words_len: usize, out: *mut u8, out_len: usize) -> u64;
    pub fn rissemat_fresh(state: *mut u8, state_len: usize, slots: *mut u8, slots_len: usize) -> u64;
    pub fn rissemat_fresh_with(profile: u8, state: *mut u8, state_len: usize, slots: *mut u8, slots_len: usize) -> u64;
    pub fn rissemat_key(state: *mut u8, state_len: usize, slots: *mut u8, slots_len: usize, prompt: *const u8, prompt_len: usize, key: u8, line: *mut u8, line_len: usize, screen: *mut u8, screen_len: usize) -> u64;
    pub fn rissemat_history_add(state: *mut u8, state_len: usize, slots: *mut u8, slots_len: usize, text: *const u8, text_len: usize) -> u64;
    pub fn rissemat_history_forget(state: *mut u8, state_len: usize, slots: *mut u8, slots_len: usize, k: usize) -> u64;
    pub fn rissemat_tree(image: *const u8, image_len: usize) -> u64;
    pub fn rissemat_parse(image: *const u8, image_len: usize, line: *const u8, line_len: usize, out: *mut u8, out_len: usize) -> u64;
    pub fn rissemat_help(image: *const u8, image_len: usize, line: *const u8, line_len: usize, out: *mut u8, out_len: usize) -> u64;
    pub fn rissemat_run(image: *const u8, image_len: usize, line: *const u8, line_len: usize, out: *mut u8, out_len: usize) -> u64;
}
