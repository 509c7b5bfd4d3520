//! The stack that a call takes: it runs on a stack that was filled with a pattern before.

use crate::foreign::run_on;

const PATTERN: u8 = 0xA5;
const STACK: usize = 1 << 20;
const PAGE: usize = 4096;

/// How many bytes of its stack a thread with this call has used, from the top down to the deepest one written.
fn depth(call: &mut (dyn FnMut() + Send)) -> usize {
    let mut memory = vec![PATTERN; STACK + PAGE];
    let page = memory.as_ptr().align_offset(PAGE);
    let stack = &mut memory[page..page + STACK];
    run_on(stack, call);
    STACK - stack.iter().take_while(|&&byte| byte == PATTERN).count()
}

/// The bytes of stack that a call takes beyond those of a thread that does nothing.
pub fn taken(call: &mut (dyn FnMut() + Send)) -> usize {
    let nothing = depth(&mut || ());
    depth(call).saturating_sub(nothing)
}

#[cfg(test)]
mod tests {
    use super::taken;
    use std::hint::black_box;

    #[test]
    fn an_array_is_seen() {
        let bytes = taken(&mut || {
            black_box([1_u8; 10_000]);
        });
        // a thread that does nothing has a frame of its own, which is not counted
        assert!((9_000..40_000).contains(&bytes), "{bytes}");
    }
}
