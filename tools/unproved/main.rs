// The program's start: the streams stay as they are, and a pipe that nobody reads is an error and no signal.

extern "C" {
    fn signal(number: i32, action: usize) -> usize;
}

const SIGPIPE: i32 = 13;
const IGNORED: usize = 1;

#[no_mangle]
pub extern "C" fn main(_: i32, _: *const *const u8) -> i32 {
    unsafe { signal(SIGPIPE, IGNORED) };
    i32::from(PROGRAM::main(host::HostRuntime).0)
}
