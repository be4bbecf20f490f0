//! The loops of the crates bench_core and bench_echo, as the static libraries over them export them.

unsafe extern "C" {
    fn nvxs_receive(stream: *const u8, n: usize, piece: usize, whole: bool, stage: *mut u8, m: usize) -> u64;
    fn nvxs_send(data: *const u8, n: usize, size: usize, output: *mut u8, o: usize) -> usize;
    fn nvxs_echo(
        message: *const u8, n: usize, times: u32, whole: bool,
        stage: *mut u8, m: usize, wire: *mut u8, w: usize, reply: *mut u8, r: usize,
    ) -> u64;
}

pub fn receive(stream: &[u8], piece: usize, whole: bool, stage: &mut [u8]) -> u64 {
    unsafe { nvxs_receive(stream.as_ptr(), stream.len(), piece, whole, stage.as_mut_ptr(), stage.len()) }
}

pub fn send(data: &[u8], size: usize, output: &mut [u8]) -> usize {
    unsafe { nvxs_send(data.as_ptr(), data.len(), size, output.as_mut_ptr(), output.len()) }
}

pub fn echo(message: &[u8], times: u32, whole: bool, stage: &mut [u8], wire: &mut [u8], reply: &mut [u8]) -> u64 {
    unsafe {
        nvxs_echo(
            message.as_ptr(), message.len(), times, whole,
            stage.as_mut_ptr(), stage.len(), wire.as_mut_ptr(), wire.len(), reply.as_mut_ptr(), reply.len(),
        )
    }
}
