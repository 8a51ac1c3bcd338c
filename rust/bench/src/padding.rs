//! Bytes that nothing runs, from the start of a cache line and before the programs in memory: none, or with the feature `padded` three
//! quarters of the line. A ratio that changes with them is one of places, not of programs.

/// How many bytes.
pub const BYTES: usize = if cfg!(feature = "padded") { 48 } else { 0 };

std::arch::global_asm!(
    ".pushsection .text.bench_padding, \"ax\", @progbits",
    ".p2align 6",
    ".globl bench_padding",
    "bench_padding:",
    ".skip {bytes}, 0xCC",
    ".popsection",
    bytes = const BYTES,
);

extern "C" {
    static bench_padding: [u8; BYTES];
}

/// Where the bytes stand. The linker leaves out what nothing names.
pub fn place() -> *const u8 {
    (&raw const bench_padding).cast()
}
