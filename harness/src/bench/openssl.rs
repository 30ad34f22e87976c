//! OpenSSL's SHA-256, by the calls that take a message in parts.

#[repr(C)]
struct Context {
    // SHA256_CTX: eight words of state, two of length, sixteen of data, two counts; all of 32 bits.
    words: [u32; 28],
}

#[link(name = "crypto")]
extern "C" {
    fn SHA256_Init(c: *mut Context) -> i32;
    fn SHA256_Update(c: *mut Context, data: *const u8, len: usize) -> i32;
    fn SHA256_Final(md: *mut u8, c: *mut Context) -> i32;
}

pub fn sha256(strings: [&[u8]; 4], out: &mut [u8; 32]) {
    let mut context = Context { words: [0; 28] };
    // SAFETY: the context is OpenSSL's own size, each string is valid for its length, and out for the 32 bytes of a digest.
    unsafe {
        SHA256_Init(&mut context);
        for string in strings {
            SHA256_Update(&mut context, string.as_ptr(), string.len());
        }
        SHA256_Final(out.as_mut_ptr(), &mut context);
    }
}

/// The environment variable by which OpenSSL is told what the processor has not.
pub const CAPABILITIES: &str = "OPENSSL_ia32cap";

/// Other settings than OpenSSL's own choice: a name, and the variable's value. It holds the processor's feature words of leaf 1
/// (EDX, ECX) and, after the colon, of leaf 7. SHA is EBX bit 29 there. OpenSSL chooses its code by that bit, then by AVX2 and BMI2
/// of the same word, then by AVX, XOP and SSSE3, which are bits 28, 11 and 9 of ECX.
pub const SETTINGS: [(&str, &str); 2] =
    [("OpenSSL, SHA instructions off", ":~0x20000000"), ("OpenSSL, SHA and vector instructions off", "~0x10000a0000000000:0")];
