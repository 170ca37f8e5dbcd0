// Stands in for zuc256/stream_cipher.rs, of which lib.rs shows the one name
// that it hands on.

use super::Zuc256Keystream;

/// ZUC256 stream cipher
pub type Zuc256StreamCipher = cipher::StreamCipherCoreWrapper<Zuc256Keystream>;
