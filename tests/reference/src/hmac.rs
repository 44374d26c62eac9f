//! HMAC-MD5 as RFC 2104 has it, and the library's entry with its limits.

use crate::md5::{md5, DIGEST_MOST};
use crate::refusal::Refusal;

/// MD5's block, which the key is filled up to.
const BLOCK: usize = 64;

/// The longest key the library takes.
pub const KEY_MOST: usize = 64;

/// The library's entry: keys of 0 to 64 bytes, and an inner digest (64 key bytes and the message)
/// of up to 65,535.
pub fn hmac(key: &[u8], message: &[u8]) -> Result<[u8; 16], Refusal> {
    if key.len() > KEY_MOST || BLOCK + message.len() > DIGEST_MOST {
        return Err(Refusal::TooLong);
    }
    Ok(hmac_md5(key, message))
}

/// HMAC-MD5 with no limit: a key above a block is digested first (RFC 2104, section 2).
pub fn hmac_md5(key: &[u8], message: &[u8]) -> [u8; 16] {
    let mut filled = if key.len() > BLOCK {
        md5(key).to_vec()
    } else {
        key.to_vec()
    };
    filled.resize(BLOCK, 0);
    let inner = md5(&[&padded_key(&filled, 0x36), message].concat());
    md5(&[&padded_key(&filled, 0x5c), &inner[..]].concat())
}

/// Each byte of the filled key by exclusive or with the pad byte: 0x36 (54) inside, 0x5c (92)
/// outside.
fn padded_key(filled: &[u8], pad: u8) -> Vec<u8> {
    filled.iter().map(|byte| byte ^ pad).collect()
}

#[cfg(test)]
mod tests {
    use super::*;
    use crate::examples::{hex, rfc_2202};

    #[test]
    fn rfc_2202_test_cases() {
        for case in rfc_2202() {
            let mac = hmac_md5(&case.key, &case.message);
            assert_eq!(hex(&mac), case.mac, "case {}", case.number);
        }
    }

    #[test]
    fn entry_takes_keys_to_64_bytes() {
        for case in rfc_2202() {
            let answer = hmac(&case.key, &case.message);
            if case.key.len() <= 64 {
                assert_eq!(answer.map(|mac| hex(&mac)), Ok(case.mac.to_string()));
            } else {
                assert_eq!(answer, Err(Refusal::TooLong));
            }
        }
    }

    #[test]
    fn inner_total_counts_the_key_block() {
        assert!(hmac(b"k", &[0; 65_471]).is_ok());
        assert_eq!(hmac(b"k", &[0; 65_472]), Err(Refusal::TooLong));
        assert!(hmac(&[], &[]).is_ok());
    }
}
