//! Recorded bytes as samples, and samples as bytes, in plain Rust: a channel of 16-bit, 24-bit, 32-bit or float
//! samples, and 16 bits back.

/// What the bytes of a block are, and which of its channels is meant.
#[derive(Clone, Copy, Debug)]
pub struct Layout {
    /// 16, 24, 32 for floats, or 33 for whole numbers of 32 bits.
    pub format: u32,
    pub channels: u32,
    pub channel: u32,
}

/// The bytes of a sample of one channel.
pub fn width(format: u32) -> Option<usize> {
    match format {
        16 => Some(2),
        24 => Some(3),
        32 | 33 => Some(4),
        _ => None,
    }
}

/// The sample that these bytes are, worked out in f64, where all of it is exact, and rounded once. Full scale is
/// 32,768, and what lies beyond the ends is taken for them; what is not finite stays so.
fn sample(bytes: &[u8], format: u32) -> f32 {
    let number = match *bytes {
        [a, b] => f64::from(i16::from_le_bytes([a, b])),
        [a, b, c] => f64::from(i32::from_le_bytes([0, a, b, c]) >> 8) / 256.0,
        [a, b, c, d] if format == 33 => f64::from(i32::from_le_bytes([a, b, c, d])) / 65_536.0,
        [a, b, c, d] => f64::from(f32::from_le_bytes([a, b, c, d])) * 32_768.0,
        _ => unreachable!("no format has so many bytes"),
    };
    if number.is_finite() {
        number.clamp(-32_768.0, 32_767.0) as f32
    } else {
        number as f32
    }
}

/// The samples of one channel; none where the bytes are not whole samples of so many channels, or there is no such
/// format or channel.
pub fn unpack(bytes: &[u8], Layout { format, channels, channel }: Layout) -> Option<Vec<f32>> {
    let width = width(format)?;
    if channels > 65_535 || channel >= channels {
        return None;
    }
    let rows = bytes.chunks_exact(width * channels as usize);
    let own = width * channel as usize..width * (channel as usize + 1);
    rows.remainder().is_empty().then(|| rows.map(|row| sample(&row[own.clone()], format)).collect())
}

/// The nearest 16-bit numbers, ties away from zero; a NaN is 0.
pub fn pack(samples: &[f32]) -> Vec<u8> {
    samples.iter().flat_map(|x| (f64::from(*x).round().clamp(-32_768.0, 32_767.0) as i16).to_le_bytes()).collect()
}

#[cfg(test)]
mod tests {
    use super::*;

    /// By hand.
    #[test]
    fn known_samples() {
        let stereo = |format| Layout { format, channels: 2, channel: 1 };
        assert_eq!(unpack(&[9, 9, 0xFF, 0x7F, 9, 9, 0, 0x80], stereo(16)), Some(vec![32_767.0, -32_768.0]));
        assert_eq!(unpack(&[9, 9, 9, 0x80, 1, 0, 9, 9, 9, 0xFF, 0xFF, 0x7F], stereo(24)), Some(vec![1.5, 32_767.0]));
        let floats: Vec<u8> = [9.0, -0.5, 9.0, 1.0].iter().flat_map(|x| f32::to_le_bytes(*x)).collect();
        assert_eq!(unpack(&floats, stereo(32)), Some(vec![-16_384.0, 32_767.0]));
        let whole: Vec<u8> = [9, 98_304, 9, i32::MAX, 9, i32::MIN].iter().flat_map(|n| i32::to_le_bytes(*n)).collect();
        assert_eq!(unpack(&whole, stereo(33)), Some(vec![1.5, 32_767.0, -32_768.0]));
        // 2^113 is clipped before it is scaled
        let large = Layout { format: 32, channels: 1, channel: 0 };
        assert_eq!(unpack(&[0, 0, 0, 0x78, 0, 0, 0, 0xF8], large), Some(vec![32_767.0, -32_768.0]));
        assert_eq!(unpack(&[0; 6], stereo(16)), None);
        assert_eq!(pack(&[0.5, -0.5, 1.49, 1e9, -1e9, f32::NAN]), [1, 0, 255, 255, 1, 0, 255, 127, 0, 128, 0, 0]);
    }
}
