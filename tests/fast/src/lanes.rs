//! Lanes: 64 bytes at a time. Zeros behind the valid lanes stay zeros under the operations 0 to 7.

use crate::walk::Ahead;

pub type Lanes = [u8; 64];

macro_rules! each {
    ($kind:ty, $bytes:literal, $a:ident, $b:ident, $operation:expr) => {{
        let mut out = [0; 64];
        for ((out, a), b) in out.chunks_exact_mut($bytes).zip($a.chunks_exact($bytes)).zip($b.chunks_exact($bytes)) {
            let a = <$kind>::from_le_bytes(a.try_into().unwrap());
            let b = <$kind>::from_le_bytes(b.try_into().unwrap());
            out.copy_from_slice(&$operation(a, b).to_le_bytes());
        }
        out
    }};
}

macro_rules! by_width {
    ($code:expr, $a:ident, $b:ident, $method:ident) => {
        match $code {
            0 => each!(i8, 1, $a, $b, i8::$method),
            1 => each!(i16, 2, $a, $b, i16::$method),
            2 => each!(i32, 4, $a, $b, i32::$method),
            _ => each!(i64, 8, $a, $b, i64::$method),
        }
    };
}

/// What one of the operations 0 to 7 makes of two sources of this width code.
pub fn calculate(operation: u8, code: u8, a: &Lanes, b: &Lanes) -> Lanes {
    use std::ops::{BitAnd, BitOr, BitXor};
    match operation {
        0 => *a,
        1 => by_width!(code, a, b, wrapping_add),
        2 => by_width!(code, a, b, wrapping_sub),
        3 => each!(u64, 8, a, b, u64::bitand),
        4 => each!(u64, 8, a, b, u64::bitor),
        5 => each!(u64, 8, a, b, u64::bitxor),
        6 => by_width!(code, a, b, min),
        _ => by_width!(code, a, b, max),
    }
}

macro_rules! over_all {
    ($kind:ty, $bytes:literal, $operation:ident, $lanes:ident, $n:ident) => {{
        let valid = &$lanes[..$bytes * $n];
        let mut lanes = valid.chunks_exact($bytes).map(|bytes| <$kind>::from_le_bytes(bytes.try_into().unwrap()));
        let answer: $kind = match $operation {
            8 => lanes.fold(0, <$kind>::wrapping_add),
            9 => lanes.fold(<$kind>::MAX, <$kind>::min),
            10 => lanes.fold(<$kind>::MIN, <$kind>::max),
            _ => {
                let most = lanes.clone().fold(<$kind>::MIN, <$kind>::max);
                lanes.position(|lane| lane == most).unwrap_or(0) as $kind
            }
        };
        let mut out = [0; 64];
        out[..$bytes].copy_from_slice(&answer.to_le_bytes());
        out
    }};
}

/// What one of the operations 8 to 11 makes of the first `n` lanes of this width code; there is one at least for 9 to 11.
pub fn fold(operation: u8, code: u8, lanes: &Lanes, n: usize) -> Lanes {
    match code {
        0 => over_all!(i8, 1, operation, lanes, n),
        1 => over_all!(i16, 2, operation, lanes, n),
        2 => over_all!(i32, 4, operation, lanes, n),
        _ => over_all!(i64, 8, operation, lanes, n),
    }
}

/// Copies the lanes of each stretch, all at once where they lie side by side in memory: place there, place in the register, bytes.
macro_rules! each_stretch {
    ($bytes:literal, $ahead:ident, $copy:expr) => {{
        let mut lane = 0;
        for stretch in $ahead.stretches() {
            let start = stretch.start as usize;
            if stretch.step == $bytes {
                $copy(start, lane, $bytes * stretch.count);
                lane += $bytes * stretch.count;
            } else {
                let mut at = stretch.start;
                for _ in 0..stretch.count {
                    $copy(at as usize, lane, $bytes);
                    at += stretch.step;
                    lane += $bytes;
                }
            }
        }
    }};
}

/// The lanes at the elements looked at, which lie inside memory.
pub fn gather(memory: &[u8], code: u8, ahead: &Ahead) -> Lanes {
    let mut lanes = [0; 64];
    let mut copy = |at: usize, lane: usize, bytes: usize| lanes[lane..lane + bytes].copy_from_slice(&memory[at..at + bytes]);
    match code {
        0 => each_stretch!(1, ahead, copy),
        1 => each_stretch!(2, ahead, copy),
        2 => each_stretch!(4, ahead, copy),
        _ => each_stretch!(8, ahead, copy),
    }
    lanes
}

/// Writes lanes at the elements looked at, in lane order.
pub fn scatter(memory: &mut [u8], code: u8, ahead: &Ahead, lanes: &Lanes) {
    let mut copy = |at: usize, lane: usize, bytes: usize| memory[at..at + bytes].copy_from_slice(&lanes[lane..lane + bytes]);
    match code {
        0 => each_stretch!(1, ahead, copy),
        1 => each_stretch!(2, ahead, copy),
        2 => each_stretch!(4, ahead, copy),
        _ => each_stretch!(8, ahead, copy),
    }
}
