//! Functions of mathematics, a Fourier transform, and all conversions, without std.
#![no_std]

use core::f64::consts::{LN_2, PI};

#[panic_handler]
fn panic(_: &core::panic::PanicInfo) -> ! {
    loop {}
}

static LANCZOS: [f64; 9] = [
    0.99999999999980993,
    676.5203681218851,
    -1259.1392167224028,
    771.32342877765313,
    -176.61502916214059,
    12.507343278686905,
    -0.13857109526572012,
    9.9843695780195716e-6,
    1.5056327351493116e-7,
];

static GAUSS: [(f64, f64); 5] = [
    (0.1488743389816312, 0.2955242247147529),
    (0.4333953941292472, 0.2692667193099963),
    (0.6794095682990244, 0.2190863625159821),
    (0.8650633666889845, 0.1494513491505806),
    (0.9739065285171717, 0.0666713443086881),
];

static ERROR: [f32; 5] = [1.0614054, -1.4531521, 1.4214138, -0.28449672, 0.2548296];

#[no_mangle]
pub static mut SIGNAL: [[f32; 2]; 256] = [[0.0, -0.0]; 256];

fn scaled(value: f64, power: i64) -> f64 {
    let half = power / 2;
    let two_to = |n: i64| f64::from_bits(((n + 1023) as u64) << 52);
    value * two_to(half) * two_to(power - half)
}

#[no_mangle]
pub extern "C" fn exponential(x: f64) -> f64 {
    if x.is_nan() {
        return x;
    }
    if x > 710.0 || x < -746.0 {
        return if x > 0.0 { f64::INFINITY } else { 0.0 };
    }
    let power = (x / LN_2) as i64;
    let rest = x - power as f64 * LN_2;
    let (mut term, mut sum) = (1.0, 1.0);
    for n in 1..24u32 {
        term *= rest / f64::from(n);
        sum += term;
    }
    scaled(sum, power)
}

#[no_mangle]
pub extern "C" fn logarithm(x: f64) -> f64 {
    if x.is_nan() || x < 0.0 {
        return f64::NAN;
    }
    if x == 0.0 || x == f64::INFINITY {
        return if x > 0.0 { x } else { f64::NEG_INFINITY };
    }
    let small = x < f64::MIN_POSITIVE;
    let bits = if small { x * 18014398509481984.0 } else { x }.to_bits();
    let power = (bits >> 52) as i64 - if small { 1077 } else { 1023 };
    let mantissa = f64::from_bits(bits << 12 >> 12 | 1023 << 52);
    let y = (mantissa - 1.0) / (mantissa + 1.0);
    let (mut term, mut sum) = (y, 0.0);
    for n in (1..48u32).step_by(2) {
        sum += term / f64::from(n);
        term *= y * y;
    }
    2.0 * sum + power as f64 * LN_2
}

#[no_mangle]
pub extern "C" fn gamma_function(x: f64) -> f64 {
    let mut sum = LANCZOS[0];
    for (n, coefficient) in LANCZOS.iter().enumerate().skip(1) {
        sum += coefficient / (x + n as f64 - 1.0);
    }
    let t = x + 6.5;
    exponential((x - 0.5) * logarithm(t) - t) * sum * exponential(logarithm(2.0 * PI) / 2.0)
}

#[no_mangle]
pub extern "C" fn error_function(x: f32) -> f32 {
    let t = 1.0 / (1.0 + 0.3275911 * x.max(-x));
    let sum = ERROR.iter().fold(0.0, |sum, coefficient| (sum + coefficient) * t);
    let value = 1.0 - sum * exponential(-f64::from(x * x)) as f32;
    if x.is_sign_negative() {
        -value
    } else {
        value
    }
}

#[no_mangle]
pub extern "C" fn integral(of: extern "C" fn(f64) -> f64, from: f64, to: f64) -> f64 {
    let (middle, half) = ((from + to) / 2.0, (to - from) / 2.0);
    let sum: f64 = GAUSS
        .iter()
        .map(|(node, weight)| weight * (of(middle + half * node) + of(middle - half * node)))
        .sum();
    half * sum
}

fn cosine(x: f64) -> f64 {
    let (mut term, mut sum) = (1.0, 1.0);
    for n in (2..40u32).step_by(2) {
        term *= -x * x / f64::from(n * (n - 1));
        sum += term;
    }
    sum
}

fn transformed(signal: &mut [[f32; 2]]) {
    for i in 0..signal.len() {
        let j = (i as u32).reverse_bits() >> (32 - signal.len().trailing_zeros());
        if i < j as usize {
            signal.swap(i, j as usize);
        }
    }
    let mut size = 2;
    while size <= signal.len() {
        for part in signal.chunks_exact_mut(size) {
            let (left, right) = part.split_at_mut(size / 2);
            for (k, (a, b)) in left.iter_mut().zip(right).enumerate() {
                let angle = 2.0 * PI * k as f64 / size as f64;
                let (c, s) = (cosine(angle) as f32, cosine(angle + PI / 2.0) as f32);
                let turned = [b[0] * c - b[1] * s, b[0] * s + b[1] * c];
                *b = [a[0] - turned[0], a[1] - turned[1]];
                *a = [a[0] + turned[0], a[1] + turned[1]];
            }
        }
        size *= 2;
    }
}

#[no_mangle]
pub extern "C" fn transform(signal: &mut [[f32; 2]; 256], places: u32) -> bool {
    let size = 1 << places.min(9);
    let fits = places > 0 && size <= signal.len();
    if fits {
        transformed(&mut signal[..size]);
    }
    fits
}

macro_rules! conversions {
    ($($name:ident, $back:ident, $float:ty, $whole:ty, $least:literal, $above:literal;)*) => {$(
        #[no_mangle]
        pub extern "C" fn $name(value: $float, otherwise: $whole) -> $whole {
            if value >= $least && value < $above { value as $whole } else { otherwise }
        }

        #[no_mangle]
        pub extern "C" fn $back(value: $whole) -> $float {
            value as $float
        }
    )*};
}

conversions! {
    i32_of_f32, f32_of_i32, f32, i32, -2147483648.0, 2147483648.0;
    u32_of_f32, f32_of_u32, f32, u32, 0.0, 4294967296.0;
    i64_of_f32, f32_of_i64, f32, i64, -9223372036854775808.0, 9223372036854775808.0;
    u64_of_f32, f32_of_u64, f32, u64, 0.0, 18446744073709551616.0;
    i32_of_f64, f64_of_i32, f64, i32, -2147483648.0, 2147483648.0;
    u32_of_f64, f64_of_u32, f64, u32, 0.0, 4294967296.0;
    i64_of_f64, f64_of_i64, f64, i64, -9223372036854775808.0, 9223372036854775808.0;
    u64_of_f64, f64_of_u64, f64, u64, 0.0, 18446744073709551616.0;
}
