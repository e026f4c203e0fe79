//! Conversions, wide multiplication, slices and pattern matching.
#[derive(Clone, Copy)]
enum Value {
    Whole(i64),
    Broken(f64),
    Small(u8),
}

fn as_int(value: Value) -> i64 {
    match value {
        Value::Whole(n) => n,
        Value::Broken(x) => x as i64,
        Value::Small(n) => i64::from(n as i8),
    }
}

#[no_mangle]
pub extern "C" fn total(seed: u64, count: u32) -> i64 {
    let mut state = u128::from(seed) | 1;
    let mut values = Vec::new();
    for i in 0..count {
        state = state.wrapping_mul(0xDA94_2042_E4DD_58B5);
        let high = (state >> 64) as u64;
        values.push(match i % 3 {
            0 => Value::Whole(high as i64),
            1 => Value::Broken(f64::from_bits(high)),
            _ => Value::Small(high as u8),
        });
    }
    values.rotate_left(count as usize / 2);
    values.iter().copied().map(as_int).fold(0, i64::wrapping_add)
}

#[no_mangle]
pub extern "C" fn narrowed(x: f64) -> u32 {
    (x as f32).sqrt().floor() as u32 ^ x.to_bits().leading_zeros()
}
