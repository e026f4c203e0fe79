//! Statistics of the numbers in a text, with maps, sorting and formatted floats of std.
use std::collections::BTreeMap;
use std::num::ParseFloatError;

fn quantile(sorted: &[f64], part: f64) -> f64 {
    let place = part * (sorted.len() - 1) as f64;
    let (low, high) = (sorted[place.floor() as usize], sorted[place.ceil() as usize]);
    low + (high - low) * place.fract()
}

fn summary(text: &str) -> Result<String, ParseFloatError> {
    let mut values = text
        .split_whitespace()
        .map(str::parse)
        .collect::<Result<Vec<f64>, _>>()?;
    if values.is_empty() {
        return Ok(String::new());
    }
    values.sort_by(f64::total_cmp);
    let count = values.len() as f64;
    let mean = values.iter().sum::<f64>() / count;
    let deviation = (values.iter().map(|x| (x - mean).powi(2)).sum::<f64>() / count).sqrt();
    let geometric = (values.iter().map(|x| x.abs().ln()).sum::<f64>() / count).exp();
    let wave: f32 = values
        .iter()
        .map(|x| (*x as f32).sin() * x.powf(0.25).round() as f32)
        .sum();
    let mut decades = BTreeMap::<i16, u32>::new();
    for x in &values {
        *decades.entry(x.abs().log10().trunc() as i16).or_default() += 1;
    }
    let middle = quantile(&values, 0.5).copysign(mean);
    Ok(format!(
        "{mean:.3} {deviation:e} {geometric} {wave:?} {middle:>12.6} {decades:?}"
    ))
}

#[no_mangle]
pub extern "C" fn summarize(text: &mut [u8; 4096], length: usize) -> usize {
    let given = text.get(..length).and_then(|bytes| std::str::from_utf8(bytes).ok());
    let line = match given.map(summary) {
        Some(Ok(line)) => line,
        Some(Err(fault)) => fault.to_string(),
        None => return 0,
    };
    let end = line.len().min(text.len());
    text[..end].copy_from_slice(&line.as_bytes()[..end]);
    end
}
