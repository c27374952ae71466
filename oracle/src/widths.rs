//! Stored u16 lists and u32 lists (W-205): "widening, and narrowing where no number exceeds 65,535".

use crate::outcome::{refuse_if, Refusal};

/// How many numbers, or refusal 17.
pub fn widen(numbers: &[u16], list: &mut [u32]) -> Result<usize, Refusal> {
    let wide: Vec<u32> = numbers.iter().map(|&n| u32::from(n)).collect();
    put(&wide, list)
}

/// How many numbers, or refusal 17, then 18 with "the first one's index".
pub fn narrow(numbers: &[u32], list: &mut [u16]) -> Result<usize, Refusal> {
    refuse_if(list.len() < numbers.len(), 17, 0)?;
    let mut narrow = Vec::new();
    for (place, &number) in numbers.iter().enumerate() {
        narrow.push(u16::try_from(number).map_err(|_| Refusal { number: 18, place })?);
    }
    put(&narrow, list)
}

fn put<T: Copy>(numbers: &[T], list: &mut [T]) -> Result<usize, Refusal> {
    refuse_if(list.len() < numbers.len(), 17, 0)?;
    list[..numbers.len()].copy_from_slice(numbers);
    Ok(numbers.len())
}
