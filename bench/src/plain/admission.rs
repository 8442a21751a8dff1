//! Plans in bytes refused by number, or brought into standard columns.

/// Sixteen columns, those past the factors 0.
pub type Columns = [u8; 16];

/// The number that refuses the sizes, if one does.
pub fn size_fault(n: usize, g: usize) -> Option<u32> {
    if !(1..=16).contains(&n) {
        return Some(1);
    }
    (n <= g || 7 < n - g).then_some(2)
}

/// The switch mask of a plan in bytes.
pub fn mask(n: usize, plan: &[u8]) -> u16 {
    u16::from_le_bytes([plan[n], plan[n + 1]])
}

/// The standard columns of a plan in bytes, or the number that refuses it.
pub fn admit(n: usize, g: usize, plan: &[u8]) -> Result<Columns, u32> {
    if let Some(number) = size_fault(n, g) {
        return Err(number);
    }
    if plan.len() != n + 2 {
        return Err(4);
    }
    let m = n - g;
    if plan[..n].iter().any(|&column| usize::from(column) >= 1 << m) {
        return Err(5);
    }
    let (columns, spanned) = standardize(&plan[..n]);
    if mask(n, plan) & !spanned != 0 {
        return Err(5);
    }
    if spanned.count_ones() as usize != g {
        return Err(6);
    }
    if !distinct(&columns[..n]) {
        return Err(7);
    }
    Ok(columns)
}

/// The standard columns, the place of each column among the sums of the basic ones, and the factors that are not basic.
fn standardize(list: &[u8]) -> (Columns, u16) {
    let mut columns = [0; 16];
    let mut spanned = 0;
    let mut sums = [0u8; 128];
    let mut places = [0u8; 128];
    places[0] = 1;
    let mut half = 1;
    for (f, (column, &given)) in columns.iter_mut().zip(list).enumerate() {
        let place = places[usize::from(given)];
        if place != 0 {
            *column = place - 1;
            spanned |= 1 << f;
            continue;
        }
        *column = half as u8;
        for k in 0..half {
            let sum = sums[k] ^ given;
            sums[half + k] = sum;
            places[usize::from(sum)] = (half + k + 1) as u8;
        }
        half += half;
    }
    (columns, spanned)
}

/// Whether no column is 0 and none stands twice.
pub fn distinct(columns: &[u8]) -> bool {
    let mut seen = [false; 128];
    seen[0] = true;
    columns.iter().all(|&column| !std::mem::replace(&mut seen[usize::from(column)], true))
}
