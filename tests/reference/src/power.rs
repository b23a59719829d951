// Exact thousandth powers of whole numbers, for the rule of the table Z.
// A number is its digits to the base 2^64, the lowest first, without leading zeros.

use std::cmp::Ordering;

type Digits = Vec<u64>;

fn times(a: &[u64], b: &[u64]) -> Digits {
    let mut product = vec![0u64; a.len() + b.len()];
    for (i, &x) in a.iter().enumerate() {
        let mut carry = 0u128;
        for (j, &y) in b.iter().enumerate() {
            let sum = u128::from(x) * u128::from(y) + u128::from(product[i + j]) + carry;
            product[i + j] = sum as u64;
            carry = sum >> 64;
        }
        product[i + b.len()] = carry as u64;
    }
    while product.last() == Some(&0) {
        product.pop();
    }
    product
}

fn to_the(base: u64, mut exponent: usize) -> Digits {
    let mut result = vec![1];
    let mut square = vec![base];
    while exponent > 0 {
        if exponent % 2 == 1 {
            result = times(&result, &square);
        }
        square = times(&square, &square);
        exponent /= 2;
    }
    result
}

fn order(a: &[u64], b: &[u64]) -> Ordering {
    let lengths = a.len().cmp(&b.len());
    lengths.then_with(|| a.iter().rev().cmp(b.iter().rev()))
}

/// Whether `z` is nearest to a million times ten to the power `k` / 1000:
/// twice that number lies between the odd numbers beside 2z.
pub fn nearest(z: i64, k: usize) -> bool {
    let doubled = times(&to_the(2, 1000), &to_the(10, 6000 + k));
    let below = to_the((2 * z - 1) as u64, 1000);
    let above = to_the((2 * z + 1) as u64, 1000);
    order(&below, &doubled).is_lt() && order(&above, &doubled).is_gt()
}

#[test]
fn small_powers_are_right() {
    assert_eq!(to_the(10, 6), [1_000_000]);
    assert_eq!(to_the(2, 64), [0, 1]);
    assert_eq!(to_the(u64::MAX, 2), [1, u64::MAX - 1]);
    assert!(order(&[9, 1], &[0, 2]).is_lt());
    assert!(order(&[9, 1], &[9]).is_gt());
}
