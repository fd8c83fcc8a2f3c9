//! The fields of 2, 3, 4, 5, 7, 8 and 9 elements, worked out from what their elements stand for, and
//! which sum goes with a matrix.

/// a + b in the field of s elements.
pub fn sum(s: usize, a: usize, b: usize) -> usize {
    match s {
        // Digits in base 2 or 3 are added, each for itself.
        4 | 8 => a ^ b,
        9 => (a % 3 + b % 3) % 3 + 3 * ((a / 3 + b / 3) % 3),
        _ => (a + b) % s,
    }
}

/// The sum that goes with a matrix of p and with the columns of p levels that it serves; 02, K2. It
/// is the field's for 4, 8 and 9 and modulo p for every other p, for 16, 25 or 27 too.
pub fn matrix_sum(p: usize, a: usize, b: usize) -> usize {
    match p {
        4 | 8 | 9 => sum(p, a, b),
        _ => (a + b) % p,
    }
}

/// a × b in the field of s elements.
pub fn product(s: usize, a: usize, b: usize) -> usize {
    match s {
        4 => {
            let (a0, a1) = (a % 2, a / 2);
            let (b0, b1) = (b % 2, b / 2);
            // (a0 + a1 w)(b0 + b1 w) with w² = 1 + w.
            let ww = a1 * b1;
            let one = a0 * b0 + ww;
            let w = a0 * b1 + a1 * b0 + ww;
            one % 2 + 2 * (w % 2)
        }
        8 => {
            let (a0, a1, a2) = (a % 2, a / 2 % 2, a / 4);
            let (b0, b1, b2) = (b % 2, b / 2 % 2, b / 4);
            // (a0 + a1 w + a2 w²)(b0 + b1 w + b2 w²) with w³ = 1 + w, so w⁴ = w + w².
            let www = a1 * b2 + a2 * b1;
            let wwww = a2 * b2;
            let one = a0 * b0 + www;
            let w = a0 * b1 + a1 * b0 + www + wwww;
            let ww = a0 * b2 + a1 * b1 + a2 * b0 + wwww;
            one % 2 + 2 * (w % 2) + 4 * (ww % 2)
        }
        9 => {
            let (a0, a1) = (a % 3, a / 3);
            let (b0, b1) = (b % 3, b / 3);
            // (a0 + a1 w)(b0 + b1 w) with w² = 2.
            let one = a0 * b0 + 2 * a1 * b1;
            let w = a0 * b1 + a1 * b0;
            one % 3 + 3 * (w % 3)
        }
        _ => a * b % s,
    }
}

/// Coefficients times vectors, added up: what a list of coefficients combines the vectors to.
pub fn combine(s: usize, coefficients: &[usize], vectors: &[Vec<usize>]) -> Vec<usize> {
    let mut total = vec![0; vectors[0].len()];
    for (&coefficient, vector) in coefficients.iter().zip(vectors) {
        for (place, &value) in vector.iter().enumerate() {
            total[place] = sum(s, total[place], product(s, coefficient, value));
        }
    }
    total
}

/// The digits of a number in base s, first highest.
pub fn digits(mut number: usize, s: usize, count: usize) -> Vec<usize> {
    let mut found = vec![0; count];
    for place in (0..count).rev() {
        found[place] = number % s;
        number /= s;
    }
    found
}

/// The number that digits in base s make, first highest.
pub fn number(digits: &[usize], s: usize) -> usize {
    let mut value = 0;
    for &digit in digits {
        value = value * s + digit;
    }
    value
}
