//! The product of two square matrices by three loops: `product < TWO_MATRICES`, rows as lines, an empty line between the two.
//!
//! Each product and each sum is checked to lie within 64 bits. Words of the command line count for nothing.

use std::io::{self, Read, Write};

type Matrix = Vec<Vec<i64>>;

fn product(left: &Matrix, right: &Matrix) -> Option<Matrix> {
    let mut made = vec![vec![0i64; right.len()]; left.len()];
    for (row, sums) in left.iter().zip(&mut made) {
        for (factor, others) in row.iter().zip(right) {
            for (sum, other) in sums.iter_mut().zip(others) {
                *sum = sum.checked_add(factor.checked_mul(*other)?)?;
            }
        }
    }
    Some(made)
}

fn matrix_of(text: &str) -> Result<Matrix, std::num::ParseIntError> {
    text.lines().map(|row| row.split(' ').map(str::parse).collect()).collect()
}

fn main() -> Result<(), Box<dyn std::error::Error>> {
    let mut text = String::new();
    io::stdin().read_to_string(&mut text)?;
    let (left, right) = text.split_once("\n\n").ok_or("there are no two matrices")?;
    let made = product(&matrix_of(left)?, &matrix_of(right)?).ok_or("a number leaves 64 bits")?;
    let mut out = Vec::with_capacity(text.len());
    for row in made {
        for (column, number) in row.iter().enumerate() {
            write!(out, "{}{number}", if column > 0 { " " } else { "" })?;
        }
        writeln!(out)?;
    }
    io::stdout().write_all(&out)?;
    Ok(())
}
