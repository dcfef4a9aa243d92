//! The original's products at run-time sizes: rows, inner, columns, each 1 to 16.

#[allow(unused_macros)]
#[macro_use]
mod tables;

use minikalman::lent::Lent;
use minikalman::matrix::Matrix;

#[derive(Clone, Copy, PartialEq, Eq, Debug)]
pub enum Product {
    Mult,
    MultBuffered,
    MultTransb,
    MultaddTransb,
    MultscaleTransb,
}

type Buffers<'a> = &'a mut [Vec<f32>];

fn product<const R: usize, const K: usize, const C: usize>(op: Product, scale: f32, lent: Buffers) {
    let [a, b, c, rest @ ..] = lent else {
        panic!("three buffers")
    };
    let a = Lent::<R, K>(a);
    let mut c = Lent::<R, C>(c);
    match op {
        Product::Mult => a.mult(&Lent::<K, C>(b), &mut c),
        Product::MultBuffered => a.mult_buffered(&Lent::<K, C>(b), &mut c, &mut rest[0]),
        Product::MultTransb => a.mult_transb(&Lent::<C, K>(b), &mut c),
        Product::MultaddTransb => a.multadd_transb(&Lent::<C, K>(b), &mut c),
        Product::MultscaleTransb => a.multscale_transb(&Lent::<C, K>(b), scale, &mut c),
    }
}

static PRODUCT: [[[fn(Product, f32, Buffers); 16]; 16]; 16] = cube!(product);

/// Buffers: left, right, destination, and for `MultBuffered` the auxiliary.
pub fn run(op: Product, rows: usize, inner: usize, columns: usize, scale: f32, lent: Buffers) {
    PRODUCT[rows - 1][inner - 1][columns - 1](op, scale, lent)
}
