//! The original's other functions at run-time sizes: rows and columns, n alone, or n and m, each 1 to 16.

#[allow(unused_macros)]
#[macro_use]
mod tables;

use minikalman::kalman::regular::RegularKalmanBuilder;
use minikalman::lent::Lent;
use minikalman::matrix::{Matrix, MatrixMut, SquareMatrix, SquareMatrixMut};
use minikalman::observations::regular::RegularObservationBuilder;

type Buffers<'a> = &'a mut [Vec<f32>];

#[derive(Clone, Copy, PartialEq, Eq, Debug)]
pub enum Grid {
    Get,
    Set,
    RowCopy,
    ColumnCopy,
    CopyTo,
    SetAll,
    Clear,
    SetZero,
    MultRowvector,
    MultaddRowvector,
    Sub,
    SubInplaceA,
    SubInplaceB,
    AddInplaceA,
    AddInplaceB,
}

fn grid<const R: usize, const C: usize>(op: Grid, at: [usize; 2], v: f32, lent: Buffers) -> f32 {
    let [a, rest @ ..] = lent else {
        panic!("a buffer")
    };
    let mut a = Lent::<R, C>(a);
    match op {
        Grid::Get => return a.get(at[0], at[1]),
        Grid::Set => a.set(at[0], at[1], v),
        Grid::RowCopy => a.get_row_copy(at[0], &mut rest[0]),
        Grid::ColumnCopy => a.get_column_copy(at[1], &mut rest[0]),
        Grid::CopyTo => a.copy_to(&mut Lent::<R, C>(&mut rest[0])),
        Grid::SetAll => a.set_all(v),
        Grid::Clear => a.clear(),
        Grid::SetZero => a.set_zero(),
        Grid::MultRowvector | Grid::MultaddRowvector => {
            let [x, c] = rest else {
                panic!("three buffers")
            };
            let (x, mut c) = (Lent::<C, 1>(x), Lent::<R, 1>(c));
            match op {
                Grid::MultRowvector => a.mult_rowvector(&x, &mut c),
                _ => a.multadd_rowvector(&x, &mut c),
            }
        }
        Grid::Sub => {
            let [b, c] = rest else {
                panic!("three buffers")
            };
            a.sub(&Lent::<R, C>(b), &mut Lent::<R, C>(c))
        }
        Grid::SubInplaceA => a.sub_inplace_a(&Lent::<R, C>(&mut rest[0])),
        Grid::SubInplaceB => a.sub_inplace_b(&mut Lent::<R, C>(&mut rest[0])),
        Grid::AddInplaceA => a.add_inplace_a(&Lent::<R, C>(&mut rest[0])),
        Grid::AddInplaceB => a.add_inplace_b(&mut Lent::<R, C>(&mut rest[0])),
    }
    0.0
}

static GRID: [[fn(Grid, [usize; 2], f32, Buffers) -> f32; 16]; 16] = plane!(grid);

/// The value is that of `Get`, and +0 for the others.
pub fn run_grid(op: Grid, rows: usize, cols: usize, at: [usize; 2], v: f32, lent: Buffers) -> f32 {
    GRID[rows - 1][cols - 1](op, at, v, lent)
}

#[derive(Clone, Copy, PartialEq, Eq, Debug)]
pub enum Square {
    SetSymmetric,
    SetDiagonalToScalar,
    MakeScalar,
    MakeIdentity,
    MakeComatrix,
    CholeskyDecomposeLower,
    InvertLCholesky,
    Predict,
}

fn square<const N: usize>(op: Square, at: [usize; 2], v: [f32; 2], lent: Buffers) -> bool {
    if op == Square::Predict {
        let [x, a, p, q, predicted_x, temp_p] = lent else {
            panic!("six buffers")
        };
        RegularKalmanBuilder::new::<N, f32>(
            Lent::<N, N>(a),
            Lent::<N, 1>(x),
            Lent::<N, N>(p),
            Lent::<N, N>(q),
            Lent::<N, 1>(predicted_x),
            Lent::<N, N>(temp_p),
        )
        .predict();
        return true;
    }
    let [a, rest @ ..] = lent else {
        panic!("a buffer")
    };
    let mut a = Lent::<N, N>(a);
    match op {
        Square::SetSymmetric => a.set_symmetric(at[0], at[1], v[0]),
        Square::SetDiagonalToScalar => a.set_diagonal_to_scalar(v[0]),
        Square::MakeScalar => a.make_scalar(v[0]),
        Square::MakeIdentity => a.make_identity(),
        Square::MakeComatrix => a.make_comatrix(v[0], v[1]),
        Square::CholeskyDecomposeLower => return a.cholesky_decompose_lower(),
        Square::InvertLCholesky => a.invert_l_cholesky(&mut Lent::<N, N>(&mut rest[0])),
        Square::Predict => {}
    }
    true
}

static SQUARE: [fn(Square, [usize; 2], [f32; 2], Buffers) -> bool; 16] = line!(square);

/// The bool is the verdict of the decomposition, and true for the others.
pub fn run_square(op: Square, n: usize, at: [usize; 2], v: [f32; 2], lent: Buffers) -> bool {
    SQUARE[n - 1](op, at, v, lent)
}

#[derive(Clone, Copy, PartialEq, Eq, Debug)]
pub enum Filter {
    /// `correct` as it stands.
    Correct,
    /// `correct_with`, whose closure overwrites y by the y that was lent: `update_with_innovation`.
    Update,
    /// `correct_with`, whose closure keeps the y that it is shown; that y comes back.
    Innovation,
}

fn filter<const N: usize, const M: usize>(op: Filter, lent: Buffers) {
    let [x, p, h, z, r, y, s, k, temp_s_inv, temp_hp, temp_pht, temp_khp] = lent else {
        panic!("twelve buffers")
    };
    let mut kept = y.clone();
    {
        let (mut x, mut p) = (Lent::<N, 1>(x), Lent::<N, N>(p));
        let mut seen = RegularObservationBuilder::new::<N, M, f32>(
            Lent::<M, N>(h),
            Lent::<M, 1>(z),
            Lent::<M, M>(r),
            Lent::<M, 1>(y),
            Lent::<M, M>(s),
            Lent::<N, M>(k),
            Lent::<M, M>(temp_s_inv),
            Lent::<M, N>(temp_hp),
            Lent::<N, M>(temp_pht),
            Lent::<N, N>(temp_khp),
        );
        match op {
            Filter::Correct => seen.correct(&mut x, &mut p),
            Filter::Update => seen.correct_with(&mut x, &mut p, |y| y.copy_from_slice(&kept)),
            Filter::Innovation => seen.correct_with(&mut x, &mut p, |y| kept.copy_from_slice(y)),
        }
    }
    if op == Filter::Innovation {
        y.copy_from_slice(&kept)
    }
}

static FILTER: [[fn(Filter, Buffers); 16]; 16] = plane!(filter);

/// Buffers: the correction's twelve, in the order of R5.
pub fn run_filter(op: Filter, n: usize, m: usize, lent: Buffers) {
    FILTER[n - 1][m - 1](op, lent)
}
