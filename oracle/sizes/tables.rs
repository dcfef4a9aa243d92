// Tables of function pointers, one for each size from 1 to 16, in one, two or three sizes.
// Entry [a - 1][b - 1][c - 1] of `cube!(f)` is f::<a, b, c>.

macro_rules! line {
    ($f:ident) => {
        line!(@ $f 1 2 3 4 5 6 7 8 9 10 11 12 13 14 15 16)
    };
    (@ $f:ident $($n:literal)*) => { [$($f::<$n>,)*] };
}

macro_rules! plane {
    ($f:ident) => {
        plane!(@ $f 1 2 3 4 5 6 7 8 9 10 11 12 13 14 15 16)
    };
    (@ $f:ident $($a:literal)*) => { [$(plane!(# $f $a 1 2 3 4 5 6 7 8 9 10 11 12 13 14 15 16),)*] };
    (# $f:ident $a:literal $($b:literal)*) => { [$($f::<$a, $b>,)*] };
}

macro_rules! cube {
    ($f:ident) => {
        cube!(@ $f 1 2 3 4 5 6 7 8 9 10 11 12 13 14 15 16)
    };
    (@ $f:ident $($a:literal)*) => { [$(cube!(# $f $a 1 2 3 4 5 6 7 8 9 10 11 12 13 14 15 16),)*] };
    (# $f:ident $a:literal $($b:literal)*) => {
        [$(cube!(% $f $a $b 1 2 3 4 5 6 7 8 9 10 11 12 13 14 15 16),)*]
    };
    (% $f:ident $a:literal $b:literal $($c:literal)*) => { [$($f::<$a, $b, $c>,)*] };
}
