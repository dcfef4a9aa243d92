//! The functions, what each is lent, a call, an answer, and both as a line of text.

use std::fmt::Write;

macro_rules! functions {
    ($($id:ident $name:literal)*) => {
        #[derive(Clone, Copy, PartialEq, Eq, Debug, PartialOrd, Ord)]
        pub enum Function { $($id,)* }

        pub const ALL: &[Function] = &[$(Function::$id,)*];

        impl Function {
            pub fn name(self) -> &'static str {
                match self { $(Function::$id => $name,)* }
            }
        }
    };
}

functions! {
    Get "get"
    Set "set"
    SetSymmetric "set_symmetric"
    GetRowCopy "get_row_copy"
    GetColumnCopy "get_column_copy"
    CopyTo "copy_to"
    SetAll "set_all"
    Clear "clear"
    SetZero "set_zero"
    SetDiagonalToScalar "set_diagonal_to_scalar"
    MakeScalar "make_scalar"
    MakeIdentity "make_identity"
    MakeComatrix "make_comatrix"
    Mult "mult"
    MultBuffered "mult_buffered"
    MultTransb "mult_transb"
    MultaddTransb "multadd_transb"
    MultscaleTransb "multscale_transb"
    MultRowvector "mult_rowvector"
    MultaddRowvector "multadd_rowvector"
    Sub "sub"
    SubInplaceA "sub_inplace_a"
    SubInplaceB "sub_inplace_b"
    AddInplaceA "add_inplace_a"
    AddInplaceB "add_inplace_b"
    Recip "recip"
    SquareRoot "square_root"
    CholeskyDecomposeLower "cholesky_decompose_lower"
    InvertLCholesky "invert_l_cholesky"
    Predict "predict"
    PredictX "predict_x"
    PredictP "predict_p"
    Correct "correct"
    Innovation "innovation"
    UpdateWithInnovation "update_with_innovation"
    OneStatePredict "one_state_predict"
    OneStateCorrect "one_state_correct"
}

/// Where the record of one yarn has its count of corrections refused in a row, behind x, p, a, q, h, r.
/// A count is the bits of its number: nothing is computed with that number.
pub const BLIND: usize = 6;

/// Which of row and column a call takes.
#[derive(Clone, Copy, PartialEq, Eq)]
pub enum Places {
    Neither,
    Row,
    Column,
    Both,
}

impl Function {
    pub fn named(name: &str) -> Option<Function> {
        ALL.iter().copied().find(|f| f.name() == name)
    }

    /// How many sizes: (rows, inner, columns), (rows, columns), (n, m), (n) or none.
    pub fn sizes(self) -> usize {
        use Function::*;
        match self {
            Mult | MultBuffered | MultTransb | MultaddTransb | MultscaleTransb => 3,
            Recip | SquareRoot | OneStatePredict | OneStateCorrect => 0,
            SetSymmetric
            | SetDiagonalToScalar
            | MakeScalar
            | MakeIdentity
            | MakeComatrix
            | CholeskyDecomposeLower
            | InvertLCholesky
            | Predict
            | PredictX
            | PredictP => 1,
            _ => 2,
        }
    }

    pub fn places(self) -> Places {
        use Function::*;
        match self {
            Get | Set | SetSymmetric => Places::Both,
            GetRowCopy => Places::Row,
            GetColumnCopy => Places::Column,
            _ => Places::Neither,
        }
    }

    pub fn place_count(self) -> usize {
        match self.places() {
            Places::Neither => 0,
            Places::Row | Places::Column => 1,
            Places::Both => 2,
        }
    }

    /// How many f32 arguments.
    pub fn scalars(self) -> usize {
        use Function::*;
        match self {
            Set | SetSymmetric | SetAll | SetDiagonalToScalar | MakeScalar | MultscaleTransb
            | Recip | SquareRoot | OneStateCorrect => 1,
            MakeComatrix => 2,
            _ => 0,
        }
    }

    /// Whether the answer holds a value beside the buffers.
    pub fn value(self) -> bool {
        use Function::*;
        matches!(self, Get | Recip | SquareRoot)
    }

    /// How many numbers each lent buffer has to hold, in the order of R5.
    /// Sizes are 1 to 16 here.
    pub fn needs(self, s: &[usize]) -> Vec<usize> {
        use Function::*;
        match self {
            Recip | SquareRoot => vec![],
            OneStatePredict | OneStateCorrect => vec![BLIND + 1],
            SetSymmetric
            | SetDiagonalToScalar
            | MakeScalar
            | MakeIdentity
            | MakeComatrix
            | CholeskyDecomposeLower => vec![s[0] * s[0]],
            InvertLCholesky => vec![s[0] * s[0]; 2],
            Get | Set | SetAll | Clear | SetZero => vec![s[0] * s[1]],
            GetRowCopy => vec![s[0] * s[1], s[1]],
            GetColumnCopy => vec![s[0] * s[1], s[0]],
            CopyTo | SubInplaceA | SubInplaceB | AddInplaceA | AddInplaceB => {
                vec![s[0] * s[1]; 2]
            }
            Sub => vec![s[0] * s[1]; 3],
            MultRowvector | MultaddRowvector => vec![s[0] * s[1], s[1], s[0]],
            Mult | MultTransb | MultaddTransb | MultscaleTransb => {
                vec![s[0] * s[1], s[1] * s[2], s[0] * s[2]]
            }
            MultBuffered => vec![s[0] * s[1], s[1] * s[2], s[0] * s[2], s[1]],
            Predict => {
                let n = s[0];
                vec![n, n * n, n * n, n * n, n, n * n]
            }
            PredictX => vec![s[0], s[0] * s[0], s[0]],
            PredictP => vec![s[0] * s[0]; 4],
            Correct => {
                let (n, m) = (s[0], s[1]);
                let (nn, nm, mm) = (n * n, n * m, m * m);
                vec![n, nn, nm, m, mm, m, mm, nm, mm, nm, nm, nn]
            }
            Innovation => vec![s[0], s[0] * s[1], s[1], s[1]],
            UpdateWithInnovation => {
                let mut all = Correct.needs(s);
                all.remove(3);
                all
            }
        }
    }

    /// Whether the one buffer is the record of one yarn.
    pub fn record(self) -> bool {
        matches!(self, Function::OneStatePredict | Function::OneStateCorrect)
    }

    /// How many buffers are lent.
    pub fn buffers(self) -> usize {
        self.needs(&[1, 1, 1]).len()
    }
}

#[derive(Clone)]
pub struct Call {
    pub function: Function,
    pub sizes: Vec<usize>,
    pub places: Vec<usize>,
    pub scalars: Vec<f32>,
    pub lent: Vec<Vec<f32>>,
}

#[derive(Clone)]
pub struct Answer {
    /// 0 done, 1 to 4 or 9 refused.
    pub number: u32,
    /// What the refusal carries, 0 if nothing.
    pub carried: u32,
    pub value: f32,
    /// The lent buffers after the call.
    pub lent: Vec<Vec<f32>>,
}

/// Where a line's answer comes from.
#[derive(Clone, Copy, PartialEq, Eq, Debug, PartialOrd, Ord)]
pub enum Tag {
    Rust,
    Size,
    Short,
    Place,
    RowCopy,
    Fill,
    Pivot,
    NanPivot,
    InfinitePivot,
    Verdict,
    NotFinite,
}

pub const TAGS: &[Tag] = &[
    Tag::Rust,
    Tag::Size,
    Tag::Short,
    Tag::Place,
    Tag::RowCopy,
    Tag::Fill,
    Tag::Pivot,
    Tag::NanPivot,
    Tag::InfinitePivot,
    Tag::Verdict,
    Tag::NotFinite,
];

impl Tag {
    pub fn name(self) -> &'static str {
        match self {
            Tag::Rust => "rust",
            Tag::Size => "size",
            Tag::Short => "short",
            Tag::Place => "place",
            Tag::RowCopy => "row_copy",
            Tag::Fill => "fill",
            Tag::Pivot => "pivot",
            Tag::NanPivot => "nan_pivot",
            Tag::InfinitePivot => "infinite_pivot",
            Tag::Verdict => "verdict",
            Tag::NotFinite => "not_finite",
        }
    }
}

/// The word of a number in an answer: any NaN is 7fc00000.
pub fn answer_bits(v: f32) -> u32 {
    if v.is_nan() {
        0x7fc0_0000
    } else {
        v.to_bits()
    }
}

/// Equal bits, or both NaN.
pub fn same(a: f32, b: f32) -> bool {
    answer_bits(a) == answer_bits(b)
}

pub fn same_buffers(a: &[Vec<f32>], b: &[Vec<f32>]) -> bool {
    a.len() == b.len()
        && a.iter()
            .zip(b)
            .all(|(a, b)| a.len() == b.len() && a.iter().zip(b).all(|(a, b)| same(*a, *b)))
}

pub fn same_answer(a: &Answer, b: &Answer) -> bool {
    a.number == b.number
        && a.carried == b.carried
        && same(a.value, b.value)
        && same_buffers(&a.lent, &b.lent)
}

fn push(out: &mut String, word: u32) {
    const DIGITS: &[u8; 16] = b"0123456789abcdef";
    out.push(' ');
    for shift in (0..8).rev() {
        out.push(DIGITS[(word >> (4 * shift) & 15) as usize] as char);
    }
}

/// A size, row or column: ffffffff means usize::MAX.
fn push_usize(out: &mut String, v: usize) {
    if v == usize::MAX {
        push(out, u32::MAX)
    } else {
        assert!(v < u32::MAX as usize, "a size that no word holds");
        push(out, v as u32)
    }
}

/// One line, without the newline.
pub fn write_line(out: &mut String, call: &Call, tag: Tag, answer: &Answer) {
    out.clear();
    let _ = write!(out, "{} {}", call.function.name(), tag.name());
    for v in call.sizes.iter().chain(&call.places) {
        push_usize(out, *v)
    }
    for v in &call.scalars {
        push(out, v.to_bits())
    }
    for b in &call.lent {
        push(out, b.len() as u32);
        for v in b {
            push(out, v.to_bits())
        }
    }
    push(out, answer.number);
    push(out, answer.carried);
    if call.function.value() {
        push(out, answer_bits(answer.value))
    }
    for b in &answer.lent {
        push(out, b.len() as u32);
        for v in b {
            push(out, answer_bits(*v))
        }
    }
}

struct Words<'a> {
    text: &'a str,
    at: usize,
}

impl Words<'_> {
    fn word(&mut self) -> Result<u32, String> {
        self.at += 1;
        let (first, rest) = self.text.split_once(' ').unwrap_or((self.text, ""));
        self.text = rest;
        let hex = |c: u8| c.is_ascii_digit() || (b'a'..=b'f').contains(&c);
        if first.len() != 8 || !first.bytes().all(hex) {
            return Err(format!(
                "word {}: '{first}' is not eight hex digits",
                self.at
            ));
        }
        Ok(u32::from_str_radix(first, 16).unwrap())
    }

    fn place(&mut self) -> Result<usize, String> {
        Ok(match self.word()? {
            u32::MAX => usize::MAX,
            v => v as usize,
        })
    }

    fn number(&mut self) -> Result<f32, String> {
        Ok(f32::from_bits(self.word()?))
    }

    fn buffer(&mut self) -> Result<Vec<f32>, String> {
        let count = self.word()?;
        if count as usize > crate::generate::LONGEST {
            return Err(format!("word {}: a buffer of {count} numbers", self.at));
        }
        (0..count).map(|_| self.number()).collect()
    }
}

/// Reads a line back.
pub fn read_line(line: &str) -> Result<(Call, Tag, Answer), String> {
    let mut parts = line.splitn(3, ' ');
    let name = parts.next().unwrap_or("");
    let function = Function::named(name).ok_or(format!("no function '{name}'"))?;
    let name = parts.next().unwrap_or("");
    let tag = TAGS.iter().copied().find(|t| t.name() == name);
    let tag = tag.ok_or(format!("no tag '{name}'"))?;
    let mut words = Words {
        text: parts.next().unwrap_or(""),
        at: 0,
    };
    let w = &mut words;
    let sizes = (0..function.sizes())
        .map(|_| w.place())
        .collect::<Result<_, _>>()?;
    let places = (0..function.place_count())
        .map(|_| w.place())
        .collect::<Result<_, _>>()?;
    let scalars = (0..function.scalars())
        .map(|_| w.number())
        .collect::<Result<_, _>>()?;
    let lent: Vec<_> = (0..function.buffers())
        .map(|_| w.buffer())
        .collect::<Result<_, _>>()?;
    let number = w.word()?;
    let carried = w.word()?;
    let value = if function.value() { w.number()? } else { 0.0 };
    let after: Vec<_> = (0..function.buffers())
        .map(|_| w.buffer())
        .collect::<Result<_, _>>()?;
    if !w.text.is_empty() {
        return Err(format!("words past the end: '{}'", w.text));
    }
    let whole = |b: &Vec<f32>| b.len() == BLIND + 1 && b[BLIND].to_bits() <= 255;
    if function.record() && !lent.iter().chain(&after).all(whole) {
        return Err("no record of six numbers and a count".into());
    }
    let call = Call {
        function,
        sizes,
        places,
        scalars,
        lent,
    };
    let answer = Answer {
        number,
        carried,
        value,
        lent: after,
    };
    Ok((call, tag, answer))
}
