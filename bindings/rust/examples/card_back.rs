use yurgamysh::{from_card, to_card, CardError, MAX_CARD};

/// A yarn's tension and its drift; the reading sees the tension.
const CARD: &[u8] = b"edition=1
states=2
observations=1
a=3f800000,3f800000,00000000,3f800000
q=3f800000,00000000,00000000,3f800000
h=3f800000,00000000
r=41000000
";

fn main() -> Result<(), CardError> {
    let mut room = [0; MAX_CARD];
    let (filter, tension) = from_card::<2, 1>(CARD)?;
    let back = to_card(&filter, &tension, &mut room)?;
    assert_eq!(back, CARD);
    println!("{} bytes read, and the same written", back.len());
    Ok(())
}
