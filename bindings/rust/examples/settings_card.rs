use std::error::Error;
use yurgamysh::from_card;

/// A yarn's tension and its drift; the reading sees the tension.
const CARD: &str = "edition=1
states=2
observations=1
a=3f800000,3f800000,00000000,3f800000
q=3f800000,00000000,00000000,3f800000
h=3f800000,00000000
r=41000000
";

fn main() -> Result<(), Box<dyn Error>> {
    // Two lines of the card are swapped: the fitter is told.
    let swapped = CARD.replace("states=2\nobservations=1\n", "observations=1\nstates=2\n");
    if let Err(error) = from_card::<2, 1>(swapped.as_bytes()) {
        println!("{error}");
    }

    // As it should be. A card has no x and no P: these are set.
    let (mut filter, mut tension) = from_card::<2, 1>(CARD.as_bytes())?;
    *filter.state_vector_mut() = [34.0, 1.0];
    *filter.estimate_covariance_mut() = [[2.0, 1.0], [1.0, 3.0]];
    filter.predict();
    tension.measurement_vector_mut()[0] = 39.0;
    filter.correct(&mut tension)?;

    let ([x, drift], [[a, b], [c, d]]) = (filter.state_vector(), filter.estimate_covariance());
    println!("x is [{x} {drift}], P is [{a} {b}; {c} {d}]");
    Ok(())
}
