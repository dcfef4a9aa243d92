use yurgamysh::{Feeders, OneState, Refusal};

const NAN: f32 = f32::NAN;

fn main() -> Result<(), Refusal> {
    let readings = [
        [36.0, 35.0, 37.0, 36.0, 34.0, 36.0, 35.0, 37.0, 36.0, 35.0, 36.0, 34.0],
        [36.0, 35.0, 37.0, 36.0, 34.0, 36.0, 35.0, NAN, 36.0, 35.0, 36.0, 34.0],
        [36.0, 35.0, NAN, 36.0, 34.0, 36.0, 35.0, NAN, 36.0, 35.0, 36.0, 34.0],
        [36.0, 35.0, 37.0, 36.0, 34.0, 36.0, 35.0, NAN, 36.0, 35.0, NAN, 34.0],
    ];
    let mut feeders = Feeders::from([OneState::new(35.0, 9.0, 1.0, 0.5, 1.0, 4.0); 12]);
    for (round, readings) in readings.iter().enumerate() {
        feeders.predict();
        let found = feeders.correct(readings)?;
        print!("round {}: {} accepted", round + 1, found.accepted);
        match found.first_refused {
            Some(i) => println!(", feeder {i} the first refused"),
            None => println!(),
        }
    }
    for (i, feeder) in feeders.iter().enumerate().filter(|(_, feeder)| feeder.blind > 0) {
        println!("feeder {i}: {:.2} cN, blind {}", feeder.x, feeder.blind);
    }
    Ok(())
}
