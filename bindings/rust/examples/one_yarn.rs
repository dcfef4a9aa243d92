use yurgamysh::{Filter, Observation, Refusal};

fn main() -> Result<(), Refusal> {
    let mut filter = Filter::<1>::new().with_state_vector([1.0]).with_estimate_covariance([[3.0]]);
    let mut tension = Observation::<1, 1>::new()
        .with_observation_matrix([[1.0]])
        .with_measurement_noise_covariance([[1.0]])
        .with_measurement_vector([5.0]);

    filter.correct(&mut tension)?;
    println!("x is {}, P is {}", filter.state_vector()[0], filter.estimate_covariance()[0][0]);

    // A spread that can't be: the correction is refused, and the estimate stays.
    filter.estimate_covariance_mut()[0][0] = -3.0;
    println!("{:?}", filter.correct(&mut tension));
    println!("x is {}, P is {}", filter.state_vector()[0], filter.estimate_covariance()[0][0]);
    Ok(())
}
