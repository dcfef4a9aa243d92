//! The reading and the writing of a settings card. The original has nothing of the kind, so they stand by
//! themselves.

use crate::model::{model, Model};
use crate::ours;
use crate::report::Card;
use crate::same;
use crate::timing::{in_turns, Plan};
use std::hint::black_box;

/// The card of these sizes and matrices.
fn spelt(n: usize, m: usize, matrices: [(&str, &[f32]); 4]) -> String {
    let mut text = format!("edition=1\nstates={n}\nobservations={m}\n");
    for (key, numbers) in matrices {
        let entries: Vec<String> = numbers
            .iter()
            .map(|v| format!("{:08x}", v.to_bits()))
            .collect();
        text += &format!("{key}={}\n", entries.join(","));
    }
    text
}

/// The model's card, read again and again into the same four buffers, and written of them again and again
/// into the same bytes. What the first reading puts there is the model, bit for bit, and what the first
/// writing puts there is the card.
pub fn run<const N: usize, const M: usize, const NN: usize, const MN: usize, const MM: usize>(
    plan: Plan,
    cards: &mut Vec<Card>,
) -> Result<(), String> {
    let from: Model<N, M, NN, MN, MM> = model();
    let text = spelt(
        N,
        M,
        [
            ("a", &from.a),
            ("q", &from.q),
            ("h", &from.h),
            ("r", &from.r),
        ],
    );
    let text = black_box(text.as_bytes());
    let mut read = ours::Settings::<NN, MN, MM>::new();
    let code = read.read(text);
    let agree = same(&read.a, &from.a)
        && same(&read.q, &from.q)
        && same(&read.h, &from.h)
        && same(&read.r, &from.r);
    if code != 0 || (read.states, read.observations) != (N, M) || !agree {
        return Err(format!("card ({N}, {M}): it is not read as it was spelt"));
    }
    let mut written = vec![0; text.len()];
    let mut length = 0;
    let settings = ours::Settings { ..read };
    let code = settings.write(&mut written, &mut length);
    if code != 0 || length != text.len() || written != text {
        return Err(format!(
            "card ({N}, {M}): it is not written as it was spelt"
        ));
    }
    let [reading, writing] = in_turns(
        plan,
        [
            &mut |count| {
                for _ in 0..count {
                    black_box(black_box(&mut read).read(black_box(text)));
                }
            },
            &mut |count| {
                for _ in 0..count {
                    let bytes = black_box(&mut written[..]);
                    black_box(black_box(&settings).write(bytes, black_box(&mut length)));
                }
            },
        ],
    );
    cards.push(Card::of(N, M, text.len(), reading, writing));
    Ok(())
}
