//! Plans, stores and answers of another length.

use crate::trial::{lent, Trial};
use pirkvezo_differential::engine::{Reference, ANSWER, PLAN, SCRIPTS};
use pirkvezo_differential::generate::write_calls::{
    disturb_lengths, random_write_call, set_lengths,
};
use pirkvezo_differential::guarded::Guarded;
use pirkvezo_differential::rng::Rng;
use pirkvezo_differential::seed::cases;

#[test]
fn random_lengths() {
    let mut trial = Trial::new();
    for (case, mut rng) in cases("writings, lengths of rows", 6_000) {
        let mut call = random_write_call(&mut rng);
        disturb_lengths(&mut rng, &mut call);
        let (number, _) = trial.call(&call, &case);
        assert_eq!(number == 11, !call.has_right_lengths(), "{case}");
    }
    trial.finish("writings, lengths of rows", &[0, 11, 12, 17]);
}

/// Each row in turn, and several at once, shorter, longer and empty; with a plan
/// that is possible and with ones that are 12, with room and without.
#[test]
fn other_lengths() {
    let mut trial = Trial::new();
    let mut rng = Rng::new(17);
    let good = lent(&Reference);
    let changes: [fn(&mut Guarded<u32>); 3] = [|_| {}, |plan| plan.fill(0), |plan| plan[0] = 375];
    for (change, number) in changes.into_iter().zip([0, 12, 12]) {
        for plan in [0, 1, 91, 92, 93, 184] {
            for scripts in [0, 1, 256, 2_047, 2_048, 2_049, 4_096] {
                for answer in [0, 1, 2, 3, 4, 5, 8] {
                    for room in [0, 202, 203] {
                        let mut call = good.clone();
                        change(&mut call.plan);
                        call.out.set_length(room);
                        set_lengths(&mut rng, &mut call, [plan, scripts, answer]);
                        let right = [plan, scripts, answer] == [PLAN, SCRIPTS, ANSWER];
                        let due = match (right, number, room) {
                            (false, _, _) => 11,
                            (_, 0, 0..=202) => 17,
                            _ => number,
                        };
                        assert_eq!(trial.call(&call, &"other lengths").0, due);
                    }
                }
            }
        }
    }
    trial.finish("other lengths", &[0, 11, 12, 17]);
}
