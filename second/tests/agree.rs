//! The promise on translated programs, over generated programs.

use second::agree::{agree, Agreement};
use second::generate;
use second::machine::on_large_stack;
use second::random::Random;

#[test]
fn translations_end_alike() {
    on_large_stack(|| {
        let cases = 30_000;
        let (mut ended, mut changed, mut cut, mut refused) = (0, 0, 0, 0);
        for seed in 0..cases {
            let mut random = Random::new(seed);
            let rows = if random.chance(5) {
                generate::extreme(&mut random)
            } else {
                generate::program(&mut random)
            };
            match agree(&rows, 2_000, 60, &mut random) {
                Ok(Agreement::Ended(run)) => {
                    ended += 1;
                    changed += usize::from(run.changes > 0);
                }
                Ok(Agreement::Cut) => cut += 1,
                Ok(Agreement::Refused) => refused += 1,
                Err(what) => panic!("seed {seed}: {what}"),
            }
        }
        println!("{cases} programs: {ended} ended, {changed} of them changed, {cut} cut, {refused} refused");
        assert!(ended > 15_000 && changed > 5_000);
    });
}
