//! The cases of `vectors/`: open points, programs that pin a rule down, fleets, dates and prices.

use second::services::Second;
use second::vectors;

#[test]
fn vectors_hold() {
    let vectors = vectors::all().unwrap();
    for vector in &vectors {
        assert_eq!(vector.answer(&Second), vector.expected, "{}: {}", vector.place, vector.why);
    }
    println!("{} cases", vectors.len());
    assert!(vectors.len() >= 228);
}
