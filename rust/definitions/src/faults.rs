//! Calls with one fault and with several, which tell the test that comes first.

use std::fmt::Display;

/// What a test finds: a name, and how it is made.
pub type Fault<N, C> = (N, fn(&mut C));

/// The call without a fault, with each one, with each two, and with each one and all later ones; and what
/// these are about. Faults are in the order of the tests.
pub fn first_tests<N: Display, C: Clone>(call: &C, faults: &[Fault<N, C>]) -> Vec<(String, C)> {
    let with = |call: &C, make: &fn(&mut C)| {
        let mut call = call.clone();
        make(&mut call);
        call
    };
    let mut calls = vec![("no fault".to_string(), call.clone())];
    for (at, (name, make)) in faults.iter().enumerate() {
        let one = with(call, make);
        calls.push((name.to_string(), one.clone()));
        let mut all = one.clone();
        for (later, make) in &faults[at + 1..] {
            calls.push((format!("{name} before {later}"), with(&one, make)));
            make(&mut all);
        }
        calls.push((format!("{name} and all later ones"), all));
    }
    calls
}
