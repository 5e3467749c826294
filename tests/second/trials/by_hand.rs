//! What the trace program does not print, worked out by hand: conflict
//! counts, the bytes of store and stimulus, and the return states.

use crate::bytes::store_bytes;
use crate::read;
use crate::step::{cycle, cycle_bytes, open, Outcome};
use crate::trials::check::{agree, Failure};

pub fn all_agree() -> Result<(), Failure> {
    for (actions, conflicts) in CONFLICTS {
        conflict_count(actions, conflicts)?;
    }
    bytes_of_the_store()?;
    return_states()
}

/// The actions of one operation, and how many of its delayed stores are in conflict.
const CONFLICTS: [(&str, usize); 14] = [
    ("A <- 4D5, A <- 4D9", 1),
    ("A <- 4D5, A <- 4D5, A <- 4D5", 2),
    ("A[1:3] <- 3D0, A[3:4] <- 2D0", 1),
    ("A[1:2] <- 2D0, A[3:4] <- 2D0", 0),
    ("A[1:2] <- 2D0, A[3:4] <- 2D0, A <- 4D0", 1),
    ("A[1:2] CON A[2:3] <- 4D0", 0),
    ("A[4] <- 1B1, F CON A <- 5D0", 1),
    ("A CON F <- 5D0, F CON A <- 5D0, F <- 1B1", 2),
    ("A = 4D1, A <- 4D2, A = 4D3", 0),
    ("R[0] <- 2D0, R[1] <- 2D0", 0),
    ("R[1,1] <- 1B0, R[F,1] <- 1B0, R[1] <- 2D0", 1),
    ("IF F THEN A <- 4D1 ENDIF, A <- 4D2", 0),
    ("S[1] <- 1B0, S[2] <- 1B0, S[1] <- 1B0", 1),
    ("ONE, ONE", 1),
];

fn conflict_count(actions: &str, conflicts: usize) -> Result<(), Failure> {
    let text = format!(
        "REGISTER A[4], F, R[0:1,2], #S[2].\nOPERATION ONE = [A <- 4D1],\nO = [{actions}].\nCONTROL P(0): O/ Q(1): /."
    );
    let description = read(text.as_bytes()).map_err(|refusal| format!("{actions}: {refusal:?}"))?;
    let outcome = cycle(&description, &mut open(&description), &[]);
    agree(outcome, Outcome::Completed { conflicts }, &format!("{actions}: {outcome:?}"))
}

/// Words in declared order, each in whole bytes; the computed terminal has none.
fn bytes_of_the_store() -> Result<(), Failure> {
    let text = "REGISTER A[9], B. MEMORY M[1:0,12]. TERMINAL C[2] = 2D1, I[3] = INPUT(1,I), T[8].
        OPERATION O = [A = 9B100000001, B = 1B1, M[1] = 12HABC, M[0] = 12H123, T = 8HF0].
        CONTROL P: O, ->P/.";
    let description = read(text.as_bytes()).map_err(|refusal| format!("store: {refusal:?}"))?;
    let mut run = open(&description);
    agree(store_bytes(&run), vec![0; 9], "the store when opened")?;
    for ill_formed in [&[][..], &[5, 0], &[0x0D]] {
        agree(cycle_bytes(&description, &mut run, ill_formed), Outcome::Refused(15), "an ill-formed stimulus")?;
    }
    agree(cycle_bytes(&description, &mut run, &[5]), Outcome::Completed { conflicts: 0 }, "the stimulus")?;
    agree(store_bytes(&run), vec![0x01, 0x01, 0x01, 0x0A, 0xBC, 0x01, 0x23, 0x05, 0xF0], "the store")?;
    let places: Vec<_> = (0..6).map(|number| description.store_place(number)).collect();
    agree(places, vec![Some(0), Some(2), Some(3), None, Some(7), Some(8)], "places in the store")
}

/// The manual's example 8.2.2.4 (with a value for V): states and returns after each cycle.
fn return_states() -> Result<(), Failure> {
    let text = "REGISTER #SSR[3:0]. OPERATION SET2 = [SSR <- 4D2], SET0 = [SSR <- 4D0].
        CONTROL P(1): ->S/ Q(2): =>T/ R(3): ->P, =>U/ S(4): SET2, =>V/ T(5): / U(6): SET0/
        V(8): =>X/ W(0): RETURN/ X(7): RETURN, =>W/.";
    let (p, q, r, s, t, u, v, w, x) = (0, 1, 2, 3, 4, 5, 6, 7, 8);
    let expected: [(usize, &[usize]); 13] = [
        (s, &[]),
        (v, &[q]),
        (x, &[q, w]),
        (w, &[q, w]),
        (w, &[q]),
        (q, &[]),
        (t, &[r]),
        (u, &[r]),
        (w, &[r]),
        (r, &[]),
        (u, &[p]),
        (w, &[p]),
        (p, &[]),
    ];
    let description = read(text.as_bytes()).map_err(|refusal| format!("returns: {refusal:?}"))?;
    let mut run = open(&description);
    for (number, (state, returns)) in expected.into_iter().enumerate() {
        cycle(&description, &mut run, &[]);
        agree((run.state, &run.returns[..]), (state, returns), &format!("the record after cycle {}", number + 1))?;
    }
    Ok(())
}
