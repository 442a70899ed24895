//! The kernel's commands, and what no handler may do.

use model::kernel::{run, Breach, Ending};

const MEMORY: [i64; 7] = [7, 1, 2, 3, 4, -1, -1];

/// Runs commands of two words each.
fn kernel(commands: &[[i64; 2]]) -> (Result<(Ending, u64), Breach>, [i64; 7]) {
    let mut memory = MEMORY;
    let outcome = run(&commands.concat(), commands.len(), &mut memory);
    (outcome, memory)
}

/// What the commands leave in word 5.
fn left(commands: &[[i64; 2]]) -> i64 {
    let (outcome, memory) = kernel(&[commands, &[[5, 5], [7, 0], [11, 0]]].concat());
    assert_eq!(outcome.map(|(ending, _)| ending), Ok(Ending::Returned));
    memory[5]
}

#[test]
fn commands() {
    assert_eq!(left(&[[5, 2], [5, 7], [1, 0]]), 9);
    assert_eq!(left(&[[5, 2], [5, 7], [2, 0]]), 5);
    assert_eq!(left(&[[5, 1], [5, i64::MAX], [1, 0]]), i64::MIN);
    assert_eq!(left(&[[5, i64::MIN], [5, i64::MAX], [2, 0]]), -1);
    assert_eq!(left(&[[5, 6], [5, 9], [0x11, 0]]), 15);
    assert_eq!(left(&[[5, 4], [6, 0]]), 4);
    assert_eq!(left(&[[5, 4], [0x12, 0], [1, 0]]), 8);
    assert_eq!(left(&[[5, 4], [5, 9], [0x13, 0]]), 4);
    assert_eq!(left(&[[5, 1], [5, 1], [9, 2], [5, 8], [5, 3]]), 3);
    assert_eq!(left(&[[5, 1], [5, 0], [9, 2], [5, 8]]), 8);
    assert_eq!(left(&[[5, 1], [5, 4], [8, 0], [5, 8]]), 1);
}

#[test]
fn endings() {
    assert_eq!(kernel(&[[11, 0]]), (Ok((Ending::Returned, 1)), MEMORY));
    assert_eq!(kernel(&[[5, -1], [8, 0]]), (Ok((Ending::Denied, 2)), MEMORY));
}

#[test]
fn breaches() {
    let breach = |commands: &[[i64; 2]]| kernel(commands).0.unwrap_err();
    assert_eq!(breach(&[[3, 0]]), Breach::UnknownCode(3));
    assert_eq!(breach(&[[5, 0], [5, 9], [8, 0], [11, 0]]), Breach::PlaceOutside(9));
    assert_eq!(breach(&[[5, 0], [1, 0]]), Breach::ValueMissing);
    assert_eq!(breach(&[[5, 7], [6, 0]]), Breach::AddressOutside(7));
    assert_eq!(breach(&[[5, 0], [5, -1], [7, 0]]), Breach::AddressOutside(-1));
    assert_eq!(breach(&[[5, 0], [5, 1], [8, 0]]), Breach::JumpBack(1));
    assert_eq!(breach(&[[5, 1], [9, -1]]), Breach::JumpBack(0));
    assert_eq!(breach(&[[5, 0]; 65]), Breach::StackFull);
    assert_eq!(breach(&[[5, 0]; 64]), Breach::TooManySteps);
}
