//! Sixteen threads deposit, and sixteen withdraw, and each writes down the sum; then numbers that
//! don't fit, at which no function runs.

#[path = "../emitted/account.rs"]
mod account;
mod common;

use account::{Account, Failed, Overflow};
use common::{assert_state, in_threads};

fn main() {
    let account = Account::with_data(Vec::new());
    in_threads(32, |thread| {
        for _ in 0..512 {
            if thread % 2 == 0 {
                account.deposit_with(5, Vec::push).unwrap();
            } else {
                let sum = account.withdraw_with(5, |sums, left| {
                    sums.push(left + Account::LIMIT);
                    left
                });
                assert!(sum.unwrap() >= -Account::LIMIT);
            }
        }
    });
    let account = check_sums(account);
    assert_state(&account, "balance: 0, rejected: 0, frozen: false");
    assert_eq!(account.try_withdraw(1), Err(Failed::Refused));
    assert_eq!(account.deposit(501), Ok(501));
    assert_eq!(account.withdraw(501), Ok(-Account::LIMIT));
    assert_eq!(account.try_deposit(1), Err(Failed::Refused));
    account.thaw();
    assert_eq!(account.deposit(i64::MAX), Ok(i64::MAX));
    assert_eq!(account.deposit(1), Err(Overflow));
    assert_eq!(account.try_deposit(1), Err(Failed::Overflow));
    assert_eq!(
        account.deposit_with(1, |_, _| unreachable!()),
        Err::<(), _>(Overflow)
    );
    let tried = account.try_deposit_with(1, |_, _| unreachable!());
    assert_eq!(tried, Err::<(), _>(Failed::Overflow));
    assert_state(
        &account,
        "balance: 9223372036854775807, rejected: 0, frozen: false",
    );
}

/// Each sum is five more or less than the one before it: the functions ran in the order of the calls.
fn check_sums(account: Account<Vec<i64>>) -> Account {
    assert!(!account.is_poisoned());
    let sums = account.into_inner();
    assert_eq!(sums.len(), 32 * 512);
    assert_eq!(sums.last(), Some(&0));
    assert!(sums.windows(2).all(|two| (two[0] - two[1]).abs() == 5));
    Account::new()
}
