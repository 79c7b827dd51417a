//! Numbers as a person reads them. The command line takes this file too, so that both write them alike.

/// The number with a comma before each three of its digits: 1,000.
pub fn with_commas(number: u64) -> String {
    let digits = number.to_string();
    let mut text = String::new();
    for (at, digit) in digits.chars().enumerate() {
        if at > 0 && (digits.len() - at) % 3 == 0 {
            text.push(',');
        }
        text.push(digit);
    }
    text
}

#[cfg(test)]
mod tests {
    use super::with_commas;

    #[test]
    fn a_comma_before_each_three_digits() {
        for (number, text) in [
            (0, "0"),
            (7, "7"),
            (24, "24"),
            (970, "970"),
            (999, "999"),
            (1_000, "1,000"),
            (65_536, "65,536"),
            (100_000, "100,000"),
            (999_999, "999,999"),
            (1_000_000, "1,000,000"),
            (2_147_483_647, "2,147,483,647"),
            (u64::MAX, "18,446,744,073,709,551,615"),
        ] {
            assert_eq!(with_commas(number), text);
        }
    }
}
