//! The output that a request lends to a call (docs/REQUESTS.md, "Output").

use crate::errors::Fault;
use crate::numbers::Number;

/// What the output holds before the call.
const BEFORE: u8 = 0xa5;

/// What a call wrote into an output of this length, or the number with which it refused. It is a
/// fault of the call if it wrote anything past its count, or anything at all with a refusal.
pub fn lend(
    length: usize,
    call: impl FnOnce(&mut [u8]) -> Result<usize, Number>,
) -> Result<Result<Vec<u8>, Number>, Fault> {
    let mut output = vec![BEFORE; length];
    let result = call(&mut output);
    let written = *result.as_ref().unwrap_or(&0);
    let past = output.get(written..).ok_or(Fault::Output)?;
    if past.iter().any(|&octet| octet != BEFORE) {
        return Err(Fault::Output);
    }
    output.truncate(written);
    Ok(result.map(|_| output))
}

#[cfg(test)]
mod tests {
    use super::lend;
    use crate::errors::Fault;

    #[test]
    fn what_was_written_is_given() {
        let wrote = lend(5, |output| {
            output[..2].copy_from_slice(&[1, 2]);
            Ok(2)
        });
        assert_eq!(wrote, Ok(Ok(vec![1, 2])));
        assert_eq!(lend(0, |_| Ok(0)), Ok(Ok(vec![])));
        assert_eq!(lend(5, |_| Err(8)), Ok(Err(8)));
    }

    #[test]
    fn the_output_has_the_length_that_was_asked_for() {
        assert_eq!(
            lend(3, |output| Err(output.len().try_into().unwrap())),
            Ok(Err(3))
        );
    }

    #[test]
    fn what_was_written_past_the_count_is_seen() {
        for place in 2..5 {
            let wrote = lend(5, |output| {
                output[place] = 0;
                Ok(2)
            });
            assert_eq!(wrote, Err(Fault::Output));
        }
        assert_eq!(lend(5, |_| Ok(6)), Err(Fault::Output));
    }

    #[test]
    fn what_was_written_with_a_refusal_is_seen() {
        for place in 0..5 {
            let wrote = lend(5, |output| {
                output[place] = 0;
                Err(8)
            });
            assert_eq!(wrote, Err(Fault::Output));
        }
    }
}
