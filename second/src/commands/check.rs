//! The check of a plan.

use crate::faults::Fault;
use crate::reading::{count, exactly};
use crate::script::Words;
use crate::site::Site;

pub fn check(site: &mut Site, words: Words) -> Result<String, Fault> {
    let [gateway] = exactly(words, "check takes <gateway>")?;
    site.check(count(gateway)?)?;
    Ok("check ok".to_string())
}

#[cfg(test)]
mod tests {
    use crate::tests::check;

    #[test]
    fn words_of_the_line() {
        check(
            "check 0\nnet 0 0 /\ncheck\ncheck 0 0\ncheck x y\ncheck x\ncheck -1\ncheck 65536\ncheck 65535\n\
             check 0\nstart 0\ncheck 000",
            &[
                "error line 1: no net yet",
                "net ok 1 0",
                "error line 3: check takes <gateway>",
                "error line 4: check takes <gateway>",
                "error line 5: check takes <gateway>",
                "error line 6: word 2 is not a number from 0 to 65535",
                "error line 7: word 2 is not a number from 0 to 65535",
                "error line 8: word 2 is not a number from 0 to 65535",
                "refused 7 place 0 layer check",
                "refused 16 place 0 layer check",
                "start ok",
                "check ok",
            ],
        );
    }
}
