//! How a largest number is found: the distances from 1 up, and the first keyword that stops at one of them.

use crate::Failure;
use bezowik::sets::Keyword;

/// Where a search ends: at the distance n, and there by the keyword of a number, or by none, at the cap.
pub struct Found {
    pub n: usize,
    pub keyword: Option<usize>,
}

/// The number of the shortest keyword, the first of those that are as short, and its length, which is the cap.
pub fn shortest(keywords: &[Keyword]) -> (usize, usize) {
    let lengths = keywords.iter().map(|keyword| keyword.word.len()).enumerate();
    lengths.min_by_key(|&(_, length)| length).unwrap_or_default()
}

/// The search for a number by what makes a keyword stop at a distance. It ends where the library's number says, or the
/// tool has searched for something else.
pub fn search(keywords: &[Keyword], number: u8, stops: impl Fn(&[u8], usize) -> bool) -> Result<Found, Failure> {
    let (_, cap) = shortest(keywords);
    let stopped = |n: usize| {
        let first = keywords.iter().position(|keyword| stops(&keyword.word, n));
        first.map(|keyword| Found { n, keyword: Some(keyword) })
    };
    let found = (1..cap).find_map(stopped).unwrap_or(Found { n: cap, keyword: None });
    match found.n == usize::from(number) {
        true => Ok(found),
        false => {
            let told = format!("the keywords give {} where the library gives {number}", found.n);
            Err(Failure::Refused(format!("{told}, which is a fault of the tool")))
        }
    }
}
