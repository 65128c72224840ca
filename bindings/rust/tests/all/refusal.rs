//! Numbers, words and texts of refusals.

use combinator::Refusal;

#[test]
fn numbers_and_words() {
    for (i, refusal) in Refusal::ALL.into_iter().enumerate() {
        let (number, word) = (refusal.number(), refusal.word());
        assert_eq!(usize::from(number), i + 1);
        assert_eq!(Refusal::from_number(number), Some(refusal));
        assert_eq!(word, format!("{refusal:?}"));
        let text = refusal.to_string();
        assert!(
            text.starts_with(&format!("refused {number} {word}: ")),
            "{text}"
        );
    }
    assert_eq!(Refusal::from_number(0), None);
    assert_eq!(Refusal::from_number(12), Some(Refusal::Wire));
    assert_eq!(Refusal::from_number(13), None);
}

/// Refusals and text errors serve where errors are boxed.
#[test]
fn errors() {
    let refusal: Box<dyn std::error::Error> = Refusal::Full.into();
    assert_eq!(
        refusal.to_string(),
        "refused 8 Full: there are more solutions than slots"
    );
    assert_eq!(
        Refusal::Twice.to_string(),
        "refused 11 Twice: an entry's AS stands earlier in the same segment"
    );
    assert_eq!(
        Refusal::Wire.to_string(),
        "refused 12 Wire: the path has no form on the wire, or no path has these bytes"
    );
    let text: Box<dyn std::error::Error> = combinator::ParseError.into();
    assert_eq!(
        text.to_string(),
        "no ISD-AS such as 1-ff00:0:110 or 2-64496"
    );
}
