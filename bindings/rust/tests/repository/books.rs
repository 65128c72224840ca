//! Books of the repository, read and written again.

use combinator::{BookWriter, Refusal, MAX_BOOK};

use crate::{
    common::decode,
    file,
    stored::{answers, cases},
};

fn rewrite<'a>(book: &[u8], room: &'a mut [u8]) -> &'a [u8] {
    let [cores, non_cores] = decode(book);
    let mut writer = BookWriter::new(room).unwrap();
    let refused = |s, refusal: Refusal| panic!("{refusal}: {s:?}");
    // Non-cores first, which is not their place in the book.
    writer.non_cores(&non_cores, refused);
    writer.cores(&cores, refused);
    writer.finish()
}

#[test]
fn books_come_back() {
    let mut room = vec![0xa5; MAX_BOOK];
    for name in ["worked", "house", "core", "renewed"] {
        let book = file(&format!("examples/{name}.book"));
        assert_eq!(rewrite(&book, &mut room), book, "{name}");
    }
    for case in cases(&answers()) {
        let book = case.input.book;
        assert_eq!(rewrite(book, &mut room), book);
    }
}
