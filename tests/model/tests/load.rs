//! Load: every rule, and the order among rules.

use model::{Refusal, load};

/// `refused N LINE`, or `loads`.
fn judged(image: &str) -> String {
    match load(image.as_bytes()) {
        Ok(_) => "loads".to_string(),
        Err(refusal) => refusal.to_string(),
    }
}

const HEAD: &str = "01746F70\n02000000\n";

fn after_head(lines: &str) -> String {
    judged(&format!("{HEAD}{lines}05\n"))
}

#[test]
fn the_worked_image() {
    let image = load(
        b"01746F70\n02000000\n03010000000000000002\n03010000000000000003\n040000000000010113\n05\n",
    );
    let image = image.expect("it loads");
    assert_eq!(image.texts, [b"top"]);
    assert_eq!(image.chunks.len(), 1);
    assert_eq!(image.chunks[0].constants.len(), 2);
    assert_eq!(image.chunks[0].code, [0, 0, 0, 0, 0, 1, 1, 0x13]);
}

#[test]
fn lines() {
    for (image, expected) in [
        ("", "refused 6 0"),
        ("\n", "refused 2 1"),
        ("0", "refused 2 1"),
        ("01", "refused 2 1"),
        ("0\n", "refused 2 1"),
        ("0g\n", "refused 2 1"),
        ("0a\n", "refused 2 1"),
        ("01\r\n", "refused 2 1"),
        ("00\n", "refused 3 1"),
        ("06\n", "refused 3 1"),
        ("FF\n", "refused 3 1"),
        ("0xyz\n", "refused 2 1"),
    ] {
        assert_eq!(judged(image), expected, "{image:?}");
    }
    let longest = format!("01{}\n02000000\n05\n", "7E".repeat(255));
    assert_eq!(judged(&longest), "loads");
    let longer = format!("01{}\n02000000\n05\n", "7E".repeat(256));
    assert_eq!(judged(&longer), "refused 2 1");
}

#[test]
fn order_of_lines() {
    for (image, expected) in [
        ("02000000\n", "refused 4 1"),
        ("03\n", "refused 3 1"),
        ("04\n", "refused 3 1"),
        ("05\n", "refused 3 1"),
        ("0500\n", "refused 3 1"),
        ("01\n05\n", "refused 3 2"),
        ("01\n02000000\n01\n", "refused 3 3"),
        ("01\n02000000\n0119\n", "refused 3 3"),
        ("01\n02000000\n0413\n0300\n", "refused 3 4"),
        ("01\n02000000\n0413\n04\n", "refused 3 4"),
        (
            "01\n02000000\n02000000\n0300\n0413\n02050000\n05\n",
            "loads",
        ),
    ] {
        assert_eq!(judged(image), expected, "{image:?}");
    }
}

#[test]
fn the_end() {
    for (image, expected) in [
        ("01\n02000000\n", "refused 6 0"),
        ("01\n02000000\n05", "refused 2 3"),
        ("01\n02000000\n0500\n", "refused 4 3"),
        ("01\n02000000\n05\n", "loads"),
        ("01\n02000000\n05\n\n", "refused 6 0"),
        ("01\n02000000\n05\n05\n", "refused 6 0"),
        ("01\n02000000\n05\nx", "refused 6 0"),
        ("01\n02000000\n03140001\n05\n", "refused 7 0"),
        ("01\n02000000\n03140001\n05\nx", "refused 6 0"),
        ("01\n02000000\n03140001\n", "refused 6 0"),
        ("01\n02000000\n03140001\n02000000\n05\n", "loads"),
        ("01\n02000000\n0314FFFF\n02000000\n05\n", "refused 7 0"),
    ] {
        assert_eq!(judged(image), expected, "{image:?}");
    }
}

#[test]
fn fields_of_texts_chunks_and_code() {
    for (line, expected) in [
        ("02\n", "refused 4 3"),
        ("020000\n", "refused 4 3"),
        ("0200000000\n", "refused 4 3"),
        ("02000001\n", "refused 4 3"),
        ("02FF0000\n", "loads"),
    ] {
        assert_eq!(after_head(line), expected, "{line:?}");
    }
    assert_eq!(judged("01\n02010000\n05\n"), "refused 4 2");
    for byte in [0x1F, 0x7F, 0x80, 0xFF] {
        assert_eq!(judged(&format!("01{byte:02X}\n")), "refused 4 1");
    }
    assert_eq!(after_head("04\n"), "refused 4 3");
    let full = format!("04{}\n", "13".repeat(64));
    assert_eq!(after_head(&format!("{full}{full}0413\n")), "loads");
    assert_eq!(
        after_head(&format!("04{}\n", "13".repeat(65))),
        "refused 4 3"
    );
}

#[test]
fn fields_of_constants() {
    for (line, expected) in [
        ("03\n", "refused 4 3"),
        ("0300\n", "loads"),
        ("030000\n", "refused 4 3"),
        ("030100000000000000\n", "refused 4 3"),
        ("0301000000000000000000\n", "refused 4 3"),
        ("0303FFFFFFFF\n", "loads"),
        ("03057FF0000000000001\n", "loads"),
        ("030700\n", "loads"),
        ("030702\n", "refused 4 3"),
        ("03080000\n", "loads"),
        ("03080001\n", "refused 4 3"),
        ("03090000D7FF\n", "loads"),
        ("03090000D800\n", "refused 4 3"),
        ("03090000DFFF\n", "refused 4 3"),
        ("03090000E000\n", "loads"),
        ("03090010FFFF\n", "loads"),
        ("030900110000\n", "refused 4 3"),
        ("030A00\n", "loads"),
        ("030D0000\n", "loads"),
        ("030E0000\n", "refused 4 3"),
        ("03140000\n", "refused 4 3"),
        ("0316\n", "refused 4 3"),
    ] {
        assert_eq!(after_head(line), expected, "{line:?}");
    }
}

#[test]
fn one_too_many() {
    let texts = |n| judged(&("01\n".repeat(n) + "02000000\n05\n"));
    assert_eq!(texts(256), "loads");
    assert_eq!(texts(257), "refused 5 257");
    assert_eq!(judged(&("01\n".repeat(256) + "0119\n")), "refused 4 257");
    let chunks =
        |n: usize, last: &str| judged(&format!("01\n{}{last}05\n", "02000000\n".repeat(n)));
    assert_eq!(chunks(64, ""), "loads");
    assert_eq!(chunks(65, ""), "refused 5 66");
    assert_eq!(chunks(64, "02000001\n"), "refused 4 66");
    let constants = |n: usize, last: &str| after_head(&format!("{}{last}", "0300\n".repeat(n)));
    assert_eq!(constants(256, ""), "loads");
    assert_eq!(constants(257, ""), "refused 5 259");
    assert_eq!(constants(256, "030E\n"), "refused 4 259");
    let code = |last: &str| {
        let lines = format!("04{}\n", "13".repeat(64)).repeat(64);
        after_head(&format!("{lines}{last}"))
    };
    assert_eq!(code(""), "loads");
    assert_eq!(code("0413\n"), "refused 5 67");
    assert_eq!(code("04\n"), "refused 4 67");
}

#[test]
fn the_longest_image() {
    let refused = |number, line| Err(Refusal { number, line });
    assert_eq!(load(&[b'\n'; 65_537]), refused(1, 0));
    assert_eq!(load(&[b'\n'; 65_536]), refused(2, 1));
}
