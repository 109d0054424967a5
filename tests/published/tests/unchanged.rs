//! What is compiled is what was published, byte for byte.

mod sha256;

use published::COMPILED;
use sha256::sha256;

const PUBLISHED: [(&str, &str); 3] = [
    (
        "chunk.rs",
        "e57265162da5736df702bc144c11e9e62d0a5abee0ec2b11a0dda3c73a136f19",
    ),
    (
        "values.rs",
        "79d4694d4855e6056ac6defc311575efe921156c462c99e5bce94456a42264dd",
    ),
    (
        "vm_logic.rs",
        "13446e38068975ff0ac9cfc3a9e6f003614ad93d91a96670cc5c98eeb502b406",
    ),
];

#[test]
fn the_compiled_files_have_the_published_digests() {
    for ((name, bytes), (published, digest)) in COMPILED.iter().zip(PUBLISHED) {
        assert_eq!(*name, published);
        assert_eq!(sha256(bytes), digest, "{name}");
    }
}

/// The bytes in docs/src now are the ones that were compiled: nothing is left over from before.
#[test]
fn the_compiled_files_are_those_in_docs() {
    for (name, bytes) in COMPILED {
        let path = format!("../../docs/src/crates/rl-vm/src/{name}");
        assert!(std::fs::read(&path).unwrap() == bytes, "{name}");
    }
}

/// The counting build has one line more, and nothing else.
#[test]
fn the_counting_build_without_its_line_is_the_published_file() {
    let line = published_counted::COUNTING_LINE;
    let compiled = published_counted::COMPILED;
    assert_eq!(compiled.matches(line).count(), 1);
    let without = compiled.replacen(line, "", 1);
    assert!(without.as_bytes() == COMPILED[2].1);
}

#[test]
fn sha256_of_known_texts() {
    assert_eq!(
        sha256(b""),
        "e3b0c44298fc1c149afbf4c8996fb92427ae41e4649b934ca495991b7852b855"
    );
    assert_eq!(
        sha256(&[b'a'; 200]),
        "c2a908d98f5df987ade41b5fce213067efbcc21ef2240212a41e54b5e7c28ae5"
    );
}
