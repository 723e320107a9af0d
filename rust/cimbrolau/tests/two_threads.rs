//! The example of two threads, as a test.

#[allow(dead_code)]
#[path = "../examples/two_threads.rs"]
mod two_threads;

#[test]
fn every_message_arrives_whole_and_in_order() {
    let bytes = two_threads::passed(100_000).unwrap();
    assert!(bytes > 1 << 20, "{bytes} bytes do not wrap the cursors");
}
