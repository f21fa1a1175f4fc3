//! The names here are those of the library.
use crate::ffi;
use crate::item::Message;
use crate::refused::Reason;

fn named(call: impl FnOnce(*mut u8, usize) -> usize) -> String {
    let mut text = [0; 24];
    let n = call(text.as_mut_ptr(), text.len());
    String::from_utf8(text[..n].to_vec()).unwrap()
}

#[test]
fn items() {
    for id in 0..=257 {
        for kind in 0..=8 {
            let mut item = ffi::Item { id, ..ffi::Item::default() };
            item.extended.kind = kind;
            // SAFETY: the pointer and the length are those of an array.
            let wanted = named(|text, room| unsafe { ffi::bt_item_name(&item, text, room) });
            assert_eq!(Message::of(&item, &[0; 68]).name(), wanted, "id {id}, kind {kind}");
        }
    }
}

#[test]
fn reasons() {
    for number in 1..=17 {
        // SAFETY: the pointer and the length are those of an array.
        let wanted = named(|text, room| unsafe { ffi::bt_reason_name(number.into(), text, room) });
        assert_eq!(Reason::of(number).to_string(), wanted);
        assert_eq!(Reason::of(number) as u8, number);
    }
}
