//! The worked examples of docs/RULES.md, asked of the model.

use crate::model::{check_list, host_call, indexrun, BadList, Cache, Call, Done, Plain, Refusal, SetAssociative};

const FIVE_WORDS: [u8; 20] = [0xA0, 0, 0x12, 7, 0x82, 0, 0x12, 0, 0x80, 1, 0x2C, 0, 0xC0, 0, 0x10, 0, 0xE0, 0, 0, 0];

/// Ends the program if the model does not give what the rules say.
pub fn examples() {
    results_of_section_12();
    text_of_section_16();
    orders_of_section_6();
    costs_of_section_7();
    rows_of_section_17();
    words_of_section_11();
    order_of_tests();
}

fn results_of_section_12() {
    let wanted = [
        [0, 7, 0, 0x12, 0, 0, 0, 0x16],
        [0, 7, 0, 0x12, 0, 0, 0, 1],
        [0x81, 1, 1, 0x2C, 0, 0, 0, 0],
        [0, 0, 0, 0x10, 0, 0, 0, 0x12],
        [0, 0, 0, 0, 0, 0, 0, 8],
    ];
    let mut memory = [0; 256];
    let mut results = [0x55; 43];
    assert_eq!(host_call(2, &mut memory, 3, &FIVE_WORDS, &mut results), 0);
    assert_eq!(results[..40], wanted.concat());
    assert_eq!(results[40..], [0x55; 3]);
    assert_eq!(memory[18], 7);
}

fn text_of_section_16() {
    let wanted = "indexrun 1\n1 W 18 7 22\n2 R 18 7 1\n3 R 300 no 1 300 1\n4 S 16 - 18\n5 A 0 - 8\nend 5 2 49\n";
    assert_eq!(indexrun(&FIVE_WORDS), wanted);
    assert_eq!(indexrun(&[]), "indexrun 1\nlist no 7 0\n");
    assert_eq!(indexrun(&[0x80; 16_388]), "indexrun 1\nlist no 7 0\n");
    assert_eq!(indexrun(&[0x80, 0, 0]), "indexrun 1\nlist no 7 0\n");
    assert_eq!(indexrun(&[0x80, 0, 0x12, 1]), "indexrun 1\nlist no 8 1\n");
    assert_eq!(indexrun(&[0xA0, 0, 0x12, 7, 0x80, 0, 0x12, 1]), "indexrun 1\nlist no 8 2\n");
    assert_eq!(indexrun(&[0; 4]), "indexrun 1\nend 0 0 0\n");
}

/// Reads at 0, 16, 0, 32: FIFO pushes out block 0, LRU block 4.
fn orders_of_section_6() {
    fn still_held<const LRU: bool>(address: u16) -> bool {
        let mut bytes = [0; 256];
        let mut cache = Cache::<4, 2, LRU>::over(Plain::new(&mut bytes, 3));
        for read in [0, 16, 0, 32] {
            cache.read(read).expect("below the size");
        }
        cache.read(address) == Ok(Done { value: 0, clocks: 1 })
    }
    assert!(!still_held::<false>(0) && still_held::<false>(16));
    assert!(still_held::<true>(0) && !still_held::<true>(16));
}

fn costs<const SETS: usize, const WAYS: usize, const LRU: bool>(calls: &[Call]) -> Vec<u32> {
    let mut bytes = [0; 256];
    let mut cache = Cache::<SETS, WAYS, LRU>::over(Plain::new(&mut bytes, 3));
    calls.iter().map(|&call| cache.call(call).map_or(0, |done| done.clocks)).collect()
}

fn costs_of_section_7() {
    use Call::{Read, ReturnAll, ReturnBlock, Write};
    assert_eq!(costs::<8, 1, false>(&[Write(0, 1), ReturnAll, ReturnAll]), [22, 25, 8]);
    assert_eq!(costs::<4, 2, false>(&[Read(5), ReturnBlock(7), ReturnBlock(7)]), [22, 1, 1]);
    assert_eq!(costs::<1, 8, true>(&[Write(5, 9), ReturnBlock(4), Read(5)]), [22, 18, 22]);
}

fn rows_of_section_17() {
    use Call::{Read, Write};
    assert_eq!(costs::<8, 1, false>(&[Write(0, 1), Read(32)]), [22, 38]);
    assert_eq!(costs::<4, 2, false>(&[Read(0), Read(16), Read(0), Read(16)]), [22, 22, 1, 1]);
    assert_eq!(Plain::check(65_536, 3), Ok(()));
    assert_eq!(Plain::check(65_540, 3), Err(3));
    let mut bytes = [0; 256];
    let mut cache = SetAssociative::over(Plain::new(&mut bytes, 3));
    assert_eq!(cache.read(300), Err(Refusal { cause: 1, address: 300, depth: 1 }));
}

fn words_of_section_11() {
    let place_of = |words: &[[u8; 4]]| check_list(&words.concat()).map(<[_]>::len).map_err(|bad| bad.place);
    assert_eq!(check_list(&[0x80, 0, 0x12, 1]), Err(BadList { cause: 8, place: 1 }));
    assert_eq!(place_of(&[[0xE0, 0, 4, 0]]), Err(1));
    assert_eq!(place_of(&[[0xFF, 0, 0, 0], [0x20, 0, 0x12, 7]]), Err(2));
    assert_eq!(place_of(&[[0x9F, 0xFF, 0xFF, 0], [0; 4], [0x20, 0, 0x12, 7]]), Ok(1));
}

/// 10, 3, 4, 7, 8, 9: each is mended in turn, and the next shows.
fn order_of_tests() {
    let mut memory = [0; 256];
    let bad_word = [0x80, 0, 0x12, 1];
    assert_eq!(host_call(0, &mut memory[..6], 0, &[], &mut []), 10);
    assert_eq!(host_call(1, &mut memory[..6], 0, &[], &mut []), 3);
    assert_eq!(host_call(1, &mut memory, 16, &[], &mut []), 4);
    assert_eq!(host_call(1, &mut memory, 15, &bad_word[..3], &mut []), 7);
    assert_eq!(host_call(1, &mut memory, 15, &bad_word, &mut []), 8);
    assert_eq!(host_call(1, &mut memory, 15, &FIVE_WORDS, &mut [0; 39]), 9);
    assert_eq!(host_call(1, &mut memory, 15, &[0; 4], &mut []), 0);
}
