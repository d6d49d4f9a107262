
#[test]
fn two_operations_end_with_one_document() {
    let mut draw = Draw(1);
    for _ in 0..1000 {
        let shared = SharedText::new(&"xyzxyzxy"[..1 + draw.below(8)]);
        let [a, b] = [1, 2].map(|site| draw.operation(&shared, site).unwrap());
        let ends = [(a, b), (b, a)].map(|(first, second)| {
            let form = transform(second, first).unwrap();
            apply(&apply(&shared, first).unwrap(), form).unwrap()
        });
        assert_eq!(ends[0], ends[1], "{shared:?} {a:?} {b:?}");
    }
}
