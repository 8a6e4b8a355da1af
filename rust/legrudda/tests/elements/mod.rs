use legrudda::Element;

pub fn element(words: &[u32]) -> Element {
    Element::from(<[u32; 4]>::try_from(words).expect("four words"))
}
