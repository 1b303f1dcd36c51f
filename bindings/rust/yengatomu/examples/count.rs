use yengatomu::WordSegmenter;

fn main() {
    let words = WordSegmenter::new().expect("out of memory");
    println!("{}", words.count_words("can't pay 3.14!"));
}
