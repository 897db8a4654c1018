//! Texts to measure with. Words are drawn at random, so that no branch
//! predictor learns a sentence by heart.

use generator::random::Random;

pub const ASCII: &[&str] = &[
    "caption", "the", "encoder", "writes", "a", "header", "and", "context", "of", "pairs", "keys",
    "in", "order", "language", "to", "frame", "length", "is", "stored", "with", "every", "message",
];

pub const FRENCH: &[&str] = &[
    "été", "à", "la", "légende", "élève", "le", "façon", "où", "de", "naïf", "garçon", "tête",
    "et", "hôtel", "très", "les", "mère", "dans", "œuvre", "avec", "écran", "une", "sous", "titre",
];

pub const CYRILLIC: &[&str] = &[
    "слово",
    "и",
    "заголовок",
    "на",
    "язык",
    "в",
    "субтитры",
    "кадр",
    "длина",
    "не",
    "что",
    "ключ",
    "порядок",
    "с",
    "запись",
    "подпись",
    "текст",
    "он",
    "экран",
    "для",
    "каждый",
    "по",
];

pub const JAPANESE: &[&str] = &[
    "字幕",
    "は",
    "日本語",
    "の",
    "見出し",
    "を",
    "読む",
    "です",
    "鍵",
    "と",
    "値",
    "長さ",
    "順序",
    "に",
    "書く",
    "言語",
    "画面",
    "文字",
    "が",
    "ある",
    "、",
    "。",
    "テキスト",
    "フレーム",
];

pub const EMOJI: &[&str] = &[
    "😀",
    "🎬",
    "📺",
    "🔑",
    "🗝",
    "👩\u{200D}🚀",
    "🇯🇵",
    "👍🏽",
    "🎧",
    "💬",
    "🌍",
    "🧩",
    "✅",
    "🔒",
    "🦊",
];

/// A text of exactly `size` bytes: words, with `between` behind each.
fn text(words: &[&str], between: &str, size: usize, seed: u64) -> Vec<u8> {
    let mut random = Random::new(seed);
    let mut text = String::new();
    while text.len() < size {
        text.push_str(random.pick(words));
        text.push_str(between);
    }
    let mut end = size;
    while !text.is_char_boundary(end) {
        end -= 1;
    }
    text.truncate(end);
    let mut bytes = text.into_bytes();
    bytes.resize(size, b' ');
    bytes
}

/// `count` texts of `size` bytes, one behind the other.
pub fn texts(words: &[&str], between: &str, size: usize, count: usize) -> Vec<u8> {
    let mut bytes = Vec::new();
    for seed in 0..count as u64 {
        bytes.extend(text(words, between, size, seed));
    }
    bytes
}
