//! What the program `replay_paths` answers to a text of calls, streams and points: docs/REPLAY.md.

use oracle::vec2::Vec2;

use crate::stream::{point_words, segment_words, shape, Call, Record, Refusal, Stream};
use crate::words::{f32_word, parse_f32, words};

const VERBS: usize = 4096;
const FLOATS: usize = 16384;

#[derive(PartialEq)]
enum Kind {
    List,
    /// Made by hand; its buffers may still grow.
    Raw,
    /// Made by hand, and asked already.
    RawAsked,
}

pub struct Replay {
    current: Option<(Kind, Stream)>,
    pub out: Vec<String>,
}

fn singles<const N: usize>(words: &[&[u8]]) -> Option<[f32; N]> {
    let floats: Option<Vec<f32>> = words.iter().map(|w| parse_f32(w)).collect();
    floats?.try_into().ok()
}

fn numbers(words: &[&[u8]]) -> Option<[usize; 2]> {
    let numbers: Option<Vec<usize>> = words
        .iter()
        .map(|w| {
            if !w.iter().all(u8::is_ascii_digit) {
                return None;
            }
            std::str::from_utf8(w).ok()?.parse().ok()
        })
        .collect();
    numbers?.try_into().ok()
}

fn bytes(word: &[u8]) -> Option<Vec<u8>> {
    let digit = |b: &u8| match b {
        b'0'..=b'9' => Some(b - b'0'),
        b'a'..=b'f' => Some(b - b'a' + 10),
        _ => None,
    };
    if word.len() % 2 != 0 {
        return None;
    }
    let pairs = word.chunks(2);
    pairs
        .map(|p| Some(16 * digit(&p[0])? + digit(&p[1])?))
        .collect()
}

fn call(name: &[u8], words: &[&[u8]]) -> Option<Call> {
    let p = Vec2::new;
    Some(match name {
        b"move" => {
            let [x, y] = singles(words)?;
            Call::Move(p(x, y))
        }
        b"line" => {
            let [x, y] = singles(words)?;
            Call::Line(p(x, y))
        }
        b"quad" => {
            let [a, b, x, y] = singles(words)?;
            Call::Quad(p(a, b), p(x, y))
        }
        b"conic" => {
            let [a, b, x, y, w] = singles(words)?;
            Call::Conic(p(a, b), p(x, y), w)
        }
        b"cubic" => {
            let [a, b, c, d, x, y] = singles(words)?;
            Call::Cubic(p(a, b), p(c, d), p(x, y))
        }
        b"close" => {
            let [] = singles(words)?;
            Call::Close
        }
        b"outline" => Call::Outline(singles(words)?),
        _ => return None,
    })
}

fn contains(f: &[f32; 14]) -> Result<String, Refusal> {
    let shape = shape(f[..12].try_into().unwrap())?;
    let inside = shape.contains(Vec2::new(f[12], f[13]));
    Ok((inside as u8).to_string())
}

/// What is printed: the answer or the refusal.
fn text_of(answer: Result<String, Refusal>) -> String {
    answer.unwrap_or_else(|refusal| refusal)
}

fn build_answer(s: &mut Stream, call: Call) -> String {
    text_of(s.build(call).map(|word| {
        let counts = format!("ok {} {}", s.record.verbs, s.record.points);
        match word {
            Some(word) => format!("{counts} word {word:016x}"),
            None => counts,
        }
    }))
}

fn cursor_answer(s: &Stream, at: [usize; 2]) -> String {
    text_of(s.read(at).map(|r| {
        let [v, p] = r.next;
        let segment = match r.segment {
            Some((verb, points)) => segment_words(verb, &points),
            None => "end".to_string(),
        };
        format!("{segment} next {v} {p}")
    }))
}

fn box_answer(s: &Stream) -> String {
    text_of(s.bounds().map(|found| match found {
        None => "empty".to_string(),
        Some(b) => format!("box {}", b.map(f32_word).join(" ")),
    }))
}

impl Replay {
    pub fn new() -> Replay {
        Replay {
            current: None,
            out: Vec::new(),
        }
    }

    /// The segments of the current stream, and of a list its record.
    pub fn end_stream(&mut self) {
        let Some((kind, s)) = self.current.take() else {
            return;
        };
        let (segments, refusal) = s.segments();
        let lines = segments.iter().map(|(v, p)| segment_words(*v, p));
        self.out.extend(lines);
        if let Some(refusal) = refusal {
            self.out.push(refusal);
            return;
        }
        if kind == Kind::List {
            let r = s.record;
            let points = format!("{} {}", point_words(r.start), point_words(r.pen));
            self.out
                .push(format!("record {} {} {points}", r.verbs, r.points));
        }
        self.out.push("end".to_string());
    }

    fn begin(&mut self, kind: Kind, stream: Stream) {
        self.end_stream();
        self.current = Some((kind, stream));
    }

    fn list(&mut self) -> Option<&mut Stream> {
        match &mut self.current {
            Some((Kind::List, s)) => Some(s),
            _ => None,
        }
    }

    fn growing(&mut self) -> Option<&mut Stream> {
        match &mut self.current {
            Some((Kind::Raw, s)) => Some(s),
            _ => None,
        }
    }

    /// The current stream, asked for something.
    fn asked(&mut self) -> Option<&Stream> {
        let (kind, s) = self.current.as_mut()?;
        if *kind == Kind::Raw {
            *kind = Kind::RawAsked;
        }
        Some(s)
    }

    fn item(&mut self, name: &[u8], words: &[&[u8]]) -> Option<()> {
        match name {
            b"buffers" => {
                let [v, f] = numbers(words)?;
                if v > VERBS || f > FLOATS {
                    return None;
                }
                self.begin(Kind::List, Stream::fresh(v, f));
            }
            b"raw" => {
                let [v, p] = numbers(words)?;
                let mut s = Stream::fresh(0, 0);
                s.record = Record::new(v, p);
                self.begin(Kind::Raw, s);
            }
            b"record" => {
                let (counts, floats) = words.split_at_checked(2)?;
                let [verbs, points] = numbers(counts)?;
                let [a, b, c, d] = singles(floats)?;
                self.list()?.record = Record {
                    verbs,
                    points,
                    start: Vec2::new(a, b),
                    pen: Vec2::new(c, d),
                };
            }
            b"verbs" => {
                words.first()?;
                let s = self.growing()?;
                for w in words {
                    s.verbs.extend(bytes(w)?);
                }
                if s.verbs.len() > VERBS {
                    return None;
                }
            }
            b"floats" => {
                words.first()?;
                let s = self.growing()?;
                for w in words {
                    s.floats.push(parse_f32(w)?);
                }
                if s.floats.len() > FLOATS {
                    return None;
                }
            }
            b"cursor" => {
                let at = numbers(words)?;
                let answer = cursor_answer(self.asked()?, at);
                self.out.push(answer);
            }
            b"box" => {
                let [] = singles(words)?;
                let answer = box_answer(self.asked()?);
                self.out.push(answer);
            }
            b"contains" => {
                let answer = text_of(contains(&singles(words)?));
                self.out.push(answer);
            }
            _ => {
                let call = call(name, words)?;
                let answer = build_answer(self.list()?, call);
                self.out.push(answer);
            }
        }
        Some(())
    }

    /// One line; None where it is bad.
    pub fn line(&mut self, line: &[u8]) -> Option<()> {
        let words = words(line)?;
        match words.split_first() {
            None => Some(()),
            Some((name, rest)) => self.item(name, rest),
        }
    }
}
