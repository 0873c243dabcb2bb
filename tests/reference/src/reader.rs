//! The book reader of document 01, item by item. A fault is its number; the line is added by the caller.

use crate::{Book, End, Form, Path, Target, Term};

type Read<T> = Result<T, u8>;

pub const NODES: usize = 0;
pub const LINKS: usize = 1;
pub const TYPES: usize = 2;
pub const LANGS: usize = 3;
pub const SHAPES: usize = 4;
pub const ROOM: [usize; 5] = [1024, 256, 32, 32, 64];

struct Cursor<'a> {
    text: &'a [u8],
    at: usize,
    open: usize,
    forms: usize,
    paths: usize,
    items: usize,
}

pub fn read(text: &[u8]) -> Result<Book, (u8, usize)> {
    if text.len() > 65536 {
        return Err((1, 0));
    }
    let mut book = Book::default();
    book.pools[LINKS].push(b"a".to_vec());
    book.pools[TYPES].push(b"langstring".to_vec());
    let mut c = Cursor { text, at: 0, open: 0, forms: 0, paths: 0, items: 0 };
    let mut line = 0;
    while c.at < text.len() {
        line += 1;
        c.line(&mut book).map_err(|fault| (fault, line))?;
    }
    Ok(book)
}

fn is_name(word: &[u8]) -> bool {
    (1..=31).contains(&word.len()) && word.iter().all(|b| matches!(b, b'a'..=b'z' | b'0'..=b'9' | b'_' | b'-'))
}

fn decimal(word: &[u8]) -> bool {
    !word.is_empty() && word.iter().all(u8::is_ascii_digit) && (word[0] != b'0' || word.len() == 1)
}

impl<'a> Cursor<'a> {
    fn peek(&self) -> u8 {
        self.text.get(self.at).copied().unwrap_or(0)
    }

    /// the longest run of bytes other than space, brackets and LF
    fn word(&mut self) -> &'a [u8] {
        let from = self.at;
        while self.at < self.text.len() && !matches!(self.text[self.at], b' ' | b'(' | b')' | b'\n') {
            self.at += 1;
        }
        &self.text[from..self.at]
    }

    fn expect(&mut self, b: u8) -> Read<()> {
        if self.at < self.text.len() && self.text[self.at] == b {
            self.at += 1;
            Ok(())
        } else {
            Err(2)
        }
    }

    fn name(&mut self, pool: usize) -> Read<&'a [u8]> {
        let word = self.word();
        if !is_name(word) || (pool == LINKS && word == b"id") {
            return Err(2);
        }
        Ok(word)
    }

    fn used(&mut self, book: &Book, pool: usize) -> Read<usize> {
        let word = self.name(pool)?;
        book.pools[pool].iter().position(|n| n == word).ok_or(5)
    }

    fn new_name(&mut self, book: &Book, pool: usize) -> Read<Vec<u8>> {
        let word = self.name(pool)?;
        if book.pools[pool].iter().any(|n| n == word) {
            return Err(6);
        }
        if book.pools[pool].len() >= ROOM[pool] {
            return Err(7);
        }
        Ok(word.to_vec())
    }

    fn value(&mut self) -> Read<i64> {
        let word = self.word();
        let digits = word.strip_prefix(b"-").unwrap_or(word);
        if !decimal(digits) || word == b"-0" {
            return Err(2);
        }
        std::str::from_utf8(word).unwrap().parse().map_err(|_| 3)
    }

    fn low(&mut self) -> Read<usize> {
        let word = self.word();
        if !decimal(word) {
            return Err(2);
        }
        match std::str::from_utf8(word).unwrap().parse::<usize>() {
            Ok(n) if n <= 1024 => Ok(n),
            _ => Err(3),
        }
    }

    fn high(&mut self) -> Read<Option<usize>> {
        let from = self.at;
        if self.word() == b"*" {
            return Ok(None);
        }
        self.at = from;
        self.low().map(Some)
    }

    /// the word of a bracket that opens here: its place among those known
    fn head(&mut self, known: &[&str]) -> Read<usize> {
        self.expect(b'(')?;
        let word = self.word();
        let k = known.iter().position(|w| w.as_bytes() == word).ok_or(2)?;
        if self.open >= 32 {
            return Err(4);
        }
        self.open += 1;
        Ok(k)
    }

    fn close(&mut self) -> Read<()> {
        self.expect(b')')?;
        self.open -= 1;
        Ok(())
    }

    fn line(&mut self, book: &mut Book) -> Read<()> {
        self.open = 0;
        let k = self.head(&["link", "type", "lang", "thing", "blank", "number", "text", "words", "fact", "shape", "rule"])?;
        self.expect(b' ')?;
        match k {
            0..=2 => {
                let pool = [LINKS, TYPES, LANGS][k];
                let name = self.new_name(book, pool)?;
                self.end_line()?;
                book.pools[pool].push(name);
            }
            3..=7 => {
                let name = self.new_name(book, NODES)?;
                let term = self.term(book, k)?;
                self.end_line()?;
                book.pools[NODES].push(name);
                book.terms.push(term);
            }
            8 => {
                let s = self.used(book, NODES)?;
                if !matches!(book.terms[s], Term::Thing | Term::Blank) {
                    return Err(2);
                }
                self.expect(b' ')?;
                let p = self.used(book, LINKS)?;
                self.expect(b' ')?;
                let o = self.used(book, NODES)?;
                self.close()?;
                if book.facts.len() >= 4096 {
                    return Err(7);
                }
                self.expect(b'\n')?;
                book.facts.push((s, p, o));
            }
            9 => {
                let name = self.new_name(book, SHAPES)?;
                self.expect(b' ')?;
                let form = self.form(book)?;
                self.end_line()?;
                book.pools[SHAPES].push(name);
                book.shapes.push(form);
            }
            _ => {
                let s = self.used(book, SHAPES)?;
                self.expect(b' ')?;
                let target = self.target(book)?;
                self.close()?;
                if book.rules.len() >= 32 {
                    return Err(7);
                }
                self.expect(b'\n')?;
                book.rules.push((s, target));
            }
        }
        Ok(())
    }

    fn end_line(&mut self) -> Read<()> {
        self.close()?;
        self.expect(b'\n')
    }

    fn literal_type(&mut self, book: &Book) -> Read<usize> {
        self.expect(b' ')?;
        match self.used(book, TYPES)? {
            0 => Err(2),
            t => Ok(t),
        }
    }

    fn term(&mut self, book: &Book, k: usize) -> Read<Term> {
        Ok(match k {
            3 => Term::Thing,
            4 => Term::Blank,
            5 => {
                let t = self.literal_type(book)?;
                self.expect(b' ')?;
                Term::Number(t, self.value()?)
            }
            6 => Term::Text(self.literal_type(book)?),
            _ => {
                self.expect(b' ')?;
                Term::Words(self.used(book, LANGS)?)
            }
        })
    }

    fn target(&mut self, book: &Book) -> Read<Target> {
        let k = self.head(&["node", "subjects", "objects", "class"])?;
        self.expect(b' ')?;
        let target = match k {
            0 => Target::Node(self.used(book, NODES)?),
            1 => Target::Subjects(self.used(book, LINKS)?),
            2 => Target::Objects(self.used(book, LINKS)?),
            _ => Target::Class(self.used(book, NODES)?),
        };
        self.close()?;
        Ok(target)
    }

    /// counts a path entry as it begins
    fn begin_path(&mut self) -> Read<()> {
        self.paths += 1;
        if self.paths > 128 {
            Err(7)
        } else {
            Ok(())
        }
    }

    /// counts a form entry as it begins
    fn begin_form(&mut self) -> Read<()> {
        self.forms += 1;
        if self.forms > 112 {
            Err(7)
        } else {
            Ok(())
        }
    }

    /// reads a path and stores its entry as it ends; the entry's number
    fn path(&mut self, book: &mut Book) -> Read<usize> {
        let path = if self.peek() != b'(' {
            let p = self.used(book, LINKS)?;
            self.begin_path()?;
            Path::Link(p)
        } else {
            const WORDS: [&str; 5] = ["inv", "seq", "alt", "star", "plus"];
            let k = self.head(&WORDS)?;
            self.begin_path()?;
            self.expect(b' ')?;
            let d = self.path(book)?;
            let path = match WORDS[k] {
                "inv" => Path::Inv(d),
                "star" => Path::Star(d),
                "plus" => Path::Plus(d),
                "seq" => Path::Seq(d, self.next_path(book)?),
                _ => Path::Alt(d, self.next_path(book)?),
            };
            self.close()?;
            path
        };
        book.paths.push(path);
        Ok(book.paths.len() - 1)
    }

    fn end(&mut self, book: &mut Book) -> Read<End> {
        let from = self.at;
        if self.word() == b"id" {
            return Ok(End::Id);
        }
        self.at = from;
        Ok(End::Along(self.path(book)?))
    }

    fn list(&mut self, book: &Book, pool: usize) -> Read<Vec<usize>> {
        let mut list = Vec::new();
        while self.peek() == b' ' {
            self.at += 1;
            let k = self.used(book, pool)?;
            if self.items >= 128 {
                return Err(7);
            }
            self.items += 1;
            list.push(k);
        }
        Ok(list)
    }

    /// reads a form and stores its entry as it ends; the entry's number
    fn form(&mut self, book: &mut Book) -> Read<usize> {
        const WORDS: [&str; 20] = [
            "is", "shape", "and", "or", "not", "kind", "datatype", "lang", "from", "above", "to", "below", "count", "all",
            "equal", "apart", "closed", "less", "lesseq", "onelang",
        ];
        let form = if self.peek() != b'(' {
            if self.word() != b"true" {
                return Err(2);
            }
            self.begin_form()?;
            Form::True
        } else {
            let k = self.head(&WORDS)?;
            self.begin_form()?;
            let form = match WORDS[k] {
                "lang" => Form::Lang(self.list(book, LANGS)?),
                "closed" => Form::Closed(self.list(book, LINKS)?),
                word => {
                    self.expect(b' ')?;
                    self.rest(book, word)?
                }
            };
            self.close()?;
            form
        };
        book.forms.push(form);
        Ok(book.forms.len() - 1)
    }

    fn next_path(&mut self, book: &mut Book) -> Read<usize> {
        self.expect(b' ')?;
        self.path(book)
    }

    fn next_form(&mut self, book: &mut Book) -> Read<usize> {
        self.expect(b' ')?;
        self.form(book)
    }

    fn next_link(&mut self, book: &Book) -> Read<usize> {
        self.expect(b' ')?;
        self.used(book, LINKS)
    }

    /// what stands after the word of a form and one space
    fn rest(&mut self, book: &mut Book, word: &str) -> Read<Form> {
        Ok(match word {
            "is" => Form::Is(self.used(book, NODES)?),
            "shape" => Form::Shape(self.used(book, SHAPES)?),
            "and" => Form::And(self.form(book)?, self.next_form(book)?),
            "or" => Form::Or(self.form(book)?, self.next_form(book)?),
            "not" => Form::Not(self.form(book)?),
            "kind" => match self.word() {
                b"thing" => Form::Kind(0),
                b"blank" => Form::Kind(1),
                b"literal" => Form::Kind(2),
                _ => return Err(2),
            },
            "datatype" => Form::Datatype(self.used(book, TYPES)?),
            "from" => Form::From(self.value()?),
            "above" => Form::Above(self.value()?),
            "to" => Form::To(self.value()?),
            "below" => Form::Below(self.value()?),
            "count" => {
                let lo = self.low()?;
                self.expect(b' ')?;
                let hi = self.high()?;
                self.expect(b' ')?;
                let path = self.path(book)?;
                Form::Count { path, form: self.next_form(book)?, lo, hi }
            }
            "all" => Form::All(self.path(book)?, self.next_form(book)?),
            "equal" => Form::Equal(self.end(book)?, self.next_link(book)?),
            "apart" => Form::Apart(self.end(book)?, self.next_link(book)?),
            "less" => Form::Less(self.path(book)?, self.next_link(book)?),
            "lesseq" => Form::Lesseq(self.path(book)?, self.next_link(book)?),
            _ => Form::Onelang(self.path(book)?),
        })
    }
}
