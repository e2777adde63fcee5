//! From tokens to a value.
//!
//! Every token is judged when it becomes the current one, and only tokens
//! that can still lead to a text are taken, so the first fault met is the
//! first faulty token.  The only look ahead is the two tokens that tell a
//! head; it judges nothing.

use super::{Rules, Value};
use crate::answer::{
    Answer, BAD_VALUE, DEPTH_MAX, NEWER_FORM, NO_TOKEN, RETIRED_ARROW, TOO_DEEP, WRONG_PLACE,
};
use crate::token::{Form, Head, Kind, Lexed, Symbol, Token};

pub(crate) mod kind {
    pub const TEXT: u32 = 7;
    pub const NESTING: u32 = 8;
    pub const PAIR: u32 = 9;
    pub const TUPLE: u32 = 10;
    pub const LOT: u32 = 11;
    pub const ARRAY: u32 = 12;
    pub const SET: u32 = 13;
    pub const BAG: u32 = 14;
    pub const INTERVAL: u32 = 15;
}

pub(crate) mod role {
    pub const THIS: u32 = 1;
    pub const THAT_AFTER: u32 = 2;
    pub const THAT_BEFORE: u32 = 3;
    pub const NAME: u32 = 4;
    pub const VALUE: u32 = 5;
    pub const COUNT: u32 = 6;
    pub const LOW: u32 = 7;
    pub const HIGH: u32 = 8;
    pub const SINGLE: u32 = 9;
}

type Read<T> = Result<T, Answer>;
type Children = Vec<(u32, Value)>;

/// The value of a whole text.  The list ends with the end or with the place
/// of no token.
pub fn whole(rules: Rules, level: u32, tokens: &[Lexed]) -> Read<Value> {
    let mut parser = Parser {
        rules,
        level,
        tokens,
        next: 0,
        open: 0,
    };
    let value = parser.value()?;
    match parser.current()? {
        Lexed::End(_) => Ok(value),
        _ => parser.wrong_place(),
    }
}

/// A collection whose members are a value and perhaps a count.
#[derive(Clone, Copy)]
enum Counted {
    Array,
    Set,
    Bag,
}

impl Counted {
    /// None for a head beyond level 2.
    fn of(head: Head) -> Option<Counted> {
        match head {
            Head::Array => Some(Counted::Array),
            Head::Set => Some(Counted::Set),
            Head::Bag => Some(Counted::Bag),
            _ => None,
        }
    }

    fn kind(self) -> u32 {
        match self {
            Counted::Array => kind::ARRAY,
            Counted::Set => kind::SET,
            Counted::Bag => kind::BAG,
        }
    }

    fn takes_count(self, kind: Kind) -> bool {
        match self {
            Counted::Array | Counted::Bag => kind == Kind::Integer { signed: false },
            Counted::Set => matches!(kind, Kind::Boolean(_)),
        }
    }
}

struct Parser<'a> {
    rules: Rules,
    level: u32,
    tokens: &'a [Lexed],
    next: usize,
    /// Brackets open now.
    open: usize,
}

impl Parser<'_> {
    /// The current token or the end.  A byte that starts no token is refused
    /// as soon as it is looked at, before anything else is asked of it.
    fn current(&self) -> Read<Lexed> {
        match self.tokens[self.next] {
            Lexed::NoToken(place) => Err(Answer::refused(NO_TOKEN, place)),
            found => Ok(found),
        }
    }

    fn wrong_place<T>(&self) -> Read<T> {
        let place = self.tokens[self.next].first();
        Err(Answer::refused(WRONG_PLACE, place))
    }

    fn current_symbol(&self) -> Read<Option<Symbol>> {
        Ok(symbol_of(&self.current()?))
    }

    /// Takes the current token if it is this symbol; the end of it, then.
    fn take(&mut self, symbol: Symbol) -> Read<Option<usize>> {
        match self.current()? {
            Lexed::Token(token) if token.kind == Kind::Symbol(symbol) => {
                self.next += 1;
                Ok(Some(token.end))
            }
            _ => Ok(None),
        }
    }

    /// Takes this symbol, which must come now.
    fn expect(&mut self, symbol: Symbol) -> Read<usize> {
        match self.take(symbol)? {
            Some(end) => Ok(end),
            None => self.wrong_place(),
        }
    }

    /// Counts one more open bracket, whose place this is.
    fn enter(&mut self, place: usize) -> Read<()> {
        if self.open == DEPTH_MAX {
            return Err(Answer::refused(TOO_DEEP, place));
        }
        self.open += 1;
        Ok(())
    }

    /// Takes the closing bracket, which must come now; its end.
    fn close(&mut self, symbol: Symbol) -> Read<usize> {
        let end = self.expect(symbol)?;
        self.open -= 1;
        Ok(end)
    }

    /// The head that a `(` just taken begins, if the next two tokens make
    /// it one.
    fn head_ahead(&self) -> Option<Head> {
        let [word, colon] = self.tokens.get(self.next..self.next + 2)? else {
            return None;
        };
        match word {
            Lexed::Token(Token {
                kind: Kind::Text(Form::Word(Some(head))),
                ..
            }) if symbol_of(colon) == Some(Symbol::Colon) => Some(*head),
            _ => None,
        }
    }

    /// The value at a place for a value.
    fn value(&mut self) -> Read<Value> {
        let Lexed::Token(token) = self.current()? else {
            return self.wrong_place();
        };
        match token.kind {
            Kind::Later => Err(Answer::refused(NEWER_FORM, token.first)),
            Kind::Symbol(Symbol::Colons) => self.nesting(token.first),
            Kind::Symbol(Symbol::ParenOpen) => self.parenthesis(token.first),
            Kind::Symbol(Symbol::BraceOpen) => self.lot(token.first),
            Kind::Symbol(Symbol::BracketOpen) => self.interval(token.first),
            Kind::Symbol(_) => self.wrong_place(),
            _ => self.literal(token),
        }
    }

    /// The current token, a literal in its right place.
    fn literal(&mut self, token: Token) -> Read<Value> {
        if let Some(place) = token.bad {
            return Err(Answer::refused(BAD_VALUE, place));
        }
        self.next += 1;
        Ok(Value {
            kind: token.kind.number(),
            first: token.first,
            end: token.end,
            detail: literal_detail(token.kind),
            token: Some(token.kind),
            is_name: matches!(token.kind, Kind::Text(_)),
            children: Vec::new(),
        })
    }

    fn nesting(&mut self, first: usize) -> Read<Value> {
        let mut end = first;
        while self.take(Symbol::Colons)?.is_some() {
            end = self.nesting_part()?;
        }
        Ok(Value {
            is_name: true,
            ..node(kind::NESTING, first, end, Vec::new())
        })
    }

    /// The Text behind `::`; its end.
    fn nesting_part(&mut self) -> Read<usize> {
        match self.current()? {
            Lexed::Token(
                token @ Token {
                    kind: Kind::Text(_),
                    ..
                },
            ) => Ok(self.literal(token)?.end),
            _ => self.wrong_place(),
        }
    }

    /// Group, Pair, Tuple or head; `first` is the `(`.
    fn parenthesis(&mut self, first: usize) -> Read<Value> {
        self.next += 1;
        if let Some(head) = self.head_ahead() {
            return match Counted::of(head) {
                Some(counted) if self.level == 2 => self.counted(first, counted),
                _ => Err(Answer::refused(NEWER_FORM, first)),
            };
        }
        self.enter(first)?;
        match self.current_symbol()? {
            Some(Symbol::ParenClose) => self.tuple_end(first, Vec::new()),
            Some(Symbol::Comma) => {
                self.next += 1;
                let mut children = Vec::new();
                self.attribute(&mut children)?;
                self.tuple_rest(first, children)
            }
            _ => {
                let value = self.value()?;
                self.behind_first(first, value)
            }
        }
    }

    /// What follows the first value after `(` tells the forms apart.
    fn behind_first(&mut self, first: usize, value: Value) -> Read<Value> {
        match self.current_symbol()? {
            Some(Symbol::ParenClose) => {
                self.close(Symbol::ParenClose)?;
                Ok(Value {
                    is_name: false,
                    ..value
                })
            }
            Some(Symbol::Comma) => self.tuple_rest(first, vec![(role::VALUE, value)]),
            Some(Symbol::Colon) => self.behind_colon(first, value),
            Some(Symbol::ArrowRight | Symbol::ArrowLeft) => {
                let children = self.pairing(value)?;
                self.pair_end(first, children)
            }
            _ => self.wrong_place(),
        }
    }

    /// `(a:` is so far a Pair, and a Tuple too if `a` may be a name.
    fn behind_colon(&mut self, first: usize, before: Value) -> Read<Value> {
        self.next += 1;
        let after = self.value()?;
        if before.is_name && self.current_symbol()? == Some(Symbol::Comma) {
            return self.tuple_rest(first, vec![(role::NAME, before), (role::VALUE, after)]);
        }
        self.pair_end(first, vec![(role::THIS, before), (role::THAT_AFTER, after)])
    }

    /// The sign between two values, then the second one.
    fn pairing(&mut self, before: Value) -> Read<Children> {
        let (one, other) = match self.current_symbol()? {
            Some(Symbol::Colon | Symbol::ArrowRight) => (role::THIS, role::THAT_AFTER),
            Some(Symbol::ArrowLeft) => {
                self.arrow_left()?;
                (role::THAT_BEFORE, role::THIS)
            }
            _ => return self.wrong_place(),
        };
        self.next += 1;
        Ok(vec![(one, before), (other, self.value()?)])
    }

    /// The current token is an arrow `<-` that the old rules allow: no token
    /// before it was refused, and it is not in the wrong place.
    fn arrow_left(&self) -> Read<()> {
        match self.rules {
            Rules::Today => Err(Answer::refused(
                RETIRED_ARROW,
                self.tokens[self.next].first(),
            )),
            Rules::Old => Ok(()),
        }
    }

    fn pair_end(&mut self, first: usize, children: Children) -> Read<Value> {
        let end = self.close(Symbol::ParenClose)?;
        Ok(node(kind::PAIR, first, end, children))
    }

    fn tuple_end(&mut self, first: usize, children: Children) -> Read<Value> {
        let end = self.close(Symbol::ParenClose)?;
        Ok(node(kind::TUPLE, first, end, children))
    }

    /// Behind an attribute: the end, or a comma, which may be the last.
    fn tuple_rest(&mut self, first: usize, mut children: Children) -> Read<Value> {
        while self.take(Symbol::Comma)?.is_some()
            && self.current_symbol()? != Some(Symbol::ParenClose)
        {
            self.attribute(&mut children)?;
        }
        self.tuple_end(first, children)
    }

    fn attribute(&mut self, children: &mut Children) -> Read<()> {
        let mut value = self.value()?;
        if value.is_name && self.take(Symbol::Colon)?.is_some() {
            children.push((role::NAME, value));
            value = self.value()?;
        }
        children.push((role::VALUE, value));
        Ok(())
    }

    fn lot(&mut self, first: usize) -> Read<Value> {
        self.next += 1;
        self.enter(first)?;
        let mut children = Vec::new();
        let end = self.members(&mut |parser| parser.lot_member(&mut children))?;
        Ok(node(kind::LOT, first, end, children))
    }

    fn lot_member(&mut self, children: &mut Children) -> Read<()> {
        let value = self.value()?;
        match self.current_symbol()? {
            Some(Symbol::Colon | Symbol::ArrowRight | Symbol::ArrowLeft) => {
                children.extend(self.pairing(value)?);
            }
            _ => children.push((role::THIS, value)),
        }
        Ok(())
    }

    /// Array, Set or Bag; the `(` at `first` is taken, word and colon are
    /// known to follow.
    fn counted(&mut self, first: usize, counted: Counted) -> Read<Value> {
        self.enter(first)?;
        self.next += 2;
        let brace = self.current()?.first();
        self.expect(Symbol::BraceOpen)?;
        self.enter(brace)?;
        let mut children = Vec::new();
        self.members(&mut |parser| parser.counted_member(counted, &mut children))?;
        let end = self.close(Symbol::ParenClose)?;
        Ok(node(counted.kind(), first, end, children))
    }

    fn counted_member(&mut self, counted: Counted, children: &mut Children) -> Read<()> {
        let value = self.value()?;
        children.push((role::VALUE, value));
        if self.take(Symbol::Colon)?.is_some() {
            let count = self.count(counted)?;
            children.push((role::COUNT, count));
        }
        Ok(())
    }

    fn count(&mut self, counted: Counted) -> Read<Value> {
        match self.current()? {
            Lexed::Token(token) if counted.takes_count(token.kind) => self.literal(token),
            _ => self.wrong_place(),
        }
    }

    /// Members between braces, with one comma between each two and an
    /// optional leading and trailing one; the end behind `}`.
    fn members(&mut self, member: &mut dyn FnMut(&mut Self) -> Read<()>) -> Read<usize> {
        let leading = self.take(Symbol::Comma)?.is_some();
        if leading && self.take(Symbol::Comma)?.is_some() {
            // Leading and trailing comma of no members.
            return self.close(Symbol::BraceClose);
        }
        while self.current_symbol()? != Some(Symbol::BraceClose) {
            member(self)?;
            if self.take(Symbol::Comma)?.is_none() {
                break;
            }
        }
        self.close(Symbol::BraceClose)
    }

    fn interval(&mut self, first: usize) -> Read<Value> {
        if self.level == 1 {
            return Err(Answer::refused(NEWER_FORM, first));
        }
        self.next += 1;
        self.enter(first)?;
        let (detail, children) = self.interval_members()?;
        let end = self.close(Symbol::BracketClose)?;
        Ok(Value {
            detail,
            ..node(kind::INTERVAL, first, end, children)
        })
    }

    /// Detail and children of what stands between `[` and `]`.
    fn interval_members(&mut self) -> Read<(u32, Children)> {
        match self.current_symbol()? {
            Some(Symbol::BracketClose) => Ok((0, Vec::new())),
            Some(Symbol::Star) => {
                self.next += 1;
                Ok((10, Vec::new()))
            }
            Some(Symbol::ToClosed) => self.interval_high(8, Vec::new()),
            Some(Symbol::ToOpen) => self.interval_high(9, Vec::new()),
            _ => {
                let value = self.value()?;
                self.interval_rest(value)
            }
        }
    }

    /// What follows the first value.
    fn interval_rest(&mut self, value: Value) -> Read<(u32, Children)> {
        let detail = match self.current_symbol()? {
            Some(Symbol::BracketClose) => return Ok((1, vec![(role::SINGLE, value)])),
            Some(Symbol::ClosedClosed) => 2,
            Some(Symbol::ClosedOpen) => 3,
            Some(Symbol::OpenClosed) => 4,
            Some(Symbol::OpenOpen) => 5,
            Some(Symbol::FromClosed) => 6,
            Some(Symbol::FromOpen) => 7,
            Some(Symbol::Dots) => 11,
            _ => return self.wrong_place(),
        };
        let low = vec![(role::LOW, value)];
        if matches!(detail, 6 | 7) {
            self.next += 1;
            return Ok((detail, low));
        }
        self.interval_high(detail, low)
    }

    /// Takes the sign, then the high value.
    fn interval_high(&mut self, detail: u32, mut children: Children) -> Read<(u32, Children)> {
        self.next += 1;
        children.push((role::HIGH, self.value()?));
        Ok((detail, children))
    }
}

fn symbol_of(found: &Lexed) -> Option<Symbol> {
    match found {
        Lexed::Token(Token {
            kind: Kind::Symbol(symbol),
            ..
        }) => Some(*symbol),
        _ => None,
    }
}

fn node(kind: u32, first: usize, end: usize, children: Children) -> Value {
    Value {
        kind,
        first,
        end,
        detail: 0,
        token: None,
        is_name: false,
        children,
    }
}

/// The node table's detail, which is not the token's.
fn literal_detail(kind: Kind) -> u32 {
    match kind {
        Kind::Boolean(value) => u32::from(value),
        Kind::Text(Form::Quoted) => 1,
        Kind::Text(Form::Word(_)) => 2,
        Kind::Text(Form::CodePoint) => 3,
        _ => 0,
    }
}
