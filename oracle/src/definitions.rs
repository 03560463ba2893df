//! A third side: the definitions of crates/term_parser/specs and crates/parser/specs, word for word and under their
//! names, so that they are compared with the original before anything is proved to follow them. Lists are slices and
//! vectors; a refusal is its number.

use crate::tokens::Row;

// Source.antt

#[derive(Clone, Copy)]
pub(crate) struct Place {
    pub start: u32,
    pub length: u32,
}

/// `Source one`; `Source many` is a vector.
pub(crate) enum Source {
    Numeral(Place, u128),
    Metavariable(Place),
    Name(Place),
    Application(Place, Vec<Source>),
}

pub(crate) struct Clause {
    pub patterns: Vec<Source>,
    pub body: Source,
}

pub(crate) struct Binders {
    names: Vec<Place>,
    sort: Place,
}

pub(crate) enum Tactic {
    Auto,
    Induction(Place),
}

pub(crate) enum Declaration {
    Sort(Place),
    Ctor(Place, Vec<Place>),
    Pred(Place, Vec<Place>),
    Rule(Place, Vec<Source>),
    Def(Place, Vec<Place>, Vec<Clause>),
    Theorem(Place, Vec<Binders>, Vec<Source>, Tactic),
    Eval(Source),
    Check(Source),
}

// Parsing.antt

type Tokens<'a> = &'a [Row];

enum Parsed<A> {
    Parsed(A, usize),
    Absent,
    Refused(u32, u32),
}

use Parsed::{Absent, Parsed as Item, Refused};

fn drop_first(n: usize, ts: Tokens) -> Tokens {
    &ts[n.min(ts.len())..]
}

fn token_of(ts: Tokens) -> Row {
    ts.first().copied().unwrap_or([0; 4])
}

fn kind_of(ts: Tokens) -> u32 {
    token_of(ts)[0]
}

fn place_of(ts: Tokens) -> Place {
    Place { start: token_of(ts)[1], length: token_of(ts)[2] }
}

fn line_of(last: u32, ts: Tokens) -> u32 {
    ts.first().map_or(last, |t| t[3])
}

fn last_line(ts: Tokens) -> u32 {
    token_of(drop_first(ts.len().saturating_sub(1), ts))[3]
}

fn plus<A>(n: usize, r: Parsed<A>) -> Parsed<A> {
    match r {
        Item(a, m) => Item(a, n + m),
        other => other,
    }
}

fn follow<'a, A, B>(first: Parsed<A>, ts: Tokens<'a>, next: impl FnOnce(A, Tokens<'a>) -> Parsed<B>) -> Parsed<B> {
    match first {
        Item(a, n) => plus(n, next(a, drop_first(n, ts))),
        Absent => Absent,
        Refused(r, l) => Refused(r, l),
    }
}

fn required<A>(r: u32, l: u32, item: Parsed<A>) -> Parsed<A> {
    match item {
        Absent => Refused(r, l),
        other => other,
    }
}

fn sign_of(last: u32, kind: u32, ts: Tokens) -> Parsed<()> {
    if kind_of(ts) == kind { Item((), 1) } else { Refused(8, line_of(last, ts)) }
}

fn behind<'a, A>(kind: u32, item: impl Fn(Tokens<'a>) -> Parsed<A>, ts: Tokens<'a>) -> Parsed<A> {
    if kind_of(ts) == kind { plus(1, item(drop_first(1, ts))) } else { Absent }
}

/// The recursion over the tokens is a loop here, which starts with k and n at 0 as all uses do.
fn repeat<'a, A>(item: impl Fn(Tokens<'a>) -> Parsed<A>, mut ts: Tokens<'a>, mut done: Vec<A>) -> Parsed<Vec<A>> {
    let (mut k, mut n) = (0_usize, 0);
    loop {
        if ts.is_empty() {
            return match item(ts) {
                Item(..) | Absent => Item(done, n),
                Refused(r, l) => Refused(r, l),
            };
        }
        if k > 0 {
            k -= 1;
        } else {
            match item(ts) {
                Item(a, m) => {
                    k = m.saturating_sub(1);
                    n += m;
                    done.push(a);
                }
                Absent => return Item(done, n),
                Refused(r, l) => return Refused(r, l),
            }
        }
        ts = &ts[1..];
    }
}

// Grammar.antt

/// `part_of` of the words' specification.
pub(crate) fn part_of(text: &[u8], Place { start, length }: Place) -> &[u8] {
    text.get(start as usize..start as usize + length as usize).unwrap_or(&[])
}

/// `value` of `numeral_of`; from 2^64 on a number need not be exact.
fn value_at(text: &[u8], ts: Tokens) -> u128 {
    let word = part_of(text, place_of(ts));
    let value_from = |v: u128, c: &u8| v.saturating_mul(10).saturating_add(u128::from(c.saturating_sub(48)));
    let all_digits = word.iter().all(|c| (48..=57).contains(c));
    let value = word.iter().fold(0, value_from);
    if !word.is_empty() && all_digits && value < 1 << 64 { value } else { 1 << 64 }
}

fn applied(line: u32, t: Source, args: Vec<Source>) -> Parsed<Source> {
    match t {
        t if args.is_empty() => Item(t, 0),
        Source::Name(f) => Item(Source::Application(f, args), 0),
        _ => Refused(11, line),
    }
}

fn equated(line: u32, t: Source, r: Source) -> Parsed<Source> {
    match t {
        Source::Application(f, mut ts) => {
            ts.push(r);
            Item(Source::Application(f, ts), 0)
        }
        Source::Name(f) => Item(Source::Application(f, vec![r]), 0),
        _ => Refused(12, line),
    }
}

fn name_of(last: u32, ts: Tokens) -> Parsed<Place> {
    if kind_of(ts) == 12 { Item(place_of(ts), 1) } else { Refused(9, line_of(last, ts)) }
}

/// The parameters of the modules in Grammar.antt and Declarations.antt.
#[derive(Clone, Copy)]
struct Of<'t> {
    text: &'t [u8],
    last: u32,
}

type Inner<'i> = &'i dyn Fn(Tokens) -> Parsed<Source>;

impl Of<'_> {
    fn atom_of(self, inner: Inner, ts: Tokens) -> Parsed<Source> {
        match kind_of(ts) {
            12 => Item(Source::Name(place_of(ts)), 1),
            13 => Item(Source::Metavariable(place_of(ts)), 1),
            14 => Item(Source::Numeral(place_of(ts), value_at(self.text, ts)), 1),
            18 => inner(ts),
            _ => Absent,
        }
    }

    fn app_of(self, inner: Inner, ts: Tokens) -> Parsed<Source> {
        follow(required(10, line_of(self.last, ts), self.atom_of(inner, ts)), ts, |t, us| {
            let more = repeat(|vs| self.atom_of(inner, vs), us, vec![]);
            follow(more, us, |args, vs| applied(line_of(self.last, vs), t, args))
        })
    }

    fn term_of(self, inner: Inner, ts: Tokens) -> Parsed<Source> {
        follow(self.app_of(inner, ts), ts, |t, us| {
            if kind_of(us) != 23 {
                return Item(t, 0);
            }
            let vs = drop_first(1, us);
            plus(1, follow(self.app_of(inner, vs), vs, |r, ws| equated(line_of(self.last, ws), t, r)))
        })
    }

    fn parenthesis(self, left: usize, ts: Tokens) -> Parsed<Source> {
        if left == 0 {
            return Refused(7, line_of(self.last, ts));
        }
        let (inner, us) = (|ws: Tokens| self.parenthesis(left - 1, ws), drop_first(1, ts));
        plus(1, follow(self.term_of(&inner, us), us, |t, vs| follow(sign_of(self.last, 19, vs), vs, |_, _| Item(t, 0))))
    }
}

// Declarations.antt

fn separated<'a, A>(kind: u32, item: impl Fn(Tokens<'a>) -> Parsed<A>, ts: Tokens<'a>) -> Parsed<Vec<A>> {
    follow(item(ts), ts, |a, us| repeat(|vs| behind(kind, &item, vs), us, vec![a]))
}

fn unless<'a, A>(kind: u32, item: impl Fn(Tokens<'a>) -> Parsed<A>, ts: Tokens<'a>) -> Parsed<A> {
    if kind_of(ts) == kind { Absent } else { item(ts) }
}

fn ends_in_prop(text: &[u8], places: &[Place]) -> bool {
    places.last().is_some_and(|place| part_of(text, *place) == [80, 114, 111, 112])
}

pub(crate) struct Declared {
    pub line: u32,
    pub declaration: Declaration,
}

impl Of<'_> {
    fn name(self, ts: Tokens) -> Parsed<Place> {
        name_of(self.last, ts)
    }

    fn term(self, ts: Tokens) -> Parsed<Source> {
        self.term_of(&|us| self.parenthesis(64, us), ts)
    }

    fn app(self, ts: Tokens) -> Parsed<Source> {
        self.app_of(&|us| self.parenthesis(64, us), ts)
    }

    fn sign(self, kind: u32, ts: Tokens) -> Parsed<()> {
        sign_of(self.last, kind, ts)
    }

    fn arrows_of(self, ts: Tokens) -> Parsed<Vec<Place>> {
        separated(15, |us| self.name(us), ts)
    }

    fn judgments_of(self, ts: Tokens) -> Parsed<Vec<Source>> {
        separated(15, |us| self.term(us), ts)
    }

    fn patterns_of(self, ts: Tokens) -> Parsed<Vec<Source>> {
        if kind_of(ts) == 16 { Item(vec![], 0) } else { separated(21, |us| self.app(us), ts) }
    }

    fn clause_of(self, ts: Tokens) -> Parsed<Clause> {
        let clause = |ts| {
            follow(self.patterns_of(ts), ts, |patterns, us| {
                follow(self.sign(16, us), us, |_, vs| {
                    follow(self.app(vs), vs, |body, _| Item(Clause { patterns, body }, 0))
                })
            })
        };
        behind(22, clause, ts)
    }

    fn binders_names(self, ts: Tokens) -> Parsed<Vec<Place>> {
        follow(self.name(ts), ts, |x, us| repeat(|vs| unless(20, |ws| self.name(ws), vs), us, vec![x]))
    }

    fn binders_of(self, ts: Tokens) -> Parsed<Binders> {
        let binders = |ts| {
            follow(self.binders_names(ts), ts, |names, us| {
                follow(self.sign(20, us), us, |_, vs| {
                    follow(self.name(vs), vs, |sort, ws| {
                        follow(self.sign(19, ws), ws, |_, _| Item(Binders { names, sort }, 0))
                    })
                })
            })
        };
        behind(18, binders, ts)
    }

    fn by_of(self, ts: Tokens) -> Parsed<Tactic> {
        let after = drop_first(2, ts);
        match (kind_of(ts), kind_of(drop_first(1, ts))) {
            (7, 8) => Item(Tactic::Auto, 2),
            (7, 9) => plus(2, follow(self.name(after), after, |x, _| Item(Tactic::Induction(x), 0))),
            _ => Refused(15, line_of(self.last, ts)),
        }
    }

    fn tactic_of(self, ts: Tokens) -> Parsed<Tactic> {
        if kind_of(ts) == 17 { plus(1, self.by_of(drop_first(1, ts))) } else { Item(Tactic::Auto, 0) }
    }

    fn titled<'a, A>(self, rest: impl FnOnce(Place, Tokens<'a>) -> Parsed<A>, ts: Tokens<'a>) -> Parsed<A> {
        follow(self.name(ts), ts, |n, us| follow(self.sign(20, us), us, |_, vs| rest(n, vs)))
    }

    fn sort_of(self, ts: Tokens) -> Parsed<Declaration> {
        follow(self.name(ts), ts, |n, _| Item(Declaration::Sort(n), 0))
    }

    fn ctor_of(self, ts: Tokens) -> Parsed<Declaration> {
        self.titled(|n, us| follow(self.arrows_of(us), us, |ss, _| Item(Declaration::Ctor(n, ss), 0)), ts)
    }

    fn pred_of(self, ts: Tokens) -> Parsed<Declaration> {
        let rest = |n, ts| {
            follow(self.arrows_of(ts), ts, |mut ss, us| {
                if !ends_in_prop(self.text, &ss) {
                    return Refused(14, line_of(self.last, us));
                }
                ss.pop();
                Item(Declaration::Pred(n, ss), 0)
            })
        };
        self.titled(rest, ts)
    }

    fn rule_of(self, ts: Tokens) -> Parsed<Declaration> {
        self.titled(|n, us| follow(self.judgments_of(us), us, |js, _| Item(Declaration::Rule(n, js), 0)), ts)
    }

    fn def_of(self, ts: Tokens) -> Parsed<Declaration> {
        let rest = |n, ts| {
            follow(self.arrows_of(ts), ts, |ss, us| {
                follow(repeat(|vs| self.clause_of(vs), us, vec![]), us, |cs, _| Item(Declaration::Def(n, ss, cs), 0))
            })
        };
        self.titled(rest, ts)
    }

    fn theorem_of(self, ts: Tokens) -> Parsed<Declaration> {
        follow(self.name(ts), ts, |n, us| {
            follow(repeat(|vs| self.binders_of(vs), us, vec![]), us, |bs, vs| {
                follow(self.sign(20, vs), vs, |_, ws| {
                    follow(self.judgments_of(ws), ws, |js, xs| {
                        follow(self.tactic_of(xs), xs, |t, _| Item(Declaration::Theorem(n, bs, js, t), 0))
                    })
                })
            })
        })
    }

    fn eval_of(self, ts: Tokens) -> Parsed<Declaration> {
        follow(self.term(ts), ts, |t, _| Item(Declaration::Eval(t), 0))
    }

    fn check_of(self, ts: Tokens) -> Parsed<Declaration> {
        follow(self.term(ts), ts, |t, _| Item(Declaration::Check(t), 0))
    }

    fn body_of(self, k: u32, ts: Tokens, us: Tokens) -> Parsed<Declaration> {
        match k {
            1 => self.sort_of(us),
            2 => self.ctor_of(us),
            3 => self.pred_of(us),
            4 => self.rule_of(us),
            5 => self.def_of(us),
            6 => self.theorem_of(us),
            10 => self.eval_of(us),
            11 => self.check_of(us),
            7..=9 => Refused(16, line_of(self.last, us)),
            _ => Refused(13, line_of(self.last, ts)),
        }
    }

    fn declaration_of(self, ts: Tokens) -> Parsed<Declared> {
        let [t, us @ ..] = ts else { return Absent };
        plus(1, follow(self.body_of(t[0], ts, us), us, |declaration, _| Item(Declared { line: t[3], declaration }, 0)))
    }
}

fn parse_of(text: &[u8], ts: Tokens) -> Parsed<Vec<Declared>> {
    let of = Of { text, last: last_line(ts) };
    repeat(|us| of.declaration_of(us), ts, vec![])
}

// Rows.antt

fn row(kind: u32, Place { start, length }: Place, k: u32) -> Row {
    [kind, start, length, k]
}

fn rows_of(source: &Source) -> Vec<Row> {
    match source {
        Source::Numeral(p, v) => vec![row(14, *p, (*v).min(4_294_967_295) as u32)],
        Source::Metavariable(p) => vec![row(13, *p, 0)],
        Source::Name(p) => vec![row(12, *p, 0)],
        Source::Application(p, ts) => [vec![row(24, *p, ts.len() as u32)], rows_of_all(rows_of, ts)].concat(),
    }
}

fn rows_of_all<A>(rows: impl Fn(&A) -> Vec<Row>, items: &[A]) -> Vec<Row> {
    items.iter().flat_map(rows).collect()
}

fn name_rows(p: &Place) -> Vec<Row> {
    vec![row(12, *p, 0)]
}

fn clause_rows(c: &Clause) -> Vec<Row> {
    [vec![[25, 0, 0, c.patterns.len() as u32]], rows_of_all(rows_of, &c.patterns), rows_of(&c.body)].concat()
}

fn binders_rows(b: &Binders) -> Vec<Row> {
    [vec![row(26, b.sort, b.names.len() as u32)], rows_of_all(name_rows, &b.names)].concat()
}

fn tactic_rows(t: &Tactic) -> Vec<Row> {
    match t {
        Tactic::Auto => vec![],
        Tactic::Induction(p) => name_rows(p),
    }
}

pub(crate) fn declared_rows(Declared { line, declaration }: &Declared) -> Vec<Row> {
    let head = |kind, m: usize, n: usize| vec![[kind, *line, m as u32, n as u32]];
    match declaration {
        Declaration::Sort(n) => [head(1, 0, 0), name_rows(n)].concat(),
        Declaration::Ctor(n, ss) => [head(2, ss.len(), 0), name_rows(n), rows_of_all(name_rows, ss)].concat(),
        Declaration::Pred(n, ss) => [head(3, ss.len(), 0), name_rows(n), rows_of_all(name_rows, ss)].concat(),
        Declaration::Rule(n, js) => [head(4, js.len(), 0), name_rows(n), rows_of_all(rows_of, js)].concat(),
        Declaration::Def(n, ss, cs) => {
            let (sorts, clauses) = (rows_of_all(name_rows, ss), rows_of_all(clause_rows, cs));
            [head(5, ss.len(), cs.len()), name_rows(n), sorts, clauses].concat()
        }
        Declaration::Theorem(n, bs, js, t) => {
            let (binders, judgments) = (rows_of_all(binders_rows, bs), rows_of_all(rows_of, js));
            let tactic = tactic_rows(t);
            [head(6, bs.len(), js.len()), vec![row(12, *n, tactic.len() as u32)], binders, judgments, tactic].concat()
        }
        Declaration::Eval(t) => [head(10, 0, 0), rows_of(t)].concat(),
        Declaration::Check(t) => [head(11, 0, 0), rows_of(t)].concat(),
    }
}

/// Declarations and tokens taken, or number and line of the refusal: what `parse_of` comes to on the tokens of a text.
pub(crate) fn declarations(text: &[u8], tokens: &[Row]) -> Result<(Vec<Declared>, usize), (u32, u32)> {
    match parse_of(text, tokens) {
        Item(declared, taken) => Ok((declared, taken)),
        Absent => panic!("`parseOf` is never absent"),
        Refused(number, line) => Err((number, line)),
    }
}

/// The same with the number of declarations and their rows.
pub fn defined(text: &[u8], tokens: &[Row]) -> Result<(usize, usize, Vec<Row>), (u32, u32)> {
    let (declared, taken) = declarations(text, tokens)?;
    Ok((declared.len(), taken, rows_of_all(declared_rows, &declared)))
}
