//! The expressions that the reference's `compile_predicate` names.

pub enum Expr {
    Zero,
    One,
    Test(u32, bool),
    TestNegation(Box<Expr>),
    Union(Box<Expr>, Box<Expr>),
    Intersect(Box<Expr>, Box<Expr>),
    Xor(Box<Expr>, Box<Expr>),
    Difference(Box<Expr>, Box<Expr>),
    Sequence(Box<Expr>, Box<Expr>),
}
