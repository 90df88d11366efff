//! Stands in for `cspuz_rs::serializer`.

pub struct Context {
    pub height: Option<usize>,
    pub width: Option<usize>,
}

impl Context {
    pub fn sized(_height: usize, _width: usize) -> Context {
        unimplemented!()
    }
}

pub trait Combinator<T> {
    fn serialize(&self, ctx: &Context, input: &[T]) -> Option<(usize, Vec<u8>)>;
    fn deserialize(&self, ctx: &Context, input: &[u8]) -> Option<(usize, Vec<T>)>;
}

/// A combinator without a body for the values that the original uses it for.
macro_rules! combinator {
    ([$($parameter:tt)*] $combinator:ty, $value:ty, [$($bound:tt)*]) => {
        impl<$($parameter)*> Combinator<$value> for $combinator
        where
            $($bound)*
        {
            fn serialize(&self, _ctx: &Context, _input: &[$value]) -> Option<(usize, Vec<u8>)> {
                unimplemented!()
            }

            fn deserialize(&self, _ctx: &Context, _input: &[u8]) -> Option<(usize, Vec<$value>)> {
                unimplemented!()
            }
        }
    };
}

pub struct MultiDigit;

impl MultiDigit {
    pub fn new(_base: i32, _digits: usize) -> MultiDigit {
        unimplemented!()
    }
}

combinator!([] MultiDigit, i32, []);

pub struct Map<S, F, G>(S, F, G);

impl<S, F, G> Map<S, F, G> {
    pub fn new(_base: S, _to: F, _from: G) -> Map<S, F, G> {
        unimplemented!()
    }
}

combinator!(
    [S, F, G, A, B] Map<S, F, G>, A,
    [S: Combinator<B>, F: Fn(A) -> Option<B>, G: Fn(B) -> Option<A>]
);

pub struct ContextBasedGrid<S>(S);

impl<S> ContextBasedGrid<S> {
    pub fn new(_base: S) -> ContextBasedGrid<S> {
        unimplemented!()
    }
}

combinator!([S, T] ContextBasedGrid<S>, Vec<Vec<T>>, [S: Combinator<T>]);

pub struct Size<S>(S);

impl<S> Size<S> {
    pub fn new(_base: S) -> Size<S> {
        unimplemented!()
    }
}

combinator!([S, T] Size<S>, T, [S: Combinator<T>]);

pub struct Tuple3<S1, S2, S3>(S1, S2, S3);

impl<S1, S2, S3> Tuple3<S1, S2, S3> {
    pub fn new(_first: S1, _second: S2, _third: S3) -> Tuple3<S1, S2, S3> {
        unimplemented!()
    }
}

combinator!(
    [S1, S2, S3, A, B, C] Tuple3<S1, S2, S3>, (A, B, C),
    [S1: Combinator<A>, S2: Combinator<B>, S3: Combinator<C>]
);

pub fn from_base36(_digit: u8) -> Option<i32> {
    unimplemented!()
}

pub fn to_base36(_number: i32) -> u8 {
    unimplemented!()
}

pub fn problem_to_url_with_context<T, C: Combinator<T>>(
    _combinator: C,
    _puzzle: &str,
    _problem: T,
    _ctx: &Context,
) -> Option<String> {
    unimplemented!()
}

pub fn url_to_problem<T, C: Combinator<T>>(
    _combinator: C,
    _puzzles: &[&str],
    _url: &str,
) -> Option<T> {
    unimplemented!()
}
