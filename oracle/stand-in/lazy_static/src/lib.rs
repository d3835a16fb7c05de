//! Stands in for the crate `lazy_static`: a value made at its first use.

#[macro_export]
macro_rules! lazy_static {
    ($($vis:vis static ref $name:ident: $type:ty = $value:expr;)*) => {
        $($vis static $name: ::std::sync::LazyLock<$type> = ::std::sync::LazyLock::new(|| $value);)*
    };
}
