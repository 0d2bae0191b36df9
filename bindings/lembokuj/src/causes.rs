//! Causes of refusals as errors.

/// Gives an enum of causes a text for each, and makes it an error.
macro_rules! errors {
    ($name:ident { $($cause:ident => $text:literal,)* }) => {
        impl std::fmt::Display for $name {
            fn fmt(&self, f: &mut std::fmt::Formatter<'_>) -> std::fmt::Result {
                f.write_str(match self {
                    $($name::$cause => $text,)*
                })
            }
        }

        impl std::error::Error for $name {}
    };
}

pub(crate) use errors;
