//! The macros that say where memory comes from, or where text goes.

/// `vec![in alloc; item; count]`.
#[macro_export]
macro_rules! vec_in {
    ($alloc:expr; $item:expr; $count:expr) => {
        $crate::vec::Vec::filled($alloc, $item, $count)
    };
    ($alloc:expr; $($item:expr),* $(,)?) => {
        $crate::vec::CollectIn::collect_in(::std::iter::IntoIterator::into_iter([$($item),*]), $alloc)
    };
}

/// `format!(in alloc; ..)`. A text of a few words: where even those find no memory the process ends, as Rust's does.
#[macro_export]
macro_rules! format_in {
    ($alloc:expr; $($text:tt)*) => {{
        let _: $crate::alloc::Global = $alloc;
        ::std::result::Result::<_, $crate::alloc::AllocError>::Ok($crate::string::String::from_std(::std::format!($($text)*)))
    }};
}

/// `eprintln!(rt; ..)`.
#[macro_export]
macro_rules! eprintln_to {
    ($runtime:expr; $($text:tt)*) => {{
        let _: &$crate::HostRuntime = &$runtime;
        ::std::io::Write::write_fmt(&mut ::std::io::stderr(), ::std::format_args!("{}\n", ::std::format_args!($($text)*)))
    }};
}

/// `println!(rt; ..)`.
#[macro_export]
macro_rules! println_to {
    ($runtime:expr; $($text:tt)*) => {{
        let _: &$crate::HostRuntime = &$runtime;
        ::std::io::Write::write_fmt(&mut ::std::io::stdout(), ::std::format_args!("{}\n", ::std::format_args!($($text)*)))
    }};
}
