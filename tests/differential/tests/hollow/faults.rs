//! Lists of what can be wrong.

/// Defines faults once, as cases and as a list of all that are one.
macro_rules! faults {
    ($faults:ident: $($(#[$about:meta])* $fault:ident,)*) => {
        #[derive(Clone, Copy, Debug, PartialEq, Eq)]
        pub enum $faults {
            None,
            $($(#[$about])* $fault,)*
        }

        impl $faults {
            /// All that are one.
            pub const HOLLOW: &[$faults] = &[$($faults::$fault,)*];
        }
    };
}

pub(crate) use faults;
