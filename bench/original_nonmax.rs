// Stands for the crate `nonmax` where bench/original builds the original's reader: integers that are never the greatest of their type.
macro_rules! never_max {
    ($name:ident, $int:ty) => {
        #[derive(Debug, Clone, Copy, PartialEq, Eq, PartialOrd, Ord, Hash, Default)]
        pub struct $name($int);

        impl $name {
            pub const ZERO: Self = Self(0);

            pub const fn new(value: $int) -> Option<Self> {
                if value == <$int>::MAX { None } else { Some(Self(value)) }
            }

            pub const fn get(&self) -> $int {
                self.0
            }
        }
    };
}

never_max!(NonMaxU32, u32);
never_max!(NonMaxI32, i32);
