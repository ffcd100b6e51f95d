//! Stub: tables of illuminants, materials and the standard observer, not used by the model.
macro_rules! tables {
    ( $( $name:ident ),* ) => {
        $(
            pub mod $name {
                pub const SAMPLES: [f64; 95] = [1.0; 95];
            }
        )*
    }
}

pub mod illuminants {
    tables! { A, D50, D65, F2, F7, CORNELL }
}

pub mod materials {
    tables! { diamond_eta, glass_eta, mirror_eta, mirror_k }
}

pub mod cie1931 {
    tables! { X, Y, Z }
}
