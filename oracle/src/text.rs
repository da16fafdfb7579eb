//! The Rust text, as build.rs cuts and patches it.

/// lang_ty: primitives, sets, OutputTy, the arena and disjointness.
pub mod lang_ty {
    pub mod primitive {
        include!(concat!(env!("OUT_DIR"), "/primitive.rs"));
    }
    pub mod attrset {
        include!(concat!(env!("OUT_DIR"), "/attrset.rs"));
    }
    pub mod disjoint {
        include!(concat!(env!("OUT_DIR"), "/disjoint.rs"));
    }
    pub mod arc_ty {
        include!(concat!(env!("OUT_DIR"), "/arc_ty.rs"));
    }
    pub mod arena {
        include!(concat!(env!("OUT_DIR"), "/arena.rs"));
    }
    pub mod stack {
        include!(concat!(env!("OUT_DIR"), "/stack.rs"));
    }

    pub use arc_ty::OutputTy;
    pub use arena::{OwnedTy, TyRef, TypeArena};
    pub use attrset::AttrSetTy;
    pub use primitive::PrimitiveTy;

    /// The bound that primitive.rs puts on a reference. lang_ty's own
    /// definition is not in the text shown.
    pub trait RefType {}

    /// An entry of the table. lang_ty's own definition is not in the text
    /// shown; these are the cases that collect.rs takes apart.
    #[derive(Debug, Clone)]
    pub enum Ty<R> {
        TyVar(u32),
        Primitive(PrimitiveTy),
        List(R),
        Lambda { param: R, body: R },
        AttrSet(AttrSetTy<R>),
        Neg(R),
        Named(crate::shims::smol_str::SmolStr, R),
        Inter(R, R),
        Union(R, R),
        Frozen(OwnedTy),
    }
}

/// lang_check: polarity, ids, the storage and the canonicalization.
pub mod lang_check {
    include!(concat!(env!("OUT_DIR"), "/lib.rs"));

    pub mod storage {
        include!(concat!(env!("OUT_DIR"), "/storage.rs"));
    }
    pub mod collect {
        include!(concat!(env!("OUT_DIR"), "/collect.rs"));
    }
}
