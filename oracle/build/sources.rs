//! What is taken from each file of the text, and the patches.

use crate::counters;
use crate::cut::{Patch, Piece, Source};

const WHOLE: &[Piece] = &[Piece {
    from: "",
    to: "",
    tail: "",
}];

pub const SOURCES: &[Source] = &[
    PRIMITIVE, ATTRSET, DISJOINT, ARC_TY, ARENA, STACK, CHECK, STORAGE, COLLECT,
];

const PRIMITIVE: Source = Source {
    path: "crates/lang_ty/src/primitive.rs",
    prelude: "",
    pieces: WHOLE,
    dropped: None,
    patches: &[],
    counters: &[],
};

const ATTRSET: Source = Source {
    path: "crates/lang_ty/src/attrset.rs",
    prelude: "use crate::shims::smol_str;\n",
    pieces: WHOLE,
    dropped: None,
    patches: &[
        Patch {
            name: "attrset: std's Debug for derive_more's",
            find: "use derive_more::Debug;",
            put: "use std::fmt::Debug;",
        },
        Patch {
            name: "attrset: path of TyRef",
            find: "use crate::arc_ty::TyRef;",
            put: "use super::arc_ty::TyRef;",
        },
    ],
    counters: &[],
};

const DISJOINT: Source = Source {
    path: "crates/lang_ty/src/disjoint.rs",
    prelude: "use crate::shims::smol_str;\n",
    pieces: WHOLE,
    dropped: None,
    patches: &[Patch {
        name: "disjoint: path of PrimitiveTy",
        find: "use crate::PrimitiveTy;",
        put: "use super::PrimitiveTy;",
    }],
    counters: counters::DISJOINT,
};

/// OutputTy with its equality, its order and its children; display is left out.
const ARC_TY: Source = Source {
    path: "crates/lang_ty/src/arc_ty.rs",
    prelude: "use crate::shims::{rustc_hash, smol_str};\n",
    pieces: &[
        Piece {
            from: "",
            to: "// ==============================================================================\n// Display helpers",
            tail: "",
        },
        Piece {
            from: "impl OutputTy {\n    /// Apply `f`",
            to: "    /// Like `for_each_child`",
            tail: "}\n",
        },
    ],
    dropped: Some(("#[debug(", 12)),
    patches: &[
        Patch {
            name: "arc_ty: std's Debug for derive_more's",
            find: "use derive_more::Debug;",
            put: "use std::fmt::Debug;",
        },
        Patch {
            name: "arc_ty: path of AttrSetTy",
            find: "use crate::{AttrSetTy, PrimitiveTy};",
            put: "use super::{AttrSetTy, PrimitiveTy};",
        },
        Patch {
            name: "arc_ty: path of TyRef",
            find: "pub use crate::arena::TyRef;",
            put: "pub use super::arena::TyRef;",
        },
        Patch {
            name: "arc_ty: path of OwnedTy",
            find: "Extern(crate::arena::OwnedTy),",
            put: "Extern(super::arena::OwnedTy),",
        },
    ],
    counters: &[],
};

/// TypeArena with intern, normalize_vars, its index and debug forms, and
/// OwnedTy, which OutputTy names; import, display and other traversals are left
/// out.
const ARENA: Source = Source {
    path: "crates/lang_ty/src/arena.rs",
    prelude: "use super::arc_ty::Substitutions;\nuse super::OutputTy;\n\
              use crate::shims::la_arena::{Arena, Idx};\n\
              use crate::shims::rustc_hash::{FxHashMap, FxHashSet};\nuse std::fmt;\n\
              use std::ops::Index;\nuse std::sync::Arc;\n",
    pieces: &[
        Piece {
            from: "/// Compact 4-byte index",
            to: "    // ==========================================================================\n    // Display",
            tail: "",
        },
        Piece {
            from: "    /// Normalize all ty vars",
            to: "    /// Check if `normalize_replacing_unknown`",
            tail: "",
        },
        Piece {
            from: "    /// Collect free type variables in order",
            to: "    /// Collect free type vars for an attrset's",
            tail: "}\n",
        },
        Piece {
            from: "impl fmt::Debug for TypeArena {",
            to: "// ==============================================================================\n// Compact helper",
            tail: "",
        },
        Piece {
            from: "/// A self-contained type: the arena",
            to: "impl OwnedTy {\n    pub fn new",
            tail: "",
        },
        Piece {
            from: "impl fmt::Debug for OwnedTy {",
            to: "impl OwnedTy {\n    /// Structural",
            tail: "",
        },
    ],
    dropped: None,
    patches: &[
        Patch {
            name: "arena: stored nodes are measured",
            find: "let id = self.inner.alloc(e.key().clone());",
            put: "crate::probe::stored(e.key());
                let id = self.inner.alloc(e.key().clone());",
        },
        Patch {
            name: "arena: path of the stack, where variables are renamed",
            find: "let result = crate::stack::with_stack(",
            put: "let result = super::stack::with_stack(",
        },
        Patch {
            name: "arena: path of the stack, where variables are collected",
            find: "        crate::stack::with_stack(|| {\n            self[ty].for_each_child(",
            put: "        super::stack::with_stack(|| {\n            self[ty].for_each_child(",
        },
    ],
    counters: &[],
};

const STACK: Source = Source {
    path: "crates/lang_ty/src/stack.rs",
    prelude: "use crate::shims::stacker;\n",
    pieces: &[Piece {
        from: "/// Stack size for worker threads",
        to: "",
        tail: "",
    }],
    dropped: None,
    patches: &[],
    counters: &[],
};

/// Polarity and TyId.
const CHECK: Source = Source {
    path: "crates/lang_check/src/lib.rs",
    prelude: "",
    pieces: &[Piece {
        from: "/// Tracks whether a type position is covariant",
        to: "#[derive(Debug, Clone)]\npub struct InferenceResult",
        tail: "",
    }],
    dropped: Some(("#[debug(", 1)),
    patches: &[],
    counters: &[],
};

const STORAGE: Source = Source {
    path: "crates/lang_check/src/storage.rs",
    prelude: "use crate::shims::{rustc_hash, smallvec};\nuse crate::text::lang_ty;\n",
    pieces: WHOLE,
    dropped: None,
    patches: &[Patch {
        name: "storage: bounds are set as the table has them",
        find: "    entries: Vec<TypeEntry>,",
        put: "    pub(crate) entries: Vec<TypeEntry>,",
    }],
    counters: &[],
};

/// Everything above the Collector.
const COLLECT: Source = Source {
    path: "crates/lang_check/src/collect.rs",
    prelude: "use crate::shims::{lang_ast, log, rustc_hash, smallvec, smol_str};\n\
              use crate::text::lang_ty;\n",
    pieces: &[Piece {
        from: "",
        to: "// ==============================================================================\n// Collector — final",
        tail: "",
    }],
    dropped: None,
    patches: &[
        Patch {
            name: "collect: no ArenaMap, the Collector's",
            find: "use la_arena::ArenaMap;\n",
            put: "",
        },
        Patch {
            name: "collect: no CheckCtx and InferenceResult, the Collector's",
            find: "use super::{CheckCtx, InferenceResult, Polarity, TyId};",
            put: "use super::{Polarity, TyId};",
        },
        Patch {
            name: "collect: path of the storage",
            find: "use crate::storage::{TypeEntry, TypeStorage};",
            put: "use super::storage::{TypeEntry, TypeStorage};",
        },
        Patch {
            name: "collect: no import_from_arena, the Collector's",
            find: "    arena::import_from_arena,\n",
            put: "",
        },
        Patch {
            name: "collect: the deadline test becomes the counted rule",
            find: "        if self.deadline.is_some() {
            self.op_counter += 1;
            if self
                .op_counter
                .is_multiple_of(CANON_DEADLINE_CHECK_INTERVAL)
                && self.deadline.is_some_and(|d| Instant::now() > d)
            {
",
            put: "        {
            self.op_counter += 1;
            crate::probe::operation();
            if self
                .op_counter
                .is_multiple_of(CANON_DEADLINE_CHECK_INTERVAL)
                && crate::probe::over_budget()
            {
",
        },
        Patch {
            name: "collect: keys in progress are measured",
            find: "            self.in_progress.insert(key);\n",
            put: "            self.in_progress.insert(key);
            crate::probe::keys(self.in_progress.len());
",
        },
        Patch {
            name: "collect: the endless chain is caught",
            find: "    fn expand_bounds_empty_fallback(&mut self, var_id: TyId, polarity: Polarity) -> OutputTy {\n",
            put: "    fn expand_bounds_empty_fallback(&mut self, var_id: TyId, polarity: Polarity) -> OutputTy {
        let chain = crate::probe::fallback(self.bailed_out);
        if chain.is_endless() {
            return OutputTy::TyVar(self.rep(var_id).0);
        }
",
        },
        Patch {
            name: "collect: the first pass is recorded",
            find: "    let ty = canon.canonicalize_child(ty_id, polarity);\n",
            put: "    let ty = canon.canonicalize_child(ty_id, polarity);
    crate::probe::pass(canon.bailed_out);
",
        },
        Patch {
            name: "collect: the second pass is recorded",
            find: "        let ty2 = canon2.canonicalize_child(ty_id, polarity);\n",
            put: "        let ty2 = canon2.canonicalize_child(ty_id, polarity);
        crate::probe::pass(canon2.bailed_out);
",
        },
        Patch {
            name: "collect: the sorted mark is recorded",
            find: "    shared_vec.sort();\n",
            put: "    crate::probe::shared(shared_vec.len());\n    shared_vec.sort();\n",
        },
        Patch {
            name: "collect: a negation that nobody waits for is cut short",
            find: "fn negate_output_ty(arena: &mut TypeArena, inner: OutputTy) -> OutputTy {\n",
            put: "fn negate_output_ty(arena: &mut TypeArena, inner: OutputTy) -> OutputTy {
    if crate::probe::negation() {
        return OutputTy::Bottom;
    }
",
        },
        Patch {
            name: "collect: the list going into flattening is measured",
            find: "    let needs_flatten = members.iter()",
            put: "    crate::probe::list(members.len());\n    let needs_flatten = members.iter()",
        },
        Patch {
            name: "collect: the list coming out of flattening is measured",
            find: "    result.into_vec()\n}\n\n/// Drop predicate for bare",
            put: "    crate::probe::list(result.len());
    result.into_vec()\n}\n\n/// Drop predicate for bare",
        },
    ],
    counters: counters::COLLECT,
};
