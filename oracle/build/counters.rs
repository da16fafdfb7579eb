//! Branch counters of the ported functions, in the order of the text.

use crate::cut::Counters;

pub const DISJOINT: &[Counters] = &[Counters {
    from: "pub fn are_shapes_disjoint",
    to: "",
    marks: &[
        "@<disjoint: two primitives>p1 != p2 && !p1.is_subtype_of(p2) && !p2.is_subtype_of(p1)@>",
        "| (Lambda, Primitive(_))
        | (Lambda, List) => @[disjoint: different kinds]true@],",
        "@<disjoint: set and lambda>!field_keys.contains(&SmolStr::from(\"__functor\"))@>",
        "                    if !a_keys.contains(field) && !b_opt.contains(field) {
                        @{disjoint: first set closed and lacks a field}return true;",
        "                    if !b_keys.contains(field) && !_a_opt.contains(field) {
                        @{disjoint: second set closed and lacks a field}return true;",
        "            }
            @{disjoint: sets that may go together}false
        }",
        "(List, List) | (Lambda, Lambda) => @[disjoint: two lists or two lambdas]false@],",
        "(Opaque, _) | (_, Opaque) => @[disjoint: opaque]false@],",
    ],
}];

pub const COLLECT: &[Counters] = &[
    Counters {
        from: "fn union(&mut self, a: TyId, b: TyId) {",
        to: "struct Canonicalizer<'a>",
        marks: &[
            "b.0 as usize >= self.parent.len() {
            @{pairs: an id of n or more}return;",
            "if ra != rb {@{pairs: two classes merged}",
        ],
    },
    Counters {
        from: "fn canonicalize_child(",
        to: "fn canonicalize(",
        marks: &[
            "// Fast path: if deadline already exceeded, return degraded type.
        if self.bailed_out {@{visit: after the bail}",
            "self.bailed_out = true;@{visit: bails}",
            "            @{visit: cached}return cached;",
            "if self.in_progress.contains(&key) {@{visit: in progress}",
            "let result = self.canonicalize_inner(ty_id, polarity);@{visit: worked out}",
        ],
    },
    Counters {
        from: "fn canonicalize_inner(",
        to: "fn expand_bounds(",
        marks: &[
            "if let Some(named_id) = named_bound {@{inner: a Named bound}",
            ".filter(|&b| @<inner: bound concrete>!matches!(self.table.get(b), TypeEntry::Variable(_))@>)",
            ".filter(|&b| @<inner: bound of another class>self.rep(b) != rep_id@>)",
            "Positive => @[inner: positive variable]v.lower_bounds.clone()@],",
            "Negative => @[inner: negative variable]v.upper_bounds.clone()@],",
            "if concrete_bounds.is_empty() {
                    // No concrete bounds in this polarity — just the variable.
                    @{inner: of the set, no concrete bounds}return",
            "OutputTy::TyVar(_) | OutputTy::Bottom => @[inner: of the set, TyVar or Bottom]OutputTy::TyVar(rep_id.0)@],",
            "Positive => @[inner: of the set, union]OutputTy::Union(vec![var_ref, bounds_ref])@],",
            "Negative => @[inner: of the set, intersection]OutputTy::Intersection(vec![var_ref, bounds_ref])@],",
            "@{inner: no concrete bounds}self.expand_bounds(&non_self_bounds, ty_id, polarity)",
            "// opposite-polarity leakage from expr-slot variables.
                @{inner: concrete bounds}self.expand_bounds(&concrete_bounds, ty_id, polarity)",
            "@{inner: a concrete entry}self.canonicalize_concrete(&ty, polarity)",
        ],
    },
    Counters {
        from: "fn expand_bounds(",
        to: "fn expand_bounds_empty_fallback(",
        marks: &[
            ".filter(|id| @<bounds: more than 16, id new>seen.insert(*id)@>)",
            "@{bounds: at most 16}bounds.to_vec()",
            "Positive => @[bounds: positive]flatten_union(&self.arena, members)@],",
            "Negative => @[bounds: negative]flatten_intersection(&self.arena, members)@],",
            "@{bounds: contradiction}return OutputTy::Bottom;",
            "// cancelled out (e.g. int | ~int). This is Top (any value).
                @{bounds: all cancelled, Top}OutputTy::Top",
            "0 => @[bounds: none left, fallback]self.expand_bounds_empty_fallback(var_id, polarity)@],",
            "1 => @[bounds: one left]concrete.into_iter().next().unwrap()@],",
            "Positive => @[bounds: a union]OutputTy::Union(
                    concrete
                        .into_iter()
                        .map(|ty| self.arena.intern(ty))
                        .collect(),
                )@],",
            "Negative => @[bounds: an intersection]OutputTy::Intersection(
                    concrete
                        .into_iter()
                        .map(|ty| self.arena.intern(ty))
                        .collect(),
                )@],",
        ],
    },
    Counters {
        from: "        if polarity == Negative {
            // When a variable in negative position",
        to: "fn canonicalize_concrete(",
        marks: &[
            "@<fallback: variable marked>self.table.is_default_marked_param(var_id)@>
                    || @<fallback: representative marked>self.table.is_default_marked_param(rep)@>;",
            "if !is_default_marked && !v.lower_bounds.is_empty() {@{fallback: negative, lower bounds}",
            "            }
            @{fallback: negative, TyVar}return OutputTy::TyVar(self.rep(var_id).0);",
            "TypeEntry::Concrete(Ty::Primitive(_)) => @[fallback: a primitive upper bound]true@],",
            "@<fallback: a Neg upper bound, of a primitive>matches!(
                            self.table.get(*inner),
                            TypeEntry::Concrete(Ty::Primitive(_))
                        )@>",
            "                    _ => @[fallback: another upper bound]false@],",
            "if !atom_uppers.is_empty() {@{fallback: positive, atoms}",
            "        }
        @{fallback: positive, TyVar}OutputTy::TyVar(self.rep(var_id).0)
    }",
        ],
    },
    Counters {
        from: "fn canonicalize_concrete(",
        to: "Ty::Inter(a, b) => {",
        marks: &[
            "Ty::Primitive(p) => @[concrete: prim]OutputTy::Primitive(*p)@],",
            "Ty::TyVar(x) => @[concrete: tyvar]OutputTy::TyVar(self.rep(TyId(*x)).0)@],",
            "Ty::List(elem) => @[concrete: list]OutputTy::List(self.canonicalize_child(*elem, polarity))@],",
            "Ty::Lambda { param, body } => {@{concrete: fn}",
            "Ty::AttrSet(attr) => {@{concrete: set}",
            "attr.dyn_ty.map(|d| @[concrete: set with dyn]self.canonicalize_child(d, polarity)@]);",
            "Ty::Neg(inner) => {@{concrete: neg}",
            "Ty::Named(name, inner) => {@{concrete: named}",
            "Ty::Frozen(owned) => @[concrete: frozen]OutputTy::Extern(owned.clone())@],",
        ],
    },
    Counters {
        from: "Ty::Inter(a, b) => {",
        to: "Ty::Union(a, b) => {",
        marks: &[
            "let ca = self.canonicalize(*a, polarity);@{concrete: inter}",
            "if a_is_var || b_is_var {@{inter: contradiction, retried}",
            "let ca_retry = if a_is_var {@{inter: retry flips the first}",
            "let cb_retry = if b_is_var {@{inter: retry flips the second}",
            "if has_type_contradiction(&self.arena, &retry_concrete) {
                            @{inter: contradiction again}return OutputTy::Bottom;",
            "                        @{inter: retry goes on}retry_concrete
                    } else {
                        @{inter: contradiction, no variable}return OutputTy::Bottom;",
            "} else {
                    @{inter: no contradiction}concrete
                };",
            "Positive => {@{inter: positive}
                        let c = remove_redundant_negations",
            "Negative => {@{inter: negative}
                        let c = merge_attrset_intersection",
            "0 if had_concrete && polarity == Positive => @[inter: all cancelled, Top]OutputTy::Top@],",
            "0 => @[inter: only fillers]all_members.into_iter().next().unwrap_or(OutputTy::Bottom)@],",
            "1 => @[inter: one left]concrete.into_iter().next().unwrap()@],",
            "_ => @[inter: an intersection]OutputTy::Intersection(
                        concrete
                            .into_iter()
                            .map(|ty| self.arena.intern(ty))
                            .collect(),
                    )@],",
        ],
    },
    Counters {
        from: "Ty::Union(a, b) => {",
        to: "/// Canonicalize a TyId into an OutputTy using only",
        marks: &[
            "let ca = self.canonicalize(*a, polarity);@{concrete: union}",
            "Positive => {@{union: positive}",
            "Negative => @[union: negative]absorb_subsumed_union_members(concrete)@],",
            "0 if had_concrete && polarity == Positive => @[union: all cancelled, Top]OutputTy::Top@],",
            "0 => @[union: only fillers]all_members.into_iter().next().unwrap_or(OutputTy::Bottom)@],",
            "1 => @[union: one left]concrete.into_iter().next().unwrap()@],",
            "_ => @[union: a union]OutputTy::Union(
                        concrete
                            .into_iter()
                            .map(|ty| self.arena.intern(ty))
                            .collect(),
                    )@],",
        ],
    },
    Counters {
        from: "pub fn canonicalize_standalone_with_deadline(",
        to: "// Shared helpers",
        marks: &[
            "        @{passes: one}(canon.arena, ty)",
            "        @{passes: two}(canon2.arena, ty2)",
        ],
    },
    Counters {
        from: "fn negate_output_ty(",
        to: "fn remove_tautological_pairs(",
        marks: &[
            "OutputTy::Neg(a) => @[negate: neg]arena[a].clone()@],",
            "OutputTy::Union(members) => {@{negate: union}",
            "OutputTy::Intersection(members) => {@{negate: intersection}",
            "other => @[negate: anything else]OutputTy::Neg(arena.intern(other))@],",
        ],
    },
    Counters {
        from: "fn remove_tautological_pairs(",
        to: "fn absorb_subsumed_union_members(",
        marks: &[
            "if negated_inners.is_empty() {
        @{pairs cancelled: no Neg}return members;",
            "if @<pairs cancelled: a pair>pos == neg_inner@> {",
            "if @<pairs cancelled: positive new>!tautological_positives.contains(&pi)@> {",
            "if @<pairs cancelled: Neg new>!tautological_negatives.contains(&ni)@> {",
            "if tautological_positives.is_empty() {
        @{pairs cancelled: no pair}return members;",
            "let keep = @<pairs cancelled: Neg stays>!tautological_negatives.contains(&neg_idx)@>;",
            "OutputTy::TyVar(_) | OutputTy::Bottom | OutputTy::Top => @[pairs cancelled: a TyVar stays]true@],",
            "let keep = @<pairs cancelled: positive stays>!tautological_positives.contains(&pos_idx)@>;",
        ],
    },
    Counters {
        from: "fn absorb_subsumed_union_members(",
        to: "fn factor_shared_from_intersection(",
        marks: &[
            "if attrset_indices.len() < 2 {
        @{absorb: fewer than two sets}return members;",
            "if subsumed.contains(&i) {
            @{absorb: already absorbed}continue;",
            "if i == j || subsumed.contains(&j) {
                @{absorb: itself or absorbed}continue;",
            "if @<absorb: first open>a.open@>
                && @<absorb: second open>b.open@>
                && @<absorb: dyn fits>(a.dyn_ty.is_none() || a.dyn_ty == b.dyn_ty)@>
                && @<absorb: fields fit>a.fields
                    .keys()
                    .all(|k| @<absorb: key optional>a.optional_fields.contains(k)@> || @<absorb: key in the other>b.fields.contains_key(k)@>)@>",
            "if subsumed.is_empty() {
        @{absorb: none absorbed}return members;",
            "    @{absorb: some absorbed}members
        .into_iter()
        .enumerate()
        .filter(|(i, _)| !subsumed",
        ],
    },
    Counters {
        from: "fn factor_shared_from_intersection(",
        to: "fn has_type_contradiction(",
        marks: &[
            "if unions.len() < 2 {@{factor: fewer than two unions}",
            "                0 => {@{factor: one union, empty}}
",
            "1 => @[factor: one union of one member]result.push(u.into_iter().next().unwrap())@],",
            "_ => @[factor: one union moved last]result.push(OutputTy::Union(
                    u.into_iter().map(|ty| arena.intern(ty)).collect(),
                ))@],",
            "shared.retain(|m| @<factor: member in the other union>u.contains(m)@>);",
            "if shared.is_empty() {@{factor: nothing shared}",
            ".filter(|m| @<factor: member in the remainder>!shared.contains(m)@>)",
            "0 => @[factor: no remainder]None@],",
            "1 => @[factor: remainder of one]Some(remainder.into_iter().next().unwrap())@],",
            "_ => @[factor: remainder a union]Some(OutputTy::Union(
                    remainder.into_iter().map(|ty| arena.intern(ty)).collect(),
                ))@],",
            "1 => @[factor: all shared, one member]vec![shared_vec.into_iter().next().unwrap()]@],",
            "_ => @[factor: all shared, a union]vec![OutputTy::Union(
                shared_vec.into_iter().map(|ty| arena.intern(ty)).collect(),
            )]@],",
            "1 => @[factor: one part left]intersection_parts.into_iter().next().unwrap()@],",
            "_ => @[factor: an intersection of parts]OutputTy::Intersection(
                intersection_parts
                    .into_iter()
                    .map(|ty| arena.intern(ty))
                    .collect(),
            )@],",
        ],
    },
    Counters {
        from: "fn has_type_contradiction(",
        to: "fn is_output_subtype_or_equal(",
        marks: &[
            "OutputTy::Neg(inner) => @[contradiction: a Neg]negated_inners.push(&arena[*inner])@],",
            "OutputTy::TyVar(_) | OutputTy::Bottom | OutputTy::Top => {@{contradiction: a TyVar}}",
            "other => @[contradiction: a positive]positives.push(other)@],",
            "if is_output_subtype_or_equal(pos, neg) {
                @{contradiction: below a Neg}return true;",
            "if @<contradiction: two or more positives>positives.len() > 1@> {",
            "if @<contradiction: kinds compared>!all_same_non_primitive@> {",
            "if are_output_types_disjoint(positives[i], positives[j]) {
                        @{contradiction: disjoint}return true;",
            "    @{contradiction: none}false
}",
        ],
    },
    Counters {
        from: "fn is_output_subtype_or_equal(",
        to: "fn are_output_types_disjoint(",
        marks: &[
            "@<below: equal primitives>p1 == p2@> || @<below: Int or Float below Number>p1.is_subtype_of(p2)@>",
            "(a, b) if a == b => @[below: equal]true@],",
            "_ => @[below: not]false@],",
        ],
    },
    Counters {
        from: "fn remove_redundant_negations(",
        to: "fn simplify_union_neg_intersection(",
        marks: &[
            "if !has_concrete {
        @{redundant: no known constructor}return members;",
            "@<redundant: Neg stays>!concrete_indices
                    .iter()
                    .all(|&i| are_output_types_disjoint(&members[i], &arena[*inner]))@>
            } else {
                @{redundant: another stays}true",
        ],
    },
    Counters {
        from: "fn simplify_union_neg_intersection(",
        to: "fn flatten_composite(",
        marks: &[
            "if negated_inners.is_empty() {
        @{simplify: no Neg}return members;",
            "if !has_union {@{simplify: no union}",
            "if filtered.len() < union_members.len() {
                    @{simplify: members taken out}changed = true;",
            "0 => @[simplify: union consumed]result.push(OutputTy::Bottom)@],",
            "1 => @[simplify: one member left]result.push(filtered.into_iter().next().unwrap())@],",
            "                    _ => {@{simplify: a union left}
",
            "other => @[simplify: another member]result.push(other.clone())@],",
            "    if changed {@{simplify: changed}
        // Filter",
            "    } else {
        @{simplify: unchanged}result
    }",
        ],
    },
    Counters {
        from: "fn flatten_composite(",
        to: "fn should_drop_filler(",
        marks: &[
            "if !needs_flatten && members.len() > 64 {
        @{flatten: more than 64, none nested}return members;",
            "if let Some(inner) = extract_nested(&m) {@{flatten: a nested list}",
            "if @<flatten: nested member new>!result.contains(child)@> {",
            "} else if @<flatten: member new>!result.contains(&m)@> {",
        ],
    },
    Counters {
        from: "fn should_drop_filler(",
        to: "fn flatten_union(",
        marks: &[
            "@<filler: TyVar of n or more>*n as usize >= storage_len@> || @<filler: TyVar not of the set>!cooccurring.contains(&TyId::from(*n))@>",
            "OutputTy::Bottom | OutputTy::Top => @[filler: Bottom or Top]true@],",
            "_ => @[filler: none]false@],",
        ],
    },
    Counters {
        from: "fn merge_attrset_intersection(",
        to: "",
        marks: &[
            "if attrsets.is_empty() {
        @{merge: no set}return others.into_vec();",
            "(None, Some(_)) => @[merge: first dyn]merged_dyn.clone_from(&attr.dyn_ty)@],",
            "(Some(existing), Some(new)) if existing != new => {@{merge: dyns intersected}",
            "            _ => {@{merge: dyn as it was}}
",
            "if matches!(arena[*existing], OutputTy::TyVar(_)) {
                        @{merge: a TyVar field gives way}*existing = *v;",
            "} else if @<merge: fields differ>*existing != *v@> {",
            "if !attr.fields.contains_key(key) {
                @{merge: key not in this set}return true;",
            "            @<merge: optional in this set>attr.optional_fields.contains(key)@>
",
            "if @<merge: key optional>optional_in_all@> {",
            "    @{merge: a set made}others.push(merged);",
        ],
    },
];
